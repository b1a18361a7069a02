#!/usr/bin/env python3
"""Writes the stored texts of crates/text_corpus and the answers that reference.py gives to them.

    python3 compare/corpus.py

The texts are the same in every run. Each family of them is a function below, and its texts bear its name.
"""

import random
from pathlib import Path

from reference import BYTES_OF_LINES, FARTHEST, LONGEST_TEXT, LONGEST_TRAIL, MOST_ASKS, MOST_DIGITS, MOST_TERMS
from reference import NAMED_GRIDS, answer_text

CRATE = Path(__file__).resolve().parent.parent / "crates" / "text_corpus"
MODES = "NDUZA"
TERM_LINES = ["(nan)", "(inf +)", "(zero -)", "(term + 3 3 (a0000000))", "(term - -40 33 (80000000 c0000001))"]
CALL_LINES = ["(mark 10 i)", "(back)", "(set)"]
SET_LINES = ["(reopen)", "(ask 53 free N)", "(ask 24 -149 D)", "(ask binary64 U)"]


# ---- Lines and texts.

def text_of(lines):
    return "".join(line + "\n" for line in lines).encode()


def limbs(significand, precision):
    """The limbs of a number with that many bits, which may be short of the top bit."""
    count = -(-precision // 32)
    fraction = significand << (32 * count - precision)
    return " ".join("%08x" % (fraction >> 32 * i & 0xFFFFFFFF) for i in range(count))


def term(n, w, precision=0):
    """The line of the term n * 2^w, in as many bits as it has or in more."""
    size = abs(n).bit_length()
    precision = max(size, precision)
    significand = abs(n) << (precision - size)
    return "(term %s %d %d (%s))" % ("-" if n < 0 else "+", w + size, precision, limbs(significand, precision))


def power(e, letter="+"):
    """The line of 2^(e - 1), or of its opposite: one bit, of exponent e."""
    return "(term %s %d 1 (80000000))" % (letter, e)


def marks(count, letters="i"):
    """Marks for the places from 0 on, in these letters again and again; a set empties the trail when it is full."""
    lines = []
    for place in range(count):
        if place and place % LONGEST_TRAIL == 0:
            lines += ["(set)", "(reopen)"]
        lines.append("(mark %d %s)" % (place, letters[place % len(letters)]))
    return lines


def asks(*grids, modes=MODES):
    return ["(ask %s %s)" % (grid, mode) for grid in grids for mode in modes]


def summed(terms, *grids, modes=MODES, letters="i"):
    """A text that asks for the sum of all the terms, on each grid and in each mode."""
    return text_of(terms + marks(len(terms), letters) + ["(set)"] + asks(*grids, modes=modes))


def lines_before(line):
    """The shortest lines after which this one is in turn."""
    return ["(set)"] if line in SET_LINES else []


# ---- Broken lines.

def every_form():
    for number, line in enumerate(TERM_LINES + CALL_LINES + SET_LINES):
        yield "%d" % number, text_of(lines_before(line) + [line])
        yield "%d-unended" % number, text_of(lines_before(line) + [line])[:-1]
        yield "%d-twice-on-a-line" % number, text_of(lines_before(line) + [line + line])
        yield "%d-spaced" % number, text_of(lines_before(line) + [" " + line])


def cut_forms():
    """Each form, ended by byte 10 or by the end of the text after each of its bytes."""
    for number, line in enumerate(TERM_LINES[1:4] + CALL_LINES[:1] + SET_LINES[:3]):
        for length in range(len(line)):
            end = b"" if (length + number) % 2 else b"\n(nan)\n"
            yield "%d-%d" % (number, length), text_of(lines_before(line)) + line[:length].encode() + end


def changed_forms():
    """Each form, with each of its bytes made another one that lines may hold."""
    for number, line in enumerate(TERM_LINES[:4] + CALL_LINES + SET_LINES):
        for place in range(len(line)):
            byte = "+ (0)Zf-z9"[(7 * place + number) % 10]
            changed = line[:place] + byte + line[place + 1:]
            yield "%d-%d" % (number, place + 1), text_of(lines_before(line) + [changed])


def foreign_bytes():
    """Bytes that no line may hold, at each place of some forms."""
    foreign = [byte for byte in range(256) if byte not in BYTES_OF_LINES]
    turns = iter(foreign)
    for line in ("(inf -)", "(term - 7 2 (c0000000))", "(mark 7 t)", "(ask 5 free N)", "(ask binary16 D)"):
        before = b"(set)\n" if line.startswith("(ask") else b""
        for place in range(len(line) + 1):
            byte = next(turns)
            yield "%d" % byte, before + line[:place].encode() + bytes([byte]) + line[place:].encode() + b"\n"
    for byte in turns:
        yield "%d" % byte, b"(zero +)\n" * (byte % 5) + bytes([byte]) + b"(nan)\n"


# Broken lines: several in a row, parted by ` | `.
BROKEN_FIELDS = """
() | ( | ) | ( nan) | (nan ) | nan | (nan)) | ((nan) | [nan] | (NAN) | (Nan) | (nan +) | (infinity +)
(inf) | (inf ) | (inf ++) | (inf +-) | (inf  +) | (inf p) | (zero 0) | (zero -0) | (zeros +)
(term +  1 (80000000)) | (term + - 1 (80000000)) | (term + + 1 (80000000)) | (term + +1 1 (80000000))
(term + -0 1 (80000000)) | (term + 00 1 (80000000)) | (term + 01 1 (80000000)) | (term + -01 1 (80000000))
(term + --1 1 (80000000)) | (term + 1- 1 (80000000)) | (term + 0x1 1 (80000000)) | (term + 1e3 1 (80000000))
(term + free 1 (80000000)) | (term + 0 1 (80000000)) | (term + 10000000000 1 (80000000))
(term + -10000000000 1 (80000000)) | (term + 99999999999 1 (80000000))
(term + 1  (80000000)) | (term + 1 -1 (80000000)) | (term + 1 01 (80000000)) | (term + 1 00 (80000000))
(term + 1 1 1 (80000000)) | (term + 1 x (80000000)) | (term + 1 10000000000 (80000000)) | (term + 1 +1 (80000000))
(term + 1 1 ) | (term + 1 1 ()) | (term + 1 1 80000000) | (term + 1 1 (8000000)) | (term + 1 1 (800000000))
(term + 1 1 (8000000g)) | (term + 1 1 (8000000G)) | (term + 1 1 (A0000000)) | (term + 1 1 ( 80000000))
(term + 1 1 (80000000 )) | (term + 1 1 (80000000  80000000)) | (term + 1 1 (80000000,80000000))
(term + 1 1 (80000000)(80000000)) | (term + 1 1 ((80000000))) | (term + 1 1 (80000000) ) | (term + 1 1 (-8000000))
(term + 1 1 [80000000]) | (term 1 1 (80000000)) | (term + 1 (80000000)) | (term + 1 1) | (term)
(mark) | (mark 1) | (mark i 1) | (mark 1 i | (mark 01 i) | (mark -1 i) | (mark 1  i) | (mark 1 i i) | (mark 1 i )
(mark 1 +) | (mark 10000000000 i) | (back 1) | (back ) | (backs) | (bac) | (set 1) | (sets) | (reopen 1) | (re open)
"""

# The ask of a width and a floor beside the ask of a name: every width is also a name.
BROKEN_ASKS = """
(ask) | (ask ) | (ask N) | (ask 5) | (ask 5 ) | (ask 5 N | (ask 5 free) | (ask 5 free ) | (ask 5 free N
(ask 5 free N ) | (ask 5 free N N) | (ask 5 freeN) | (ask 5 free -) | (ask 5 fre N) | (ask 5 frees N) | (ask 5 FREE N)
(ask 5 Free N) | (ask 5 free n-) | (ask 5 free (N))
(ask 5 - N) | (ask 5 -0 N) | (ask 5 -01 N) | (ask 5 00 N) | (ask 5 01 N) | (ask 5 1x N) | (ask 5 +1 N) | (ask 5 --1 N)
(ask 5 -1x N) | (ask 5 -1 -1) | (ask 5 -1) | (ask 5 12345678901 N) | (ask 5 -12345678901 N) | (ask 5 12345678901)
(ask 03 free N) | (ask 00 free N) | (ask 03 N) | (ask 03 -1 N) | (ask 12345678901 free N) | (ask 12345678901 N)
(ask 12345678901 -1 N) | (ask 5x free N) | (ask x5 free N) | (ask 5x -1 N) | (ask -5 free N) | (ask -5 N) | (ask +5 N)
(ask binary64 free N) | (ask binary64 -1 N) | (ask binary64 7 N) | (ask binary64 N N) | (ask binary64) | (ask binary64 )
(ask  binary64 N) | (ask binary64  N) | (ask binary-64 N) | (ask binary64 N-) | (ask 5 7 N) | (ask 5 7) | (ask 5 007)
(ask 5 007 N) | (ask 5 f N) | (ask 5 f) | (ask 5 freedom) | (ask 5 free1 N) | (ask (5) N) | (ask 5 (free) N)
"""


def listed(rows):
    return [line for row in rows.strip().split("\n") for line in row.split(" | ")]


def broken_fields():
    """Fields that are spelled otherwise than they must be."""
    for number, line in enumerate(listed(BROKEN_FIELDS)):
        yield "%d" % number, text_of(["(zero +)", line, "(nan)"])


def broken_asks():
    for number, line in enumerate(listed(BROKEN_ASKS)):
        yield "%d" % number, text_of(["(set)", line])
    yield "open", text_of(["(ask 03 free N)"])


def odd_texts():
    yield "empty", b""
    yield "line-end", b"\n"
    yield "two-line-ends", b"\n\n"
    yield "empty-line-between", b"(nan)\n\n(nan)\n"
    yield "empty-line-last", b"(set)\n(reopen)\n\n"
    yield "carriage-return", b"(nan)\r\n"
    yield "byte-order-mark", b"\xef\xbb\xbf(nan)\n"
    yield "zero-byte", b"\0"
    yield "zero-byte-last", b"(nan)\n\0"
    yield "bracket", b"("
    yield "every-byte", bytes(range(256))
    yield "every-byte-downward", b"(set)\n" + bytes(range(255, -1, -1))
    yield "two-forms", b"(nan)(nan)\n"
    yield "break-before-foreign-byte", b"(zero +)\n(nax\0)\n"
    yield "foreign-byte-before-break", b"(zero +)\n(na\0x)\n"
    yield "break-in-line-before-foreign-byte", b"(zero +)\n(nax)\n(na\0)\n"
    yield "out-of-turn-before-foreign-byte", b"(set)\n(set)\n\xff"
    yield "comment", b"(nan) ; not a number\n"
    yield "words-for-digits", "(term + ١ 1 (80000000))\n".encode()
    yield "example", summed(["(term + 3 3 (a0000000))", power(-9)], "3 free", modes="N") + b"(reopen)\n(back)\n"


# ---- Refused calls.

# A name, and a term that is refused, or just not: `..` stands for 126 limbs of zeros.
TERMS = """
precision-0                (term + 1 0 (80000000))
precision-4097             (term + 1 4097 (00000000 00000000 .. 80000000))
precision-9999999999       (term + 1 9999999999 (80000000))
precision-4294967297       (term + 1 4294967297 (80000000))
precision-before-exponent  (term + 9999999999 0 (00000000))
exponent-too-high          (term + 1000000001 1 (80000000))
exponent-too-low           (term - -1000000001 1 (80000000))
exponent-9999999999        (term + 9999999999 1 (80000000))
exponent-minus-9999999999  (term + -9999999999 1 (80000000))
exponent-4294967297        (term + 4294967297 1 (80000000))
exponent-minus-4294967295  (term + -4294967295 1 (80000000))
exponent-before-limbs      (term + 1000000001 33 (80000000))
highest-exponent           (term + 1000000000 1 (80000000))
lowest-exponent            (term - -1000000000 1 (80000000))
two-limbs-for-32           (term + 1 32 (00000000 80000000))
one-limb-for-33            (term + 1 33 (80000000))
limbs-before-top-bit       (term + 1 33 (00000000))
127-limbs-for-4096         (term + 1 4096 (.. 80000000))
128-limbs-for-4064         (term + 1 4064 (00000000 .. 80000000))
129-limbs-for-4096         (term + 1 4096 (00000000 00000000 .. 80000000))
128-limbs-for-4096         (term - 1 4096 (00000000 .. 80000000))
128-limbs-for-4065         (term - 1 4065 (00000000 .. 80000000))
top-bit                    (term + 1 1 (40000000))
top-bit-of-0               (term + 1 32 (00000000))
top-bit-of-two             (term + 1 64 (ffffffff 7fffffff))
top-bit-before-low-bits    (term + 1 1 (7fffffff))
top-bit-in-wrong-limb      (term + 1 64 (80000000 00000001))
low-bit-of-1               (term + 1 1 (c0000000))
low-bit-of-2               (term + 1 2 (a0000000))
low-bit-of-31              (term + 1 31 (80000001))
all-of-32                  (term + 1 32 (80000001))
low-bit-of-33              (term + 1 33 (40000000 80000000))
all-of-33                  (term + 1 33 (80000000 80000000))
low-bit-of-63              (term + 1 63 (00000001 80000000))
low-bit-of-4095            (term + 1 4095 (00000001 .. 80000000))
low-bit-of-4065            (term + 1 4065 (40000000 .. 80000000))
all-of-4065                (term + 1 4065 (80000000 .. 80000000))
"""


def refused_terms():
    for number, row in enumerate(TERMS.strip().split("\n")):
        name, line = row.split(maxsplit=1)
        line = line.replace("..", " ".join(["00000000"] * 126))
        before = [power(1)] * (number % 4)
        yield name, text_of(before + [line, "(mark %d i)" % len(before), "(set)", "(ask 40 free N)"])


def too_many_terms():
    zeros = ["(zero +)"] * MOST_TERMS
    yield "none-more", text_of(zeros + ["(mark 1023 i)", "(set)", "(ask binary32 D)"])
    yield "nan", text_of(zeros + ["(nan)"])
    yield "before-precision", text_of(["(nan)"] * MOST_TERMS + ["(term + 1 0 (80000000))"])
    yield "after-its-form", text_of(["(nan)"] * MOST_TERMS + ["(inf)"])


def out_of_turn():
    calls = (["(mark 0 o)"], ["(set)"], ["(mark 0 i)", "(back)"], ["(set)", "(ask 1 free N)"], ["(set)", "(reopen)"])
    for number, line in enumerate(TERM_LINES + ["(term + 1 0 (80000000))"]):
        for after, before in enumerate(calls):
            yield "term-%d-%d" % (number, after), text_of(["(zero +)"] + before + [line])
    for number, line in enumerate(CALL_LINES + ["(mark 9999999999 x)"]):
        yield "set-sheet-%d" % number, text_of(["(set)", line])
        yield "set-again-%d" % number, text_of(["(set)", "(reopen)", "(set)", "(ask binary16 N)", line])
    for number, line in enumerate(SET_LINES + ["(ask 0 free N)", "(ask none none)", "(ask 5 N)"]):
        yield "open-sheet-%d" % number, text_of([line])
        yield "open-again-%d" % number, text_of(["(nan)", "(set)", "(reopen)", line])


def refused_marks():
    for place in ("1023", "1024", "1025", "4294967296", "4294967295", "65536", "9999999999"):
        yield "place-%s" % place, text_of(["(mark 0 i)", "(mark %s i)" % place, "(mark 3 o)"])
    for letter in ("I", "O", "T", "ii", "io", "x", "0", "1", "2", "in", "out", "turned", "o0", "i" * 200):
        yield "letter-%s" % letter[:10], text_of(["(mark 1023 o)", "(mark 1023 t)", "(mark 5 %s)" % letter])
    yield "place-before-letter", text_of(["(mark 1024 x)"])
    full = ["(mark %d %s)" % (i % 7, "iot"[i % 3]) for i in range(256)]
    yield "trail-256", text_of(full + ["(back)"] * 256 + ["(back)"])
    yield "trail-257", text_of(full + ["(mark 0 o)"])
    yield "trail-257-same-mark", text_of(["(mark 0 o)"] * 257)
    yield "place-before-trail", text_of(["(mark 0 o)"] * 256 + ["(mark 1024 o)"])
    yield "letter-before-trail", text_of(["(mark 0 o)"] * 256 + ["(mark 0 x)"])
    yield "trail-after-back", text_of(["(mark 0 o)"] * 256 + ["(back)", "(mark 1 i)", "(mark 1 i)"])
    yield "trail-after-set", text_of(["(mark 0 o)"] * 256 + ["(set)", "(reopen)"] + ["(mark 0 o)"] * 257)


def refused_backs():
    yield "first", text_of(["(back)"])
    yield "after-terms", text_of(["(nan)", "(zero +)", "(back)"])
    yield "after-set", text_of(["(mark 0 i)", "(set)", "(reopen)", "(back)"])
    yield "one-more", text_of(["(mark 0 i)", "(mark 1 i)", "(back)", "(back)", "(back)"])
    yield "after-asks", summed([power(1)], "1 free") + b"(reopen)\n(back)\n"


GRIDS = """
0 free | 4097 free | 9999999999 free | 4294967297 free | 0 0 | 4097 -1 | 1 free | 4096 free | 4096 -1000000000
1 1000000000 | 1 1000000001 | 1 -1000000001 | 1 9999999999 | 1 -9999999999 | 1 4294967296 | 0 1000000001
53 -1000000000 | 4097 9999999999 | binary63 | binary6 | binary640 | Binary64 | BINARY64 | binary | 5 | 3 | 0 | free
bfloat16 | bfloat32 | float64 | double | extended80 | extended8 | binary16 | binary32 | binary64 | binary128 | binary256
binary512 | 4294967299 | 18446744073709551619
"""


def refused_asks():
    before = ["(term + 3 3 (a0000000))", "(mark 0 i)", "(set)"]
    for grid in listed(GRIDS):
        yield "grid-%s" % grid.replace(" ", "-"), text_of(before + ["(ask %s N)" % grid, "(ask 2 free N)"])
    yield "grid-of-300-letters", text_of(before + ["(ask %s N)" % ("b" * 300)])
    for mode in ("n", "d", "NN", "ND", "X", "0", "1", "5", "E", "nearest", "R" * 100):
        yield "mode-%s" % mode[:10], text_of(before + ["(ask 2 free U)", "(ask binary64 %s)" % mode])
    for grid in ("0 free", "1 1000000001", "binary63"):
        yield "mode-after-%s" % grid.replace(" ", "-"), text_of(before + ["(ask %s X)" % grid])
    yield "mode-before-place", text_of(["(mark 0 i)", "(set)", "(ask 1 free X)"])


def places_without_term():
    for place, letter in ((0, "i"), (0, "t"), (1, "i"), (1023, "t"), (1023, "i"), (1023, "o")):
        marked = "(mark %d %s)" % (place, letter)
        yield "no-terms-%d-%s" % (place, letter), text_of([marked, "(set)", "(ask binary64 N)"])
    for count in (1, 2, 31, 32, 33):
        for place in (count - 1, count):
            marked = "(mark %d t)" % place
            yield "%d-of-%d" % (place, count), text_of([power(5)] * count + [marked, "(set)", "(ask 2 free D)"])
    yield "back-in-time", text_of(["(nan)", "(mark 5 i)", "(back)", "(set)", "(ask 1 free N)"])
    yield "out-again", text_of(["(nan)", "(mark 5 i)", "(set)", "(reopen)", "(mark 5 o)", "(set)", "(ask 1 free N)"])
    yield "after-answers", summed([power(1)], "1 free") + b"(reopen)\n(mark 1 i)\n(set)\n(ask 1 free N)\n"


def many_asks():
    before = [power(3), "(mark 0 i)", "(set)"]
    yield "32", text_of(before + ["(ask 1 free N)"] * MOST_ASKS + ["(reopen)", "(back)"])
    yield "33", text_of(before + ["(ask 1 free N)"] * (MOST_ASKS + 1))
    yield "33-before-width", text_of(before + ["(ask binary16 Z)"] * MOST_ASKS + ["(ask 0 free N)"])
    yield "33-before-mode", text_of(before + ["(ask 2 0 A)"] * MOST_ASKS + ["(ask 2 0 X)"])
    yield "33-after-turn", text_of(before + ["(ask 2 0 A)"] * MOST_ASKS + ["(reopen)", "(ask 2 0 A)"])
    yield "33-after-form", text_of(before + ["(ask 2 0 A)"] * MOST_ASKS + ["(ask 2 0 )"])
    turns = ["(set)", "(ask 1 free N)", "(reopen)", "(mark 0 i)"] * (MOST_ASKS + 1)
    yield "reopened-between", text_of([power(3)] + turns)
    widest = [term((1 << MOST_DIGITS) - 1, 0), term(1, -40)]
    yield "longest-answer", summed(widest, "4096 free", "4096 -1000000000", "4095 0", modes="NDUZAN")


# ---- Sheets.

def trails():
    terms = [power(2 * i + 1) for i in range(12)]
    source = random.Random(5)
    for number in range(24):
        lines, steps = list(terms), 0
        for _ in range(source.randrange(5, 60)):
            if steps and source.random() < 0.4:
                lines.append("(back)")
                steps -= 1
            elif source.random() < 0.1:
                lines += ["(set)", "(ask 60 free N)", "(reopen)"]
                steps = 0
            else:
                lines.append("(mark %d %s)" % (source.randrange(12), source.choice("iitto")))
                steps += 1
        yield "%d" % number, text_of(lines + ["(set)", "(ask 60 free N)", "(ask 3 free D)"])


def reopenings():
    lines = ["(term + 3 3 (a0000000))", "(term - 2 2 (c0000000))", "(inf -)", "(zero -)"]
    for marking in ("0 i", "0 t", "1 i", "1 t", "2 i", "2 t", "2 o", "3 i", "0 o", "1 o", "3 t"):
        lines += ["(mark %s)" % marking, "(set)", "(ask 2 free D)", "(reopen)"]
    yield "each-mark", text_of(lines)
    one, end = [power(1)], ["(set)", "(ask 9 free N)"]
    yield "marks-stay", text_of([power(1), power(9), "(mark 0 i)"] + end + ["(reopen)", "(mark 1 t)"] + end)
    yield "back-after-reopening", text_of(one + ["(mark 0 i)", "(set)", "(reopen)", "(mark 0 t)", "(back)"] + end)
    yield "set-and-reopened", text_of(["(set)", "(reopen)"] * 40 + end)
    yield "same-mark-twice", text_of(one + ["(mark 0 i)", "(mark 0 i)", "(back)"] + end)
    yield "back-to-in", text_of(one + ["(mark 0 i)", "(mark 0 t)", "(back)"] + end)
    yield "back-to-turned", text_of(one + ["(mark 0 t)", "(mark 0 o)", "(mark 0 i)", "(back)", "(back)"] + end)


# ---- Sums.

def special_sums():
    values = ["(nan)", "(inf +)", "(inf -)", "(zero +)", "(zero -)", power(1), power(1, "-")]
    for letter in "it":
        yield "none-%s" % letter, summed([], "1 free", "binary64")
        for i, first in enumerate(values):
            yield "%d-%s" % (i, letter), summed([first], "1 free", letters=letter)
            for j, second in enumerate(values[i:], i):
                both, one = letter + letter, letter + ("t" if letter == "i" else "i")
                yield "%d-%d-%s" % (i, j, both), summed([first, second], "binary16", letters=both, modes="ND")
                yield "%d-%d-%s" % (i, j, one), summed([first, second], "5 free", letters=one, modes="DN")
    yield "all-zeros", summed(["(zero -)"] * 3 + ["(zero +)"] + [power(3), power(3, "-")], "1 0")
    yield "nan-marked-out", text_of(["(nan)", "(inf +)", power(1), "(mark 2 i)", "(set)"] + asks("1 free"))


def named_grids():
    for name, (width, floor) in NAMED_GRIDS.items():
        ones = (1 << width) - 1
        some = term(0x35A5A5A5A5A5A5A5A % (1 << width) << 2 | 1 << width + 1 | 1, floor + 40)
        yield "%s-rounded" % name, summed([some], name, "%d %d" % (width, floor))
        for part, count in (("below-half", -1), ("half", 0), ("above-half", 1)):
            yield "%s-%s" % (name, part), summed([power(floor)] + [term(count, floor - 60)] * abs(count), name)
        yield "%s-subnormal" % name, summed([term(11, floor - 1), term(1 << 300, floor - 400)], name)
        yield "%s-largest-subnormal" % name, summed([term(ones >> 1, floor), term(1, floor - 1)], name)
        yield "%s-tie-to-even" % name, summed([term(ones + 2, 5), term(ones, 45)], name, "%d free" % width)
        yield "%s-negative" % name, summed([term(-ones - 4, floor + 1), term(-1, floor - 2)], name)


def ties():
    for width in (1, 2, 3, 31, 32, 33, 63, 64, 65, 100):
        for low in (-70, -1, 0, 31):
            for name, count in (("odd", (1 << width) - 1), ("even", 1 << width - 1)):
                halfway = term(2 * count + 1, low)
                yield "%s-%d-%d" % (name, width, low), summed([halfway], "%d free" % width, "%d %d" % (width, low + 1))
    for name, tail in (("just-above", 1), ("just-below", -1)):
        for far in (3, 40, 1000, 5000, 999_000_000):
            letters = "it" if far % 2 else "i"
            yield "%s-%d" % (name, far), summed([term(5, 0), term(tail, -far)], "2 free", letters=letters)
            yield "%s-at-floor-%d" % (name, far), summed([term(-1, 9), term(tail, -far)], "2 10", "1 10", "2 9")


def floors():
    for floor in (-FARTHEST, -4097, -33, -32, -1, 0, 1, 31, 32, 4096, FARTHEST):
        for e in (e for e in (floor - 1, floor, floor + 1, floor + 3) if abs(e) <= FARTHEST):
            terms = [power(e), "(term - %d 4 (b0000000))" % e]
            yield "%d-%d" % (floor, e), summed(terms, "2 %d" % floor, "4096 %d" % floor)
    for e in (-FARTHEST, 0, FARTHEST):
        terms = [power(e), power(e, "-"), power(e)]
        yield "far-%d" % e, summed(terms, "1 1000000000", "1 -1000000000", "4096 1000000000")


def widths():
    for width in (1, 2, 31, 32, 33, 64, 127, 2048, 4064, 4065, 4095, 4096):
        widest = term((1 << MOST_DIGITS) - 1, -2000)
        yield "ones-%d" % width, summed([widest, term(-1, 2095)], "%d free" % width, modes="NU")
        yield "carry-%d" % width, summed([term((1 << width) - 1, 7), term(1, 6)], "%d free" % width, modes="NDA")
        grids = ["%d free" % width, "%d free" % max(1, width - 1)]
        yield "exact-%d" % width, summed([term(1, 0), term(1, 1 - width)], *grids, modes="DU")
    for precision in (1, 31, 32, 33, 4064, 4065, 4095, 4096):
        terms = [term(1, 0, precision), term((1 << precision) - 1, 3)]
        yield "precision-%d" % precision, summed(terms, "%d free" % precision, "24 free", modes="NZ")


def wide_sums():
    """Columns far apart, up to two thousand million weights."""
    high, low = FARTHEST, -FARTHEST
    steps = range(high, low - 1, -125_000_000)
    widest = (1 << MOST_DIGITS) - 1
    sums = {
        "two": [power(high), power(low)],
        "down-from-power": [power(high), power(low, "-")],
        "cancelling": [power(high), power(high, "-"), power(low)],
        "cancelling-low": [power(low), power(low, "-")],
        "cancelling-in-three": [power(high), power(0), power(high, "-"), power(low, "-"), power(0, "-")],
        "cancelling-to-zero": [power(e, letter) for letter in "+-" for e in (high, 0, low)],
        "halfway-and-far-below": [term(5, high - 3), power(low, "-")],
        "halfway-and-cancelled": [term(5, high - 3), power(low, "-"), power(low)],
        "steps": [power(e) for e in steps],
        "steps-of-signs": [power(e, "+-"[e // 125_000_000 % 2]) for e in steps],
        "borrow": [power(high), power(high - 1, "-"), power(high - 1, "-"), power(-5), power(low)],
        "wide-terms": [term(widest, high - MOST_DIGITS), term(-widest, low - MOST_DIGITS)],
        "wide-cancelling": [term(widest, high - MOST_DIGITS), power(high, "-"), term(1, low + 9)],
        "example": [term(3, 0), term(-1, -2000)],
        "column-edges": [power(33), power(32), power(1), power(0), power(-31), power(-32)],
        "one-below-column": [power(32 * 31_250_000 - 31), power(32 * -31_250_000 + 1, "-")],
        "many-lows": [power(high)] + [power(low, "-")] * 200,
        "bound-settles": [term(7, 96), term(-1, 40), term(1, -64), power(low)],
    }
    for name, terms in sums.items():
        yield name, summed(terms, "2 free", "1 free", "binary64", "4096 free")
        letters = "t" if len(terms) % 2 else "ti"
        yield "%s-turned" % name, summed(terms, "3 -40", "64 1000000000", "2 -1000000000", letters=letters)


def random_term(source, exponents):
    precision = source.choice((1, 2, 24, 31, 32, 33, 53, 64, source.randrange(1, 200)))
    top = 1 << precision - 1
    significand = source.choice((top, 2 * top - 1, source.getrandbits(precision) | top))
    fields = (source.choice("+-"), source.choice(exponents), precision, limbs(significand, precision))
    return "(term %s %d %d (%s))" % fields


def opposite(line):
    return line.replace("term +", "term *").replace("term -", "term +").replace("term *", "term -")


def random_sums():
    source = random.Random(1)
    grids = ["%d free" % w for w in (1, 2, 3, 8, 24, 53, 64, 113)] + ["8 -40", "24 -3", "53 -1074"] + list(NAMED_GRIDS)
    ranges = [range(-2, 3), range(-40, 41), range(-300, 301), range(-FARTHEST, FARTHEST + 1), [-FARTHEST, FARTHEST],
              [0, 64, -64, 1000, -1000]]
    for number in range(120):
        terms = [random_term(source, source.choice(ranges)) for _ in range(source.choice((1, 2, 3, 5, 9, 20)))]
        terms += [opposite(line) for line in terms if source.random() < 0.3]
        lines = terms + ["(mark %d %s)" % (i, source.choice("iiitto")) for i in range(len(terms))]
        for _ in range(source.randrange(1, 4)):
            wanted = [asks(source.choice(grids), modes=source.choice(MODES))[0] for _ in range(source.randrange(1, 7))]
            again = "(mark %d %s)" % (source.randrange(len(terms)), source.choice("oit"))
            lines += ["(set)"] + wanted + ["(reopen)", again]
        yield "%d" % number, text_of(lines + source.choice(([], ["(back)", "(set)", "(ask 5 free N)"], ["(reopen)"])))


def damaged_texts():
    """Good texts with a byte or a line changed, lost or doubled."""
    source = random.Random(2)
    whole = [text for name, text in random_sums() if len(text) < 700]
    for number in range(80):
        text = bytearray(source.choice(whole))
        place = source.randrange(len(text))
        kind = source.randrange(5)
        if kind == 0:
            text[place] = source.choice(b"()+- \n0189afiotNDUZAx")
        elif kind == 1:
            del text[place]
        elif kind == 2:
            text.insert(place, source.choice((*b"() 0-+\n", source.randrange(256))))
        elif kind == 3:
            del text[place:]
        else:
            lines = bytes(text).splitlines(keepends=True)
            lines.insert(source.randrange(len(lines)), source.choice(lines))
            text = bytearray(b"".join(lines))
        yield "%d" % number, bytes(text)


# ---- Long texts.

def filling(length):
    """Lines of so many bytes for an open sheet: 15 for each turn from it and back, and 11 for each mark."""
    marked = next(count for count in range(15) if (length - 11 * count) % 15 == 0)
    return ["(mark 0 i)"] * marked + ["(set)", "(reopen)"] * ((length - 11 * marked) // 15)


def long_texts():
    ones = [power(3 * (i % 40) - 60, "+-"[i % 3 == 0]) for i in range(MOST_TERMS)]
    yield "1024-terms", text_of(ones + marks(MOST_TERMS, "it") + ["(set)"] + asks("53 free", "binary16"))
    widest = [term((1 << MOST_DIGITS) - 1 - (i << 40), 32 * i - 7) for i in range(9)]
    yield "terms-of-128-limbs", summed(widest, "4096 free", "100 free", modes="ND")
    first, last = [power(1), power(2), "(mark 1 t)"], ["(set)"] + asks("1 free")
    longest = text_of(first + filling(LONGEST_TEXT - len(text_of(first + last))) + last)
    yield "49152-bytes", longest
    yield "49153-bytes", longest + b"("
    yield "49153-bytes-of-no-form", b"\n" * (LONGEST_TEXT + 1)
    yield "one-long-line", b"(ask " + b"7" * 3000 + b" free N)\n"


FAMILIES = [
    every_form, cut_forms, changed_forms, foreign_bytes, broken_fields, broken_asks, odd_texts,
    refused_terms, too_many_terms, out_of_turn, refused_marks, refused_backs, refused_asks, places_without_term,
    many_asks, trails, reopenings,
    special_sums, named_grids, ties, floors, widths, wide_sums, random_sums, damaged_texts, long_texts,
]


def entry(name, content):
    return b"= %s %d\n%s\n" % (name.encode(), len(content), content)


def main():
    names, texts, answers = set(), [], []
    for family in FAMILIES:
        for name, text in family():
            name = "%s/%s" % (family.__name__.replace("_", "-"), name)
            assert name not in names, name
            names.add(name)
            texts.append(entry(name, text))
            answers.append(entry(name, answer_text(text)))
    CRATE.mkdir(exist_ok=True)
    (CRATE / "stdin").write_bytes(b"".join(texts))
    (CRATE / "stdout").write_bytes(b"".join(answers))
    print("%d texts, %d bytes; %d bytes of answers" % (len(texts), sum(map(len, texts)), sum(map(len, answers))))


if __name__ == "__main__":
    main()
