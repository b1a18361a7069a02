#!/usr/bin/env python3
"""The answer to a bracket text, from the definitions: plain, exact and slow.

    python3 compare/reference.py <TEXT >ANSWER

It shares no line with the crates and follows none of their algorithms. What it computes is said in words in
docs/model.md and docs/refusals.md, and as definitions in the specs/ of the crates forms, batch, grid, column, survey
and answers.

Every number is a pair (n, w), which stands for n * 2^w, with whole n and w of any size. Exponents may lie two thousand
million apart, so a sum is never written out over such a gap: `condensed` says what is done, and why nothing is lost.
"""

import sys
from functools import lru_cache
from typing import NamedTuple

LONGEST_TEXT = 49152
MOST_TERMS = 1024
MOST_DIGITS = 4096
MOST_PLACES = 1024
LONGEST_TRAIL = 256
MOST_ASKS = 32
FARTHEST = 1_000_000_000
NAMED_GRIDS = {
    "binary16": (11, -24), "bfloat16": (8, -133), "binary32": (24, -149), "binary64": (53, -1074),
    "extended80": (64, -16445), "binary128": (113, -16494), "binary256": (237, -262378),
}


class Refused(Exception):
    """A refusal: its number, and the byte of the line that it blames."""

    def __init__(self, number, byte=1):
        super().__init__(number, byte)
        self.number, self.byte = number, byte


# ---- The language of lines. An expression is a tuple of items, to be spelled one after the other; an item is a set of
# bytes, any one of which may stand there, or a Choice of expressions, or an expression that may stand there Repeated,
# or not at all.

class Choice(NamedTuple):
    expressions: tuple


class Repeated(NamedTuple):
    expression: tuple


def any_of(characters):
    return (frozenset(characters.encode()),)


def literal(characters):
    return tuple(frozenset([byte]) for byte in characters.encode())


def choice(*expressions):
    return (Choice(expressions),)


def at_most(count, expression):
    return choice((), expression + at_most(count - 1, expression)) if count else ()


def form(*fields):
    """The line of a form: its fields in brackets, one space between two of them, and byte 10."""
    spaced = sum((literal(" ") + field for field in fields[1:]), fields[0])
    return literal("(") + spaced + literal(")\n")


DIGITS = "0123456789"
LETTERS = "abcdefghijklmnopqrstuvwxyzABCDEFGHIJKLMNOPQRSTUVWXYZ"
BYTES_OF_LINES = frozenset((LETTERS + DIGITS + "() +-\n").encode())

SIGN = any_of("+-")
POSITIVE = any_of("123456789") + at_most(9, any_of(DIGITS))
DECIMAL = choice(literal("0"), POSITIVE)
SIGNED_DECIMAL = choice(DECIMAL, literal("-") + POSITIVE)
RUN = any_of(LETTERS + DIGITS) + (Repeated(any_of(LETTERS + DIGITS)),)
LIMB = any_of("0123456789abcdef") * 8
LIMBS = literal("(") + LIMB + (Repeated(literal(" ") + LIMB),) + literal(")")

FORMS = frozenset([
    form(literal("nan")),
    form(literal("inf"), SIGN),
    form(literal("zero"), SIGN),
    form(literal("term"), SIGN, SIGNED_DECIMAL, DECIMAL, LIMBS),
    form(literal("mark"), DECIMAL, RUN),
    form(literal("back")),
    form(literal("set")),
    form(literal("reopen")),
    form(literal("ask"), DECIMAL, choice(literal("free"), SIGNED_DECIMAL), RUN),
    form(literal("ask"), RUN, RUN),
])


def beginnings(expression):
    """The expression with its first item made a set of bytes, in every way in which it can begin."""
    if not expression:
        return
    first, rest = expression[0], expression[1:]
    if isinstance(first, Choice):
        for chosen in first.expressions:
            yield from beginnings(chosen + rest)
    elif isinstance(first, Repeated):
        yield from beginnings(rest)
        yield from beginnings(first.expression + expression)
    else:
        yield expression


@lru_cache(maxsize=None)
def going_on(expressions, byte):
    """What can still be spelled by one of the expressions once this byte was."""
    return frozenset(e[1:] for expression in expressions for e in beginnings(expression) if byte in e[0])


def read_line(text, start):
    """The line that begins there, without its byte 10."""
    expressions = FORMS
    for place in range(start, len(text)):
        byte = text[place]
        expressions = going_on(expressions, byte)
        if not expressions:
            raise Refused(19 if byte in BYTES_OF_LINES else 18, place - start + 1)
        if byte == 10:
            return text[start:place].decode()
    raise Refused(19, len(text) - start + 1)


# ---- Grids and rounding. A grid is its width and its floor, which may be None.

def spacing(grid, exponent):
    width, floor = grid
    free = max(-2 * FARTHEST, min(exponent, 2 * FARTHEST)) - width
    return free if floor is None else max(free, floor)


def exponent(number):
    n, w = number
    return w + abs(n).bit_length()


def rounded_quotient(mode, negative, n, k):
    """n / 2^k rounded to a whole number, n being the magnitude of a number with this sign."""
    quotient = n >> k
    rest = n - (quotient << k)
    if rest == 0:
        return quotient
    if mode == "N":
        half_or_more = rest.bit_length() == k
        tie = half_or_more and rest == 1 << (k - 1)
        up = quotient % 2 == 1 if tie else half_or_more
    else:
        up = mode == "A" or mode == ("D" if negative else "U")
    return quotient + 1 if up else quotient


class Rounded(NamedTuple):
    """A number of a grid in lowest terms; its sign, which a zero has too; and the sign of it less what was rounded."""
    number: tuple
    negative: bool
    direction: int


def sign(n):
    return (n > 0) - (n < 0)


def in_lowest_terms(number):
    """The same number with an odd count, or (0, 0)."""
    n, w = number
    if n == 0:
        return 0, 0
    twos = (n & -n).bit_length() - 1
    return n >> twos, w + twos


def rounded(grid, mode, number):
    n, w = number
    negative, magnitude = n < 0, abs(n)
    k = max(0, spacing(grid, exponent(number)) - w)
    quotient = rounded_quotient(mode, negative, magnitude, k)
    below = magnitude >> k
    away = 0 if below << k == magnitude else 1 if quotient > below else -1
    return Rounded(in_lowest_terms((sign(n) * quotient, w + k)), negative, sign(n) * away)


# ---- Sums.

def plus(a, b):
    w = min(a[1], b[1])
    return (a[0] << (a[1] - w)) + (b[0] << (b[1] - w)), w


def condensed(numbers):
    """A number that has the sign of the sum of at most 1,025 numbers, and that every grid and mode rounds alike.

    The numbers are added from the highest exponent down. Say that those added so far make a t other than 0, of
    exponent e, that w is the least weight among them and e - 4200, and that the others have exponents below w - 12.
    Then their sum r is less than 2^w in magnitude, and t is a multiple of 2^w. So are the numbers of a grid next to t,
    and the halfway points between them, since no grid has more than 4,096 digits. So where r is not 0, none of them
    lies strictly between t and t plus or minus 2^w, and t + r rounds as t plus or minus 2^(w-1) does, with r's sign.
    """
    total = (0, 0)
    numbers = sorted((x for x in numbers if x[0]), key=exponent, reverse=True)
    for i, number in enumerate(numbers):
        if total[0] == 0:
            total = number
            continue
        w = min(total[1], exponent(total) - MOST_DIGITS - 104)
        if exponent(number) < w - 12:
            rest = condensed(numbers[i:])
            return plus(total, (sign(rest[0]), w - 1)) if rest[0] else total
        total = plus(total, number)
    return total


def cut(number, w):
    """The number with its magnitude cut to a multiple of 2^w."""
    n, low = number
    return number if low >= w else (sign(n) * (abs(n) >> (w - low)), w)


def occupied_columns(parts):
    """The columns of 32 weights each that a part has digits in, from the highest down."""
    columns = set()
    for part in parts:
        columns.update(range(part[1] // 32, (exponent(part) - 1) // 32 + 1))
    return sorted(columns, reverse=True)


def depth_and_answer(grid, mode, parts):
    """The least number of top columns after which both ends round alike, and what they then round to."""
    columns = occupied_columns(parts)
    for j, column in enumerate(columns):
        so_far = [cut(part, 32 * column) for part in parts]
        going_below = sum(part[1] < 32 * column for part in parts)
        bound = (going_below, 32 * (columns[j + 1] + 1)) if j + 1 < len(columns) else (0, 0)
        lower = rounded(grid, mode, condensed(so_far + [(-bound[0], bound[1])]))
        upper = rounded(grid, mode, condensed(so_far + [bound]))
        if lower == upper:
            return j + 1, lower
    return 0, rounded(grid, mode, (0, 0))


# ---- What is written. A term is "nan"; or ("inf" or "zero", sign); or ("number", n, w). A sign is + or -.

def turned(term):
    if term == "nan":
        return term
    if term[0] == "number":
        return "number", -term[1], term[2]
    return term[0], "-" if term[1] == "+" else "+"


def zero_is_negative(counted, mode):
    """The sign of a sum that is exactly 0, by the terms that count."""
    zeros = {term[1] for term in counted if term[0] == "zero"}
    if any(term[0] == "number" for term in counted) or len(zeros) == 2:
        return mode == "D"
    return zeros == {"-"}


def number_fields(grid, number):
    """Exponent, precision and limbs of a number of a grid."""
    e = exponent(number)
    precision = e - spacing(grid, e)
    count = -(-precision // 32)
    fraction = abs(number[0]) << (32 * count - abs(number[0]).bit_length())
    limbs = ["%08x" % (fraction >> 32 * i & 0xFFFFFFFF) for i in range(count)]
    return "%d %d (%s)" % (e, precision, " ".join(limbs))


def finite_line(grid, mode, counted):
    parts = [term[1:] for term in counted if term[0] == "number"]
    depth, ends = depth_and_answer(grid, mode, parts)
    exact = condensed(parts)
    answer = rounded(grid, mode, exact)
    assert answer == ends, "the ends enclose the sum"
    if exact[0] == 0:
        return "(zero %s 0 %d)" % ("-" if zero_is_negative(counted, mode) else "+", depth)
    letter = "-" if answer.negative else "+"
    if answer.number[0] == 0:
        return "(zero %s %d %d)" % (letter, answer.direction, depth)
    return "(sum %s %s %d %d)" % (letter, number_fields(grid, answer.number), answer.direction, depth)


def sum_line(grid, mode, counted):
    """The answer to an ask in which these terms count, each with the sign that it counts with."""
    infinities = {term[1] for term in counted if term[0] == "inf"}
    if "nan" in counted or len(infinities) == 2:
        return "(nan)"
    if infinities:
        return "(inf %s)" % infinities.pop()
    return finite_line(grid, mode, counted)


# ---- The work on a text.

def significand(precision, limbs):
    """The number that the limbs of a term make, of so many bits."""
    if len(limbs) != -(-precision // 32):
        raise Refused(5)
    whole = sum(int(limb, 16) << 32 * i for i, limb in enumerate(limbs))
    below = 32 * len(limbs) - precision
    if not whole >> 32 * len(limbs) - 1:
        raise Refused(6)
    if whole % (1 << below):
        raise Refused(7)
    return whole >> below


def regular_term(letter, exponent_text, precision_text, limbs):
    e, precision = int(exponent_text), int(precision_text)
    if not 1 <= precision <= MOST_DIGITS:
        raise Refused(3)
    if abs(e) > FARTHEST:
        raise Refused(4)
    m = significand(precision, limbs)
    return "number", -m if letter == "-" else m, e - precision


def grid_of(fields):
    """The grid that is asked for: by its name, or by its width and its floor."""
    if len(fields) == 1:
        if fields[0] not in NAMED_GRIDS:
            raise Refused(10)
        return NAMED_GRIDS[fields[0]]
    if not 1 <= int(fields[0]) <= MOST_DIGITS:
        raise Refused(8)
    if fields[1] == "free":
        return int(fields[0]), None
    if abs(int(fields[1])) > FARTHEST:
        raise Refused(9)
    return int(fields[0]), int(fields[1])


class Work:
    """What the lines of a text made so far: its terms, its sheet, and how many asks were answered."""

    def __init__(self):
        self.terms = []
        self.called = False
        self.is_set = False
        self.marks = ["o"] * MOST_PLACES
        self.trail = []
        self.asks = 0

    def line(self, line):
        """Works on a line that is a form; the answer where it asks for one."""
        head, *fields = line.replace("(", "").replace(")", "").split(" ")
        if head in ("nan", "inf", "zero", "term"):
            return self.term(head, fields)
        self.called = True
        if (head in ("ask", "reopen")) != self.is_set:
            raise Refused(20)
        return getattr(self, head)(*fields)

    def term(self, head, fields):
        if self.called:
            raise Refused(20)
        if len(self.terms) == MOST_TERMS:
            raise Refused(1)
        if head == "term":
            self.terms.append(regular_term(*fields[:3], fields[3:]))
        else:
            self.terms.append("nan" if head == "nan" else (head, fields[0]))

    def mark(self, place, letter):
        if int(place) >= MOST_PLACES:
            raise Refused(11)
        if letter not in ("o", "i", "t"):
            raise Refused(12)
        if len(self.trail) == LONGEST_TRAIL:
            raise Refused(13)
        self.trail.append((int(place), self.marks[int(place)]))
        self.marks[int(place)] = letter

    def back(self):
        if not self.trail:
            raise Refused(14)
        place, letter = self.trail.pop()
        self.marks[place] = letter

    def set(self):
        self.is_set, self.trail = True, []

    def reopen(self):
        self.is_set, self.trail = False, []

    def ask(self, *fields):
        if self.asks == MOST_ASKS:
            raise Refused(21)
        grid, mode = grid_of(fields[:-1]), fields[-1]
        if mode not in ("N", "D", "U", "Z", "A"):
            raise Refused(15)
        if any(mark != "o" for mark in self.marks[len(self.terms):]):
            raise Refused(17)
        self.asks += 1
        marked = [(term, mark) for term, mark in zip(self.terms, self.marks) if mark != "o"]
        return sum_line(grid, mode, [turned(term) if mark == "t" else term for term, mark in marked])


def answer_text(text):
    """The bytes of the answer to the bytes of a text."""
    if len(text) > LONGEST_TEXT:
        return b"(no 22 0 0)\n"
    work, written, start, number = Work(), [], 0, 1
    try:
        while start < len(text):
            line = read_line(text, start)
            answer = work.line(line)
            if answer:
                written.append(answer)
            start, number = start + len(line) + 1, number + 1
    except Refused as refused:
        written.append("(no %d %d %d)" % (refused.number, number, refused.byte))
    return "".join(line + "\n" for line in written).encode()


if __name__ == "__main__":
    sys.stdout.buffer.write(answer_text(sys.stdin.buffer.read()))
