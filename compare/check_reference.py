#!/usr/bin/env python3
"""Checks reference.py on the sums that are stored in crates/vectors with the answers of MPFR.

    python3 compare/check_reference.py

Status 0 only without a difference. Of the depth MPFR knows nothing; reference.py itself asserts that at the depth both
ends round as the sum does.
"""

import sys
from pathlib import Path

import reference

VECTORS = Path(__file__).resolve().parent.parent / "crates" / "vectors"
MODES = "NDUZA"
PLAIN_TERMS = {"0": "nan", "1": ("inf", "+"), "2": ("inf", "-"), "3": ("zero", "+"), "4": ("zero", "-")}
SIGNS = {"5": "+", "6": "-"}


def read_terms(words):
    """The terms of a case: each the number of a kind, and for a regular one its exponent, precision and limbs."""
    words, terms = iter(words), []
    for kind in words:
        if kind in PLAIN_TERMS:
            terms.append(PLAIN_TERMS[kind])
            continue
        exponent, precision = next(words), next(words)
        limbs = [next(words) for _ in range(-(-int(precision) // 32))]
        terms.append(reference.regular_term(SIGNS[kind], exponent, precision, limbs))
    return terms


def stored_answer(line):
    """The stored answer as a line of the bracket text, without its depth."""
    kind, exponent, precision, direction, *limbs = line.split()
    if kind == "0":
        return "(nan)"
    if kind in PLAIN_TERMS:
        head, letter = PLAIN_TERMS[kind]
        return "(inf %s)" % letter if head == "inf" else "(zero %s %s" % (letter, direction)
    return "(sum %s %s %s (%s) %s" % (SIGNS[kind], exponent, precision, " ".join(limbs), direction)


def without_depth(line):
    return line.rsplit(" ", 1)[0] if line.startswith(("(sum", "(zero")) else line


def main():
    cases = (VECTORS / "stdin").read_text().splitlines()
    answers = (VECTORS / "stdout").read_text().splitlines()
    assert len(cases) == len(answers)
    differences = 0
    for number, (case, answer) in enumerate(zip(cases, answers), 1):
        mode, width, *words = case.split()
        line = reference.sum_line((int(width), None), MODES[int(mode)], read_terms(words))
        if without_depth(line) != stored_answer(answer):
            differences += 1
            print("case %d: %s, stored %s" % (number, line[:200], answer[:200]))
    print("%d cases, %d differences" % (len(cases), differences))
    return 1 if differences else 0


if __name__ == "__main__":
    sys.exit(main())
