#!/usr/bin/env python3
"""Brings the repository's own definitions and lemmas to today's spelling, once, after the kit's port.py.

Words are in snake case, types and facts in camel case: limbs-value becomes limbs_value, Walk-ends becomes WalkEnds. A name is the
repository's own if a .antt file under crates/ declares it; the answers to goals keep their names, since the check makes those.
Functions of src/, strings and comments stay as they are.

    python3 tools/spelling.py          rewrites the files
    python3 tools/spelling.py --list   only prints old and new names, and new names that were there before
"""
import os
import re
import sys

TOKEN = re.compile(r"[^\s(){}\[\],;.:\"`«»λ]+(?::[^\s(){}\[\],;.\"])*")
DECLARED = re.compile(
    r"^\s*(?:(?:abbrev|unfoldable|pub|data|record|let)\s+)*([^\s(){}\[\],;.:]+)\s*(?:\{[^}]*\}\s*|\([^)]*\)\s*)*:\s+(?!goal\.)"
)


# Names that would fall together with others where the rule alone is followed.
OTHERWISE = {
    "In-range": "AlwaysInRange",
    "of-bits": "of_bits_lem",
    "to-bits": "to_bits_lem",
    "is-nan": "is_nan_lem",
}

# Names that are declared otherwise than by a line of their own: a constructor, and two names that imports give.
ALSO = {"away-from-zero", "ask-refusal", "grid-fault-number"}


def files(endings):
    for root, folders, names in os.walk("crates"):
        folders[:] = sorted(f for f in folders if f != "out")
        for name in sorted(names):
            if name.endswith(endings):
                yield os.path.join(root, name)


def code_and_comment(line, mark):
    """The line up to its comment, and the comment."""
    quoted = False
    for i, c in enumerate(line):
        if c == '"':
            quoted = not quoted
        if not quoted and line.startswith(mark, i) and (i == 0 or line[i - 1] in " \t"):
            return line[:i], line[i:]
    return line, ""


def spelled(name):
    if name in OTHERWISE:
        return OTHERWISE[name]
    parts = [p for p in name.split("-") if p]
    if name[0].isupper():
        return "".join(p[0].upper() + p[1:] for p in parts)
    return "_".join(parts)


def declared():
    names = set()
    for path in files((".antt",)):
        for line in open(path, encoding="utf-8"):
            code, _ = code_and_comment(line.rstrip("\n"), "--")
            found = DECLARED.match(code)
            if found and "-" in found.group(1).strip("-"):
                names.add(found.group(1))
    return names


def tokens(path):
    mark = "//" if path.endswith(".rt") else "--"
    for line in open(path, encoding="utf-8"):
        code, _ = code_and_comment(line.rstrip("\n"), mark)
        yield from TOKEN.findall(code)


def rewrite(path, renamed):
    mark = "//" if path.endswith(".rt") else "--"
    out = []
    for line in open(path, encoding="utf-8").read().split("\n"):
        code, comment = code_and_comment(line, mark)
        pieces = code.split('"')
        for i in range(0, len(pieces), 2):
            pieces[i] = TOKEN.sub(lambda m: renamed.get(m.group(0), m.group(0)), pieces[i])
        out.append('"'.join(pieces) + comment)
    text = "\n".join(out)
    if text != open(path, encoding="utf-8").read():
        open(path, "w", encoding="utf-8").write(text)


def main():
    renamed = {name: spelled(name) for name in declared() | ALSO}
    all_files = list(files((".antt", ".rt")))
    present = set()
    for path in all_files:
        present.update(tokens(path))
    by_new = {}
    for old, new in sorted(renamed.items()):
        by_new.setdefault(new, []).append(old)
    if "--list" in sys.argv:
        for new, olds in sorted(by_new.items()):
            together = " TOGETHER" if len(olds) > 1 else ""
            there = " THERE" if new in present else ""
            print(", ".join(olds), "->", new + together + there)
        return
    for path in all_files:
        rewrite(path, renamed)


main()
