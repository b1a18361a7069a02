#!/usr/bin/env python3
"""Lists the places in crates/*/src that docs/DESIGN-PASS.md counts, point by point.

    tools/forms.py           the counts
    tools/forms.py 3         the places of point 3
    tools/forms.py --at REV  the same at another commit

It goes by text: a place that it lists is a place to look at, and the page says what became of each.
"""
import difflib
import itertools
import re
import subprocess
import sys
from collections import Counter, defaultdict

TOKEN = re.compile(r"[A-Za-z_][A-Za-z0-9_]*|0x[0-9a-fA-F_]+|[0-9][0-9_]*|\"[^\"]*\"|'[^']*'|\S")
NAME = re.compile(r"[A-Za-z_]")
KEYWORDS = set("fn pub let mut if else match for in while loop return self Self struct enum impl trait true false as use".split())
POINTS = {
    "1a": "enums with a variant that carries a value and one that does not",
    "1b": "structs with a flag among other fields",
    "1c": "a number where a kind, mode, mark or name is meant, and constants for such numbers",
    "1d": "a fault as an Option",
    "1e": "a number of an enum compared with a number",
    "2a": "functions alike but for names and numbers",
    "2b": "functions nearly alike",
    "2c": "types, traits and impls alike but for names",
    "3": "loops that count an index or a bound",
    "4a": "impls that a derive or an impl of std's traits may replace, and those written by hand",
    "4b": "functions that only map values to values",
    "4c": "functions that compare values field by field",
    "5a": "a clause that stands in three or more functions of a crate",
    "5b": "three or more parameters that stand together in three or more functions",
    "6": "struct fields that are arrays, and arrays made in functions",
    "7": "function pointers, closures as parameters, dyn",
}

# the points whose places are single lines
LINES = {
    "1c": r"\b(kind|mode|mark|name|number): u(8|32)\b|^\s*(pub )?const [A-Z0-9_]+: u32 = \d",
    "1d": r"Option<\w*Fault>",
    "1e": r"number\(\) [!=]=",
    "3": r"\bfor \w+ in [^{]*\.\.|\bwhile\b|\bloop \{",
    "4a": r"^\s*impl.*\b(From|TryFrom|Display|PartialEq|Eq|PartialOrd|Ord|Clone|Copy|Default|Error|Neg|Not)(<[^>]*>)? for",
    "6": r"^\s*(pub )?\w+: \[[^;\]]+; \w+\],|= \[[^;\]]+; \w+\];",
    "7": r"\bfn\(|\bdyn\b|\bFn(Mut|Once)?\(",
}


def files(rev):
    if rev:
        names = subprocess.run(["git", "ls-tree", "-r", "--name-only", rev, "crates"], capture_output=True, text=True, check=True).stdout.split()
    else:
        names = subprocess.run(["git", "ls-files", "-co", "--exclude-standard", "crates"], capture_output=True, text=True, check=True).stdout.split()
    for name in sorted(names):
        if re.fullmatch(r"crates/\w+/src/.*\.rt", name):
            if rev:
                text = subprocess.run(["git", "show", f"{rev}:{name}"], capture_output=True, text=True, check=True).stdout
            else:
                try:
                    text = open(name, encoding="utf-8").read()
                except FileNotFoundError:
                    continue
            yield name, text


def without_comments(text):
    return re.sub(r"//[^\n]*", "", text)


def block_end(text, start):
    depth = 0
    for i in range(start, len(text)):
        if text[i] == "{":
            depth += 1
        elif text[i] == "}":
            depth -= 1
            if depth == 0:
                return i + 1
    return len(text)


def items(name, text):
    """The functions, and the types, traits and impls, of a file: kind, name, line, head, body."""
    clean = without_comments(text)
    for m in re.finditer(r"^[ \t]*(?:pub(?:\(crate\))? )?(?:extern \"C\" )?fn (\w+)", clean, re.M):
        head, depth, i = m.start(), 0, m.end()
        while i < len(clean):
            # a body is the first brace at the start of a line, or one that follows the signature
            if clean[i] == "{" and (clean[: i].rstrip(" ").endswith("\n") or not re.search(r"\b(requires|ensures)\b[^\n]*$", clean[:i])):
                break
            if clean[i] == ";":
                break
            if clean[i] == "{":
                i = block_end(clean, i)
                continue
            i += 1
        if i < len(clean) and clean[i] == "{":
            end = block_end(clean, i)
            yield "fn", m.group(1), clean.count("\n", 0, m.start(1)) + 1, clean[head:i], clean[i:end]
        else:
            yield "decl", m.group(1), clean.count("\n", 0, m.start(1)) + 1, clean[head:i], ""
    for m in re.finditer(r"^(?:pub )?(struct|enum|trait|impl)\b([^{;\n]*)\{", clean, re.M):
        end = block_end(clean, m.end() - 1)
        yield m.group(1), m.group(2).strip(), clean.count("\n", 0, m.start()) + 1, m.group(0), clean[m.end() - 1 : end]


def shape(code):
    names, out = {}, []
    for t in TOKEN.findall(code):
        if NAME.match(t) and t not in KEYWORDS:
            out.append(names.setdefault(t, f"n{len(names)}"))
        elif t[0].isdigit():
            out.append("0")
        else:
            out.append(t)
    return tuple(out)


def signature(head):
    return re.split(r"\n\s*(?:requires|ensures)\b", head)[0]


def parameters(head):
    sig = signature(head)
    inside = sig[sig.find("(") + 1 :]
    return [f"{n}: {t.strip()}" for n, t in re.findall(r"(?:mut )?(\w+): ((?:[^,()<>]|<[^<>]*>|\([^()]*\))+)", inside) if n != "self"]


def is_map(body):
    inner = body.strip()[1:-1].strip()
    m = re.fullmatch(r"match [\w.()*:]+ \{(.*)\}", inner, re.S)
    if m:
        arms = [a.strip() for a in re.split(r",\s*\n|,$", m.group(1)) if a.strip()]
        return bool(arms) and all(re.fullmatch(r"[^{}]*=>\s*(?:-?\d[\d_]*|\"[^\"]*\"|[A-Z]\w*(?:::\w+)*(?:\([\w:.() ]*\))?|true|false|\w+\.\w+\(\)|\w+)", a, re.S) for a in arms)
    return bool(re.fullmatch(r"if \w+ \{\s*[\w:]+(?:\([\w:]+\))?\s*\} else \{\s*[\w:]+(?:\([\w:]+\))?\s*\}", inner))


def collect(rev):
    places = defaultdict(list)
    functions, types, clauses, taken = [], [], defaultdict(list), []
    for name, text in files(rev):
        crate = name.split("/")[1]
        clean = without_comments(text)
        for number, line in enumerate(clean.split("\n"), 1):
            at = f"{name}:{number}: {line.strip()}"
            for point, form in LINES.items():
                if re.search(form, line):
                    places[point].append(at)
        for kind, title, line, head, body in items(name, text):
            at = f"{name}:{line}: {kind} {title}"
            if kind in ("fn", "decl"):
                if kind == "fn":
                    functions.append((at, shape(re.sub(r".*?\bfn \w+", "", signature(head), flags=re.S) + body), tuple(TOKEN.findall(body))))
                    if is_map(body):
                        places["4b"].append(at)
                    if re.search(r"\w+\.(\w+) [!=]= \w+\.\1\b", body) or re.fullmatch(r"\{\s*\w+ == \w+\s*\}", body.strip()):
                        places["4c"].append(at)
                for clause in re.findall(r"^\s*requires (?:\w+ )?\{(.*)\}\s*$", head, re.M):
                    clauses[crate, clause.strip()].append(at)
                taken.append((at, frozenset(parameters(head))))
            else:
                types.append((at, shape(title + body)))
                inner = body.strip()[1:-1]
                if kind == "enum" and re.search(r"^\s*\w+\(", inner, re.M) and re.search(r"^\s*\w+,", inner, re.M):
                    places["1a"].append(at)
                if kind == "struct" and re.search(r": bool,", inner) and inner.count(",") > 1:
                    places["1b"].append(at)
    groups = defaultdict(list)
    for at, form, _ in functions:
        if len(form) >= 25:
            groups[form].append(at)
    alike = set()
    for ats in groups.values():
        if len(ats) > 1:
            alike.update(ats)
            places["2a"].append("  ~  ".join(ats))
    long = [(at, tokens) for at, _, tokens in functions if len(tokens) >= 40]
    for (a, s), (b, t) in itertools.combinations(long, 2):
        if a in alike and b in alike or not 0.6 < len(s) / len(t) < 1.6:
            continue
        common = sum((Counter(s) & Counter(t)).values())
        if 2 * common < 0.8 * (len(s) + len(t)):
            continue
        if difflib.SequenceMatcher(None, s, t, autojunk=False).ratio() >= 0.8:
            places["2b"].append(f"{a}  ~  {b}")
    groups = defaultdict(list)
    for at, form in types:
        if len(form) >= 12:
            groups[form].append(at)
    places["2c"] = ["  ~  ".join(ats) for ats in groups.values() if len(ats) > 1]
    for (crate, clause), ats in clauses.items():
        if len(ats) >= 3:
            places["5a"].append(f"{crate}: {len(ats)} times: {clause}")
    together = defaultdict(set)
    for (_, a), (_, b), (_, c) in itertools.combinations([x for x in taken if len(x[1]) >= 3], 3):
        if len(a & b & c) >= 3:
            together[a & b & c] = {at for at, given in taken if a & b & c <= given}
    for given, ats in sorted(together.items(), key=lambda x: sorted(x[0])):
        places["5b"].append(f"{len(ats)} times: {', '.join(sorted(given))}")
    return places


def main():
    args = sys.argv[1:]
    rev = None
    if "--at" in args:
        i = args.index("--at")
        rev = args[i + 1]
        del args[i : i + 2]
    places = collect(rev)
    for point, what in POINTS.items():
        if not args:
            print(f"{point:3} {len(places[point]):4}  {what}")
        elif point.startswith(args[0]):
            print(f"{point}: {what}")
            for place in places[point]:
                print("   ", place)


main()
