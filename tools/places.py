#!/usr/bin/env python3
"""tools/places.py [POINT]: the places of src/ that docs/DESIGN-PASS.md counts, one a line, and their number; run at the top.

1 enums of the shape of Option or Result (two or three variants, one with a value), and structs that only hold numbers of kinds
2 twins: functions that are one up to the names, types and constants (30 symbols or more)
3 loops that are no `for`
4 casts, tests that answer true or false by `return`, the lower or higher of two by `if`
5 functions with six or more parameters, and facts that the `requires` of three or more functions state
6 functions that take a slice with its length or a count of its rows beside it
7 functions that choose what to call by four or more tests of a kind
8 lines of proofs
"""
import collections
import glob
import re
import sys

TYPES = "u8 u16 u32 u64 usize i32 i64 bool"


def sources():
    for path in sorted(glob.glob("crates/*/src/*.rt")):
        yield path.split("/")[1], path, open(path).read()


def functions(text):
    """name, parameters, clauses and body of each function"""
    for m in re.finditer(r"^( *)(?:pub )?(?:extern \"C\" )?fn (\w+)(?:<[^(]*>)?\((.*?)\)(?: -> [^\n{]*?)?( \{|\n(?:.*?\n)?\1\{)\n(.*?)^\1\}", text, re.S | re.M):
        yield m.group(2), m.group(3), m.group(4), m.group(5), text[: m.start()].count("\n") + 1


def shapes():
    for crate, path, text in sources():
        for m in re.finditer(r"^(?:pub )?enum (\w+)(?:<[^>]*>)? \{\n(.*?)^\}", text, re.S | re.M):
            variants = re.findall(r"^    \w+.*?(?=^    \w|\Z)", m.group(2), re.S | re.M)
            if 2 <= len(variants) <= 3 and any(re.match(r"    \w+ ?[({]", v) for v in variants):
                yield f"{crate} enum {m.group(1)}"
        for m in re.finditer(r"^(?:pub )?struct (\w+) \{\}\n\nimpl \1 \{\n(.*?)^\}", text, re.S | re.M):
            if re.search(r"pub const \w+: u(32|size) =", m.group(2)):
                yield f"{crate} numbers {m.group(1)}"


def twins():
    known = set("fn let mut if else while for in loop match return pub struct enum impl const as true false break continue use mod ref move self Self".split())
    symbol = re.compile(r"//[^\n]*|\s+|b?\"[^\"]*\"|[A-Za-z_][A-Za-z_0-9]*|\d+|::|=>|->|==|!=|<=|>=|&&|\|\||\.\.|.", re.S)
    groups = collections.defaultdict(list)
    for crate, path, text in sources():
        for name, parameters, clauses, body, line in functions(text):
            names, out = {}, []
            for x in symbol.findall(parameters + "{" + body):
                if x.isspace() or x.startswith("//"):
                    continue
                if re.match(r"[A-Za-z_]", x) and not x.startswith('b"'):
                    out.append(x if x in known else "T" if x in TYPES.split() else "n%d" % names.setdefault(x, len(names)))
                else:
                    out.append("0" if re.match(r"\d|b?\"", x) else x)
            if len(out) >= 30:
                groups[" ".join(out)].append(f"{crate}.{name}")
    for same in groups.values():
        for other in same[1:]:
            yield f"{other} as {same[0]}"


def loops():
    for crate, path, text in sources():
        for line, word in enumerate(text.split("\n"), 1):
            if re.match(r"\s*('\w+: )?(while|loop)\b", word):
                yield f"{path}:{line}: {word.strip()}"


def by_hand():
    for crate, path, text in sources():
        for line, word in enumerate(text.split("\n"), 1):
            if re.search(r"\bas (u8|u16|u32|u64|usize)\b", word) and not word.lstrip().startswith(("//", "ghost", "use")):
                yield f"{path}:{line}: {word.strip()}"
        for name, parameters, clauses, body, line in functions(text):
            if re.search(r"^\s*return (true|false);", body, re.M) and re.search(r"^    (true|false)\n\Z", body, re.M):
                yield f"{path}:{line}: {name} by return"
            if re.search(r"if (\w+) <=? (\w+) \{ (\1 \} else \{ \2|\2 \} else \{ \1) \}", body):
                yield f"{path}:{line}: {name} by if"


def together():
    facts = collections.defaultdict(list)
    for crate, path, text in sources():
        for name, parameters, clauses, body, line in functions(text):
            count = len(re.findall(r"\w+: ", parameters))
            if count >= 6:
                yield f"{path}:{line}: {name} has {count} parameters"
            for m in re.finditer(r"requires (?:\w+ )?\{ (.*?) \}\n", clauses):
                for fact in re.split(r" × ", m.group(1)):
                    facts[fact.strip("()")].append(f"{crate}.{name}")
    for fact, where in facts.items():
        if len(where) >= 3:
            yield f"{fact}: {', '.join(where)}"


def beside():
    for crate, path, text in sources():
        for name, parameters, clauses, body, line in functions(text):
            if re.search(r"requires .*(\w+)( \* [\w.]+)? ≤ length \w+\.", clauses):
                yield f"{path}:{line}: {name}"


def switches():
    for crate, path, text in sources():
        for name, parameters, clauses, body, line in functions(text):
            if len(re.findall(r"(?:if [^\n]*\{\n\s*return \w+(?:::\w+)*\(|=> \w+(?:::\w+)*\(\w)", body)) >= 4:
                yield f"{path}:{line}: {name}"


def proofs():
    for crate in sorted({path.split("/")[1] for path in glob.glob("crates/*/proofs/*")}):
        n = sum(len(open(path).readlines()) for path in glob.glob(f"crates/{crate}/proofs/**/*.antt", recursive=True))
        yield f"{crate} {n}"


POINTS = [shapes, twins, loops, by_hand, together, beside, switches, proofs]
for number, point in enumerate(POINTS, 1):
    if sys.argv[1:] in ([], [str(number)]):
        found = list(point())
        if sys.argv[1:]:
            print("\n".join(found))
        print(f"{number}: {sum(int(x.split()[1]) for x in found) if point is proofs else len(found)}")
