#!/usr/bin/env python3
"""Writes an answer for several named clauses as a record by their names, where it was a tuple.

usage: python3 tools/name_clauses.py CRATE..    at the top of the repository, after tools/turn_proofs.py
"""
import glob
import os
import re
import sys


def split_top(text, mark):
    parts, depth, now = [], 0, ""
    for ch in text:
        depth += {"(": 1, "[": 1, "{": 1, ")": -1, "]": -1, "}": -1}.get(ch, 0)
        if ch == mark and depth == 0:
            parts, now = parts + [now], ""
        else:
            now += ch
    return [p.strip() for p in parts + [now]]


def clauses(crate):
    """The names of each function's requires and ensures, by the function's name; the crate's own functions first."""
    found = {}
    for path in sorted(glob.glob("crates/*/src/*.rt"), key=lambda p: p.split("/")[1] != crate):
        text = open(path, encoding="utf-8").read()
        for m in re.finditer(r"fn (\w+)\b[^{]*?\)(?: -> [^\n{]*?)?\n((?:    \s*(?:requires|ensures)[^\n]*\n)+)", text):
            asks = re.findall(r"(?m)^\s*requires (\w+) \{", m.group(2))
            gives = re.findall(r"(?m)^\s*ensures (\w+) \{", m.group(2))
            found.setdefault(m.group(1), (asks, gives))
    return found


def main():
    for crate in sys.argv[1:]:
        names = clauses(crate)
        for path in sorted(glob.glob(f"crates/{crate}/proofs/**/Answers.antt", recursive=True)):
            own = os.path.basename(os.path.dirname(path)).lstrip("+")
            text = open(path, encoding="utf-8").read()

            def name(m):
                goal, head, body = m.group(2), m.group(1), m.group(3).strip()
                if goal.startswith("returns"):
                    want = names.get(own, ([], []))[1]
                elif goal.split("-")[-1] == "requires" or re.search(r"-requires-\d+$", goal) or "-requires-" in goal:
                    want = names.get(goal.split("-")[0], ([], []))[0]
                else:
                    want = []
                if len(want) < 2 or body.startswith("record"):
                    return m.group(0)
                parts = split_top(body[1:-1], ",") if body.startswith("(") and body.endswith(")") else []
                if len(parts) < len(want):
                    return m.group(0)
                last = len(want) - 1
                if len(parts) > len(want):
                    parts = parts[:last] + ["(" + ", ".join(parts[last:]) + ")"]
                fields = "; ".join(f"{n} = {p}" for n, p in zip(want, parts))
                return f"{head}\n    record {{ {fields} }}"

            out = re.sub(r"(?ms)^((\S+)(?: t)? c =)\n(.*?)(?=\n\n|\Z)", name, text)
            if out != text:
                print(path)
                open(path, "w", encoding="utf-8").write(out.rstrip("\n") + "\n")


main()
