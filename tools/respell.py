#!/usr/bin/env python3
"""Respells the repository's own definitions and lemmas in today's Rattle's form: words in snake case, types in camel case.

usage: python3 tools/respell.py    at the top of the repository, once, right after /opt/rattle/port/port.py

Every name of specs/ and proofs/ that joins words by a capital letter (rowAt, ifLt-yes) joins them by a line (row_at, if_lt-yes), in
definitions, proofs, clauses and imports. Functions, fields and constants of src/ keep their names. A lemma that then has a definition's
name, or a function's, gets _lem. Facts that began with a small letter begin with a capital one. The script stops before it writes where
two names would fall together.
"""
import os
import re
import sys

TOKEN = r"[^\s(){}\[\].,;⌜⌝]+"
CAMEL = re.compile(r"[a-z].*[a-z0-9][A-Z]")
FACTS = {("vm_definitions", "isOpen"): "IsOpen", ("vm_definitions", "addressGood"): "AddressGood"}
FACT_FILES = {"crates/vm_definitions/proofs/Claimed.antt"}
CLAUSE = re.compile(r"(?m)^\s*(?:ghost use [^;]*;|(?:pub )?(?:requires|ensures|ghost|invariant)\b[^{;]*\{)")


def snake(word):
    return re.sub(r"([a-z0-9])([A-Z])", lambda m: m.group(1) + "_" + m.group(2).lower(), word)


def files(ending):
    for folder, dirs, names in os.walk("crates"):
        dirs.sort()
        for name in sorted(names):
            if name.endswith(ending):
                yield os.path.join(folder, name)


def bare(text, at):
    return text[at - 1 : at] != "."


def clauses(text):
    """The parts of a source that antt reads: ghost use lines and clauses."""
    for m in CLAUSE.finditer(text):
        end = m.end()
        if not m.group(0).lstrip().startswith("ghost use"):
            depth = 1
            while depth:
                depth += {"{": 1, "}": -1}.get(text[end], 0)
                end += 1
        yield m.start(), end


def respell(text, new, lemmas):
    def word(m):
        w = m.group(0)
        if w in new:
            return new[w]
        if w in lemmas and bare(text, m.start()) and not re.match(r"\s*=", text[m.end() :]) :
            return w + "_lem"
        if w in lemmas and bare(text, m.start()) and re.match(r"^\s*$", text[text.rfind("\n", 0, m.start()) + 1 : m.start()]) and starts(text, m):
            return w + "_lem"
        return w

    def starts(text, m):
        """A definition's own line: its signature stands above it."""
        indent = text[text.rfind("\n", 0, m.start()) + 1 : m.start()]
        sign = re.compile(r"(?m)^" + re.escape(indent) + r"(?:(?:pub|abbrev|unfoldable) )*" + re.escape(m.group(0)) + r" :")
        return bool(sign.search(text[: m.start()]))

    return re.sub(TOKEN, word, text)


def main():
    texts = {p: open(p, encoding="utf-8").read() for p in files(".antt")}
    words, signed = set(), set()
    for p, t in texts.items():
        t = re.sub(r"--.*", "", t)
        words |= set(re.findall(TOKEN, t))
        for m in re.finditer(r"(?m)^\s*(?:(?:pub|abbrev|unfoldable|ruleset) )*(" + TOKEN + r")(?: \{[^}]*\})* [:=]", t):
            if not re.match(r"\s*" + TOKEN + r" =", m.group(0)):
                signed.add(m.group(1))
    new = {w: snake(w) for w in words if CAMEL.match(w)}
    if len(set(new.values())) != len(new):
        sys.exit("two names fall together")
    lemmas = {w for w in set(new.values()) & words if w in signed}
    print(f"{len(new)} names, {len(lemmas)} lemmas with _lem: {' '.join(sorted(lemmas))}")
    sources = {p: open(p, encoding="utf-8").read() for p in files(".rt")}
    for p, t in sources.items():
        for m in re.finditer(r"fn (\w+)(?:<[^>]*>)?\(([^)]*)\)[^{;]*?((?:\n\s*(?:requires|ensures)[^\n]*)+)", t):
            taken = set(re.findall(r"(\w+):", m.group(2)))
            hidden = taken & {new[w] for w in re.findall(TOKEN, m.group(3)) if w in new}
            if hidden:
                print(f"{p}: {m.group(1)}: a parameter hides {hidden}")
    for p, t in texts.items():
        mine = dict(new)
        if p in FACT_FILES:
            mine |= {old: fact for (_, old), fact in FACTS.items()}
        out = respell(t, mine, lemmas)
        if out != t:
            open(p, "w", encoding="utf-8").write(out)
    for p, t in sources.items():
        out, at = [], 0
        for start, end in clauses(t):
            out += [t[at:start], respell(t[start:end], new, lemmas)]
            at = end
        out = "".join(out) + t[at:]
        if out != t:
            open(p, "w", encoding="utf-8").write(out)


main()
