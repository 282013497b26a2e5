#!/usr/bin/env python3
"""tools/changed.py OLD NEW: what changed between two checkouts, as the last part of docs/DESIGN-PASS.md: signatures, clauses,
definitions and the theorems that docs/CLAIMS.md names, old and new side by side. It reads what the kit's port/contracts.py finds.
"""
import glob
import json
import os
import re
import subprocess
import sys
import textwrap

KIT = "/opt/rattle/port/contracts.py"


def block(old, new):
    out = ["```text"]
    for mark, text in (("old", old), ("new", new)):
        out += textwrap.wrap(text, 116, initial_indent=mark + " ", subsequent_indent="    ", break_long_words=False, break_on_hyphens=False)
    return out + ["```"]


def clauses(xs, word):
    return "; ".join(f"{word} {name + ' ' if name else ''}{{ {text} }}" for name, text in xs)


def signature(root, crate, file, name):
    """a theorem's type, as it stands in specs/ or proofs/"""
    for folder in ("specs", "proofs"):
        path = f"{root}/crates/{crate}/{folder}/{file}.antt"
        if not os.path.exists(path):
            continue
        m = re.search(r"^ *(?:abbrev |unfoldable )?(?:pub )?" + re.escape(name) + r" :(.*?)(?=\n *(?:unfolding |" + re.escape(name) + r"\b)|\n\n)", open(path).read(), re.S | re.M)
        if m:
            return " ".join(m.group(1).split())
    return None


def theorems(root):
    text = open(f"{root}/docs/CLAIMS.md").read()
    for part in re.split(r"\n(?=- |\n)", text):
        one = " ".join(part.split())
        if not one.startswith(("- Theorem", "- Contract", "- Cases", "- ")):
            continue
        for m in re.finditer(r"((?:`[^`]+`(?:, | and )?)+) \((\w+), (?:specs/)?(\w+)[^)]*\)", one):
            for name in re.findall(r"`([^`]+)`", m.group(1)):
                yield m.group(2), m.group(3), name


def main(old, new):
    found = json.loads(subprocess.run([sys.executable, KIT, old, new, "--json"], capture_output=True, text=True).stdout)
    public = set()
    for path in glob.glob(f"{old}/crates/*/src/*.rt"):
        crate = path[len(old) :].split("/")[2]
        public |= {(crate, n) for n in re.findall(r"^ *pub fn (\w+)", open(path).read(), re.M)}
    print("### Signatures of public functions\n")
    for where, a, b in found["signatures changed"]:
        crate, _, name = where.split()
        if (crate, name.split("::")[-1]) in public:
            print(f"`{crate}::{name}`\n")
            print("\n".join(block(a, b)) + "\n")
    print("### Clauses\n")
    for where, ra, ea, rb, eb in found["contracts changed"]:
        crate, _, name = where.split()
        kind = "" if (crate, name.split("::")[-1]) in public else " (private)"
        print(f"`{crate}::{name}`{kind}\n")
        print("\n".join(block(clauses(ra, "requires") + " " + clauses(ea, "ensures"), clauses(rb, "requires") + " " + clauses(eb, "ensures"))) + "\n")
    print("### Definitions\n")
    for crate, name, a, b in found["definitions"]["changed"]:
        print(f"`{name}` ({crate})\n")
        print("\n".join(block(" / ".join(a), " / ".join(b))) + "\n")
    print("### Theorems that docs/CLAIMS.md names\n")
    seen = set()
    for crate, file, name in theorems(old):
        a, b = signature(old, crate, file, name), signature(new, crate, file, name)
        if a and a != b and (crate, file, name) not in seen:
            seen.add((crate, file, name))
            print(f"`{name}` ({crate}, {file})\n")
            print("\n".join(block(a, b or "NOT THERE")) + "\n")


main(*sys.argv[1:3])
