#!/usr/bin/env python3
"""Drops from Invariants.antt and Answers.antt the imports that nothing below them names.

usage: python3 tools/trim_uses.py CRATE..    at the top of the repository, after tools/turn_proofs.py
"""
import glob
import re
import sys

TOKEN = r"[^\s(){}\[\].,;⌜⌝]+"


def main():
    for crate in sys.argv[1:]:
        for path in glob.glob(f"crates/{crate}/proofs/**/*.antt", recursive=True):
            if not path.endswith(("/Answers.antt", "/Invariants.antt")) or path.count("/") < 4:
                continue
            text = open(path, encoding="utf-8").read()
            lines = text.split("\n")
            body = "\n".join(l for l in lines if not l.startswith(("use ", "--")))
            words = set(re.findall(TOKEN, body)) | ({"[]"} if "[]" in body else set())
            out = []
            for line in lines:
                m = re.match(r"use (\S+)\.\{(.*)\}$", line)
                if m:
                    names = [n.strip() for n in m.group(2).split(",")]
                    keep = [n for n in names if n.split(" as ")[-1].strip("◌") in words or n.split(" as ")[-1] in words]
                    if keep:
                        out.append(f"use {m.group(1)}.{{{', '.join(keep)}}}")
                    continue
                out.append(line)
            new = "\n".join(out)
            if new != text:
                open(path, "w", encoding="utf-8").write(new)


main()
