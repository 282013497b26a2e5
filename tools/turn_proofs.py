#!/usr/bin/env python3
"""Turns the walked proofs of a crate (proofs/F/Proof.antt) into Invariants.antt and Answers.antt, the form that today's check reads.

usage: python3 tools/turn_proofs.py CRATE..    at the top of the repository

`rt check --generated --old-names` lists each goal's old and new name. An answer that only says `search rules` goes, since the check tries
that by itself. A function that calls itself is left as it is, and named.
"""
import glob
import json
import os
import re
import shutil
import subprocess
import sys
import tempfile

TOKEN = r"[^\s(){}\[\].,;⌜⌝]+"


def flat(word):
    return word.replace("-", "_")


def declarations(text):
    """Name, type, unfolding line, parameters and body of each declaration, and the use lines."""
    uses, found = [], []
    for block in re.split(r"\n\s*\n", text):
        lines = [l for l in block.split("\n") if not l.startswith("--")]
        uses += [l for l in lines if l.startswith("use ")]
        lines = [l for l in lines if l.strip() and not l.startswith("use ")]
        if not lines:
            continue
        m = re.match(r"(?:pub |abbrev )*(\S+) : (.*)", lines[0])
        if not m:
            raise ValueError("cannot read: " + lines[0])
        rest = lines[1:]
        sign = m.group(2)
        while rest and not re.match(r"(unfolding |" + re.escape(m.group(1)) + r"\b)", rest[0]):
            sign += "\n" + rest.pop(0)
        unfolding = rest.pop(0) if rest and rest[0].startswith("unfolding ") else ""
        head, _, first = rest[0].partition("=")
        body = "\n".join(([first.strip()] if first.strip() else []) + rest[1:])
        found.append((m.group(1), sign, unfolding, head.split()[1:], body.strip("\n")))
    return uses, found


def steps(text, named):
    """A path of the old walk without its .before, each step by its new name."""

    def path(m):
        parts = [p for p in m.group(0).split(".") if p != "before"]
        return ".".join([parts[0]] + [named.get(flat(p), p) for p in parts[1:2]] + parts[2:])

    return re.sub(r"(?<![\w.'-])c(?:\." + TOKEN + r")+", path, text)


def turn(crate, folder, old):
    text = open(os.path.join(folder, "Proof.antt"), encoding="utf-8").read()
    uses, found = declarations(text)
    own = ".".join(["Rattle", crate, "proofs"] + folder.split("/proofs/")[1].split("/"))
    keep = [u for u in uses if not re.search(r"\.(Statement\.\{statement\}|Tie as tie|Reads as \S+|Lts as lts)", u)]
    named = {flat(p[2][0]): p[2][1] for p in old["places"] if p[2][0]}
    goals = [(a, b) for a, b in old["needs"]]
    invariants, answers, said = [], [], []
    loops = old["loops"]
    seen = {"invariant": 0, "decreases": 0}
    asked = [d for d in found if d[1].startswith("tie.Need")]
    order = re.search(r"tie\.spec\s*([^)]*)\)", found[-1][4])
    places = [w for w in (order.group(1).split() if order else []) if w in {d[0] for d in asked}]
    for name, sign, unfolding, params, body in found:
        m = re.match(r"tie\.(invariant|decreases)", sign)
        if m:
            kind = m.group(1)
            at = seen[kind]
            seen[kind] += 1
            (_, loop), variables = loops[at]
            changed = old["changed"][at]
            words = [("l.initial." if c else "l.") + v for v, c in zip(variables, changed)]
            words += ["l." + v for v, c in zip(variables, changed) if c]
            if len(words) < len(params):
                # a value that the walk kept and the check keeps no more
                params = [p for p in params if not re.fullmatch(r"t\d+", p) or p in variables]
            if len(words) != len(params):
                said.append(f"{folder}: {name} has {len(params)} parameters, expected {words}")
            table = dict(zip(params, words))
            new = re.sub(TOKEN, lambda t: table.get(t.group(0), t.group(0)) if body[t.start() - 1 : t.start()] != "." else t.group(0), body)
            if kind == "invariant" and new.strip() == "Unit {0}":
                continue
            invariants.append(f"abbrev pub {kind}-{loop} : goal.{kind}-{loop}\n" + (unfolding + "\n" if unfolding else "") + f"{kind}-{loop} l =\n    {new.strip()}\n")
        elif sign.startswith("tie.Need"):
            if body.strip() == "search rules" and not unfolding:
                continue
            if len(places) == len(goals):
                goal = goals[places.index(name)][1]
            else:
                by = {flat(a): b for a, b in goals}
                needed = re.match(r"tie\.Need-(\S+)", sign).group(1)
                goal = by.get(flat(needed), by.get(flat(needed.replace("overflow-", ""))))
                if goal is None:
                    said.append(f"{folder}: no goal for {name}")
                    continue
            answers.append(f"pub {goal} : goal.{goal}\n" + (unfolding + "\n" if unfolding else "") + f"{goal} c =\n    {steps(body.strip(), named)}\n")
        elif not re.search(r"[-_]spec$", name):
            head = " ".join([name] + params)
            answers.insert(0, f"{name} : {sign}\n" + (unfolding + "\n" if unfolding else "") + f"{head} =\n    {body.strip()}\n")
    head = "\n".join(keep)
    for file, parts, module in [("Invariants.antt", invariants, "Given"), ("Answers.antt", answers, "Goals")]:
        if parts:
            with open(os.path.join(folder, file), "w", encoding="utf-8") as out:
                out.write(f"{head}\nuse {own}.{module} as goal\n\n" + "\n".join(parts))
    os.remove(os.path.join(folder, "Proof.antt"))
    if not os.listdir(folder):
        os.rmdir(folder)
    return said


def main():
    for crate in sys.argv[1:]:
        folder = os.path.join("crates", crate)
        names = tempfile.mkdtemp()
        subprocess.run(["rt", "check", "--generated", names, "--old-names"], cwd=folder, stdout=subprocess.DEVNULL, stderr=subprocess.STDOUT)
        table = json.load(open(os.path.join(names, "names.json")))
        shutil.rmtree(names)
        count = 0
        for file in sorted(glob.glob(folder + "/proofs/**/Proof.antt", recursive=True)):
            where = os.path.dirname(file)
            if "/+" in where:
                print("by hand: " + where)
                continue
            key = f"Rattle-{crate}-proofs." + where.split("/proofs/")[1].replace("/", ".") + ".Lts"
            if key not in table:
                print(f"no names: {where}")
                continue
            try:
                for line in turn(crate, where, table[key]):
                    print(line)
                count += 1
            except Exception as e:  # left as it is, and named
                print(f"{where}: {e!r}")
        print(f"{crate}: {count} turned")
        subprocess.run([sys.executable, os.path.join(os.path.dirname(os.path.abspath(__file__)), "name_clauses.py"), crate], stdout=subprocess.DEVNULL)


main()
