#!/usr/bin/env python3
"""Spells the repository's own definitions, lemmas and fields as today's Rattle does, after the kit's port.py has run.

usage: python3 tools/respell.py            at the top of the repository

A word that specs/ or proofs/ declares with dashes takes underscores, a type loses its dashes and is in camel case, and a
dash in a local name of a file becomes an underscore. The names that Rattle makes (in Answers.antt and Invariants.antt) and
those of src/ stay. It stops before it writes anything if two names would fall together in a file.
"""

import os
import re
import sys

WORD = r"[^\s(){}.;,@\"«»]+"
MARKS = r"(?:(?:pub|abbrev|unfoldable|pattern|record|data) +)*"
DECLARED = re.compile(rf"(?m)^ *{MARKS}({WORD}(?: {WORD})*?)(?: \{{[^{{}}\n]*\}})*(?: +\([^\n]*?\))? +:(?= )")
LOCAL = [re.compile(rf"\blet ({WORD})"), re.compile(r"λ ([^.\n]*?)\."), re.compile(r"\(([^():\n]+?) :"), re.compile(r"let \(([^()\n]*)\)")]
MADE = ("Answers.antt", "Invariants.antt")
TURNED = (".antt", ".rt", ".edit")


def texts():
    for folder, dirs, files in os.walk("crates"):
        dirs[:] = sorted(d for d in dirs if d != "out")
        for name in sorted(files):
            if name.endswith(TURNED):
                path = os.path.join(folder, name)
                with open(path, encoding="utf-8") as file:
                    yield path, file.read()


def spelled(name):
    name = re.sub(r"(?<![^-])getD(?![^-])", "get_or", name)
    if name[0].isupper():
        head, *rest = name.split("-")
        return head + "".join(part[0].upper() + part[1:] for part in rest)
    return name.replace("-", "_")


def old_names(files):
    names = set()
    for path, text in files:
        if not path.endswith(".antt") or path.endswith(MADE):
            continue
        code = re.sub(r"--[^\n]*", "", text)
        found = [m[1] for m in DECLARED.finditer(code)]
        found += [m[1] for local in LOCAL for m in local.finditer(code)]
        for group in found:
            names |= {word.strip("(){}") for word in group.split()}
    return {n for n in names if re.fullmatch(rf"[A-Za-zℕ][\w]*(-{WORD})?", n) and spelled(n) != n}


def main():
    files = list(texts())
    table = {old: spelled(old) for old in old_names(files)}
    turn = re.compile(rf"(?<![^\s(){{}}.;,@\"«»`]){WORD.replace('»', '»`')}")
    faults, turned = [], []
    by_new = {}
    for old, new in table.items():
        by_new.setdefault(new, []).append(old)
    faults += [f"{' and '.join(olds)} fall together as {new}" for new, olds in by_new.items() if len(olds) > 1]
    for path, text in files:
        words = set(turn.findall(text))
        if path.endswith(".antt"):
            # a clause or a proof can't call a function, so only names of specs/ and proofs/ can fall together; a path may name a function
            apart = set(turn.findall(re.sub(r"(?m)^use Rattle\.[^\s{]*", "use", text)))
        else:
            apart = set()
        faults += [f"{path}: {old} would fall together with {new}" for old, new in table.items() if old in words and new in apart]
        # behind a head of Rattle's own, as `goal.`, the name is one that Rattle makes
        made = path.endswith(MADE)
        out = turn.sub(lambda m: m[0] if made and re.search(r"(?<![\w.])goal\.$", text[: m.start()]) else table.get(m[0], m[0]), text)
        if out != text:
            turned.append((path, out))
    if faults:
        sys.exit("\n".join(faults))
    for path, out in turned:
        with open(path, "w", encoding="utf-8") as file:
            file.write(out)
    for old in sorted(table):
        print(f"{old}\t{table[old]}")


if __name__ == "__main__":
    main()
