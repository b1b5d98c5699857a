"""Compares the statements of proofs/ in two checkouts: python3 tools/lemmas.py OLD NEW

Lists, by crate and name, the lemmas, records and abbreviations of OLD whose text stands nowhere under that name in
NEW: changed where the name still stands in the same crate, gone where it does not. The parameters of the modules
around a statement are a part of its text; answers and invariants, which state nothing of their own, are left out. A
statement that was public and stands nowhere as a public one is listed as private.
"""

import glob
import os
import re
import sys

NOT_STATED = ("Answers.antt", "Invariants.antt", "Lib.antt")
MODULE = re.compile(r"^ *module _ (.*)$")
STATED = re.compile(r"^ *((?:abbrev )?(?:pub )?(?:record )?)([A-Za-z_][A-Za-z0-9_'-]*) (:|\()(.*)$")


def indent(line):
    return len(line) - len(line.lstrip())


def one_line(text):
    return re.sub(r"\s+", " ", re.sub(r"\bpub ", "", text)).strip()


def block(lines, start, deep, whole):
    """The lines after `start` that belong to what it states."""
    taken = []
    for line in lines[start + 1:]:
        if whole == "abbrev" and not line.strip():
            break
        if whole == "record" and line.strip() and indent(line) <= deep:
            break
        if not whole and (not line.strip() or indent(line) <= deep or line.strip().startswith(("where", "--"))):
            break
        if not line.strip().startswith("--"):
            taken.append(line.strip())
    return " ".join(taken)


def statements(path):
    lines = open(path).read().split("\n")
    modules = []
    for at, line in enumerate(lines):
        if not line.strip() or line.strip().startswith(("--", "→")):
            continue
        while modules and modules[-1][0] >= indent(line):
            modules.pop()
        if found := MODULE.match(line):
            text, end = found.group(1), at
            while not text.rstrip().endswith("where"):
                end += 1
                text += " " + lines[end].strip()
            modules.append((indent(line), one_line(text.rstrip()[:-5])))
        elif (found := STATED.match(line)) and found.group(2) not in ("use", "in", "let", "elim", "subst", "rw", "omega"):
            head, name, mark, rest = found.groups()
            if name in ("pub", "record", "abbrev") or (mark == "(" and "record" not in head):
                continue
            whole = "record" if "record" in head else "abbrev" if "abbrev" in head else ""
            around = " ".join(text for _, text in modules)
            yield name, one_line(f"{around} |- {mark}{rest} {block(lines, at, indent(line), whole)}"), "pub " in head


def read(root):
    found, public = {}, set()
    for path in sorted(glob.glob(root + "/crates/*/proofs/**/*.antt", recursive=True)):
        if os.path.basename(path) not in NOT_STATED:
            crate = os.path.relpath(path, root).split("/")[1]
            for name, text, is_public in statements(path):
                found.setdefault((crate, name), []).append(text)
                if is_public:
                    public.add((name, text))
    return found, public


def main():
    (old, were_public), (new, are_public) = read(sys.argv[1]), read(sys.argv[2])
    anywhere = {(name, text) for (_, name), texts in new.items() for text in texts}
    went = [(key, text) for key, texts in sorted(old.items()) for text in texts if (key[1], text) not in anywhere]
    kept = sum(len(texts) for texts in old.values()) - len(went)
    changed = [(key, text) for key, text in went if key in new]
    print(f"stand as they were: {kept}, changed: {len(changed)}, gone: {len(went) - len(changed)}")
    for key, text in went:
        print("changed" if key in new else "gone", *key)
        print("  old", text)
        for now in new.get(key, []):
            print("  new", now)
    for name, _ in sorted((were_public & anywhere) - are_public):
        print("private", name)


main()
