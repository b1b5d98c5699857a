#!/usr/bin/env python3
"""Lists the functions of src/ that no must-fail edit and no row of docs/PLANTED.md turns: coverage.py [all], at the top of a checkout.

With `all`, every function, with how many rows and which edits turn it. Tests and functions with no code are left out. Needs
what `rt fmt` writes.
"""
import pathlib
import re
import sys

TESTS = re.compile(r"^#\[cfg\(test\)\]\nmod tests \{.*?^\}", re.M | re.S)
FN = re.compile(r"( *)(?:pub(?:\([a-z]+\))? )?(?:final )?fn (\w+)")
OWNER = re.compile(r"(impl|pub trait)(?:<.*?>)? (?:(.+) for )?(\S.*) \{$")
ROW = re.compile(r"\| `(.*?)` \| `((?:[^`|]|\\\|)*)` → ")


def bare(name):
    """A type's name without its parameters and references."""
    return re.sub(r"&('\w+ )?|<.*>|:.*", "", name)


def functions(text):
    """Each function as (name, first line, text)."""
    lines = TESTS.sub(lambda m: "\n" * m.group(0).count("\n"), text).split("\n")
    owner = None
    for n, line in enumerate(lines):
        if of := OWNER.match(line):
            _, trait, name = of.groups()
            owner = trait + " for " + bare(name) if trait and "From<" in trait else bare(name) + "::"
        elif line == "}":
            owner = None
        if not (fn := FN.match(line)):
            continue
        end, head = n, True
        while lines[end] not in (fn.group(1) + "}", fn.group(1) + "{}") and not (head and lines[end].endswith((";", "{}"))):
            head = head and not lines[end].endswith("{")
            end += 1
        if not lines[end].endswith((";", "{}")):
            yield (owner or "") + ("" if "From<" in (owner or "") else fn.group(2)), n + 1, "\n".join(lines[n : end + 1])


def turned(crate, rows):
    """Each text that an edit or a row turns, as (edit or None, file or function, text)."""
    for edit in sorted((crate / "must-fail").glob("*.edit")):
        for file, old in re.findall(r"file: (.*)|old: (.*)", edit.read_text()):
            if file:
                at = file
            else:
                yield edit.stem, at, old
    for name, old in rows.get(crate.name, ()):
        yield None, name, old


def sources(crate):
    """Each function of a crate as (file, name, first line, text)."""
    files = [p for p in sorted(crate.glob("src/**/*.rt")) if p.name != "tests.rt"]
    return [(p, *f) for p in files for f in functions(p.read_text())]


def main():
    rows, heading = {}, None
    for line in pathlib.Path("docs/PLANTED.md").read_text().split("\n"):
        if line.startswith("## "):
            heading = line[3:]
        elif row := ROW.match(line):
            rows.setdefault(heading, []).append((row.group(1), row.group(2).replace("\\|", "|")))
    for crate in sorted(pathlib.Path("crates").iterdir()):
        found = [(*f, []) for f in sources(crate)]
        for edit, where, old in turned(crate, rows):
            hits = [f for f in found if old in f[3] and where in (f[1], str(f[0].relative_to(crate)))]
            if len(hits) != 1:
                print(f"{crate.name}: in {len(hits)} functions: {edit or where}: {old}", file=sys.stderr)
            for hit in hits:
                hit[4].append(edit)
        for path, name, line, _, edits in found:
            if sys.argv[1:] == ["all"]:
                print(f"{path}:{line}: {name}:", edits.count(None), "rows", *filter(None, edits))
            elif not edits:
                print(f"{path}:{line}: {name}")


if __name__ == "__main__":
    main()
