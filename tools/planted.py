#!/usr/bin/env python3
"""Plants each bug of docs/PLANTED.md once more, and says where the check refuses another place than the row has:
planted.py [CRATE..], at the top of a checkout.

Works in a copy of the checkout, with a check at a time. Ends with status 1 if a bug passes, or is refused elsewhere.
"""
import pathlib
import re
import shutil
import subprocess
import sys
import tempfile

sys.dont_write_bytecode = True
from coverage import sources

ROW = re.compile(r"\| `(.*?)` \| `((?:[^`|]|\\\|)*)` → `((?:[^`|]|\\\|)*)` \| .* \| `(\S+)`, `(\S+)` \|$")
OPEN = re.compile(r"(?:note: )?(?:\./)?((?:src|proofs|specs)/\S+?):\d+:\d+: (?:error: `(\S+)`|.*(?:not proved|no proof).*?\(`(\S+?)`\))")


def planted():
    """Each row that stands under a crate: the crate, the function, the old text and the new, and what refused it."""
    heading = None
    for line in pathlib.Path("docs/PLANTED.md").read_text().split("\n"):
        if line.startswith("## "):
            heading = line[3:]
        elif (row := ROW.match(line)) and pathlib.Path("crates", heading).is_dir():
            name, old, new, file, goal = (part.replace("\\|", "|") for part in row.groups())
            yield heading, name, old, new, (file, goal)


def refused(crate):
    """What the check of the crate names first: a file and a goal; None where it passes."""
    ran = subprocess.run(["rt", "check"], cwd=crate, stdout=subprocess.PIPE, stderr=subprocess.STDOUT, text=True)
    if ran.returncode == 0:
        return None
    for line in ran.stdout.split("\n"):
        if found := OPEN.match(line):
            return found.group(1), found.group(2) or found.group(3)
    return "?", ran.stdout.split("\n")[-2]


def main():
    copy = pathlib.Path(tempfile.mkdtemp()) / "checkout"
    shutil.copytree(".", copy, symlinks=True)
    other = 0
    for name, function, old, new, place in planted():
        if sys.argv[1:] and name not in sys.argv[1:]:
            continue
        crate = copy / "crates" / name
        hits = [f for f in sources(crate) if f[1] == function and old in f[3]]
        if len(hits) != 1:
            print(f"{name}: {function}: in {len(hits)} functions: {old}", flush=True)
            other += 1
            continue
        file, _, _, text = hits[0]
        whole = file.read_text()
        file.write_text(whole.replace(text, text.replace(old, new, 1), 1))
        now = refused(crate)
        file.write_text(whole)
        if now != place:
            print(f"{name}: {function}: {old} → {new}: {now or 'PASSED'}, where {place} stands", flush=True)
            other += 1
    shutil.rmtree(copy.parent)
    sys.exit(other > 0)


main()
