#!/usr/bin/env python3
"""Lists the places in src/ that a design pass looks at: places.py POINT, at the top of a checkout.

Each line is a hit, not a verdict: docs/DESIGN-PASS.md says which hits are places, and what became of them.
"""
import collections
import pathlib
import re
import sys

FILES = sorted(pathlib.Path("crates").glob("*/src/**/*.rt"))
CODE = {f: [l for l in f.read_text().split("\n")] for f in FILES}
GHOST = re.compile(r"^\s*(ghost |ensures|requires|//|use )")

LINES = {
    "1": r"^\s*(pub )?enum |: bool\b|-> bool\b|\b(kind|number|code)[a-z_]*: u(8|16|32)\b|-> u8\b|as u8\b|Option<(Unfit|\w*Fault|Refus\w*)>",
    "3": r"\bfor \w+ in [^{]*\.\.|\bwhile |\bloop \{|\+= 1;|= \w+ \+ 1;|saturating_add\(1\)",
    "4": r"fn (from|to|into|of|at|eq|cmp|clone|fmt|refused|number|kind|write|show|granted|opened|asked|settled)(_\w+)?\b|as u(8|16|32|64|size)\b|print(ln)?!\(|write(ln)?!\(",
    "6": r"\[\w+; \w+\]|\[[^\]]*; \w+\]|Vec<|\b(depth|count|arity|optional|len): u",
    "7": r"\bmatch |\bfn\(|\bdyn ",
}


def functions():
    """Each function as (file, line, name, signature, body)."""
    for f in FILES:
        text = "\n".join(l for l in CODE[f] if not re.match(r"\s*//", l))
        for m in re.finditer(r"^( *)(?:pub(?:\([a-z]+\))? )?(?:final )?fn (\w+)", text, re.M):
            rest = text[m.start():]
            end = re.search(r"^" + m.group(1) + r"\}|;\n\n|\{\}\n|;\n\}", rest, re.M)
            whole = rest[: end.end()] if end else rest
            lines = whole.split("\n")
            head = [l for l in lines if not re.match(r"\s*(ensures|requires)", l)]
            yield f, text[: m.start()].count("\n") + 1, m.group(2), whole, "\n".join(head)


def by_lines(point):
    for f in FILES:
        for n, line in enumerate(CODE[f], 1):
            if not GHOST.match(line) and re.search(LINES[point], line):
                print(f"{f}:{n}: {line.strip()}")


def twins():
    shapes, names, consts = (collections.defaultdict(list) for _ in range(3))
    for f, n, name, whole, head in functions():
        body = head[head.find("{"):]
        shape = re.sub(r"\b\d\w*\b", "0", re.sub(r"\b[A-Za-z_]\w*\b", "w", re.sub(r"\s+", " ", body)))
        if len(shape) > 40:
            shapes[shape].append(f"{f}: {name}")
        names[name].append(f"{f}: {name}")
    for f in FILES:
        for line in CODE[f]:
            m = re.match(r"\s*(?:pub )?const (\w+): \w+ = ([\d_]+);", line)
            if m:
                consts[m.group(2)].append(f"{f}: {m.group(1)}")
    for title, groups in ("same shape", shapes), ("same name", names), ("same constant", consts):
        for group in groups.values():
            if len(group) > 1:
                print(f"{title}: " + ", ".join(group))


def repeated():
    facts, pairs = (collections.defaultdict(set) for _ in range(2))
    for f, n, name, whole, head in functions():
        for clause in re.findall(r"(?:requires|ensures)(?: \w+)? \{ (.*) \}", whole):
            facts[re.sub(r"\b(self|rows|own|file|body|bytes)\b", "_", clause)].add(f"{f}: {name}")
        params = re.search(r"\(([^{]*?)\)(?: ->|\n| \{|;)", head, re.S)
        named = re.findall(r"(\w+): ", params.group(1)) if params else []
        for i, a in enumerate(named):
            for b in named[i + 1:]:
                pairs[a, b].add(f"{f}: {name}")
    for fact, where in sorted(facts.items(), key=lambda x: -len(x[1])):
        if len(where) >= 3:
            print(f"{len(where)} times: {fact}")
    for pair, where in sorted(pairs.items(), key=lambda x: -len(x[1])):
        if len(where) >= 3:
            print(f"{len(where)} functions take {pair[0]} and {pair[1]}: " + ", ".join(sorted(where)))


def proofs():
    total = collections.Counter()
    for f in pathlib.Path("crates").glob("*/proofs/**/*.antt"):
        text = f.read_text()
        kind = f.name if f.name in ("Answers.antt", "Invariants.antt") else "lemmas"
        total[kind + " files"] += 1
        total[kind + " lines"] += text.count("\n")
        if kind == "Answers.antt":
            total["answers"] += len(re.findall(r"^pub .* : goal\.", text, re.M))
        else:
            total["lemmas"] += len(re.findall(r"^(?:pub )?[\w'-]+ :", text, re.M))
    for what, n in sorted(total.items()):
        print(f"{what}: {n}")


if __name__ == "__main__":
    point = sys.argv[1]
    {"2": twins, "5": repeated, "8": proofs}.get(point, lambda: by_lines(point))()
