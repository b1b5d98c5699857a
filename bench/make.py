#!/usr/bin/env python3
"""Writes the design jobs that are made here, with the same problem in FlatZinc and the plan that must come out.

    bench/make.py               writes bench/design
    bench/make.py --check       says whether the stored ones are those that would be written; plans are left out
    bench/make.py --growth DIR  writes the jobs that grow, which are not stored
"""
import argparse
import sys
from pathlib import Path

sys.dont_write_bytecode = True
import solvers
from design import DESIGNS
from growth import KINDS, STEPS, growth
from meters import Meter

DESIGN = solvers.BENCH / "design"


def main():
    parser = argparse.ArgumentParser(description=__doc__, formatter_class=argparse.RawDescriptionHelpFormatter)
    parser.add_argument("--check", action="store_true")
    parser.add_argument("--growth", type=Path)
    asked = parser.parse_args()
    if asked.growth:
        write_growth(asked.growth)
    elif asked.check:
        other = [name for name, design in DESIGNS.items() if stored(name) != files(design)]
        sys.exit(f"stored otherwise: {' '.join(other)}" if other else 0)
    else:
        for name, design in DESIGNS.items():
            write(name, *files(design))


def files(design):
    job = design.job()
    return job.file(), job.flatzinc().encode()


def stored(name):
    return tuple((DESIGN / f"{name}.{kind}").read_bytes() for kind in ("job", "fzn"))


def write(name, file, problem):
    paths = [DESIGN / f"{name}.{kind}" for kind in ("job", "fzn")]
    for path, content in zip(paths, (file, problem)):
        path.write_bytes(content)
    plans = answers(*paths)
    if len(plans) != 1:
        sys.exit(f"{name}: no plan is known, or two: {plans}")
    (DESIGN / f"{name}.plan").write_text(f"{plans.pop()}\n")


def answers(file, problem):
    """What the planner and Gecode answer, each if it is there."""
    meter = Meter(processor=0, limit=120, runs=1)
    plans = set()
    if solvers.PLANNER.exists():
        plans.add(solvers.our_plan(meter.run([solvers.PLANNER], file).output))
    if command := solvers.gecode(problem):
        plans.add(solvers.gecode_plan(meter.run(command, problem).output))
    return plans


def write_growth(folder):
    folder.mkdir(parents=True, exist_ok=True)
    for kind in KINDS:
        for cells, rules in STEPS:
            job, plan = growth(kind, cells, rules)
            at = folder / f"{kind}-{cells}-{rules}"
            at.with_suffix(".job").write_bytes(job.file())
            at.with_suffix(".fzn").write_text(job.flatzinc())
            at.with_suffix(".plan").write_text(f"plan {' '.join(map(str, plan))}\n")


if __name__ == "__main__":
    main()
