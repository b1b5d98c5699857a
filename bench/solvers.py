"""Our programs and Gecode: how they are started, and which plan they answer."""
import re
import shutil
import subprocess
from pathlib import Path

BENCH = Path(__file__).resolve().parent
CRATES = BENCH.parent / "crates"
PLANNER = CRATES / "planner/out/planner"
DESK = CRATES / "desk/out/desk"
# What is left of a run on these is the program's start.
SMALL_JOB = CRATES / "desk/data/job"
SMALL_PROBLEM = "var 0..1: x0;\nsolve satisfy;\n"
NO_PLAN = "no plan"


def build(program):
    """Proves and builds the program of that crate, which stays as out/NAME there."""
    crate = CRATES / program
    args = crate / "args"
    command = ["rt", "run"] + (["--", *args.read_text().split()] if args.exists() else [])
    print(f"building {program}", flush=True)
    with open(crate / "stdin", "rb") as stdin:
        built = subprocess.run(command, cwd=crate, stdin=stdin, stdout=subprocess.PIPE, stderr=subprocess.STDOUT)
    if built.returncode != 0:
        raise SystemExit(f"{program} is not built:\n{built.stdout.decode(errors='replace')[-4000:]}")


def gecode(problem):
    """The command that solves a FlatZinc file on one thread, or None where Gecode is not installed."""
    program = shutil.which("fzn-gecode")
    return program and [program, "-p", "1", "-s", str(problem)]


def our_plan(output):
    """The last line that the planner or the desk prints."""
    lines = output.splitlines()
    return lines[-1] if lines else ""


def gecode_plan(output):
    """The same line, made of what Gecode prints; empty where it was stopped before it knew."""
    if "=====UNSATISFIABLE=====" in output:
        return NO_PLAN
    counts = {int(cell): count for cell, count in re.findall(r"^x(\d+) = (\d+);$", output, re.M)}
    return f"plan {' '.join(counts[cell] for cell in range(len(counts)))}" if counts else ""


def gecode_nodes(output):
    """The nodes of its search, of its statistics."""
    found = re.search(r"^%%%mzn-stat: nodes=(\d+)$", output, re.M)
    return int(found.group(1)) if found else None
