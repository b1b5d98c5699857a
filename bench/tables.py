"""The tables of bench/run."""
import tempfile
from dataclasses import dataclass
from pathlib import Path

import solvers
from growth import KINDS, STEPS, growth
from meters import Counts, Run

DESIGN = solvers.BENCH / "design"
# The functions whose calls are counted, as long as the compiler makes functions of them. After a rule has narrowed its
# own rows they are written back.
COUNTED = {
    "settles": r"settling::settle::settle_(rows|from)",
    "applied": r"::narrow_own",
    "narrowings": r"rules::named::written_back",
}


@dataclass
class Spent:
    """A run, and its cost past the program's start; none if it was stopped, or takes too long to be counted."""

    run: Run | None = None
    cost: float | None = None
    counts: Counts | None = None

    def answer(self, plan_in):
        """The plan that it told, if it came to its end."""
        return [plan_in(self.run.output)] if self.run and self.run.seconds is not None else []


class Table:
    """Costs are seconds, or millions of instructions. A subclass has heads, what it tells of, and how."""

    def __init__(self, meter, count_limit, count):
        self.meter, self.count_limit, self.count = meter, count_limit, count
        self.their_start = 0
        with tempfile.NamedTemporaryFile("w") as problem:
            problem.write(solvers.SMALL_PROBLEM)
            problem.flush()
            self.their_start = self.theirs(problem.name).cost

    def spent(self, command, stdin, start):
        run = self.meter.median(command, stdin)
        if run.seconds is None:
            return Spent(run)
        if not self.count:
            return Spent(run, run.seconds - start)
        if run.seconds > self.count_limit:
            return Spent(run)
        counts = Counts(command, stdin)
        return Spent(run, counts.instructions / 1e6 - start, counts)

    def theirs(self, problem):
        command = solvers.gecode(problem)
        return self.spent(command, problem, self.their_start) if command else Spent()

    def tell_all(self, names):
        """Prints the lines; answers the names of those with a wrong answer."""
        self.print(self.heads)
        wrong = []
        for thing in self.things():
            if names and self.name(thing) not in names:
                continue
            values, right = self.line(thing)
            self.print([*values, "same" if right else "OTHER"])
            if not right:
                wrong.append(self.name(thing))
        return wrong

    def print(self, values):
        padded = [str(value).rjust(max(len(head), 8)) for value, head in zip(values[1:], self.heads[1:])]
        print("  ".join([str(values[0]).ljust(14), *padded]), flush=True)


class Designs(Table):
    def __init__(self, *how):
        super().__init__(*how)
        unit = "M" if self.count else "s"
        more = list(COUNTED) if self.count else ["ours KB", "Gecode KB"]
        self.heads = ("job", f"ours {unit}", f"Gecode {unit}", "ours/Gecode", "nodes", *more, "plan")
        self.our_start = self.spent([solvers.PLANNER], solvers.SMALL_JOB, 0).cost

    def things(self):
        """The jobs that no script here makes, then the others."""
        return sorted(DESIGN.glob("*.job"), key=lambda job: (job.stem[0] != "t", job.stem))

    def name(self, job):
        return job.stem

    def line(self, job):
        ours = self.spent([solvers.PLANNER], job, self.our_start)
        theirs = self.theirs(job.with_suffix(".fzn"))
        plans = ours.answer(solvers.our_plan) + theirs.answer(solvers.gecode_plan)
        stored = job.with_suffix(".plan").read_text().strip()
        nodes = theirs.run and solvers.gecode_nodes(theirs.run.output)
        values = [job.stem, *(self.told(spent) for spent in (ours, theirs)), ratio(ours.cost, theirs.cost)]
        more = self.calls(ours) if self.count else [told(of.run and of.run.kilobytes or None, ",d") for of in (ours, theirs)]
        return [*values, told(nodes, ",d"), *more], all(plan == stored for plan in plans)

    def told(self, spent):
        if spent.run and spent.run.seconds is None:
            return f">{self.meter.limit} s"
        return told(spent.cost, ",.1f" if self.count else ".3f")

    def calls(self, ours):
        return [told(ours.counts and ours.counts.called(functions), ",d") for functions in COUNTED.values()]


class Growths(Table):
    def __init__(self, *how):
        super().__init__(*how)
        costs = [f"{what} {'M' if self.count else 'ms'}" for what in ("read", "settle", "seek", "Gecode")]
        self.heads = ("rules", "cells", "number", "bytes", *costs, "narrowings", "KB", "plan")

    def things(self):
        return [(kind, *step) for kind in KINDS for step in STEPS]

    def name(self, thing):
        return thing[0]

    def line(self, thing):
        job, plan = growth(*thing)
        with tempfile.TemporaryDirectory() as name:
            folder = Path(name)
            file, problem = folder / "job", folder / "problem"
            file.write_bytes(job.file())
            problem.write_text(job.flatzinc())
            start = self.desk(folder, solvers.SMALL_JOB, "", 0)
            read = self.desk(folder, file, "", start.cost)
            before = start.cost + read.cost
            settle, seek = (self.desk(folder, file, call, before) for call in ("settle", "seek"))
            theirs = self.theirs(problem)
        plans = seek.answer(solvers.our_plan) + theirs.answer(solvers.gecode_plan)
        costs = [told(of.cost and of.cost * (1 if self.count else 1000), ",.1f") for of in (read, settle, seek, theirs)]
        narrowings = settle.run.output.split()[-1] if settle.run.output else "-"
        values = [*thing, len(job.file()), *costs, narrowings, told(seek.run.kilobytes or None, ",d")]
        return values, all(one == f"plan {' '.join(map(str, plan))}" for one in plans)

    def desk(self, folder, job, call, start):
        script = folder / "script"
        script.write_text(f"{call}\n" if call else "")
        return self.spent([solvers.DESK, job], script, start)


def told(number, form):
    """A number as it stands in a table; '-' where it is not known."""
    return "-" if number is None else format(number, form)


def ratio(ours, theirs):
    return f"{ours / theirs:.2f}" if ours is not None and theirs else "-"
