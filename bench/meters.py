"""What a program costs: processor seconds, memory, instructions."""
import os
import re
import resource
import statistics
import subprocess
import tempfile
import time
from dataclasses import dataclass
from pathlib import Path


@dataclass
class Run:
    output: str
    # of the processor, in the program and in the system for it; None if the run was stopped
    seconds: float | None
    # the most memory that was seen
    kilobytes: int


class Meter:
    """Runs on one processor, for at most so many seconds each."""

    def __init__(self, processor, limit, runs):
        self.processor, self.limit, self.runs = processor, limit, runs

    def run(self, command, stdin):
        with tempfile.TemporaryFile() as output, open(stdin, "rb") as source:
            child = subprocess.Popen(command, stdin=source, stdout=output, stderr=subprocess.DEVNULL)
            os.sched_setaffinity(child.pid, {self.processor})
            resource.prlimit(child.pid, resource.RLIMIT_CPU, (self.limit, self.limit))
            used, kilobytes = watched(child)
            output.seek(0)
            seconds = used.ru_utime + used.ru_stime if child.returncode >= 0 else None
            return Run(output.read().decode(), seconds, kilobytes)

    def median(self, command, stdin):
        """The median of several runs; a long one is not made again."""
        runs = [self.run(command, stdin)]
        first = runs[0]
        if first.seconds is None:
            return first
        again = 0 if first.seconds > 4 else 2 if first.seconds > 1 else self.runs - 1
        runs += [self.run(command, stdin) for _ in range(again)]
        first.seconds = statistics.median(run.seconds for run in runs)
        first.kilobytes = max(run.kilobytes for run in runs)
        return first


def watched(child):
    """Waits for the end of a run. The system's own figure for it would be no less than the memory of this script."""
    kilobytes, pause = 0, 0.001
    while True:
        ended, status, used = os.wait4(child.pid, os.WNOHANG)
        if ended:
            child.returncode = os.waitstatus_to_exitcode(status)
            return used, kilobytes
        kilobytes = max(kilobytes, most_resident(child.pid))
        time.sleep(pause)
        pause = min(1.5 * pause, 0.1)


def most_resident(process):
    found = re.search(r"^VmHWM:\s*(\d+) kB", Path(f"/proc/{process}/status").read_text(), re.M)
    return int(found.group(1)) if found else 0


class Counts:
    """Callgrind's counts of a run: its instructions, and how often each function was called by each other."""

    def __init__(self, command, stdin):
        with tempfile.TemporaryDirectory() as folder, open(stdin, "rb") as source:
            file = Path(folder) / "counts"
            counted = ["valgrind", "--tool=callgrind", f"--callgrind-out-file={file}", *command]
            subprocess.run(counted, stdin=source, stdout=subprocess.DEVNULL, stderr=subprocess.DEVNULL, check=False)
            self.read(file.read_text())

    def read(self, told):
        self.instructions = int(re.search(r"^(?:summary|totals): (\d+)", told, re.M).group(1))
        self.calls = []
        names = {}
        caller = callee = ""
        for line in told.splitlines():
            if line.startswith("fn="):
                caller = name_of(line, names)
            elif line.startswith("cfn="):
                callee = name_of(line, names)
            elif line.startswith("calls="):
                self.calls.append((caller, callee, int(line[6:].split()[0])))

    def called(self, callee):
        """How often functions with such names were called, but by each other; None if there are none."""
        found = [often for by, of, often in self.calls if re.search(callee, of) and not re.search(callee, by)]
        return sum(found) if found else None


def name_of(line, names):
    """Callgrind gives a name a number where it first stands, and the number alone from then on."""
    number, name = re.match(r"c?fn=\((\d+)\)(?: (.*))?", line).groups()
    if name:
        names[number] = re.sub(r"'\d+$", "", name)
    return names[number]
