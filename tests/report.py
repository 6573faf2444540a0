"""Runs the parts of the tests, which are the programs of tests/parts, and adds up what they report.

A part prints a line for each test that fails or that is skipped (`SKIPPED name: reason`). Its last line is `N passed, M failed`, or
`N passed, M failed, K skipped`.
"""
import os
import re
import resource
import subprocess
import time

TOP = os.path.dirname(os.path.dirname(os.path.abspath(__file__)))
PARTS = os.path.join(TOP, "tests", "parts")
LAST = re.compile(r"(\d+) passed, (\d+) failed(?:, (\d+) skipped)?")


def part_names():
    """The names of all parts."""
    return sorted(name for name in os.listdir(PARTS) if os.access(os.path.join(PARTS, name), os.X_OK) and "." not in name)


def children_seconds():
    """The processor seconds of all processes that ended below this one."""
    used = resource.getrusage(resource.RUSAGE_CHILDREN)
    return used.ru_utime + used.ru_stime


def summary(passed, failed, skipped):
    """The last line of a report."""
    return f"{passed} passed, {failed} failed" + (f", {skipped} skipped" if skipped else "")


class Report:
    """What the commands that ran so far have reported."""

    def __init__(self):
        self.passed = self.failed = self.skipped = 0
        self.lines, self.skips = [], []

    def run(self, name, words):
        """Runs a command, prints what it prints, and adds the numbers of its last line."""
        print(f"== {name}", flush=True)
        start, used, last = time.monotonic(), children_seconds(), None
        how = {"stdin": subprocess.DEVNULL, "stdout": subprocess.PIPE, "stderr": subprocess.STDOUT, "text": True, "errors": "replace"}
        with subprocess.Popen(words, **how) as ran:
            for line in ran.stdout:
                print(line, end="", flush=True)
                last = LAST.fullmatch(line.strip()) or last
                if line.startswith("SKIPPED"):
                    self.skips.append(f"{name}: {line.strip()}")
        counts = [int(number or 0) for number in last.groups()] if last else [0, 1, 0]
        if ran.returncode and not counts[1]:
            print(f"{name}: ended with status {ran.returncode}")
            counts[1] = 1
        self.add(name, counts, time.monotonic() - start, children_seconds() - used)

    def add(self, name, counts, seconds, used):
        """Adds the numbers of a command, and what it took."""
        self.passed, self.failed, self.skipped = (sum(pair) for pair in zip((self.passed, self.failed, self.skipped), counts))
        self.lines.append(f"{name}: {summary(*counts)}, {seconds:.0f} seconds, {used / 60:.1f} processor minutes")

    def end(self):
        """Prints what each command took, what was skipped, and the sum. Returns the exit status."""
        for line in [*self.lines, *self.skips]:
            print(line)
        if not self.passed + self.failed + self.skipped:
            print("there is no such test")
        print(summary(self.passed, self.failed, self.skipped))
        return 0 if self.passed + self.skipped and not self.failed else 1
