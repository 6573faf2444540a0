"""Shared by the measurements in this folder: runs of a program within limits, and tables of two programs.

Seconds are processor seconds (user and system), so that they say little of what else the machine does. MB are 10^6 bytes, and the
peak memory of the program alone: a process that Python starts counts the memory of Python as its own, so each run is started by a
small program in C (LAUNCHER). It is compiled once for each measurement, which needs a C compiler.
"""
import argparse
import json
import os
import shutil
import subprocess
import sys
import tempfile

TOP = os.path.dirname(os.path.dirname(os.path.abspath(__file__)))
PROGRAM = os.path.join(TOP, "bin", "yangcheck")
MOST_SECONDS = 60
MOST_BYTES = 8_000_000_000
RUNS = 3
# No further run of an input begins after so many seconds of runs.
ENOUGH_SECONDS = 5

# Runs a command, and writes its status as wait4 gives it, its processor seconds, and its peak memory in KiB.
# The words are: the file to write, the limit in seconds, the limit in bytes, and the command.
LAUNCHER = r"""
#define _GNU_SOURCE
#include <signal.h>
#include <stdio.h>
#include <stdlib.h>
#include <sys/prctl.h>
#include <sys/resource.h>
#include <sys/wait.h>
#include <unistd.h>
static void limit(int what, unsigned long most) {
    struct rlimit both = {most, most};
    setrlimit(what, &both);
}
int main(int count, char **words) {
    if (count < 5) return 2;
    pid_t child = fork();
    if (child < 0) return 3;
    if (child == 0) {
        prctl(PR_SET_PDEATHSIG, SIGKILL);
        limit(RLIMIT_CORE, 0);
        limit(RLIMIT_CPU, strtoul(words[2], NULL, 10));
        limit(RLIMIT_AS, strtoul(words[3], NULL, 10));
        execv(words[4], words + 4);
        _exit(127);
    }
    int status;
    struct rusage used;
    if (wait4(child, &status, 0, &used) != child) return 3;
    FILE *out = fopen(words[1], "w");
    if (!out) return 3;
    double user = used.ru_utime.tv_sec + used.ru_utime.tv_usec / 1e6;
    double system = used.ru_stime.tv_sec + used.ru_stime.tv_usec / 1e6;
    fprintf(out, "%d %.6f %ld\n", status, user + system, used.ru_maxrss);
    return fclose(out) ? 3 : 0;
}
"""


class Run:
    """What a run took: processor seconds, MB, exit status (None: a signal ended it), and the first line that it wrote."""

    def __init__(self, seconds, megabytes, status, first):
        self.seconds, self.megabytes, self.status, self.first = seconds, megabytes, status, first

    def is_stopped(self):
        """Whether the run was stopped at the limit in seconds, which is never less than one."""
        return self.status is None and self.seconds > 0.9

    def shown_seconds(self):
        """The seconds as a table shows them, with a `>` if the run was stopped."""
        if self.status is None:
            return f"> {self.seconds:.0f}" if self.is_stopped() else "crash"
        return f"{self.seconds:.3f}" if self.seconds < 1 else f"{self.seconds:.2f}"


class Machine:
    """Runs programs, each within the same limits."""

    def __init__(self, seconds=MOST_SECONDS, runs=RUNS, most_bytes=MOST_BYTES):
        self.seconds, self.runs, self.bytes = seconds, runs, most_bytes
        self.home = tempfile.TemporaryDirectory()
        self.launcher = os.path.join(self.home.name, "launcher")
        compiler = shutil.which("cc") or shutil.which("gcc") or shutil.which("clang")
        if not compiler:
            sys.exit("bench: measuring needs a C compiler (Debian: gcc and libc6-dev)")
        subprocess.run([compiler, "-O1", "-x", "c", "-o", self.launcher, "-"], input=LAUNCHER.encode(), check=True)

    def run(self, words, folder, quiet=False, stdin=os.devnull):
        """Runs a command once. If it is quiet, what it writes is dropped, and no first line is kept."""
        report = os.path.join(self.home.name, "report")
        launch = [self.launcher, report, str(self.seconds), str(self.bytes), *words]
        with tempfile.TemporaryFile() as kept, open(stdin, "rb") as read:
            out = subprocess.DEVNULL if quiet else kept
            subprocess.run(launch, cwd=folder, stdin=read, stdout=out, stderr=subprocess.DEVNULL, check=True)
            kept.seek(0)
            first = kept.readline(60).decode("utf-8", "replace").strip()
        with open(report, encoding="utf-8") as lines:
            status, seconds, memory = lines.read().split()
        return Run(float(seconds), int(memory) * 1024 / 1e6, code_of(int(status)), first)

    def best(self, words, folder, quiet=False, stdin=os.devnull):
        """The run that took the fewest seconds, of as many as are wanted, or of fewer where runs take long."""
        done = []
        while len(done) < self.runs and sum(run.seconds for run in done) < ENOUGH_SECONDS:
            done.append(self.run(words, folder, quiet, stdin))
            if done[-1].status is None:
                return done[-1]
        return min(done, key=lambda run: run.seconds)


def code_of(status):
    """The exit status of a process that ended by itself, or None."""
    return os.WEXITSTATUS(status) if os.WIFEXITED(status) else None


class Input:
    """Files, and the words for yangcheck and yanglint (None: yanglint is not tried) after the name of the program.

    `make` returns the text of each file by its name. It is called when the input is written, so that inputs that are left out
    cost nothing.
    """

    def __init__(self, name, make, ours, theirs=None):
        self.name, self.make, self.ours, self.theirs = name, make, ours, theirs

    def write(self, folder):
        """Writes the files into a folder. Returns the bytes of the modules, and of the rest."""
        sizes = [0, 0]
        for name, text in self.make().items():
            with open(os.path.join(folder, name), "w", encoding="utf-8") as out:
                out.write(text)
            sizes[not name.endswith(".yang")] += os.path.getsize(os.path.join(folder, name))
        return tuple(sizes)


def compiled(name, make, *options):
    """An input that both programs compile. `make` returns the text of a module."""
    return Input(name, lambda: {"ex.yang": make()}, ["compile", *options, "ex.yang"], ["ex.yang"])


def validated(name, make, kind="data"):
    """An input that both programs validate. `make` returns the text of a module and a document, which is a text or not yet one."""
    def files():
        module, document = make()
        return {"ex.yang": module, "data.json": document if isinstance(document, str) else json.dumps(document, separators=(",", ":"))}
    return Input(name, files, ["validate", "--data", "data.json", "ex.yang"], ["-t", kind, "ex.yang", "data.json"])


class Pair:
    """The runs of the programs on an input (None: it was not tried), and the bytes of its modules and of its document."""

    def __init__(self, name, sizes, ours, theirs, floor):
        self.name, self.sizes, self.ours, self.theirs, self.floor = name, sizes, ours, theirs, floor

    def times(self):
        """The seconds of yangcheck as a multiple of those of yanglint, or None unless both accept the input."""
        if self.theirs is None or self.theirs.status != 0 or self.ours.status != 0:
            return None
        return self.ours.seconds / max(self.theirs.seconds, 0.000_001)

    def times_floor(self):
        """The seconds of yangcheck as a multiple of those that reading the document takes, or None if that was not tried."""
        return self.ours.seconds / max(self.floor.seconds, 0.000_001) if self.floor else None


def pair(machine, programs, item):
    """Runs the programs on an input. That of bench/floor is run if it is there and the input has a document."""
    with tempfile.TemporaryDirectory() as folder:
        sizes = item.write(folder)
        data = os.path.join(folder, "data.json")
        ours = machine.best([programs["yangcheck"], *item.ours], folder)
        theirs = floor = None
        if item.theirs is not None and programs["yanglint"]:
            theirs = machine.best([programs["yanglint"], *item.theirs], folder)
        if programs["floor"] and os.path.exists(data):
            floor = machine.best([programs["floor"]], folder, stdin=data)
    return Pair(item.name, sizes, ours, theirs, floor)


HEADING = "yangcheck      MB  yanglint      MB  times  floor       KB  input (what yangcheck wrote)"


def ratio(number):
    return "-" if number is None else f"{number:.2f}"


def row(found):
    """A line of the table of two programs."""
    theirs, times = found.theirs, found.times()
    beside = f"{theirs.shown_seconds():>9} {theirs.megabytes:>7.0f}" if theirs else f"{'-':>9} {'-':>7}"
    ratios = f"{ratio(times):>6} {ratio(found.times_floor()):>6}"
    slower = "  SLOWER" if times is not None and times > 1 else ""
    ours = f"{found.ours.shown_seconds():>9} {found.ours.megabytes:>7.0f}"
    return f"{ours} {beside} {ratios} {sum(found.sizes) // 1000:>8}  {found.name} ({found.ours.first}){slower}"


def programs_of(given):
    """The paths of the programs, by the words of the command line. A program that is not there has None."""
    floor = os.path.abspath(given.floor) if given.floor else None
    return {"yangcheck": os.path.abspath(given.program), "yanglint": shutil.which("yanglint"), "floor": floor}


def arguments(about):
    """The arguments that measurements share."""
    words = argparse.ArgumentParser(description=about, formatter_class=argparse.RawDescriptionHelpFormatter)
    words.add_argument("program", nargs="?", default=PROGRAM, help="the yangcheck to measure (default: bin/yangcheck)")
    words.add_argument("--floor", metavar="PATH", help="the program that bench/floor made, to compare documents with")
    words.add_argument("--only", default="", metavar="TEXT", help="only inputs with TEXT in their name")
    words.add_argument("--runs", type=int, default=RUNS, help=f"runs of each input, of which the best counts (default: {RUNS})")
    words.add_argument("--most", type=int, default=MOST_SECONDS, metavar="SECONDS", help=f"stop a run after these (default: {MOST_SECONDS})")
    words.add_argument("--memory", type=float, default=MOST_BYTES / 1e9, metavar="GB", help="what a run may take (default: 8)")
    return words


def machine_of(given):
    """The machine with the limits of the command line."""
    return Machine(given.most, given.runs, int(given.memory * 1e9))


def compare(about, inputs):
    """Measures both programs on inputs by the words of the command line, and prints a line for each."""
    given = arguments(about).parse_args()
    print_rows(given, machine_of(given), programs_of(given), inputs)


def print_rows(given, machine, programs, inputs):
    """Measures both programs on those of the inputs that are asked for, and prints a line for each."""
    print(HEADING)
    for item in inputs:
        if given.only in item.name:
            print(row(pair(machine, programs, item)), flush=True)
