"""What the Python parts in tests/parts share: their arguments, their tests, and their last line.

A part defines functions `test_NAME(program)` and ends with `sys.exit(checks.run_part(__doc__, globals()))`. A test fails by an exception.
It is skipped if a tool that it needs is not installed; tests/needs names the Debian packages of these tools.
"""
import argparse
import os
import shutil
import subprocess
import sys

TOP = os.path.dirname(os.path.dirname(os.path.abspath(__file__)))
PROGRAM = os.path.join(TOP, "bin", "yangcheck")


class Skipped(Exception):
    """Says why a test is not run."""


def need(*tools):
    """Skips the test unless all these tools are installed."""
    missing = [tool for tool in tools if not shutil.which(tool)]
    if missing:
        raise Skipped(f"{', '.join(missing)} not installed")


def need_plain(program):
    """Skips the test for a program that is built to find faults of memory: it needs much more memory than the program that is shipped."""
    with open(program, "rb") as file:
        if b"__asan_init" in file.read():
            raise Skipped("this program is instrumented")


def equal(found, wanted, what):
    """Fails unless two values are equal."""
    if found != wanted:
        raise AssertionError(f"{what}:\n  found  {found!r}\n  wanted {wanted!r}")


def environment(**more):
    """The variables for a command: those that are set here, without those that git sets for a hook, and some more."""
    return {**{name: value for name, value in os.environ.items() if not name.startswith("GIT_")}, **more}


def run(words, **options):
    """Runs a command, and returns its status and output as text."""
    options = {"env": environment(), "stdin": subprocess.DEVNULL, "stdout": subprocess.PIPE, "stderr": subprocess.PIPE, **options}
    return subprocess.run(words, encoding="utf-8", errors="replace", check=False, timeout=300, **options)


def succeed(words, **options):
    """Runs a command that must end with status 0, and returns its standard output."""
    ran = run(words, **options)
    if ran.returncode != 0:
        raise AssertionError(f"{words}: status {ran.returncode}\n{ran.stdout}{ran.stderr}")
    return ran.stdout


def read(*names):
    """The text of a file of the repository."""
    with open(os.path.join(TOP, *names), encoding="utf-8") as file:
        return file.read()


def write(folder, name, text):
    """Writes a file in a folder, and returns its path."""
    path = os.path.join(folder, name)
    os.makedirs(os.path.dirname(path), exist_ok=True)
    with open(path, "w", encoding="utf-8") as file:
        file.write(text)
    return path


def copy_repository(folder, program, *names):
    """Copies files and folders of the repository to a folder, with the program as its bin/yangcheck. Returns the folder."""
    for name in names:
        source, target = os.path.join(TOP, name), os.path.join(folder, name)
        os.makedirs(os.path.dirname(target), exist_ok=True)
        (shutil.copytree if os.path.isdir(source) else shutil.copy)(source, target)
    os.makedirs(os.path.join(folder, "bin"), exist_ok=True)
    shutil.copy(program, os.path.join(folder, "bin", "yangcheck"))
    return folder


def files_below(folder):
    """The paths of all files below a folder, sorted."""
    found = [os.path.join(at, name) for at, _, names in os.walk(folder) for name in names]
    return sorted(os.path.relpath(path, folder) for path in found)


def arguments(about, has_release=False, folders=()):
    """The arguments of a part: the program, the text that names of tests must contain, and, if it has that, whether it is for a release.

    Further options may name a folder each: `folders` has their names, and what each is.
    """
    words = argparse.ArgumentParser(description=about, formatter_class=argparse.RawDescriptionHelpFormatter)
    words.add_argument("--program", default=PROGRAM, metavar="PATH", help="the program to test (bin/yangcheck)")
    words.add_argument("--only", default="", metavar="TEXT", help="only the tests whose names contain TEXT")
    if has_release:
        words.add_argument("--release", action="store_true", help="fail where a test would be skipped")
    for name, what in folders:
        words.add_argument(f"--{name}", metavar="DIR", type=os.path.abspath, help=what)
    return words.parse_args()


def run_part(about, names):
    """Runs the tests among the names of a module by the arguments of the process, and returns the exit status."""
    return run_tests(names, arguments(about))


def run_tests(names, given):
    """Runs the tests among some names, prints the number that passed, failed and were skipped, and returns the exit status."""
    program = os.path.abspath(given.program)
    if not os.access(program, os.X_OK):
        print(f"FAILED: there is no program {program}\n0 passed, 1 failed")
        return 1
    counts = {"passed": 0, "failed": 0, "skipped": 0}
    for name, test in names.items():
        name = name.replace("_", "-")
        if name.startswith("test-") and given.only in name[5:]:
            counts[run_test(name[5:], test, program, getattr(given, "release", False))] += 1
    print(f"{counts['passed']} passed, {counts['failed']} failed" + (f", {counts['skipped']} skipped" if counts["skipped"] else ""))
    return 1 if counts["failed"] else 0


def run_test(name, test, program, skips_none=False):
    """Runs a test, and returns whether it passed, failed or was skipped."""
    try:
        test(program)
        return "passed"
    except Skipped as reason:
        print(f"{'FAILED' if skips_none else 'SKIPPED'} {name}: {reason}", flush=True)
        return "failed" if skips_none else "skipped"
    except Exception as error:  # pylint: disable=broad-except  # whatever goes wrong in a test is a failure of that test
        kind = "" if isinstance(error, AssertionError) else f"{type(error).__name__}: "
        print(f"FAILED {name}: {kind}{error}", flush=True)
        return "failed"
