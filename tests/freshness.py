"""Says by checksums on which sources the wrong bodies of a crate were tried.

tests/wrong/STATUS and tests/wrong/PLANTED have a line `CRATE DATE KEY NUMBER NUMBER` for each crate
that was tried. The key is a checksum of all that decides whether the prover refuses a wrong body of
the crate: the kit's version, the crate's page of tests/wrong, its own code, definitions and proofs,
and the code and definitions of every crate below it. The proofs of a crate below decide nothing
here, since a crate is proved over the contracts of the others.

A line is fresh while its key is today's. If it is stale, it says nothing of the sources as they are
now. All functions take the top folder of a repository, so they can be tried on a copy.
"""
import datetime
import functools
import hashlib
import os
import re
import shutil
import subprocess
import sys
from collections import namedtuple

TOP = os.path.dirname(os.path.dirname(os.path.abspath(__file__)))
sys.path.append(os.path.join(TOP, "tools"))
import workspace  # noqa: E402

KEY_DIGITS = 12
OWN_PARTS = ("src", "specs", "proofs")
PARTS_BELOW = ("src", "specs")
KIT = re.compile(r"(rattle-kit-\w+)\W+logic\W+([0-9a-f]{16})")
LINE = re.compile(rf"(\w+) +(\d{{4}}-\d\d-\d\d) ([0-9a-f]{{{KEY_DIGITS}}}) (\d+) (\d+)")

# A line: its crate, the day and the key, how many bodies were tried, and a number of them: those
# that were refused, or in PLANTED those that were proved.
Line = namedtuple("Line", "crate date key tried number")


def page_of(crate, top=TOP):
    """The path of a crate's page of wrong bodies."""
    return os.path.join(top, "tests", "wrong", f"{crate}.md")


def kit_in(text):
    """The kit's version that a text gives, in one form: `rattle-kit-13f dac8208d650f15bf`."""
    found = KIT.search(text)
    if not found:
        raise ValueError(f"no version of the Rattle kit is in {text[:60]!r}")
    return f"{found[1]} {found[2]}"


@functools.lru_cache(maxsize=None)
def installed_kit():
    """The version of the kit that is installed, or None where none is."""
    if not shutil.which("rt"):
        return None
    how = {"stdin": subprocess.DEVNULL, "stdout": subprocess.PIPE, "text": True}
    return kit_in(subprocess.run(["rt", "version"], check=True, **how).stdout)


def kit(top=TOP):
    """The version of the kit that is installed, or the one that README names where none is."""
    if installed_kit():
        return installed_kit()
    with open(os.path.join(top, "README.md"), encoding="utf-8") as file:
        return kit_in(file.read())


class Keys:
    """The keys of the crates of a repository, as the files are when each is first asked for."""

    def __init__(self, top=TOP):
        self.top, self.named, self.kit, self.sums = top, workspace.uses(top), kit(top), {}

    def file_sum(self, path):
        """The checksum of a file's path in the repository and of its bytes."""
        with open(path, "rb") as file:
            text = hashlib.sha256(file.read()).digest()
        return os.path.relpath(path, self.top).encode() + b"\0" + text

    def part_sum(self, crate, parts):
        """The checksum of all files in some folders of a crate."""
        if (crate, parts) not in self.sums:
            folders = [os.path.join(workspace.folder_of(crate, self.top), part) for part in parts]
            walks = [step for folder in folders for step in os.walk(folder)]
            paths = sorted(os.path.join(at, name) for at, _, names in walks for name in names)
            made = hashlib.sha256(b"".join(map(self.file_sum, paths)))
            self.sums[crate, parts] = made.digest()
        return self.sums[crate, parts]

    def of(self, crate):
        """The key of a crate."""
        made, page = hashlib.sha256(self.kit.encode()), page_of(crate, self.top)
        made.update(self.file_sum(page) if os.path.exists(page) else b"")
        made.update(self.part_sum(crate, OWN_PARTS))
        for below in sorted(workspace.below(self.named, crate)):
            made.update(self.part_sum(below, PARTS_BELOW))
        return made.hexdigest()[:KEY_DIGITS]


class Record:
    """A file of tests/wrong with a line for each crate that was tried."""

    def __init__(self, name, top=TOP):
        self.name, self.path = name, os.path.join(top, "tests", "wrong", name)

    def texts(self):
        """The lines of the file, those that are comments and all others."""
        with open(self.path, encoding="utf-8") as file:
            texts = [line.strip() for line in file if line.strip()]
        return [it for it in texts if it[0] == "#"], [it for it in texts if it[0] != "#"]

    def lines(self):
        """The lines of the crates, without those that have another form."""
        return [
            Line(found[1], found[2], found[3], int(found[4]), int(found[5]))
            for found in map(LINE.fullmatch, self.texts()[1]) if found
        ]

    def faults(self, named):
        """What is wrong with the file: lines of another form, of no crate, or twice of one."""
        crates = [line.crate for line in self.lines()]
        odd = [text for text in self.texts()[1] if not LINE.fullmatch(text)]
        faults = [f"this is not `CRATE DATE KEY NUMBER NUMBER`: {text}" for text in odd]
        faults += [f"there is no crate {crate}" for crate in crates if crate not in named]
        faults += [f"{it} has two lines" for it in sorted(set(crates)) if crates.count(it) > 1]
        return [f"{self.name}: {fault}" for fault in faults]

    def fresh(self, keys):
        """The lines whose keys are those of today, by crate."""
        known = [line for line in self.lines() if line.crate in keys.named]
        return {line.crate: line for line in known if line.key == keys.of(line.crate)}

    def write(self, crate, key, tried, number):
        """Writes the line of a crate in the place of its old one."""
        head, texts = self.texts()
        rest = [text for text in texts if text.split()[0] != crate]
        day = datetime.date.today().isoformat()
        rest.append(f"{crate:<24} {day} {key} {tried} {number}")
        with open(self.path, "w", encoding="utf-8") as file:
            file.writelines(f"{text}\n" for text in head + sorted(rest))
