"""The static programs of bin/: what they are linked from, and bin/static.txt, the record of it.

tools/static makes them, `tests/run static` tests them, and tools/package packs them. What a user
needs to link them again is in out/static, which git does not keep: objects, archives, C code and
the script that links.
"""
import filecmp
import hashlib
import os
import re
import shutil
import subprocess
import tempfile

import workspace

ARCHITECTURES = ("x86_64", "aarch64")
PROGRAM = "yangcheck"
SHIPPED = f"bin/{PROGRAM}"
RECORD = "bin/static.txt"
MATERIAL = "out/static"
COMPILERS = {"x86_64": "gcc", "aarch64": "aarch64-linux-gnu-gcc"}
LINKED = {
    "x86_64": (f"{PROGRAM}-x86_64.o", "libos_c.a", "liblibc_c.a"),
    "aarch64": (f"{PROGRAM}-aarch64.o", "runtime.c"),
}
# What the repository and the kit have of the material.
OF_REPOSITORY = {"runtime.c": "tools/aarch64/runtime.c", "relink": "tools/relink"}
OF_KIT = ("libos_c.a", "liblibc_c.a")

HEAD = """\
# What the static programs of bin/ were linked from, and with. tools/static writes this file, and
# `tests/run static` compares it. `grep -h '^[0-9a-f]' bin/static.txt | sha256sum --check` does so too.
"""


def program_of(architecture):
    """The path of a static program in the repository."""
    return f"bin/{PROGRAM}-{architecture}-static"


def target_of(architecture):
    """The name of an architecture for the Rattle kit."""
    return f"{architecture}-unknown-linux-gnu"


def built_object(top=workspace.TOP):
    """The path of the object that a build of the program leaves for x86-64."""
    return os.path.join(workspace.folder_of(PROGRAM, top), "out", f"{PROGRAM}.o")


def object_of(architecture):
    """The path in the repository of the object of which a static program is linked."""
    return f"{MATERIAL}/{LINKED[architecture][0]}"


def recorded_files():
    """The paths of all files that the record has a checksum of."""
    material = sorted({name for names in LINKED.values() for name in names} | {"relink"})
    programs = [program_of(architecture) for architecture in ARCHITECTURES]
    return [SHIPPED, *programs, *(f"{MATERIAL}/{name}" for name in material)]


def sum_of(path):
    """The checksum of a file, or None where there is no such file."""
    if not os.path.isfile(path):
        return None
    with open(path, "rb") as file:
        return hashlib.sha256(file.read()).hexdigest()


def sums_of(top):
    """The checksums of the files that the record names, by their paths; of those that are there."""
    found = {name: sum_of(os.path.join(top, name)) for name in recorded_files()}
    return {name: checksum for name, checksum in found.items() if checksum}


def kit():
    """The folder of the Rattle kit, or None where it is not installed."""
    found = shutil.which("rt")
    return found and os.path.dirname(os.path.dirname(os.path.realpath(found)))


def answer_of(*words):
    """The output of a command without its last line feed, or None if it fails."""
    how = {"stdin": subprocess.DEVNULL, "stdout": subprocess.PIPE, "stderr": subprocess.DEVNULL}
    try:
        ran = subprocess.run(words, encoding="utf-8", errors="replace", check=False, **how)
    except FileNotFoundError:
        return None
    return ran.stdout.strip() if ran.returncode == 0 else None


def linking_files(compiler):
    """The paths of what a compiler links with: itself, its linker, and its libraries."""
    asked = [("-print-prog-name", "cc1"), ("-print-prog-name", "ld")]
    asked += [("-print-file-name", name) for name in ("libc.a", "libgcc.a")]
    answers = [compiler, *(answer_of(compiler, f"{how}={name}") or "" for how, name in asked)]
    found = [shutil.which(answer) or answer for answer in answers]
    return [os.path.realpath(path) for path in found if os.path.isabs(path)]


def packages(architecture):
    """The Debian packages that an architecture is linked with, each with its version, sorted."""
    found = set()
    for path in linking_files(COMPILERS[architecture]):
        package = (answer_of("dpkg-query", "-S", path) or "").partition(": ")[0]
        version = package and answer_of("dpkg-query", "-W", "-f=${Version}", package)
        if version:
            found.add((package.partition(":")[0], version))
    return sorted(found)


def glibc_of(architecture):
    """Of which sources the glibc is that an architecture is linked with: Debian's name and version."""
    path = answer_of(COMPILERS[architecture], "-print-file-name=libc.a") or ""
    owner = answer_of("dpkg-query", "-S", os.path.realpath(path)) or ""
    form = "-f=${source:Package} (= ${source:Version}), ${Built-Using}"
    said = answer_of("dpkg-query", "-W", form, owner.partition(": ")[0]) or ""
    found = re.search(r"\bglibc \(= (\S+)\)", said)
    return ("glibc", found[1]) if found else None


def gives(made, program):
    """Whether an object, linked as `rt` links a program, gives a program byte for byte."""
    with tempfile.TemporaryDirectory() as room:
        linked = os.path.join(room, PROGRAM)
        words = [f"{kit()}/bin/rattle-link", "--target", target_of("x86_64")]
        words += ["--toolchain", f"{kit()}/toolchain", "-o", linked, made]
        words += [f"{kit()}/c/{name}" for name in OF_KIT]
        how = {"stdin": subprocess.DEVNULL, "stderr": subprocess.DEVNULL}
        ran = subprocess.run(words, check=False, **how)
        return ran.returncode == 0 and filecmp.cmp(linked, program, shallow=False)


def link(architecture, folder):
    """Links a static program of the material in a folder. Returns its path there."""
    how = {"stdin": subprocess.DEVNULL, "check": True}
    plain = {name: text for name, text in os.environ.items() if name not in ("CC", "LDFLAGS")}
    subprocess.run([os.path.join(folder, "relink"), architecture], env=plain, **how)
    return os.path.join(folder, os.path.basename(program_of(architecture)))


class Record:
    """What bin/static.txt says."""

    def __init__(self, version, sums, linked_with, sources, proofs):
        self.version, self.sums, self.proofs = version, sums, proofs
        self.packages, self.sources = linked_with, sources

    def text(self):
        """The record as a file."""
        rows = [HEAD, f"version {self.version}\n"]
        rows += [f"{self.sums[name]}  {name}\n" for name in recorded_files()]
        for architecture in ARCHITECTURES:
            for name, version in self.packages[architecture]:
                rows.append(f"package {architecture} {name} {version}\n")
            if self.sources.get(architecture):
                rows.append(f"source {architecture} {' '.join(self.sources[architecture])}\n")
        rows += [f"proof {it} {self.proofs[it]}\n" for it in ARCHITECTURES if it in self.proofs]
        return "".join(rows)


def read_record(top=workspace.TOP):
    """The record of a repository, or None where there is none."""
    path = os.path.join(top, RECORD)
    if not os.path.exists(path):
        return None
    with open(path, encoding="utf-8") as file:
        text = file.read()
    version = re.search(r"^version (.*)$", text, re.M)
    sums = {name: checksum for checksum, name in re.findall(r"^([0-9a-f]{64})  (\S+)$", text, re.M)}
    found = re.findall(r"^package (\S+) (\S+) (\S+)$", text, re.M)
    linked_with = {it: [row[1:] for row in found if row[0] == it] for it in ARCHITECTURES}
    sources = {row[0]: row[1:] for row in re.findall(r"^source (\S+) (\S+) (\S+)$", text, re.M)}
    proofs = dict(re.findall(r"^proof (\S+) (.*)$", text, re.M))
    return Record(version[1] if version else "", sums, linked_with, sources, proofs)


def differences(names, top=workspace.TOP):
    """Why some files of a repository are not those of its record: a reason for each."""
    record = read_record(top)
    if record is None:
        return [f"there is no {RECORD}"]
    found = {name: sum_of(os.path.join(top, name)) for name in names}
    missing = [f"there is no {name}" for name, checksum in found.items() if checksum is None]
    others = [name for name, checksum in found.items() if checksum]
    return missing + [
        f"{name} is not the one of {RECORD}" for name in others
        if found[name] != record.sums.get(name)
    ]
