"""The crates of this repository: which there are, which are below which, and rooms in which crates are worked on in parallel.

`rt` locks the folders of all crates below the one that it works on, so two crates above a common one would wait for each other. A room
is a folder of its own with links to the libraries below, so nothing is copied and nothing waits.
"""
import os
import re
import shutil

TOP = os.path.dirname(os.path.dirname(os.path.abspath(__file__)))
PARTS = ("src", "specs", "proofs")


def listed(top=TOP):
    """The lines of crates.txt, by crate."""
    with open(os.path.join(top, "crates.txt"), encoding="utf-8") as file:
        lines = [line for line in file if not line.startswith("#") and ":" in line]
    return {line.partition(":")[0].split()[0]: line for line in lines}


def uses(top=TOP):
    """Each crate with the crates of the repository that it names."""
    lines = listed(top)
    return {name: [it for it in line.partition(":")[2].split() if it in lines] for name, line in lines.items()}


def is_static(name):
    """Whether a crate is a static library, for callers in C."""
    return "staticlib" in listed()[name].partition(":")[0].split()


def layers(top=TOP):
    """The layers of crates.txt, lowest first: each with what it is about and its crates."""
    found = []
    with open(os.path.join(top, "crates.txt"), encoding="utf-8") as file:
        for line in file:
            heading = re.match(r"# (\w+): (.*)", line)
            if heading:
                found.append((heading[1], heading[2], []))
            elif found and not line.startswith("#") and ":" in line:
                found[-1][2].append(line.partition(":")[0].split()[0])
    return found


def below(named, name):
    """All crates below one."""
    found, left = set(), list(named[name])
    while left:
        crate = left.pop()
        if crate not in found:
            found.add(crate)
            left += named[crate]
    return found


def folder_of(name, top=TOP):
    """The folder of a crate."""
    return os.path.join(top, "crates", name)


def size_of(name):
    """The bytes of a crate's code, definitions and proofs, a measure of the time that its proof takes."""
    sizes = 0
    for part in PARTS:
        for at, _, files in os.walk(os.path.join(folder_of(name), part)):
            sizes += sum(os.path.getsize(os.path.join(at, file)) for file in files)
    return sizes


def linked(source, target):
    """Creates a link to a file, or a copy if the file system cannot link."""
    try:
        os.link(source, target)
    except OSError:
        shutil.copy2(source, target)


def laid(room, name, parts):
    """Puts parts of a crate into a room, and returns its folder there."""
    to = os.path.join(room, "crates", name)
    for part in parts:
        if os.path.isdir(os.path.join(folder_of(name), part)):
            shutil.copytree(os.path.join(folder_of(name), part), os.path.join(to, part), copy_function=linked)
    return to


def furnished(room, named, name):
    """Sets up a room for a crate: the built libraries below it and its own sources. Returns its folder."""
    lines, under = listed(), below(named, name)
    for crate in under:
        laid(room, crate, (*PARTS, os.path.join("out", "rlib")))
    shutil.copy(os.path.join(TOP, "HANDLES"), room)
    with open(os.path.join(room, "crates.txt"), "w", encoding="utf-8") as file:
        file.writelines(line for crate, line in lines.items() if crate in under or crate == name)
    return laid(room, name, PARTS)
