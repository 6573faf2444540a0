"""Tries many edits of a crate by few checks: one check has edits of many functions, one of each.

A function is proved against its own contract and the contracts of what it calls. So an edit inside
the body of one function changes nothing for the proof of another, and one check tells of each
function whether it is still proved: it goes past those that are not, and names what is open there.

An edit counts as refused here only if a goal is open in the very function that it edits. All others
are left for a check of their own: those that change something outside a body, that can't be read,
that take away a name of which a proof file speaks, and those whose function is still proved.
"""
import os
import re
import subprocess
from collections import namedtuple

# A function: its name below the crate, as a check prints it, the line of its header, and the first
# and the last line of its body, counted from 0.
Function = namedtuple("Function", "name header first last")
# An edit that can go into a batch: its name, the file, the lines that it changes, each with its new
# text, and the function around them.
Edit = namedtuple("Edit", "name path lines function")

HEADER = re.compile(r"(\s*)(?:pub(?:\([^)]*\))? )?(?:const )?(?:unsafe )?fn (\w+)")
IMPL = re.compile(r"impl(?:<.*?>)? (?:(\w+)(?:<(\w+).*>)? for )?(\w+)")
TYPE = re.compile(r"^(?:pub(?:\([^)]*\))? )?(?:struct|enum) (\w+)", re.M)
# What a check calls a closure: `a::fn::B::c::map` is one that `a::B::c` passes to `map`.
CLOSURE = re.compile(r"fn::(.+)::\w+(?:\+.*)?")
# What a check says of a function that is not proved, of a goal that is open at a place in a file,
# and of an error at one.
UNPROVED = re.compile(r"fn \w+?::(\S+): (?:no proof|not proved)(.*)")
OPEN = re.compile(r"note: (?:\./)?(\S+?):(\d+):\d+: (it is not proved that .*)")
ERROR = re.compile(r"(?:note: )?(?:\./)?(\S+?):(\d+):\d+: error(.*)")
# The errors of a proof file that speaks of something that is gone, or that rests on a function that
# is not proved.
NAME_IS_GONE = re.compile(r"has no field|is not in scope|has no `|was not admitted")
# How much of a reason is shown.
SHOWN = 160


def module_of(path):
    """The module of a source file: src/a/b.rt is a::b, and src/lib.rt is the crate itself."""
    parts = os.path.splitext(path)[0].split("/")[1:]
    return [part for part in parts if part not in ("lib", "main", "mod")]


def sources(folder):
    """The source files of the crate in a folder, each with its text."""
    texts = {}
    for at, _, names in os.walk(os.path.join(folder, "src")):
        for path in (os.path.join(at, name) for name in names):
            with open(path, encoding="utf-8") as file:
                texts[os.path.relpath(path, folder)] = file.read()
    return texts


def homes_of(texts):
    """The modules that declare types of each name."""
    homes = {}
    for path, text in texts.items():
        for name in TYPE.findall(text):
            homes.setdefault(name, []).append(module_of(path))
    return homes


def owner_in(line, module, homes):
    """What the names of an `impl`'s methods begin with: the module of the type, and the type."""
    found = IMPL.match(line)
    if not found:
        return [line]
    known = homes.get(found[3], [])
    home = module if module in known else known[0] if len(known) == 1 else [line]
    return [*home, found[3] + (found[1] or "") + (found[2] or "")]


def body_of(lines, header):
    """The first and the last line of the body of the function with this header, or None."""
    margin = re.match(" *", lines[header])[0]
    for at in range(header, len(lines)):
        line = lines[at]
        is_item = line.startswith(margin) and not line.startswith(margin + " ")
        if is_item and line.endswith(("{", ";", "}")):
            break
    else:
        return None
    if not line.endswith("{"):
        return at, at
    ends = (end for end in range(at + 1, len(lines)) if lines[end] == margin + "}")
    return next(((at + 1, end) for end in ends), None)


def functions_of(path, text, homes):
    """The functions of a source file, which is laid out as `rt fmt` does."""
    lines, module = text.split("\n"), module_of(path)
    owner = module
    for at, line in enumerate(lines):
        if line.startswith("impl"):
            owner = owner_in(line, module, homes)
        elif line == "}":
            owner = module
        header = HEADER.match(line)
        body = body_of(lines, at) if header else None
        if body:
            yield Function("::".join([*owner, header[2]]), at, *body)


def edit_of(name, change, homes):
    """The edit that turns a file's old text into the new one: None if not inside of one body."""
    path, old, new = change
    before, after = old.split("\n"), new.split("\n")
    if not path.startswith("src/") or len(before) != len(after):
        return None
    lines = {at: text for at, text in enumerate(after) if text != before[at]}
    known = functions_of(path, old, homes) if lines else []
    around = [it for it in known if it.first <= min(lines) and max(lines) <= it.last]
    return Edit(name, path, lines, max(around, key=lambda it: it.first)) if around else None


def layers(edits):
    """The edits in groups, each with at most one edit of each function."""
    groups, counts = [], {}
    for edit in edits:
        key = edit.path, edit.function.name
        at = counts[key] = counts.get(key, -1) + 1
        groups[at:] = groups[at:] or [[]]
        groups[at].append(edit)
    return groups


def write_sources(folder, texts, edits):
    """Writes the source files of a crate with these edits, and without any others."""
    for path, text in texts.items():
        lines = text.split("\n")
        for edit in (it for it in edits if it.path == path):
            for at, line in edit.lines.items():
                lines[at] = line
        target = os.path.join(folder, path)
        with open(target, encoding="utf-8") as file:
            is_same = file.read().split("\n") == lines
        if not is_same:
            # The file may be a link to one of the repository, so it is replaced.
            os.remove(target)
            with open(target, "w", encoding="utf-8") as file:
                file.write("\n".join(lines))


def lines_like(pattern, said):
    """The lines of what a check said that are of this form."""
    return [found for found in map(pattern.match, said.split("\n")) if found]


def is_inside(found, edit):
    """Whether a line of a check speaks of a place in the function of this edit."""
    return found[1] == edit.path and edit.function.header < int(found[2]) <= edit.function.last + 1


def unproved(said):
    """The functions that are not proved because of what is open in them, each with a reason."""
    errors, reasons = lines_like(ERROR, said), {}
    for name, rest in (found.groups() for found in lines_like(UNPROVED, said)):
        # The proof of a function that calls itself is in a folder with a `+` before its name.
        own = f"proofs/{name.replace('::', '/')}/"
        inside = [it[3] for it in errors if it[1].replace("+", "").startswith(own)]
        mine = [error for error in inside if not NAME_IS_GONE.search(error)]
        goals = re.search(r"`search` did not prove [^;]*", rest)
        if goals or mine:
            owner = CLOSURE.sub(r"\1", name)
            reasons.setdefault(owner, goals[0] if goals else mine[0].lstrip(": "))
    return reasons


def refused_in(said, edits):
    """The edits in whose functions a goal is open by what a check said, each with a reason."""
    reasons, notes = unproved(said), lines_like(OPEN, said)
    for edit in edits:
        mine = [found[3] for found in notes if is_inside(found, edit)]
        reason = mine[0] if mine else reasons.get(edit.function.name)
        if reason:
            yield edit.name, reason[:SHOWN]


def unread_in(said, edits):
    """The edits in whose functions a check found something that it could not read."""
    errors = lines_like(ERROR, said)
    return [edit for edit in edits if any(is_inside(found, edit) for found in errors)]


def check(prove, folder, edits):
    """What a check says of the functions of these edits, which are in the crate's files."""
    only = [word for edit in edits for word in ("--only", edit.function.name)]
    how = {"stdin": subprocess.DEVNULL, "stdout": subprocess.PIPE, "stderr": subprocess.STDOUT}
    words = [prove, "check", "--jobs", "1", *only]
    ran = subprocess.run(words, cwd=folder, check=False, text=True, errors="replace", **how)
    return ran.stdout


def try_together(prove, folder, texts, edits):
    """Tries edits of different functions by one check. Gives why each of the refused is refused."""
    write_sources(folder, texts, edits)
    said = check(prove, folder, edits)
    unread = unread_in(said, edits)
    rest = [edit for edit in edits if edit not in unread]
    if re.search(r"^only=", said, re.M):
        return dict(refused_in(said, rest))
    # The check ended before the prover began. What can't be read is left out, or else looked for.
    half = 0 if unread else len(rest) // 2
    parts = [rest[:half], rest[half:]] if unread or half else []
    reasons = {}
    for part in filter(None, parts):
        reasons.update(try_together(prove, folder, texts, part))
    return reasons


def try_in_batches(prove, folder, changes):
    """Tries edits on a copy of a crate, which is in this folder and is afterwards as it was.

    `prove` is the program tools/prove. `changes` has for each edit, by its name, the file that it
    changes, and its old and new text. Gives why each edit is refused that a batch shows to be."""
    texts, reasons = sources(folder), {}
    homes = homes_of(texts)
    edits = [it for name, change in changes.items() if (it := edit_of(name, change, homes))]
    for group in layers(edits):
        reasons.update(try_together(prove, folder, texts, group))
    write_sources(folder, texts, [])
    return reasons
