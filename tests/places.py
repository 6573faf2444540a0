"""What standard error must say of documents: the places of their faults, the keys of entries, and repeated members.

The places are found here by a scan of the text of its own, from the pointers that `--format json` gives. The words of the advice are not
looked at.
"""
import json
import re

TOKEN = re.compile(rb'"(?:[^"\\]|\\.)*"|[^][{}:,\s"]+|[][{}:,]')
LIST = re.compile(r'\blist\s+([\w.-]+)\s*\{\s*key\s+"?([^";{}]+?)"?\s*;')
MOST_REPEATS, MOST_NOTES, MOST_KEYS, MOST_SHOWN = 10, 20, 4, 72
# How lines on names that no file defines begin.
SELECTION = ("--support: ", "--import-only: ")
HINT = re.compile(r"(\d+) of (\d+) faults are missing state data; if the document is configuration alone, use --kind config")


class Written:
    """A value of a text: where it begins, and what is in it. Each member has the offset of its name, and each item none."""

    def __init__(self, start, value=None):
        self.start, self.value, self.inside = start, value, {}


class Document:
    """The text of a document, with its value and the members that are repeated. It begins in a line of its file."""

    def __init__(self, text, first_line=1):
        self.text, self.first_line = text, first_line
        self.repeats = []
        self.tokens = [(found.start(), found[0]) for found in TOKEN.finditer(text)][::-1]
        self.top = self.read()
        self.repeats.sort()

    def read(self):
        """The value that comes next."""
        start, token = self.tokens.pop()
        if token == b"{":
            return self.read_members(Written(start, {}))
        if token == b"[":
            return self.read_items(Written(start, []))
        return Written(start, json.loads(token))

    def read_members(self, value):
        """The object that began, to its end. Of members of one name the last one stays."""
        start, token = self.tokens.pop()
        while token != b"}":
            name = json.loads(token)
            if name in value.inside:
                self.repeats.append((start, name))
            self.tokens.pop()
            value.inside[name] = start, self.read()
            start, token = self.tokens.pop()
            if token == b",":
                start, token = self.tokens.pop()
        return value

    def read_items(self, value):
        """The array that began, to its end."""
        while self.tokens[-1][1] != b"]":
            value.inside[str(len(value.inside))] = None, self.read()
            if self.tokens[-1][1] == b",":
                self.tokens.pop()
        self.tokens.pop()
        return value

    def way(self, pointer):
        """The steps of a pointer (RFC 6901, section 4) that the text has: each with the offset of its name, and its value."""
        found = [("", None, self.top)]
        for step in pointer.split("/")[1:]:
            name = step.replace("~1", "/").replace("~0", "~")
            inside = found[-1][2].inside
            if name not in inside:
                return found, False
            found.append((name, *inside[name]))
        return found, True

    def offset(self, kind, pointer):
        """Where a fault is: at a name if that is unknown, at a value, or at the object around what is missing."""
        found, is_whole = self.way(pointer)
        _, name, value = found[-1]
        return name if kind == "unknown" and is_whole else value.start

    def place(self, offset):
        """The line in the file and the column, in bytes, of an offset."""
        before = self.text[:offset]
        return self.first_line + before.count(b"\n"), offset - before.rfind(b"\n")

    def keys(self, pointer, keys_of_lists):
        """What may be shown of the keys of the innermost entry around a fault; none if it isn't known what its keys are."""
        found, _ = self.way(pointer)
        for (name, _, around), (_, _, value) in list(zip(found, found[1:]))[::-1]:
            if isinstance(around.value, list) and isinstance(value.value, dict):
                keys = keys_of_lists.get(name.rpartition(":")[2])
                return None if keys is None else {shown_keys(value, names) for names in keys}
        return {""}


def shown_keys(entry, names):
    """The keys of an entry as they are shown."""
    values = [entry.inside[name][1].value if name in entry.inside else None for name in names[:MOST_KEYS]]
    if not all(isinstance(value, (str, int, float)) for value in values):
        return ""
    return f" ({', '.join(f'{name} {quoted(value) if isinstance(value, str) else json.dumps(value)}' for name, value in zip(names, values))})"


def quoted(name):
    """A name in quotes, at most 72 bytes of it, with a dot for each character that isn't visible ASCII."""
    data = name.encode()
    shown = "".join(chr(byte) if 32 <= byte <= 126 else "." for byte in data[:MOST_SHOWN] if byte & 0xC0 != 0x80)
    return f'"{shown}.."' if len(data) > MOST_SHOWN else f'"{shown}"'


def keys_of_lists(modules):
    """The keys of the lists of each name in the texts of modules, as far as they are written in the usual way."""
    found = {}
    for text in modules:
        for name, keys in LIST.findall(text):
            found.setdefault(name, []).append([key.rpartition(":")[2] for key in keys.split()])
    return found


def file_name(name):
    """The name of a document as a place has it: a dot for each byte that isn't visible ASCII."""
    return "".join(chr(byte) if 32 <= byte <= 126 else "." for byte in name.encode())


def cause(fault):
    """What faults of one cause have in common: their kind, and their node, or the node around an unknown member."""
    if fault["kind"] == "unknown":
        steps = fault["pointer"].split("/")[:-1]
        return "unknown", tuple(step for step in steps if not step.isdecimal())
    return fault["kind"], re.sub(r"\[\d+\]", "", fault["path"])


def in_order(faults, most):
    """The faults that have a line, each with how many more are like it: first the first one of each cause, and then the others."""
    counts = {}
    for fault in faults:
        counts[cause(fault)] = counts.get(cause(fault), 0) + 1
    leads, others, known = [], [], set()
    for fault in faults:
        is_first = cause(fault) not in known and len(known) < most
        known |= {cause(fault)} if is_first else set()
        (leads if is_first else others).append((fault, counts[cause(fault)] - 1 if is_first else 0))
    return (leads + others)[:most]


def has_head(said, fault, ends):
    """Whether a sentence begins with the line of a fault, which may be cut in front, and one of these ends."""
    line = " ".join(str(fault[name]) for name in ("kind", "path", "unique") if name in fault)
    for end in ends:
        cut = re.match(re.escape(f"{fault['kind']} ..") + "(.*)" + re.escape(end), said)
        if said.startswith(line + end) or cut and len(line) > 150 and line.endswith(cut[1]):
            return True
    return False


class Expectation:
    """What standard error must say of the documents of a run, in their order."""

    def __init__(self, lines, modules, most=20):
        self.lines, self.most, self.keys = lines[::-1], most, keys_of_lists(modules)
        self.notes = MOST_NOTES
        self.breaches = []

    def take(self, wanted, is_right):
        """Takes the next line, which must be right."""
        line = self.lines.pop() if self.lines else None
        if line is None or not is_right(line):
            self.breaches.append(f"  standard error has {line!r}, and not {wanted!r}")

    def take_at(self, document, name, offset, wanted, is_right):
        """Takes a line at the place of an offset of a document, of which the rest must be right."""
        row, column = document.place(offset)
        front = f"{file_name(name)}:{row}:{column}: "
        self.take(front + wanted, lambda line: line.startswith(front) and is_right(line[len(front):]))

    def take_repeats(self, document, name, most):
        """Takes the lines on repeated members."""
        for offset, member in document.repeats[:most]:
            said = f"member {quoted(member)} is repeated; the last one counts"
            self.take_at(document, name, offset, said, said.__eq__)

    def take_fault(self, document, name, fault, likes):
        """Takes the line on a fault."""
        keys = document.keys(fault["pointer"], self.keys)
        more = f" (and {likes} more like it): " if likes else ": "
        ends = [more] if keys is None else [text + more for text in sorted(keys)]
        wanted = f"{fault['kind']} {fault['path']}{' or '.join(ends)}"
        kind, offset = fault["kind"], document.offset(fault["kind"], fault["pointer"])
        is_right = (lambda said: said.startswith(kind) and more in said) if keys is None else (lambda said: has_head(said, fault, ends))
        self.take_at(document, name, offset, wanted, is_right)

    def take_rest(self, label, count):
        """Takes the lines on all faults together."""
        if count > self.most:
            wanted = f"{label}more faults: {count - self.most}"
            self.take(wanted, wanted.__eq__)
        hint = HINT.fullmatch(self.lines[-1][len(label):]) if self.lines and self.lines[-1].startswith(label) else None
        if hint:
            self.take(f"a hint on {count} faults", lambda _: int(hint[2]) == count and count < 2 * int(hint[1]) <= 2 * count)

    def take_document(self, document, name, label, faults):
        """Takes the lines on a document that was validated."""
        if not self.notes:
            self.take_repeats(document, name, 1)
            return
        self.notes -= bool(document.repeats or faults)
        self.take_repeats(document, name, MOST_REPEATS)
        for fault, likes in in_order(faults, self.most):
            self.take_fault(document, name, fault, likes)
        self.take_rest(label, len(faults))

    def take_unread(self, label, verdict):
        """Takes the lines on a document that was not validated: the one that says why it cannot be read, or those with its label."""
        if not self.notes or verdict == "out-of-memory":
            return
        self.notes -= 1
        if label and verdict == "cannot-read":
            del self.lines[-1:]
            return
        while self.lines and self.lines[-1].startswith(label):
            self.lines.pop()

    def end(self):
        """What is wrong. All lines must have been taken, but for those on names of the selection, which come last."""
        left = [line for line in self.lines[::-1] if not line.startswith(SELECTION)]
        return [*self.breaches, *(f"  standard error has {line!r} besides" for line in left)]
