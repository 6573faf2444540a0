"""Reads the cases of a topic, tests/cases/TOPIC.md: what is given to the program, and what it must answer.

A case is a section with a heading. Its blocks are files, named after the language of the block:

    ```yang ex.yang         the text of a file; `no-newline` after the name: without the last line feed;
                            `escaped`: each <U+XXXX> is the character with that number
    ```yang body            the body of `module ex`, which this wraps (see `module_of`)
    ```hex ex.yang          the bytes of a file in hexadecimal
    ```sh prepare           a shell script that makes files; it runs where the program runs
    ```text stdin           standard input
    ```console              the command, standard output, and the exit status if it isn't 0, as in `[1]`;
                            `escaped`: each <U+XXXX> in a word of the command is the character with that number
    ```text stderr          standard error; without this block it isn't compared

A case without a console block compiles a `yang body` with one marked line: `list e {  // <- BadKey` is refused there as BadKey.
"""
import re
import shlex

from blocks import sections

HEAD = ("module ex {", "  yang-version 1.1;", '  namespace "urn:ex";', "  prefix ex;")
MODULE = "ex.yang"
MARKER = re.compile(r" *// <- (\w+)$")
ESCAPE = re.compile(r"<U\+([0-9A-F]{4,6})>")
MARKS = ("no-newline", "escaped")
PROMPT = "$ yangcheck"
STATUS = re.compile(r"\[(\d+)\]")


class BadCase(ValueError):
    """What is wrong with the text of a case."""


class Case:
    """A case: the files and the command, and what must come of it; or what is wrong with its text."""

    def __init__(self, name, page, place):
        self.name, self.page, self.place, self.fault = name, page, place, None
        self.files, self.prepare, self.stdin = {}, None, b""
        self.words, self.wanted, self.stderr = None, [], None
        self.console = self.error_block = self.marked = None


def module_of(body):
    """The text of `module ex` with these lines in it, two blanks further in."""
    return "\n".join([*HEAD, *("  " + line if line else line for line in body), "}"]) + "\n"


def unescaped(text):
    """A text with the character for each <U+XXXX>."""
    return ESCAPE.sub(lambda found: chr(int(found[1], 16)), text)


def named(label):
    """The name in a block's label, and the marks after it."""
    marks = set()
    while label.rpartition(" ")[2] in MARKS:
        label, _, mark = label.rpartition(" ")
        marks.add(mark)
    return label, marks


def content(block, text, marks):
    """The bytes of a file: its text, or the bytes that it spells, as the marks say."""
    if block.language == "hex":
        return bytes.fromhex(text.replace("\n", " "))
    if "escaped" in marks:
        text = unescaped(text)
    if "no-newline" in marks:
        text = text[:-1]
    return text.encode()


def read_console(case, block, marks):
    """Reads the command of a console block and what must come of it."""
    words = shlex.split(block.lines[0]) if block.lines else []
    if words[:2] != PROMPT.split():
        raise BadCase(f"a console block begins with `{PROMPT}`")
    if "escaped" in marks:
        words = [unescaped(word) for word in words]
    case.console, case.words, case.wanted = block, words[2:], block.lines[1:]


def read_body(case, block, marks):
    """Reads the body of `module ex`, and a marked line as the refusal that must come."""
    lines = [MARKER.sub("", line) for line in block.lines]
    marked = [at for at, line in enumerate(block.lines) if MARKER.search(line)]
    case.files[MODULE] = content(block, module_of(lines), marks)
    if len(marked) > 1:
        raise BadCase("two lines are marked")
    if marked:
        name = MARKER.search(block.lines[marked[0]])[1]
        case.words, case.marked = ["compile", MODULE], block
        case.wanted = [f"{MODULE}:{len(HEAD) + marked[0] + 1}: {name}", "[1]"]


def read_block(case, block):
    """Reads one block of a case."""
    name, marks = named(block.label)
    how = block.language, name
    if how == ("console", ""):
        read_console(case, block, marks)
    elif how == ("yang", "body"):
        read_body(case, block, marks)
    elif how == ("sh", "prepare"):
        case.prepare = block.text
    elif how == ("text", "stdin"):
        case.stdin = content(block, block.text, marks)
    elif how == ("text", "stderr"):
        case.error_block, case.stderr = block, content(block, block.text, marks).decode().split("\n")[:-1]
    elif name:
        case.files[name] = content(block, block.text, marks)
    else:
        raise BadCase(f"line {block.line}: a block needs a file name")


def read_blocks(case, blocks):
    """Reads all blocks of a case."""
    for block in blocks:
        read_block(case, block)
    if case.console and case.marked:
        raise BadCase("a marked line and a console block say the same thing twice")
    if case.words is None:
        raise BadCase("there is no console block and no marked line")


def cases_of(page, topic, path):
    """The cases of a page, which is the topic that the path names."""
    found, names = [], set()
    for heading, blocks in sections(page, 2):
        case = Case(f"{topic}: {heading.text}", page, f"{path}:{heading.line}")
        try:
            read_blocks(case, blocks)
        except ValueError as wrong:
            case.fault = str(wrong)
        if heading.text in names:
            case.fault = "another case of this page has the same name"
        names.add(heading.text)
        found.append(case)
    return found


def marked_lines(block, printed):
    """The lines of a marked body with the marker where the printed refusal is, or None if it is outside the body."""
    found = re.fullmatch(rf"{MODULE}:(\d+): (\w+)", printed[0]) if len(printed) == 2 and printed[1] == "[1]" else None
    at = int(found[1]) - len(HEAD) - 1 if found else -1
    if not 0 <= at < len(block.lines):
        return None
    lines = [MARKER.sub("", line) for line in block.lines]
    return lines[:at] + [f"{lines[at]}  // <- {found[2]}"] + lines[at + 1:]


def accept(case, printed, errors):
    """Puts what the program printed into the page, in the form that the case has."""
    if case.error_block and errors != case.stderr:
        case.page.replace(case.error_block, errors)
    if printed == case.wanted:
        return
    if case.console:
        case.page.replace(case.console, [case.console.lines[0], *printed])
        return
    lines = marked_lines(case.marked, printed)
    if lines is None:
        # the refusal is outside the body, or gone: a console block says so
        bare = [MARKER.sub("", line) for line in case.marked.lines]
        lines = [*bare, "```", "```console", f"{PROMPT} compile {MODULE}", *printed]
    case.page.replace(case.marked, lines)
