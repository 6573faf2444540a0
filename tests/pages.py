"""Reads what the pages of docs/, README.md and SECURITY.md show of the program: commands with their output, and samples.

A `console` block of a page has commands after `$ `, each with what it prints: standard output, then standard error. They run at the top
of the repository. `bin/yangcheck` and `yangcheck` are both the program under test; a command that runs another program isn't tried
here. A line `[2]` at the end is the exit status, which isn't compared without it. A line `...` stands for any lines.

REFUSALS.md, FAULTS.md and LINT.md have samples besides: blocks of files, or a document, then standard output in a `text` block. A file is
marked `yang`, `yang file NAME`, `yang hex`, `yang padded N` (blanks to N bytes), `yang nested N` (N more containers, all of them closed),
or `yang limit N` (with that `--max-nodes`); it is `ex.yang` if it isn't named. `yang module` is the module of the documents after it,
which are marked `json`, or `json kind K` (with that `--kind`). Files without a document are compiled; those of LINT.md are linted, by the
rule that the heading names. The last lines of standard error are those of the block `told` after the output; without one, of a refusal,
its name with the sentence below its heading.
"""
import os
import re

from blocks import Block, Heading

PROMPT = "$ "
PROGRAM = re.compile(r"(?<![\w/.-])(?:bin/|\./)?yangcheck(?= )")
SAMPLED = ("REFUSALS.md", "FAULTS.md", "LINT.md")


class Command:
    """A command of a console block with the lines that it must print."""

    def __init__(self, block, text):
        self.block, self.text, self.wanted = block, text, []

    @property
    def is_ours(self):
        """Whether the command runs the program."""
        return PROGRAM.match(self.text) or re.search(r"\| " + PROGRAM.pattern, self.text)


def commands_of(block):
    """The commands of a console block, with what each prints. A command continues in the next line after a backslash."""
    found = []
    for line in block.lines:
        if found and found[-1].text.endswith("\\") and not found[-1].wanted:
            found[-1].text += "\n" + line
        elif line.startswith(PROMPT):
            found.append(Command(block, line[len(PROMPT):]))
        elif found:
            found[-1].wanted.append(line)
        else:
            raise ValueError(f"{block.lines[0]}: a console block begins with `{PROMPT}`")
    return found


class Sample:
    """A sample: its files, its document if there is one, and what must come of it."""

    def __init__(self, name, files, data, command):
        self.name, self.files, self.data, self.command = name, files, data, command
        self.output = self.errors = None
        self.last = []

    @property
    def words(self):
        """The words of the command."""
        return [*self.command, *(name for name, _ in self.files)]


def file_of(block):
    """The name and the bytes of a block that is a file."""
    words = block.label.split()
    how, number = words[0] if words else "", int(words[1]) if words[1:] and words[1].isdigit() else 0
    if how == "hex":
        return "ex.yang", bytes.fromhex(block.text)
    if how == "padded":
        return "ex.yang", block.text.strip().encode().ljust(number)
    if how == "nested":
        return "ex.yang", block.text.encode() + b"container c{" * number + b"}" * (number + 1)
    return words[1] if how == "file" else "ex.yang", block.text.encode()


def options_of(block):
    """The options that a block of a file or of a document asks for."""
    words, options = block.label.split(), {"limit": "--max-nodes", "kind": "--kind"}
    return [options[words[0]], words[1]] if words and words[0] in options else []


class Samples:
    """Reads the samples of a page, part by part."""

    def __init__(self, page):
        name = os.path.basename(page.path)
        self.tells_name, self.is_linted = name == "REFUSALS.md", name == "LINT.md"
        self.found, self.module = [], None
        self.begin(None)
        for part in page.parts:
            self.read(part)

    def begin(self, heading):
        """Begins a section."""
        self.name, self.sentence = heading.text if heading else "", None
        self.clear()

    def clear(self):
        """Forgets the files of the last sample."""
        self.files, self.data, self.options = [], None, []

    def read(self, part):
        """Reads a heading, a block, or a line."""
        if isinstance(part, Heading):
            self.begin(part)
        elif isinstance(part, Block):
            self.read_block(part)
        elif self.sentence is None:
            self.sentence = part

    def read_block(self, block):
        """Reads a block of a file, a document, or an output."""
        if block.language == "yang" and block.label == "module":
            self.module = file_of(block)
        elif block.language == "yang":
            self.files.append(file_of(block))
            self.options += options_of(block)
        elif block.language == "json":
            self.files, self.data, self.options = [self.module], block.text.encode(), options_of(block)
        elif (block.language, block.label) in (("told", ""), ("text", "stderr")):
            self.found[-1].errors, self.found[-1].last = block, block.lines
        elif block.language == "text" and self.files:
            self.end(block)

    def command(self):
        """The command of a sample with its options."""
        if self.is_linted:
            return ["lint", "--rules", self.name, *self.options]
        return [*(["compile"] if self.data is None else ["validate", "--data", "data.json"]), *self.options]

    def end(self, block):
        """Ends a sample at its output."""
        sample = Sample(self.name, self.files, self.data, self.command())
        sample.output = block
        sample.last = [f"{self.name}: {self.sentence}"] if self.tells_name else []
        self.found.append(sample)
        self.clear()
