"""Reads the headings and fenced blocks of a Markdown page, and replaces blocks in place."""
import re

HEADING = re.compile(r"(#+) (.+)")
FENCE = "```"


class Block:
    """A fenced block: the words after its fence, its text, and where it is in the page."""

    def __init__(self, info, margin, first):
        self.language, _, self.label = info.partition(" ")
        self.margin, self.first, self.lines = margin, first, []

    @property
    def text(self):
        """The lines of the block, each with its line feed."""
        return "".join(line + "\n" for line in self.lines)

    @property
    def line(self):
        """The line of the page that opens the block, counted from 1."""
        return self.first + 1


class Heading:
    """A heading: its level, its text, and its line in the page, counted from 1."""

    def __init__(self, level, text, line):
        self.level, self.text, self.line = level, text, line


class Page:
    """A Markdown page as a sequence of headings, blocks and other lines."""

    def __init__(self, path):
        self.path = path
        with open(path, encoding="utf-8", newline="") as file:
            self.lines = file.read().split("\n")
        self.parts = list(self.read())
        self.edits = {}

    def read(self):
        """Yields the headings, the blocks, and the other lines that aren't empty, in order."""
        block = None
        for at, line in enumerate(self.lines):
            bare = line.strip()
            if block is not None:
                if bare == FENCE:
                    yield block
                    block = None
                else:
                    block.lines.append(line[len(block.margin):])
            elif bare.startswith(FENCE):
                block = Block(bare[len(FENCE):], line[:len(line) - len(line.lstrip())], at)
            elif HEADING.fullmatch(line):
                level, text = HEADING.fullmatch(line).groups()
                yield Heading(len(level), text, at + 1)
            elif bare:
                yield line
        if block is not None:
            raise ValueError(f"{self.path}:{block.line}: this block does not end")

    def replace(self, block, lines):
        """Notes that a block gets other lines. `save` writes them."""
        self.edits[block.first] = block, lines

    def save(self):
        """Writes the page with all replaced blocks, and reads it again."""
        for _, (block, lines) in sorted(self.edits.items(), reverse=True):
            start, end = block.first + 1, block.first + 1 + len(block.lines)
            self.lines[start:end] = [block.margin + line if line else line for line in lines]
        with open(self.path, "w", encoding="utf-8", newline="") as file:
            file.write("\n".join(self.lines))
        self.__init__(self.path)


def sections(page, level):
    """The sections of a page at a level of headings: each heading with the blocks below it."""
    found = []
    for part in page.parts:
        if isinstance(part, Heading):
            if part.level == level:
                found.append((part, []))
        elif isinstance(part, Block) and found:
            found[-1][1].append(part)
    return found
