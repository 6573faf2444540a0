"""Random documents, with faults and repeated members, in texts with blanks and escapes at any place where JSON allows them."""
import json
import random

import topics

MODULE = """module ex {
  yang-version 1.1;
  namespace "urn:ex";
  prefix ex;
  container top {
    list e {
      key "k";
      unique v;
      leaf k { type string; }
      leaf v { type int8; }
      leaf m { type string; mandatory true; }
      list pair {
        key "one two";
        max-elements 2;
        leaf one { type int8; }
        leaf two { type string; }
        container inner { leaf must { type empty; mandatory true; } }
      }
    }
    leaf-list l { type int8; min-elements 1; }
    leaf r { type leafref { path "../ex:e/ex:k"; } }
    choice h { mandatory true; leaf x { type int8; } leaf y { type boolean; } }
  }
}
"""
SEED, RUNS, LINES = 71, 150, 40
NAMES = ("k", "v", "m", "e", "l", "r", "x", "y", "pair", "one", "two", "inner", "zz", "ex:k", 'a"/~1', "größe", "%")


class Writer:
    """Writes random documents."""

    def __init__(self, seed, ends):
        self.choose, self.ends = random.Random(seed), ends

    def blank(self):
        """Nothing, or blanks."""
        return self.choose.choice(["", "", " ", "\t", *self.ends])

    def text(self, text):
        """A string in which some characters are escaped."""
        return '"' + "".join(f"\\u{ord(letter):04x}" if self.choose.random() < 0.1 else json.dumps(letter)[1:-1] for letter in text) + '"'

    def between(self, begin, parts, end):
        """Parts with commas between them."""
        return begin + self.blank() + (self.blank() + "," + self.blank()).join(parts) + self.blank() + end

    def scalar(self):
        """A value that is no object and no array."""
        return self.choose.choice(["1", "2", "300", "true", "null", '"a"', '"b"', self.text("a:b,{"), "1.5"])

    def items(self, write, most=3):
        """An array of items, each of which this writes."""
        return self.between("[", [write() for _ in range(self.choose.randrange(most + 1))], "]")

    def members(self, values):
        """An object with some of these members, some of which are there twice, and perhaps others."""
        chosen = [name for name in values for _ in range(self.choose.choice([0, 1, 1, 1, 1, 1, 2]))]
        if self.choose.random() < 0.2:
            chosen += [self.choose.choice(NAMES)]
        self.choose.shuffle(chosen)
        others = (self.scalar, self.odd)
        return self.between("{", [self.member(name, values.get(name, self.choose.choice(others))) for name in chosen], "}")

    def member(self, name, write):
        """A member whose value this writes, or anything else."""
        value = self.scalar() if self.choose.random() < 0.1 else write()
        return self.text(name) + self.blank() + ":" + self.blank() + value

    def odd(self):
        """An object that no node has."""
        return self.between("{", [self.member(self.choose.choice(NAMES), self.scalar) for _ in range(2)], "}")

    def number(self):
        """A number, most often of the type int8."""
        return str(self.choose.choice([0, 1, 2, 3, -4, 300]))

    def key(self):
        """A text for a key."""
        return self.text(self.choose.choice(["a", "b", "größe", 'q"', "x" * 80]))

    def pair(self):
        """An entry of the inner list."""
        return self.members({"one": self.number, "two": self.key, "inner": lambda: self.members({"must": lambda: "[null]"})})

    def entry(self):
        """An entry of the outer list."""
        return self.members({"k": self.key, "v": self.number, "m": self.scalar, "pair": lambda: self.items(self.pair)})

    def top(self):
        """The container."""
        values = {"e": lambda: self.items(self.entry, 5), "l": lambda: self.items(self.number), "r": self.key, "x": self.number}
        return self.members(values)

    def document(self):
        """A document."""
        return self.blank() + self.members({"ex:top": self.top}) + self.blank()


def case_of(name, words, documents):
    """A run over documents, as a case."""
    case = topics.Case(f"random: {name}", None, "tests/documents.py")
    case.words = ["validate", *words, "ex.yang"]
    case.files = {"ex.yang": MODULE.encode(), **documents}
    return case


def random_runs():
    """Runs over random documents, as cases: over one document, and over some on lines, with several numbers of explained faults."""
    for number in range(RUNS):
        data = Writer(SEED + number, ["\n", "\r\n  "]).document().encode()
        yield case_of(f"document-{number}", ["--data", "größe 1.json", "--explain", str(number % 7 * 4)], {"größe 1.json": data})
    for number in range(LINES):
        writer = Writer(SEED - 1 - number, ["  "])
        lines = [writer.document() for _ in range(writer.choose.randrange(1, 8) ** 2)]
        yield case_of(f"lines-{number}", ["--each", "line", "--data", "d.ndjson"], {"d.ndjson": "\n".join(lines).encode()})
