"""Compiles YANG 1.1 modules (RFC 7950), draws their trees (RFC 8340) and validates JSON documents (RFC 7951).

    import yangcheck

    modules = yangcheck.Modules({"ex.yang": text})
    for fault in modules.validate(document):
        print(fault.kind, fault.path)

It does what the program `yangcheck` does, by the library `libyangcheck.so`, and opens no files. Texts are bytes, or strings that are encoded as UTF-8. Threads may use it at once.
"""
import json
import re
from typing import Any, Dict, Iterable, List, Mapping, NamedTuple, Optional, Sequence, Tuple, Union

from yangcheck import _library

__all__ = [
    "Answer", "Error", "Fault", "Faults", "MissingNode", "Modules", "OutputTooLarge", "Refusal",
    "RunStopped", "UnreadableDocument", "UsageError", "version",
]

Text = Union[bytes, bytearray, memoryview, str]

_MOST_OUTPUT = 64 * 1024 * 1024
_USAGE, _STOPPED = 2, 3
# How a line of a note begins that is about a document: with its name, which is its number.
_LABEL = re.compile(r"([0-9]{1,9}): ?")


class Error(Exception):
    """What yangcheck cannot do. `summary` is one line. `note` has lines that help a person, or is empty."""

    def __init__(self, summary: str, note: str = "") -> None:
        super().__init__(summary, note)
        self.summary, self.note = summary, note

    def __str__(self) -> str:
        return f"{self.summary}\n{self.note}".rstrip("\n")


class Refusal(Error):
    """The modules are refused. `code` is the name of the refusal, as in docs/REFUSALS.md.

    `file` is the name of the file, `line` counts from 1, `column` from 1 in bytes, and `offset`
    from 0 in bytes.
    """

    def __init__(self, file: str, line: int, column: int, offset: int, code: str, note: str) -> None:
        super().__init__(f"{file}:{line}: {code}", note)
        self.args = file, line, column, offset, code, note
        self.file, self.line, self.column, self.offset, self.code = file, line, column, offset, code


class UnreadableDocument(Error, ValueError):
    """The document was not validated. `verdict` says why: "not-json" or "too-large"."""

    def __init__(self, verdict: str, note: str) -> None:
        super().__init__(f"the document is {verdict.replace('-json', ' JSON').replace('-', ' ')}", note)
        self.args = verdict, note
        self.verdict = verdict


class MissingNode(Error, LookupError):
    """There is no module of this name, or no node at this path."""


class UsageError(Error, ValueError):
    """An argument has a value that yangcheck does not take."""


class OutputTooLarge(Error):
    """The output is longer than `max_output`. `length` is the number of bytes that it has."""

    def __init__(self, length: int) -> None:
        super().__init__(f"the output has {length:,} bytes, which is more than max_output")
        self.args = (length,)
        self.length = length


class RunStopped(Error):
    """There was no memory, or a pattern of the modules cannot be built."""


class Fault(NamedTuple):
    """A fault of a document, as in docs/FAULTS.md.

    `kind` is its kind. `path` leads to it for a person, and `pointer` for a program (RFC 6901).
    `unique` is the number of the `unique` statement of a list, from 1, where it is about one.
    """

    kind: str
    path: str
    pointer: str
    unique: Optional[int] = None


class Faults(List[Fault]):
    """The faults of a document, in the order of the schema. There are none if it is valid.

    `note` has the sentences that help a person: where a fault is in the document, and what to do.
    """

    def __init__(self, faults: Iterable[Fault] = (), note: str = "") -> None:
        super().__init__(faults)
        self.note = note


class Answer(NamedTuple):
    """What was found of one of many documents.

    `verdict` is "valid", "faulty", "not-json", "too-large" or "out-of-memory". `faults` is empty
    but for "faulty"; its `note` also says why a document cannot be read.
    """

    verdict: str
    faults: Faults

    @property
    def is_valid(self) -> bool:
        """Whether the document was read and has no faults."""
        return self.verdict == "valid"


class Modules:
    """The schema of a set of modules.

    `files` are the modules and submodules, all of them implemented: the text of each by the name of
    its file. `support` gives the features that are supported of a module, by its name; of a module
    that is not in it, all are. `import_only` names modules that are imported but not implemented.
    `max_nodes` is the limit on the nodes that the modules expand to. `explain` says of how many
    faults of a document there are sentences. `max_output` limits the bytes that a call may answer.

    `nodes` is the number of the nodes. `note` says which names of `support` and `import_only` mean
    nothing, and is empty if all do.

    The modules are compiled once more by each call, so give `validate_each` all documents at once.

    Raises Refusal if the modules are refused, UsageError and RunStopped.
    """

    def __init__(
        self,
        files: Mapping[str, Text],
        *,
        support: Optional[Mapping[str, Iterable[str]]] = None,
        import_only: Iterable[str] = (),
        max_nodes: int = 100_000,
        explain: int = 20,
        max_output: int = _MOST_OUTPUT,
    ) -> None:
        if not files:
            raise UsageError("there are no files")
        self._names = list(files)
        self._files = [_bytes_of(text) for text in files.values()]
        self._options = [f"--max-nodes={max_nodes:d}", *_selection(support or {}, import_only)]
        self._explain, self._most = f"--explain={explain:d}", max_output
        found = self._run(["compile", "--format=json"])
        if found.status != 0:
            raise _failure(found)
        self.nodes: int = _lines_of(found.output)[0]["nodes"]
        self.note: str = _text_of(found.note)

    def tree(
        self, *modules: str, depth: Optional[int] = None, below: Optional[str] = None, columns: bool = False
    ) -> str:
        """The diagrams of these modules, or else of all files.

        `depth` is the number of levels that are drawn, `below` the node that is drawn with all
        below it, as "/module:name/name", and `columns` writes types in columns. Raises MissingNode.
        """
        words = ["tree", *(f"--module={name}" for name in modules)]
        words += [] if depth is None else [f"--depth={depth:d}"]
        words += [] if below is None else [f"--below={below}"]
        found = self._run([*words, *["--columns"] * columns])
        if found.status == 1:
            raise MissingNode(*_summary_and_rest(_text_of(found.note)))
        if found.status != 0:
            raise _failure(found)
        return _text_of(found.output)

    def validate(self, document: Text, *, kind: str = "data") -> Faults:
        """All faults of a document.

        With kind="data" it holds configuration and state, and with kind="config" configuration
        alone. Raises UnreadableDocument if it is not JSON or is too large (16 MiB).
        """
        answer = self.validate_each([document], kind=kind)[0]
        if answer.verdict == "out-of-memory":
            raise RunStopped("out of memory")
        if answer.verdict not in ("valid", "faulty"):
            raise UnreadableDocument(answer.verdict, answer.faults.note)
        return answer.faults

    def validate_each(self, documents: Iterable[Text], *, kind: str = "data") -> List[Answer]:
        """What is found of each of many documents, in their order.

        The modules are compiled once for all of them. Only the first 20 documents with faults have
        a note.
        """
        if isinstance(documents, (str, bytes, bytearray, memoryview)):
            raise TypeError("validate_each needs several documents; validate takes one")
        texts = [_bytes_of(document) for document in documents]
        if not texts:
            return []
        words = ["validate", "--format=json", f"--kind={kind}", self._explain]
        found = self._run([*words, *(f"--data={number}" for number in range(len(texts)))], texts)
        lines = _lines_of(found.output)
        if not lines or lines[-1]["result"] != "run":
            raise _failure(found)
        note = [line for line in _text_of(found.note).split("\n") if line not in self.note.split("\n")]
        return _answers(lines, _notes(note, len(texts)))

    def _run(self, words: Sequence[str], documents: Sequence[bytes] = ()) -> _library.RunAnswer:
        """Does what these words ask for with the files."""
        every = [*words, *self._options, "--", *self._names]
        return _run(every, self._files, documents, self._most)


def version() -> str:
    """The version of the library, and that of Rattle."""
    return _text_of(_run(["--version"], [], [], _MOST_OUTPUT).output).strip()


def _run(
    words: Sequence[str], files: Sequence[bytes], documents: Sequence[bytes], most: int
) -> _library.RunAnswer:
    """Does what the words of a command line ask for."""
    try:
        return _library.run([word.encode() for word in words], files, documents, most)
    except _library.NoRoom as error:
        raise OutputTooLarge(error.length) from None


def _failure(found: _library.RunAnswer) -> Error:
    """Why a run has no result."""
    note, lines = _text_of(found.note), _lines_of(found.output)
    if lines and lines[-1]["result"] == "refused":
        found_at = {name: lines[-1][name] for name in ("file", "line", "column", "offset", "code")}
        return Refusal(**found_at, note=note)
    kinds = {_USAGE: UsageError, _STOPPED: RunStopped}
    return kinds.get(found.status, Error)(*_summary_and_rest(note))


def _summary_and_rest(note: str) -> Tuple[str, str]:
    """The first line of a note that says something, and the lines after it."""
    first, _, rest = note.partition("\n")
    return _summary_and_rest(rest) if first == "yangcheck: usage" else (first or "there is no answer", rest)


def _answers(lines: Iterable[Dict[str, Any]], notes: Sequence[str]) -> List[Answer]:
    """The answers that lines of JSON give."""
    answers: List[Answer] = []
    faults: List[Fault] = []
    for line in lines:
        if line["result"] == "fault":
            faults.append(Fault(line["kind"], line["path"], line["pointer"], line.get("unique")))
        elif line["result"] == "document":
            answers.append(Answer(line["verdict"], Faults(faults, notes[len(answers)])))
            faults = []
    return answers


def _notes(lines: Iterable[str], count: int) -> Sequence[str]:
    """What lines say of each of so many documents, without the number that is its name."""
    found: List[List[str]] = [[] for _ in range(count)]
    for line in lines:
        label = _LABEL.match(line)
        if label and int(label[1]) < count:
            found[int(label[1])].append(line[label.end() :])
        elif count == 1 and line:
            found[0].append(line)
    return ["".join(line + "\n" for line in about) for about in found]


def _selection(support: Mapping[str, Iterable[str]], import_only: Iterable[str]) -> List[str]:
    """The words for what is supported, and for what is only imported."""
    entries = [f"{_name(module)}:{_names(features)}" for module, features in support.items()]
    imported = _names(import_only)
    return ["--support=" + "/".join(entries)] * bool(entries) + [f"--import-only={imported}"] * bool(imported)


def _names(names: Iterable[str]) -> str:
    """Names with commas between them."""
    if isinstance(names, (str, bytes)):
        raise TypeError(f"a list of names is needed, not {names!r}")
    return ",".join(map(_name, names))


def _name(name: str) -> str:
    """A name that is part of a word."""
    if not name or set(name) & set(",:/"):
        raise UsageError(f"not a name: {name!r}")
    return name


def _bytes_of(text: Text) -> bytes:
    """A text as bytes."""
    if isinstance(text, str):
        return text.encode()
    if isinstance(text, (bytes, bytearray, memoryview)):
        return bytes(text)
    raise TypeError(f"a text is needed, not {type(text).__name__}")


def _text_of(output: bytes) -> str:
    """Bytes that the library wrote as a string."""
    return output.decode("utf-8", "replace")


def _lines_of(output: bytes) -> List[Dict[str, Any]]:
    """The objects on the lines of an output."""
    return [json.loads(line) for line in output.split(b"\n") if line]
