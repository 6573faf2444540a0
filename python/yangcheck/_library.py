"""The call of libyangcheck.so, which lies beside this file. include/yangcheck.h describes it."""
import ctypes
import itertools
import os
from typing import Any, List, NamedTuple, Sequence

_FIRST_ROOM = 1 << 20
_SIZE = ctypes.c_size_t
_SIZES = ctypes.POINTER(_SIZE)
_PARTS: List[Any] = [ctypes.c_char_p, _SIZE, _SIZES, _SIZE]


class RunAnswer(NamedTuple):
    """The exit status of a run, what it prints on standard output, and what on standard error."""

    status: int
    output: bytes
    note: bytes


class NoRoom(Exception):
    """The output and the note are longer than they may be. `length` is the length of both."""

    def __init__(self, length: int) -> None:
        super().__init__(length)
        self.length = length


def _load() -> ctypes.CDLL:
    """The library. Its call runs without Python's lock, so that threads do not wait for each other."""
    path = os.path.join(os.path.dirname(os.path.abspath(__file__)), "libyangcheck.so")
    try:
        library = ctypes.CDLL(path)
    except OSError as error:
        raise ImportError(f"yangcheck needs its library, for x86-64 Linux: {error}", path=path) from error
    library.yangcheck_run.argtypes = [*_PARTS * 3, ctypes.c_void_p, _SIZE, _SIZES, _SIZES]
    library.yangcheck_run.restype = ctypes.c_uint8
    return library


_LIBRARY = _load()


def _joined(parts: Sequence[bytes]) -> List[Any]:
    """Parts as the call takes them: in one buffer, with the place where each ends."""
    ends = (_SIZE * max(1, len(parts)))(*itertools.accumulate(map(len, parts)))
    whole = parts[0] if len(parts) == 1 else b"".join(parts)
    return [whole, len(whole), ends, len(parts)]


def run(words: Sequence[bytes], files: Sequence[bytes], documents: Sequence[bytes], most: int) -> RunAnswer:
    """Does what the words of a command line ask for. Raises NoRoom if there are more than `most` bytes to print."""
    given = [*_joined(words), *_joined(files), *_joined(documents)]
    output, note, room = _SIZE(), _SIZE(), max(0, min(_FIRST_ROOM, most))
    while True:
        buffer = ctypes.create_string_buffer(max(1, room))
        status = _LIBRARY.yangcheck_run(*given, buffer, room, ctypes.byref(output), ctypes.byref(note))
        length = output.value + note.value
        if length <= room:
            text = ctypes.string_at(buffer, length)
            return RunAnswer(status, text[: output.value], text[output.value :])
        if length > most:
            raise NoRoom(length)
        room = length
