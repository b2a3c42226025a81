"""Roolvist in this process: the proved program as a library, over strings and dictionaries.

    >>> import roolvist
    >>> roolvist.run("@main(n: int) { n: int = add n n; print n; }", 21)
    '42\\n'

A program is Bril as text (a string) or as JSON (a dictionary). `files` has the files that it imports, by their paths. No file of the
system is read and nothing is written to it. A call keeps nothing for the next one, and several threads may call at once.

What docs/COMMANDS.md says of a command holds here too; each status but 0 is an exception. It needs Python 3.9 on x86-64 Linux, and of this
repository only `release/`, from which it takes the library. ROOLVIST_LIBRARY names another one.
"""

from __future__ import annotations

import ctypes
import gzip
import hashlib
import json as _json
import os
import tempfile
from pathlib import Path
from typing import Any, Iterable, Mapping, NamedTuple, Sequence, Union

__all__ = [
    "Answer", "CannotWrite", "Error", "Fault", "Misused", "OutOfMemory", "Refused", "Unfinished",
    "call", "check", "emit", "interp", "json", "passes", "record", "run", "text",
]

Program = Union[str, Mapping[str, Any]]
Argument = Union[int, bool, float, str]
Files = Mapping[str, Union[bytes, str, Mapping[str, Any]]]


class Answer(NamedTuple):
    """What a command line came to: its exit status, and what was written to the output and to the error output."""

    status: int
    out: bytes
    err: bytes


class Error(Exception):
    """A command did not end with status 0.

    `status` is its exit status, `line` the last line of the error output, `out` what was written before and `err` all of the error output.
    """

    def __init__(self, answer: Answer) -> None:
        self.status = answer.status
        self.out = answer.out.decode(errors="replace")
        self.err = answer.err.decode(errors="replace")
        lines = self.err.splitlines()
        self.line = lines[-1] if lines else ""
        super().__init__(f"status {self.status}: {self.line}")


class Fault(Error):
    """2: the program stopped with a fault."""


class Unfinished(Error):
    """3: the steps are spent, and the program goes on."""


class Misused(Error):
    """64: the words of the command line are wrong, as an argument of a function here with a value out of its range."""


class Refused(Error):
    """65 to 70 and 72: a file, an argument or a list of passes is refused."""


class OutOfMemory(Error):
    """71: memory ran out."""


class CannotWrite(Error):
    """74: more was written than there is room for."""


_CLASSES = {2: Fault, 3: Unfinished, 64: Misused, 71: OutOfMemory, 74: CannotWrite}


class _Written(ctypes.Structure):
    _fields_ = [("out", ctypes.c_size_t), ("err", ctypes.c_size_t)]


def _shipped(release: Path) -> str:
    """Unpacks the library of `release/`, whose sum it checks, and gives its path."""
    said = dict(line.split(None, 1) for line in (release / "libroolvist.sums").read_text().splitlines() if not line.startswith("#"))
    whole = gzip.decompress((release / "libroolvist-x86_64-linux.so.gz").read_bytes())
    if hashlib.sha256(whole).hexdigest() != said["library"]:
        raise OSError("the library in release/ has another sum than the one in release/libroolvist.sums")
    with tempfile.NamedTemporaryFile(suffix=".so", delete=False) as file:
        file.write(whole)
    return file.name


def _load() -> ctypes.CDLL:
    path = os.environ.get("ROOLVIST_LIBRARY")
    unpacked = None if path else _shipped(Path(__file__).resolve().parents[2] / "release")
    try:
        library = ctypes.CDLL(path or unpacked)
    finally:
        if unpacked:
            os.unlink(unpacked)
    size, pointer = ctypes.c_size_t, ctypes.c_void_p
    # A slice is passed as a pointer and a length.
    library.roolvist_call.argtypes = [ctypes.c_char_p, size, pointer, size, size, pointer, size, pointer, size, pointer]
    library.roolvist_call.restype = ctypes.c_uint8
    return library


_library = _load()
_ERR_ROOM = 1 << 20


def _bytes(content: bytes | str | Mapping[str, Any]) -> bytes:
    if isinstance(content, bytes):
        return content
    return (content if isinstance(content, str) else _json.dumps(content)).encode()


def call(words: Sequence[str], files: Files | None = None, room: int = 1 << 20) -> Answer:
    """Does what a command line asks for, whose first word is the program's name, over these files.

    The output has room for so many bytes; where they are too few the status is 74. No exception comes of a status.
    """
    pieces = [word.encode() for word in words]
    for path, content in (files or {}).items():
        pieces += [path.encode(), _bytes(content)]
    whole = b"".join(pieces)
    lengths = (ctypes.c_size_t * max(len(pieces), 1))(*map(len, pieces))
    out = ctypes.create_string_buffer(max(room, 1))
    err = ctypes.create_string_buffer(_ERR_ROOM)
    written = _Written()
    status = _library.roolvist_call(
        whole, len(whole), lengths, len(pieces), len(words), out, room, err, _ERR_ROOM, ctypes.byref(written)
    )
    return Answer(status, ctypes.string_at(out, written.out), ctypes.string_at(err, written.err))


def _word(argument: Argument) -> str:
    return str(argument).lower() if isinstance(argument, bool) else str(argument)


def _command(
    command: str,
    program: Program,
    arguments: Iterable[Argument] = (),
    files: Files | None = None,
    passes: Iterable[str] = (),
    profile: str | None = None,
    room: int = 1 << 24,
    **options: int | None,
) -> str:
    """What the command writes about the program."""
    path = "main.bril" if isinstance(program, str) else "main.json"
    given: dict[str, Any] = {path: program, **(files or {})}
    words = ["roolvist", command, path]
    names = ",".join(passes)
    if names:
        words += ["--passes", names]
    if profile is not None:
        given["main.profile"] = profile
        words += ["--profile", "main.profile"]
    for option, value in options.items():
        if value is not None:
            words += ["--" + option, str(value)]
    spelled = [_word(argument) for argument in arguments]
    answer = call(words + (["--", *spelled] if spelled else []), given, room)
    if answer.status != 0:
        raise _CLASSES.get(answer.status, Refused)(answer)
    return answer.out.decode()


def check(program: Program, *, files: Files | None = None) -> tuple[int, int]:
    """Checks the program, and gives the numbers of its functions and its items."""
    _, functions, items = _command("check", program, files=files).split()
    return int(functions), int(items)


def run(
    program: Program,
    *arguments: Argument,
    passes: Iterable[str] = (),
    profile: str | None = None,
    steps: int | None = None,
    frames: int | None = None,
    cells: int | None = None,
    files: Files | None = None,
) -> str:
    """Compiles the program to machine words, after these passes, and runs them; gives what it prints."""
    return _command("run", program, arguments, files, passes, profile, steps=steps, frames=frames, cells=cells)


def interp(
    program: Program,
    *arguments: Argument,
    steps: int | None = None,
    frames: int | None = None,
    cells: int | None = None,
    files: Files | None = None,
) -> str:
    """Interprets the program, and gives what it prints."""
    return _command("interp", program, arguments, files, steps=steps, frames=frames, cells=cells)


def record(
    program: Program,
    *arguments: Argument,
    hot: int | None = None,
    most: int | None = None,
    steps: int | None = None,
    files: Files | None = None,
) -> str:
    """Interprets the program, and gives the profile of the run."""
    return _command("record", program, arguments, files, hot=hot, most=most, steps=steps)


def passes(program: Program, names: Iterable[str], profile: str | None = None, *, files: Files | None = None) -> str:
    """What the list of passes makes of the program by the profile, as canonical text."""
    return _command("passes", program, (), files, names, profile)


def emit(
    program: Program,
    *,
    passes: Iterable[str] = (),
    profile: str | None = None,
    frames: int | None = None,
    cells: int | None = None,
    files: Files | None = None,
) -> list[int]:
    """The machine words of the program after these passes."""
    return [int(word, 16) for word in _command("emit", program, (), files, passes, profile, frames=frames, cells=cells).split()]


def text(program: Program) -> str:
    """The program in the canonical text form."""
    return _command("text", program)


def json(program: Program) -> dict[str, Any]:
    """The program as JSON."""
    return _json.loads(_command("json", program))
