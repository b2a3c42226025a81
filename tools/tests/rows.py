"""Runs the rows of command_cases as real command lines, each in a scratch folder with the files of its case.

    python3 tools/tests/rows.py PROGRAM [TITLE]

The rows stand in crates/command_cases/stdin, and what each must leave in stdout beside it, written by hand from the rules. The
head of src/main.rt there has their form. Rows that want a device which fails in memory, or more than a program, are left to
command_cases itself, which the gate runs. The last line is `N passed, M failed`.
"""

import difflib
import os
import re
import subprocess
import sys
import tempfile
from concurrent.futures import ThreadPoolExecutor
from typing import NamedTuple

ROOT = os.path.dirname(os.path.dirname(os.path.dirname(os.path.abspath(__file__))))
ROWS = os.path.join(ROOT, "crates", "command_cases")
SECONDS = 60
MOST_LINES = 60
COMMANDS = (b"$", b"keeps", b"counts", b"executes", b"fails", b"cuts")
ESCAPES = {b"n": b"\n", b"r": b"\r", b"t": b"\t", b"\\": b"\\", b"e": b""}


class Left(NamedTuple):
    """What a command line leaves: its status, its output and its error output."""

    status: int
    out: bytes
    err: bytes


class Row(NamedTuple):
    """A command line of a case, with the files that stand there: their bytes, or the row whose output one has."""

    title: str
    line: bytes
    files: dict
    expected: Left


def unescaped(text, number=0):
    """The bytes that a text with escapes stands for, with a number in place of each `\\#`."""

    def meant(found):
        mark = found[1]
        return b"%d" % number if mark == b"#" else bytes([int(mark[1:], 16)]) if mark[:1] == b"x" else ESCAPES[mark]

    return re.sub(rb"\\(x[0-9a-fA-F]{2}|.)", meant, text)


def filled(rest):
    """The bytes of a line `fill COUNT BYTES`."""
    count, text = rest.split(b" ", 1)
    if b"\\#" not in text:
        return unescaped(text) * int(count)
    return b"".join(unescaped(text, number) for number in range(int(count)))


def chained(count):
    """The files of a line `chain COUNT`: each imports the next, and the last prints 7."""
    files = {b"c%d.bril" % k: b'from "c%d.bril" import @main as @next; @main { call @next; }\n' % (k + 1) for k in range(count - 1)}
    return {**files, b"c%d.bril" % (count - 1): b"@main { v: int = const 7; print v; }\n"}


def lines_of(name):
    with open(os.path.join(ROWS, name), "rb") as file:
        return file.read().split(b"\n")[:-1]


def expected_blocks():
    """Each command line of stdout, with the lines below it."""
    blocks = []
    for line in lines_of("stdout"):
        if line.split(b" ")[0] in COMMANDS:
            blocks.append((line, []))
        elif not line.startswith(b"== "):
            blocks[-1][1].append(line)
    return blocks


def left_of(block):
    """What a block of lines says that is left."""
    status, told = None, {b"out": b"", b"err": b""}
    for line in block:
        where, text = (b"err", line[4:]) if line.startswith(b"err ") else (b"out", line)
        if text.startswith(b"status "):
            status = int(text[7:])
        elif text.startswith(b"|"):
            told[where] += text[1:] + b"\n"
        elif text.startswith(b"+ "):
            told[where] += unescaped(text[2:])
    return Left(status, told[b"out"], told[b"err"])


def rows():
    """The rows that can be run as command lines, in their order."""
    found, blocks = [], iter(expected_blocks())
    title, files, path, needs_memory, next_needs_memory = "", {}, None, False, False
    for line in lines_of("stdin"):
        word, _, rest = line.partition(b" ")
        if line.startswith(b"|"):
            files[path] += line[1:] + b"\n"
        elif word == b"+":
            files[path] += unescaped(rest)
        elif word == b"fill":
            files[path] += filled(rest)
        elif word == b"chain":
            files.update(chained(int(rest)))
        elif word == b"==":
            title, files, path, needs_memory, next_needs_memory = rest.decode(), {}, None, False, False
        elif word == b"file":
            path = unescaped(rest)
            files[path] = b""
        elif word == b"reads":
            needs_memory = True
        elif word in (b"puts", b"errs", b"room"):
            next_needs_memory = True
        elif word in COMMANDS:
            shown, block = next(blocks)
            if shown != line:
                sys.exit("crates/command_cases: stdin has %r where stdout has %r" % (line, shown))
            if word in (b"$", b"keeps", b"counts") and rest and not needs_memory and not next_needs_memory:
                found.append(Row(title, line, dict(files), left_of(block)))
            if word == b"keeps":
                files[unescaped(rest.split(b" ")[0])] = Row(title, line, dict(files), left_of(block))
            next_needs_memory = False
    return found


def put(program, folder, files):
    """Writes the files into the folder, and returns whether all of them can stand there."""
    folder = os.fsencode(folder)
    for path, content in files.items():
        if isinstance(content, Row):
            content = output_of(program, content)
        place = os.path.join(folder, path)
        if not os.path.normpath(place).startswith(folder + b"/"):
            return False
        try:
            os.makedirs(os.path.dirname(place), exist_ok=True)
            with open(place, "wb") as file:
                file.write(content)
        except (OSError, ValueError):
            return False
    return True


def output_of(program, row):
    """The bytes that the program writes at a row."""
    came = came_of(program, row)
    return b"" if came is None else came.out


def came_of(program, row):
    """What the program leaves at a row, or None where no system has such files or words."""
    kind, _, rest = row.line.partition(b" ")
    words = [unescaped(word) for word in rest.split(b" ")]
    if kind == b"keeps":
        words = words[1:]
    with tempfile.TemporaryDirectory() as folder:
        if not put(program, folder, row.files) or any(b"\0" in word for word in words):
            return None
        try:
            done = subprocess.run(
                words, executable=program, cwd=folder, stdin=subprocess.DEVNULL, capture_output=True, timeout=SECONDS
            )
        except subprocess.TimeoutExpired as error:
            return Left("none after %d seconds" % SECONDS, error.stdout or b"", error.stderr or b"")
    # The number of words is the emitter's own affair.
    err = re.sub(rb"(?m)^words \d+$", b"words #", done.stderr) if kind == b"counts" else done.stderr
    return Left(done.returncode, done.stdout, err)


def shown_of(program, row):
    """What is shown of what the program leaves at a row: without its output where that becomes a file."""
    came = came_of(program, row)
    return came._replace(out=b"") if came is not None and row.line.startswith(b"keeps ") else came


def told(left):
    """What is left, line by line."""
    lines = ["status %s" % left.status]
    for mark, data in (("", left.out), ("err ", left.err)):
        lines += ["%s|%s" % (mark, line) for line in data.decode("utf-8", "backslashreplace").split("\n")]
    return lines


def main():
    program, titles = os.path.abspath(sys.argv[1]), sys.argv[2:]
    wanted = [row for row in rows() if not titles or row.title in titles]
    passed = failed = 0
    with ThreadPoolExecutor(os.cpu_count()) as pool:
        for row, came in zip(wanted, pool.map(lambda row: shown_of(program, row), wanted)):
            if came == row.expected:
                passed += 1
            elif came is not None:
                failed += 1
                print("FAILED: %s" % row.title)
                print("  %s" % row.line.decode())
                compared = difflib.unified_diff(told(row.expected), told(came), "expected", "came", lineterm="")
                for line in list(compared)[:MOST_LINES]:
                    print("  " + line)
    print("%d passed, %d failed" % (passed, failed))
    return 1 if failed else 0


if __name__ == "__main__":
    sys.exit(main())
