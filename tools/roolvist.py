"""What the Python tools have in common: they call the program, and read what it writes. No command of its own."""
import argparse
import functools
import os
import re
import shlex
import subprocess
import sys
from typing import NamedTuple

ROOT = os.path.dirname(os.path.dirname(os.path.realpath(__file__)))
LAUNCHER = os.path.join(ROOT, "roolvist")


class Parser(argparse.ArgumentParser):
    """Reads the words of a command line; the help is the tool's own first text, and a usage error has status 64."""

    def __init__(self, text):
        super().__init__(prog=os.path.basename(sys.argv[0]), description=text, add_help=True,
                         formatter_class=argparse.RawDescriptionHelpFormatter, allow_abbrev=False)

    def error(self, message):
        self.exit(64, "%s: %s; --help says more\n" % (self.prog, message))


class Left(NamedTuple):
    """What a command line leaves: its status, its output and its error output. Without a status it was stopped."""

    status: int
    out: str
    err: str

    @property
    def message(self):
        """The line that says why the status isn't 0."""
        lines = self.err.rstrip("\n").split("\n")
        return lines[-1]


@functools.cache
def program():
    """The path of the program, which starts sooner than the launcher; that of the launcher where it must unpack each time."""
    where = subprocess.run([LAUNCHER, "--where"], capture_output=True, text=True)
    return where.stdout.strip() if where.returncode == 0 else LAUNCHER


def text_of(data):
    """Bytes as text, line ends as they are."""
    return data.decode("utf-8", "replace")


def call(*words, given=b"", seconds=None, folder=None):
    """Calls the program with these words, and stops it after so many seconds."""
    try:
        done = subprocess.run([program(), *words], input=given, capture_output=True, timeout=seconds, cwd=folder)
    except subprocess.TimeoutExpired as stopped:
        return Left(None, text_of(stopped.stdout or b""), "stopped after %g seconds" % seconds)
    return Left(done.returncode, text_of(done.stdout), text_of(done.stderr))


def wanted(*words, **options):
    """What the program writes; where it refuses, this tool ends as it does."""
    left = call(*words, **options)
    if left.status != 0:
        sys.stderr.write(left.err)
        sys.exit(left.status)
    return left.out


def functions_of(text):
    """The functions of a program in canonical text: of each its name, and its first line and its items as they are written."""
    functions, name = {}, None
    for line in text.split("\n"):
        if line.startswith("@"):
            name = re.match(r"@([^ ({:]+)", line)[1]
            functions[name] = (line, [])
        elif name is not None and line not in ("}", ""):
            functions[name][1].append(line.strip())
    return functions


def arguments_of(path):
    """The arguments on the lines `# ARGS:` of a file, a list for each, as the shell parts them where it can."""
    with open(path, encoding="utf-8", errors="replace") as file:
        return list(map(parted, re.findall(r"\bARGS:[ \t]*(.*)$", file.read(), re.M)))


def parted(line):
    try:
        return shlex.split(line)
    except ValueError:
        return line.split()


def split_words(words):
    """The words before the first `--`, and those behind it, or None where there is none."""
    if "--" not in words:
        return words, None
    place = words.index("--")
    return words[:place], words[place + 1:]
