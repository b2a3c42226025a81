"""Tries the library in this process: the cases of command_cases and the command lines of examples/runs that need files alone, and
10,000 calls, after which the process is as large as after the first 1,000.

    python3 tools/tests/library.py LIBRARY

The last line is `N passed, M failed`.
"""

import os
import re
import shlex
import sys

ROOT = os.path.dirname(os.path.dirname(os.path.dirname(os.path.abspath(__file__))))
os.environ["ROOLVIST_LIBRARY"] = os.path.abspath(sys.argv[1])
sys.path += [os.path.join(ROOT, "bindings", "python"), os.path.join(ROOT, "tools", "tests")]

import roolvist
import rows

ROOM = 1 << 24
CALLS = 10000
MOST_GROWTH = 4 << 20
PLAIN = re.compile(r"\$ \./roolvist [\w./,=+\- ]*$")


def held_files(row):
    """The files of a case, those that another row wrote among them."""
    held = {}
    for path, content in row.files.items():
        held[path.decode()] = came_of(content).out if isinstance(content, rows.Row) else bytes(content)
    return held


def came_of(row):
    """What a call leaves of a row of command_cases, as rows.Left."""
    kind, _, rest = row.line.partition(b" ")
    words = [rows.unescaped(word).decode() for word in rest.split(b" ")]
    came = roolvist.call(words[1:] if kind == b"keeps" else words, held_files(row), ROOM)
    err = re.sub(rb"(?m)^words \d+$", b"words #", came.err) if kind == b"counts" else came.err
    return rows.Left(came.status, came.out, err)


def cases():
    """The title, what is expected and what comes, of each row of command_cases."""
    for row in rows.rows():
        came = came_of(row)
        yield row.title, row.expected, came._replace(out=b"") if row.line.startswith(b"keeps ") else came


def example_files():
    """All files of examples/, by their paths, and as programs of examples/refused import them: a path in memory is no more than a name."""
    found = {}
    for folder, _, names in os.walk(os.path.join(ROOT, "examples")):
        for name in names:
            path = os.path.join(folder, name)
            with open(path, "rb") as file:
                found[os.path.relpath(path, ROOT)] = file.read()
    return {**found, **{path.replace("/", "/refused/../", 1): content for path, content in found.items()}}


def examples(files):
    """The same of each command line of examples/runs that a shell would only split into words."""
    with open(os.path.join(ROOT, "examples", "runs"), encoding="utf-8") as file:
        blocks = re.split(r"(?m)^(?=\$ |#)", file.read())
    for block in blocks:
        line, *left = block.rstrip("\n").split("\n")
        if PLAIN.match(line) and "/dev/" not in line:
            came = roolvist.call(shlex.split(line[2:]), files, ROOM)
            shown = came.out.decode() + "".join("! %s\n" % told for told in came.err.decode().splitlines())
            if came.status:
                shown += "= %d\n" % came.status
            yield line, "".join("%s\n" % text for text in left if text), shown


def size():
    """How many bytes of memory this process holds."""
    with open("/proc/self/statm", encoding="ascii") as file:
        return int(file.read().split()[1]) * os.sysconf("SC_PAGESIZE")


def growth(files):
    """By how much the process grows in the last nine tenths of many calls."""
    program = {"p.bril": files["examples/primes.bril"]}
    lines = (["check", "p.bril"], ["run", "p.bril", "--passes", "ssa,dead,unssa", "--", "7"], ["interp", "no.bril"])
    for count in range(CALLS):
        if count == CALLS // 10:
            before = size()
        roolvist.call(["roolvist", *lines[count % len(lines)]], program, 1 << 16)
    return size() - before


def main():
    files = example_files()
    passed = failed = 0
    for tried in (cases(), examples(files)):
        for title, expected, came in tried:
            if came == expected:
                passed += 1
            else:
                failed += 1
                print("FAILED: the library: %s\n  expected %.300r\n  came     %.300r" % (title, expected, came))
    grown = growth(files)
    if grown <= MOST_GROWTH:
        passed += 1
    else:
        failed += 1
        print("FAILED: %d calls let the process grow by %d bytes" % (CALLS, grown))
    print("%d passed, %d failed" % (passed, failed))
    return 1 if failed else 0


if __name__ == "__main__":
    sys.exit(main())
