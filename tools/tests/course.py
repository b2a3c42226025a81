"""Tries the programs of examples/ as turnt and brench would, and those of examples/benchmarks/ against their answers.

    python3 tools/tests/course.py PROGRAM [TITLE]

turnt and brench are the tools of the course, and are seldom installed: what their files say is carried out here by their rules.
turnt runs a command in the folder of a program, with the arguments of its line `ARGS:`, and compares what it prints with NAME.out.
brench puts a program through a pipeline, finds a number in what that writes, and compares what it prints with the first pipeline;
here every fourth program is put through.
The answers are computed by examples/benchmarks/answers.py; each NAME.out there must be one. The last line is `N passed, M failed`.
"""
import glob
import os
import re
import shlex
import subprocess
import sys
import tempfile
from concurrent.futures import ThreadPoolExecutor

try:
    import tomllib
except ImportError:
    tomllib = None

ROOT = os.path.dirname(os.path.dirname(os.path.dirname(os.path.abspath(__file__))))
EXAMPLES = os.path.join(ROOT, "examples")
BENCHMARKS = os.path.join(EXAMPLES, "benchmarks")
ALL_PASSES = "trace,side,ssa,const,dead,unssa,merge,tidy,color"
SECONDS = 60

sys.dont_write_bytecode = True
sys.path.insert(0, BENCHMARKS)
import answers


def read(path):
    with open(path, "rb") as file:
        return file.read()


def arguments_of(path):
    """The first line `ARGS:`, as both tools look for it."""
    found = re.search(rb"\bARGS:\s*(.*)$", read(path), re.M)
    return found[1].decode() if found else ""


def shell(command, folder, given=b""):
    """What a command of the shell writes on both outputs, and its status."""
    done = subprocess.run(command, shell=True, cwd=folder, input=given, capture_output=True, timeout=SECONDS)
    return done.stdout, done.stderr, done.returncode


def turnt_case(folder, name, env, path):
    """The title of a case, and a function that says what is wrong, or nothing."""
    def wrong():
        file_name = os.path.basename(path)
        words = {"filename": shlex.quote(file_name), "base": shlex.quote(file_name[:-5]), "args": arguments_of(path)}
        command = env["command"].format(**words)
        out, err, status = shell(command, folder)
        expected = read(path[:-5] + ".out")
        return None if (out, status) == (expected, 0) else "%s: status %d\n%r\n%r" % (command, status, out, err)
    return "turnt %s: %s" % (name, os.path.relpath(path, ROOT)), wrong


def turnt_cases(folder, wanted=None):
    if tomllib is None:
        return []
    settings = tomllib.loads(read(os.path.join(folder, "turnt.toml")).decode())
    return [turnt_case(folder, name, env, path) for name, env in settings["envs"].items() if wanted in (None, name)
            for path in sorted(glob.glob(os.path.join(folder, "*.bril")))]


def brench_case(settings, path):
    def wrong():
        words, first = {"args": arguments_of(path)}, None
        for name, run in settings["runs"].items():
            given = read(path)
            for command in run["pipeline"]:
                given, err, status = shell(command.format(**words), EXAMPLES, given)
                if status != 0:
                    return "%s: %s: status %d, %r" % (name, command, status, err)
            if not re.search(settings["extract"].encode(), given + err):
                return "%s: no number: %r" % (name, err)
            first = given if first is None else first
            if given != first or given != read(path[:-5] + ".out"):
                return "%s: it prints something else: %r" % (name, given)
        return None
    return wrong


def brench_cases():
    if tomllib is None:
        print("left out: turnt.toml and brench.toml, since Python has no tomllib before 3.11")
        return
    for name in ("brench.toml", "words.toml"):
        settings = tomllib.loads(read(os.path.join(EXAMPLES, name)).decode())
        for path in sorted(glob.glob(os.path.join(EXAMPLES, settings["benchmarks"])))[::4]:
            yield "%s: %s" % (name, os.path.relpath(path, ROOT)), brench_case(settings, path)


def answer_case(program, name, arguments):
    """A program prints the answer interpreted, as words, and as words after all passes, also with a profile of this very run."""
    def wrong():
        path, words = os.path.join(BENCHMARKS, name + ".bril"), ["--", *arguments]
        with tempfile.NamedTemporaryFile() as profile:
            profile.write(subprocess.run([program, "record", path, "--most", "2", *words], capture_output=True, check=True).stdout)
            profile.flush()
            for options in (["interp"], ["run"], ["run", "--passes", ALL_PASSES], ["run", "--passes", ALL_PASSES, "--profile", profile.name]):
                done = subprocess.run([program, options[0], path, *options[1:], *words], capture_output=True, timeout=SECONDS)
                expected = answers.printed(name, arguments).encode()
                if (done.stdout, done.returncode) != (expected, 0):
                    return "%s: status %d\n%r\nand not\n%r" % (options, done.returncode, done.stdout, expected)
        return None
    return "answers: %s %s" % (name, " ".join(arguments)), wrong


def out_case(name):
    def wrong():
        path = os.path.join(BENCHMARKS, name)
        expected = answers.printed(name, arguments_of(path + ".bril").split()).encode()
        return None if read(path + ".out") == expected else "the answer is %r" % expected
    return "answers: %s.out" % name, wrong


def answer_cases(program):
    for path in sorted(glob.glob(os.path.join(BENCHMARKS, "*.bril"))):
        name = os.path.basename(path)[:-5]
        yield out_case(name)
        for arguments in [arguments_of(path), *answers.MORE[name]]:
            yield answer_case(program, name, arguments.split())


def main():
    program, titles = os.path.abspath(sys.argv[1]), sys.argv[2:]
    cases = [*turnt_cases(EXAMPLES), *turnt_cases(BENCHMARKS, "interp"), *brench_cases(), *answer_cases(program)]
    wanted = [case for case in cases if not titles or case[0] in titles]
    passed = failed = 0
    with ThreadPoolExecutor(os.cpu_count()) as pool:
        for (title, _), wrong in zip(wanted, pool.map(lambda case: case[1](), wanted)):
            passed, failed = passed + (wrong is None), failed + (wrong is not None)
            if wrong is not None:
                print("FAILED: %s\n  %s" % (title, wrong.replace("\n", "\n  ")))
    print("%d passed, %d failed" % (passed, failed))
    return 1 if failed else 0


if __name__ == "__main__":
    sys.exit(main())
