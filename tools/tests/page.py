"""Tests tools/page: that it refuses what it should, and that it works in each headless browser that is installed, with CodeMirror
and `dot` where they are installed, and in the first browser also without them. `page.seen` has what must be seen.

    python3 tools/tests/page.py PROGRAM [TITLE]

The last line is `N passed, M failed`.
"""
import errno
import http.client
import importlib.machinery
import importlib.util
import json
import os
import shutil
import signal
import socket
import subprocess
import sys
import tempfile
import threading
import time

HERE = os.path.dirname(os.path.abspath(__file__))
TOOLS = os.path.dirname(HERE)
BROWSER_SECONDS = 240
ENDLESS = "@main {\n.again:\n  jmp .again;\n}\n"
PRINTS = "@main {\n  x: int = const 1111111111111111111;\n.again:\n  print x x x x;\n  jmp .again;\n}\n"
ONE = "@main {\n  v: int = const 4;\n  print v;\n}\n"
BROWSERS = {"chromium": ("chromium", "chromium-browser", "google-chrome"), "firefox": ("firefox-esr", "firefox")}

sys.dont_write_bytecode = True
sys.path.insert(0, TOOLS)
loader = importlib.machinery.SourceFileLoader("page", os.path.join(TOOLS, "page"))
page = importlib.util.module_from_spec(importlib.util.spec_from_loader("page", loader))
loader.exec_module(page)


class Tested(page.Page):
    """The page's requests, and the report of the browser's test."""

    def do_POST(self):
        if self.path == "/%s/report" % self.server.secret:
            self.server.report = self.rfile.read(int(self.headers["Content-Length"])).decode()
            self.send(200, "text/plain", b"")
            self.server.reported.set()
        else:
            super().do_POST()


class Started:
    """A server in a thread of its own, which makes its folders in this one."""

    def __init__(self, folder):
        self.server = page.Server(0, folder)
        self.server.RequestHandlerClass = Tested
        self.server.reported, self.server.report = threading.Event(), ""
        with open(os.path.join(HERE, "page_test.js"), "rb") as file:
            self.server.files["test.js"] = file.read()
        threading.Thread(target=self.server.serve_forever, daemon=True).start()
        self.host, self.secret = "127.0.0.1:%d" % self.server.server_port, self.server.secret

    def stop(self):
        self.server.shutdown()
        self.server.server_close()

    def ask(self, method, path, body=None, **headers):
        """The status and the body of an answer; headers with None are left out."""
        told = {"Host": self.host, "Origin": "http://" + self.host, **{name.replace("_", "-"): value for name, value in headers.items()}}
        connection = http.client.HTTPConnection("127.0.0.1", self.server.server_port, timeout=60)
        connection.putrequest(method, path, skip_host=True, skip_accept_encoding=True)
        data = body if isinstance(body, bytes) else json.dumps(body).encode() if body is not None else b""
        for name, value in {"Content-Length": str(len(data)), **told}.items():
            if value is not None:
                connection.putheader(name, value)
        connection.endheaders(data)
        answer = connection.getresponse()
        return answer.status, answer.read().decode("utf-8", "replace")

    def call(self, command, program=ONE, **fields):
        status, text = self.ask("POST", "/%s/call" % self.secret, {"id": fields.pop("id", "t"), "command": command, "program": program, **fields})
        return status, json.loads(text) if status == 200 else text


def raw(started, data):
    """What the server answers to these bytes, or nothing where it closes the connection."""
    with socket.create_connection(("127.0.0.1", started.server.server_port), timeout=20) as connection:
        connection.sendall(data)
        try:
            return connection.recv(100)
        except ConnectionError:
            return b""


def comes(seen, wanted):
    """What is seen, once it is what is wanted, or after some seconds."""
    for _ in range(40):
        came = seen()
        if came == wanted:
            break
        time.sleep(0.25)
    return came


def refusals(s):
    """Requests that are refused: each with its status, and the one that it must have."""
    at = "/%s/" % s.secret
    asked = {"id": "t", "command": "check", "program": ONE}
    with socket.socket() as outside:
        yield "another address of this machine", outside.connect_ex(("127.0.0.2", s.server.server_port)), errno.ECONNREFUSED
    yield "another address", s.ask("GET", "/")[0], 403
    yield "another secret", s.ask("GET", "/%s/" % ("x" * len(s.secret)))[0], 403
    for name in ("../page", "..%2fpage", "%2e%2e/page", "..\\page", "/etc/passwd", "//etc/passwd", "./main.js", "main.js/../../page", "main.js?x", "main.js%00",
                 "library/", "library/../../page", "library/..%2f..%2fpage", "library/codemirror.js/", "library/package.json", "web/main.js"):
        yield "no file of the page: " + name, s.ask("GET", at + name)[0], 404
    yield "another host, by a name that was bent", s.ask("GET", at, Host="example.org")[0], 403
    yield "this host by another name", s.ask("GET", at, Host="localhost:%d" % s.server.server_port)[0], 403
    yield "another port", s.ask("GET", at, Host="127.0.0.1:1")[0], 403
    yield "a file for another page", s.ask("GET", at, Origin="http://example.org")[0], 403
    for origin in ("http://example.org", "http://127.0.0.1:1", "https://" + s.host, "null", None):
        yield "a call of another page: %s" % origin, s.ask("POST", at + "call", asked, Origin=origin)[0], 403
        yield "a stop of another page: %s" % origin, s.ask("POST", at + "stop", {"id": "t"}, Origin=origin)[0], 403
    yield "a post that is no call", s.ask("POST", at + "main.js", asked)[0], 403
    for method in ("PUT", "DELETE", "OPTIONS", "HEAD"):
        yield "another method: " + method, s.ask(method, at + "call", asked)[0], 501
    yield "a call without the secret", s.ask("POST", "/call", asked)[0], 403
    yield "no length", s.ask("POST", at + "call", asked, Content_Length=None)[0], 411
    yield "too long", s.ask("POST", at + "call", Content_Length=str(page.MOST_REQUEST + 1))[0], 413
    yield "no JSON", s.ask("POST", at + "call", b"{")[0], 400
    yield "deep JSON", s.ask("POST", at + "call", b"[" * 100000)[0], 400
    yield "no object", s.ask("POST", at + "call", [])[0], 400
    for title, fields in {
        "a command that isn't there": {"command": "exec"}, "a command that is a path": {"command": "../tools/prove"}, "a command that is a list": {"command": ["run"]},
        "options that are a list": {"options": []}, "arguments that are a text": {"command": "run", "args": "x"}, "a name that is a number": {"id": 1},
        "a meaning of an option": {"command": "meaning", "line": "--help"}, "a meaning of two lines": {"command": "meaning", "line": "spent 1\nspent 2"},
        "a profile that is a number": {"command": "run", "options": {"profile": 1}}, "an option of another command": {"options": {"passes": "dead"}},
        "an option that isn't there": {"options": {"out": "x"}}, "a program that is no text": {"program": 1},
        "steps past the limit": {"command": "run", "options": {"steps": "99999999999"}},
        "a value that is an option": {"command": "run", "options": {"steps": "--help"}},
        "passes that are a path": {"command": "run", "options": {"passes": "/etc/passwd"}},
        "arguments with NUL": {"command": "run", "args": ["\0"]}, "an import of the system": {"program": 'from "/etc/passwd" import @f;\n' + ONE},
        "an import from above": {"program": 'from "../x" import @f;\n' + ONE}, "an import behind a comment": {"program": 'from # " \n "/etc/passwd" import @f;' + ONE},
        "an import of itself": {"program": 'from "page.bril" import @main as @f;\n' + ONE},
    }.items():
        yield title, s.ask("POST", at + "call", {**asked, **fields})[0], 400


def calls(s):
    """Calls that are carried out, and within which limits."""
    def left(command, *keys, **fields):
        status, answer = s.call(command, **fields)
        return [answer[key] for key in keys] if status == 200 else answer
    yield "a run", left("run", "status", "out"), [0, "4\n"]
    yield "a file of the profile's name", left("run", "status", "out", options={"passes": "trace", "profile": "bril-profile 2\n"}), [0, "4\n"]
    yield "arguments like options", left("run", "status", "err", args=["--help"]), [69, "arguments: 1 given, 0 wanted\n"]
    yield "a quote that is a char", left("check", "status", program="@main {\n  q: char = const '\"';\n  print q;\n}\n"), [0]
    yield "a program that is no program", left("check", "status", "err", program="\"'"), [65, "page.bril: text 1 at 0\n"]
    there = page.EXPLAIN
    page.EXPLAIN = "/nowhere"
    yield "an explanation without its program", s.call("explain")[0], 404
    page.EXPLAIN = shutil.which("false")
    yield "an explanation", left("explain", "status", "err"), [1, ""]
    page.EXPLAIN = there
    yield "a meaning", left("meaning", "status", "out", line="fault 1 DivZero"), [0, "The program divided a number by 0. What it printed before stays.\n"]
    page.SECONDS = 2
    yield "a run without an end", left("run", "status", "end", program=ENDLESS, options={"steps": "10000000000"}), [None, "still ran after 2 seconds"]
    status, answer = s.call("run", program=PRINTS, options={"steps": "10000000000"})
    yield "too much output", (answer["end"], len(answer["out"])), ("cut", page.MOST_OUTPUT)
    page.SECONDS = 20
    limits = page.carried_out(s.server.calls, "t", ["sh", "-c", "ulimit -v; ulimit -t; ulimit -f; ulimit -c"], s.server.scratch)
    yield "limits", limits["out"].split(), ["4194304", "40", "4096", "0"]
    told = json.loads(s.server.files["examples.json"])
    yield "examples", [(one["args"], one["limits"]) for one in told if one["name"] in ("primes", "faults/counting_down")], [("20", {}), ("2", {"frames": "3"})]


def libraries(folder):
    """The files of a library: those that are asked for, and none that a link takes from elsewhere."""
    home, outside = os.path.join(folder, "library"), os.path.join(folder, "outside.js")
    os.mkdir(home)
    for path in (os.path.join(home, "one.js"), outside):
        with open(path, "w", encoding="utf-8") as file:
            file.write("1;\n")
    os.symlink(outside, os.path.join(home, "two.js"))
    yield "a library", page.library(home, ("one.js",)), {"library/one.js": b"1;\n"}
    yield "a library that a link leads out of", page.library(home, ("one.js", "two.js")), {}
    yield "a library with a file of another folder", page.library(home, ("one.js", "../outside.js")), {}
    yield "a library without a file", page.library(home, ("one.js", "three.js")), {}
    yield "a library with a folder for a file", page.library(folder, ("library",)), {}
    shutil.rmtree(home)
    os.remove(outside)


def ended(folder):
    """A server of its own, which is ended while a call runs."""
    told = {**os.environ, "TMPDIR": folder}
    child = subprocess.Popen([sys.executable, "-B", os.path.join(TOOLS, "page"), "http://127.0.0.1:1/old/#held"], stdout=subprocess.PIPE, text=True, env=told)
    address, _, held = child.stdout.readline().strip().partition("#")
    yield "a link that is opened again", held, "held"
    host, secret = address.split("/")[2:4]
    asked = json.dumps({"id": "t", "command": "run", "program": ENDLESS, "args": [], "options": {"steps": "10000000000"}}).encode()
    connection = socket.create_connection(("127.0.0.1", int(host.split(":")[1])))
    connection.sendall(b"POST /%s/call HTTP/1.1\r\nHost: %s\r\nOrigin: http://%s\r\nContent-Length: %d\r\n\r\n" % (secret.encode(), host.encode(), host.encode(), len(asked)) + asked)
    yield "a folder while a call runs", comes(lambda: [len(files) for _, _, files in os.walk(folder)][-1], 1), 1
    child.send_signal(signal.SIGTERM)
    yield "the end of the server", child.wait(20), 0
    connection.close()
    child.stdout.close()
    yield "what it leaves", os.listdir(folder), []


def flood(s):
    """Many calls and connections at once."""
    came = []
    threads = [threading.Thread(target=lambda k=k: came.append(s.call("run", program=ENDLESS, id="f%d" % k, options={"steps": "10000000000"}))) for k in range(8)]
    for thread in threads:
        thread.start()
    comes(lambda: len(came), 8 - page.MOST_RUNNING)
    for k in range(8):
        s.ask("POST", "/%s/stop" % s.secret, {"id": "f%d" % k})
    for thread in threads:
        thread.join()
    ends = sorted(str(answer["end"]) if status == 200 else str(status) for status, answer in came)
    yield "too many calls", ends, ["503"] * (8 - page.MOST_RUNNING) + ["stopped"] * page.MOST_RUNNING
    held = [socket.create_connection(("127.0.0.1", s.server.server_port)) for _ in range(page.MOST_CONNECTIONS)]
    yield "a connection too many", comes(lambda: raw(s, b"GET / HTTP/1.1\r\n\r\n"), b""), b""
    for connection in held:
        connection.close()
    yield "a connection after them", comes(lambda: raw(s, b"GET / HTTP/1.1\r\n\r\n")[:12], b"HTTP/1.1 403"), b"HTTP/1.1 403"
    yield "a long line", raw(s, b"GET /" + b"x" * 100000 + b" HTTP/1.1\r\n\r\n")[:12], b"HTTP/1.1 414"
    yield "many headers", raw(s, b"GET / HTTP/1.1\r\n" + b"a: b\r\n" * 200 + b"\r\n")[:12], b"HTTP/1.1 431"
    Tested.timeout = 1
    yield "a request that doesn't end", raw(s, b"GET / HT"), b""
    Tested.timeout = page.Page.timeout


def cleaned(folder):
    yield "scratch folders", os.listdir(folder), []


def seen_by(browser, s):
    """What the test in this browser reports; it is stopped with all that it started."""
    room = tempfile.mkdtemp(dir="/tmp")
    words = ["--headless", "--no-sandbox", "--disable-gpu", "--no-first-run", "--window-size=1000,900", "--user-data-dir=" + room, "--remote-debugging-port=0"]
    if "firefox" in browser:
        words = ["--headless", "--no-remote", "--width", "1000", "--height", "900", "--profile", room]
    child = subprocess.Popen([browser, *words, s.server.address + "#test"], stdout=subprocess.DEVNULL, stderr=subprocess.DEVNULL, start_new_session=True)
    s.server.reported.wait(BROWSER_SECONDS)
    os.killpg(child.pid, signal.SIGKILL)
    child.wait()
    shutil.rmtree(room, ignore_errors=True)
    return s.server.report.split("\n")


def browsed(folder):
    """What must be seen, in each browser: once as the page is here, and once as if nothing were installed beside it."""
    found = {name: next(filter(None, map(shutil.which, names)), None) for name, names in BROWSERS.items()}
    if not any(found.values()):
        print("no browser, skipped")
    with open(os.path.join(HERE, "page.seen"), encoding="utf-8") as file:
        wanted = file.read().rstrip("\n").split("\n")
    installed, nothing = (page.CODEMIRROR, page.DOT), (("/nowhere", ("codemirror.js",)), None)
    browsers = [(name, browser) for name, browser in found.items() if browser]
    for (name, browser), (page.CODEMIRROR, page.DOT) in [(one, nothing) for one in browsers[:1]] + [(one, installed) for one in browsers]:
        s = Started(folder)
        editor = "CodeMirror" if "library/codemirror.js" in s.server.files else "text area"
        title = "%s with %s, %s" % (name, editor, "dot" if page.DOT else "no dot")
        seen = seen_by(browser, s)
        s.stop()
        for number, line in enumerate([wanted[0].replace("EDITOR", editor), *wanted[1:]]):
            yield "%s: %s" % (title, line.split(":")[0]), seen[number] if number < len(seen) else "no report", line
        yield title + ": the end", seen[len(wanted):], []
    page.CODEMIRROR, page.DOT = installed


def main():
    titles = sys.argv[2:]
    page.program = lambda: os.path.abspath(sys.argv[1])
    passed = failed = 0
    with tempfile.TemporaryDirectory() as folder:
        tempfile.tempdir = folder
        s = Started(folder)
        for cases in (libraries(folder), refusals(s), calls(s), flood(s), cleaned(folder), ended(folder), browsed(folder), cleaned(folder)):
            for title, came, expected in cases:
                title = "page: " + title
                if titles not in ([], ["page"], [title]):
                    continue
                passed, failed = passed + (came == expected), failed + (came != expected)
                if came != expected:
                    print("FAILED: %s\n  expected %r\n  came     %r" % (title, expected, came))
        s.stop()
        tempfile.tempdir = None
    print("%d passed, %d failed" % (passed, failed))
    return 1 if failed else 0


if __name__ == "__main__":
    sys.exit(main())
