"""Tests of the binding: python3 -B bindings/python/test_roolvist.py"""

import unittest
from concurrent.futures import ThreadPoolExecutor

import roolvist

DOUBLE = "@main(n: int) {\n  n: int = add n n;\n  print n;\n}\n"
LOOP = "@main {\n.again:\n  jmp .again;\n}\n"
CRASH = "@main(n: int) {\n  zero: int = sub n n;\n  n: int = div n zero;\n  print n;\n}\n"


class Binding(unittest.TestCase):
    def test_each_function(self):
        self.assertEqual(roolvist.check(DOUBLE), (1, 2))
        self.assertEqual(roolvist.run(DOUBLE, 21), "42\n")
        self.assertEqual(roolvist.interp(DOUBLE, 21), "42\n")
        self.assertEqual(roolvist.text(DOUBLE), DOUBLE)
        self.assertEqual(roolvist.passes(DOUBLE, ["dead", "tidy"]), DOUBLE)
        self.assertTrue(all(0 <= word < 1 << 32 for word in roolvist.emit(DOUBLE)))

    def test_json_is_a_dictionary(self):
        program = roolvist.json(DOUBLE)
        self.assertEqual(program["functions"][0]["name"], "main")
        self.assertEqual(roolvist.text(program), DOUBLE)
        self.assertEqual(roolvist.run(program, 4), "8\n")

    def test_a_profile_is_given_to_the_passes(self):
        with open("examples/factorial.bril", encoding="utf-8") as file:
            source = file.read()
        profile = roolvist.record(source, 20)
        self.assertTrue(profile.startswith("bril-profile 2\n"))
        made = roolvist.passes(source, ["trace", "tidy"], profile)
        self.assertNotEqual(made, roolvist.text(source))
        self.assertEqual(roolvist.run(made, 20), roolvist.run(source, 20, passes=["trace", "tidy"], profile=profile))

    def test_imports_are_read_from_the_files(self):
        program = 'from "lib.bril" import @double;\n@main {\n  x: int = const 4;\n  y: int = call @double x;\n  print y;\n}\n'
        double = "@double(n: int): int {\n  n: int = add n n;\n  ret n;\n}\n"
        self.assertEqual(roolvist.run(program, files={"lib.bril": double}), "8\n")

    def test_errors_have_a_status_and_a_line(self):
        cases = [
            (roolvist.Fault, 2, lambda: roolvist.run(CRASH, 1)),
            (roolvist.Unfinished, 3, lambda: roolvist.interp(LOOP, steps=100)),
            (roolvist.Misused, 64, lambda: roolvist.run(DOUBLE, 1, steps=-1)),
            (roolvist.Refused, 65, lambda: roolvist.check("@main { print x; }")),
            (roolvist.Refused, 69, lambda: roolvist.run(DOUBLE)),
            (roolvist.Refused, 70, lambda: roolvist.passes(DOUBLE, ["none"])),
        ]
        for kind, status, work in cases:
            with self.assertRaises(kind) as raised:
                work()
            self.assertEqual(raised.exception.status, status)
            self.assertTrue(raised.exception.line)

    def test_pieces_that_do_not_fit_are_told(self):
        self.assertEqual(roolvist.call(["roolvist", "check", "no.bril"]).status, 66)
        answer = roolvist.call(["roolvist", "interp", "p.bril", "--", "21"], {"p.bril": DOUBLE}, room=2)
        self.assertEqual((answer.status, answer.out), (74, b"42"))

    def test_calls_at_the_same_time(self):
        with ThreadPoolExecutor(8) as pool:
            printed = list(pool.map(lambda n: roolvist.run(DOUBLE, n), range(200)))
        self.assertEqual(printed, ["%d\n" % (2 * n) for n in range(200)])


if __name__ == "__main__":
    unittest.main()
