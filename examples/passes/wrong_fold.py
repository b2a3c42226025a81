"""A wrong pass: it folds constants as if no loop led back to a label, and divides as Python does. tools/try-pass finds both.

    tools/try-pass 'python3 examples/passes/wrong_fold.py' examples/*.bril

`fold.py` is right.
"""
import json
import sys

FOLDED = {"add": lambda a, b: a + b, "sub": lambda a, b: a - b, "mul": lambda a, b: a * b, "div": lambda a, b: a // b}

program = json.load(sys.stdin)
for function in program["functions"]:
    known = {}
    for item in function["instrs"]:
        operands = [known.get(name) for name in item.get("args", [])]
        if item.get("op") in FOLDED and None not in operands:
            item["value"] = FOLDED[item["op"]](*operands)
            item["op"] = "const"
            del item["args"]
        if "dest" in item:
            known[item["dest"]] = item.get("value")
json.dump(program, sys.stdout)
