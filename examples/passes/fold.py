"""A pass in Python: folds constants inside each basic block. It reads a program as JSON and writes one as JSON.

    tools/try-pass 'python3 examples/passes/fold.py' examples/*.bril

What is known of a variable is forgotten at each label, since other ways may lead there.
"""
import json
import sys

FOLDED = {
    "id": lambda a: a, "not": lambda a: not a, "and": lambda a, b: a and b, "or": lambda a, b: a or b,
    "add": lambda a, b: wrap(a + b), "sub": lambda a, b: wrap(a - b), "mul": lambda a, b: wrap(a * b),
    "div": lambda a, b: wrap(quotient(a, b)), "char2int": ord,
    "eq": lambda a, b: a == b, "lt": lambda a, b: a < b, "gt": lambda a, b: a > b,
    "le": lambda a, b: a <= b, "ge": lambda a, b: a >= b,
}


def wrap(number):
    """An int of 64 bits: the signed number that is equal modulo 2^64."""
    return (number + 2**63) % 2**64 - 2**63


def quotient(a, b):
    """Bril divides toward zero; Python's // rounds down."""
    return abs(a) // abs(b) * (1 if (a < 0) == (b < 0) else -1)


def folded(item, known):
    """The item, or a constant in its place where the values of its operands are known."""
    operands = [known.get(name) for name in item.get("args", [])]
    op = item.get("op")
    if op not in FOLDED or None in operands or op == "div" and operands[1] == 0:
        return item
    return {"op": "const", "dest": item["dest"], "type": item["type"], "value": FOLDED[op](*operands)}


def fold(items):
    known, made = {}, []
    for item in items:
        if "label" in item:
            known = {}
        item = folded(item, known)
        if "dest" in item:
            known[item["dest"]] = item["value"] if item["op"] == "const" else None
        made.append(item)
    return made


program = json.load(sys.stdin)
for function in program["functions"]:
    function["instrs"] = fold(function["instrs"])
json.dump(program, sys.stdout)
