"""The instructions of one step of each loop of sums.c on a core, by the disassembly of a linked program.

usage: steps.py OBJDUMP PROGRAM

A loop goes from where its longest branch back leads to that branch. Where there are two ways, the longer one counts; what is called counts
from its first instruction to its return.
"""
import re
import subprocess
import sys

LINE = re.compile(r"^ *([0-9a-f]+):\t[0-9a-f ]+\t(\S+)\t?(.*)$")
NAMES = {"sum_product": "product", "sum_tree": "table in a tree", "sum_quarters": "table in quarters"}


def functions(text):
    """The instructions of each function: address, name and operands. Words of data are none."""
    found = {}
    for line in text.splitlines():
        head = re.match(r"^[0-9a-f]+ <(\S+)>:$", line)
        if head:
            here = found.setdefault(head[1], [])
        elif (m := LINE.match(line)) and m[2] not in (".word", ".short"):
            here.append((int(m[1], 16), m[2], m[3]))
    return found


def target(op, ops):
    """Where a branch leads; None of what is no branch."""
    return int(ops.split()[0], 16) if re.fullmatch(r"b(eq|ne|cs|cc|mi|pl|vs|vc|hi|ls|ge|lt|gt|le)?(\.n)?", op) else None


def ends(op, ops):
    """Whether a function returns here."""
    return op == "bx" or op == "pop" and "pc" in ops


def longest(code, begin, last, all_code):
    """The longest way from one place forward to a last one: instructions, and of these the loads and stores and the multiplications."""
    way = {}
    for (at, op, ops), after in reversed(list(zip(code, [i[0] for i in code[1:]] + [None]))):
        own = [1, op.startswith(("ldr", "str", "push", "pop", "ldm", "stm")), op.startswith("mul")]
        if op == "bl":
            called = all_code[re.search(r"<(\S+)>", ops)[1]]
            own = [x + y for x, y in zip(own, longest(called, called[0][0], None, all_code))]
        if at == last or last is None and ends(op, ops):
            way[at] = own
            continue
        to = target(op, ops)
        next_ones = [to] if op in ("b", "b.n") else [after] if to is None else [after, to]
        behind = [way[n] for n in next_ones if n is not None and n > at and n in way]
        if behind and not ends(op, ops):
            way[at] = [x + y for x, y in zip(own, max(behind))]
    return way[begin]


def main(objdump, program):
    code = functions(subprocess.run([objdump, "-d", program], check=True, capture_output=True, text=True).stdout)
    for name, shown in NAMES.items():
        branches = [(at, to) for at, op, ops in code[name] if (to := target(op, ops)) is not None]
        last, begin = max(branches, key=lambda b: b[0] - b[1])
        print("| %s | %d | %d | %d |" % (shown, *longest(code[name], begin, last, code)))


main(*sys.argv[1:])
