"""Runs crates/trapcard/out/trapcard and compares what it prints: with the outputs under examples/scripts, with the model on random scripts and
on lines at the edges of the grammar, and with what is known of two long inputs, which it must handle in 16 MiB."""
import random
import re
import resource
import subprocess
import threading
from pathlib import Path

import model
from model import BLOCK, CLOSED, WAITING, WORK, Record

ROOT = Path(__file__).resolve().parent.parent
PROGRAM = ROOT / "crates/trapcard/out/trapcard"
MEMORY = 16 << 20
RANDOM = 40
NUMBER = re.compile(rb"[0-9]{1,10}")
MARKS = re.compile(rb"[0-9]+")
FIELDS = {b"format": 0, b"commit": 0, b"abandon": 0, b"sync": 0, b"apply": 0, b"recover": 0, b"power": 1, b"get": 1, b"put": 2}


def understood(line):
    """The word and its arguments, or None. A digit of a cut stands for 512 marks alike."""
    word, *fields = line.split(b"\t")
    if len(line) > 80:
        return None
    if word == b"cut":
        if len(fields) > 1 or (fields and not MARKS.fullmatch(fields[0])):
            return None
        return word, [b"".join(bytes([digit - ord("0")]) * BLOCK for digit in b"".join(fields))]
    if FIELDS.get(word) != len(fields) or not all(NUMBER.fullmatch(f) for f in fields):
        return None
    limits = (2**32 - 1, 255)
    numbers = [int(f) for f in fields]
    return (word, numbers) if all(n <= m for n, m in zip(numbers, limits)) else None


class Bench:
    """The program by the model: its state, and what it printed."""

    def __init__(self):
        self.rec, self.out = Record(CLOSED, 64, power=0), []
        self.card = [bytearray(64 * BLOCK), bytearray(WAITING), bytearray(WORK)]

    def line(self, line):
        command = understood(line)
        if command is None:
            self.out.append(b"bad\t11\t0\n")
            return
        word, arguments = command
        if word == b"put":
            arguments = [arguments[0], bytes([arguments[1]]) * BLOCK]
        answer, *left = getattr(model, word.decode())(self.rec, *self.card, *arguments)
        third = 0
        if word == b"get":
            buffer, at = left
            third = 0 if answer else self.card[0 if buffer == 1 else 2][at]
        else:
            self.rec = left[-1]
            third = left[0] if len(left) == 2 else 0
        self.out.append(b"%s\t%d\t%d\n" % (word, answer, third))


def transcript(script):
    """What the script prints, by the model."""
    bench, lines = Bench(), script.split(b"\n")
    for line in lines if lines[-1] else lines[:-1]:
        bench.line(line)
    return b"".join(bench.out)


def printed(script):
    return subprocess.run([PROGRAM], input=script, stdout=subprocess.PIPE, check=True).stdout


def same(name, script, expected):
    if printed(script) != expected:
        (ROOT / "target").mkdir(exist_ok=True)
        (ROOT / "target/failed.script").write_bytes(script)
        raise SystemExit("scripts: %s prints something else; see target/failed.script" % name)


def cut(marks):
    return "cut\t" + marks if marks else "cut"


def random_lines(chance, bench):
    """A save that may be cut short, a cut, a recovery that may be cut short, calls that may be refused, and formats: some on a card in use,
    some behind an apply."""
    address = lambda: chance.randrange(34, 64)
    perhaps = lambda share, *lines: lines if chance.random() < share else ()
    for _ in range(chance.randrange(1, 14)):
        yield "put\t%d\t%d" % (address(), chance.randrange(256))
    yield chance.choice(["commit", "commit", "commit", "abandon"])
    yield chance.choice(["put\t%d\t1" % chance.randrange(30, 68), "get\t%d" % chance.randrange(30, 68), "recover", "cut\t1", "commit"])
    yield "power\t%d" % chance.choice([chance.randrange(14), chance.randrange(50), 1000, 1000])
    yield chance.choice(["sync", "sync", "sync", "apply"])
    yield from perhaps(0.2, "format")
    for _ in range(chance.randrange(3)):
        marks = "".join(chance.choice(["0", "1", "1", "1"]) for _ in range(bench.rec.waiting))
        if chance.random() < 0.2:
            yield cut(chance.choice([marks[1:], marks + "1", marks[1:] + "2", "9" + marks[1:]]))
        yield cut(marks)
        yield from perhaps(0.2, "format")
        yield "power\t%d" % chance.choice([0, 1, 2, 1000])
        yield "recover"
    for _ in range(4):
        yield "get\t%d" % address()
    yield from perhaps(0.2, "power\t1000", "apply", "format")


def random_script(seed):
    chance, bench, lines = random.Random(seed), Bench(), [b"format"]
    bench.line(b"format")
    for _ in range(16):
        for line in random_lines(chance, bench):
            lines.append(line.encode())
            bench.line(lines[-1])
    return b"\n".join(lines) + (b"\n" if seed % 2 else b"")


EDGES = [b"", b"\n", b"\n\n", b"format", b"format\n", b"format\t\n", b"formats\n", b"forma\n", b"sync\t\n", b"sync\t1\n", b" sync\n", b"sync\r\n",
         b"cut\n", b"cut\t\n", b"cut\t2\n", b"cut\t" + b"1" * 76 + b"\n", b"cut\t" + b"1" * 77 + b"\n", b"power\t4294967295\n",
         b"power\t4294967296\n", b"power\t0000000001\n", b"power\t00000000001\n", b"power\t\n", b"power\t-1\n", b"put\t40\t255\n",
         b"put\t40\t256\n", b"put\t40\n", b"put\t40\t1\t2\n", b"get\t40\n", b"tally\n", b"sync_cost\n", b"x" * 80 + b"\n", b"x" * 81 + b"\nsync\n",
         b"format\nput\t40\t7\ncommit\npower\t3\nsync\ncut\ncut\t11\ncut\t1111\ncut\t112\ncut\t911\ncut\t111\nrecover\nget\t40\n",
         b"format\nformat\n" + b"put\t40\t7\ncommit\npower\t3\nsync\n" + b"format\n" + b"put\t40\t7\ncommit\npower\t3\nsync\n"
         + b"cut\t011\nformat\npower\t9\nrecover\nget\t40\nformat\n",
         b"format\n" + b"get\t40" * 100 + b"\nget\t40\n", b"format\nget\t33\nget\t34\nget\t63\nget\t64\n", b"\0\n", b"format\x00\n", b"\xff\xfe\n"]


def long_input(name, pieces, expected):
    """Feeds the pieces to the program in bounded memory, and compares its output, which comes back in any pieces."""
    limit = lambda: resource.setrlimit(resource.RLIMIT_AS, (MEMORY, MEMORY))
    with subprocess.Popen([PROGRAM], stdin=subprocess.PIPE, stdout=subprocess.PIPE, preexec_fn=limit) as program:
        def feed():
            for piece in pieces:
                program.stdin.write(piece)
            program.stdin.close()
        threading.Thread(target=feed, daemon=True).start()
        for piece in expected:
            if program.stdout.read(len(piece)) != piece:
                raise SystemExit("scripts: %s prints something else" % name)
        if program.stdout.read(1) or program.wait() != 0:
            raise SystemExit("scripts: %s does not end as it should" % name)


for example in sorted((ROOT / "examples/scripts").glob("*.script")):
    same(example.name, example.read_bytes(), example.with_suffix(".out").read_bytes())
for edge in EDGES:
    same("the script %r" % edge[:40], edge, transcript(edge))
refused = 0
for seed in range(RANDOM):
    script = random_script(seed)
    expected = transcript(script)
    same("random script %d" % seed, script, expected)
    refused += expected.count(b"format\t13\t0\n")
long_input("a line of 4 MiB", [b"a" * (1 << 20)] * 4 + [b"\nsync\n"], [b"bad\t11\t0\nsync\t3\t0\n"])
LINES, CHUNKS = 1000, 50 * (1 << 20) // (81 * 1000) + 1
long_input("an input of 50 MiB", [(b"cut\t" + b"1" * 76 + b"\n") * LINES] * CHUNKS, [b"cut\t10\t0\n" * LINES] * CHUNKS)
print("scripts: the examples, %d edges, %d random scripts with %d formats refused, a line of 4 MiB and %d MiB of lines print what they must"
      % (len(EDGES), RANDOM, refused, CHUNKS * LINES * 81 >> 20))
