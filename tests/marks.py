"""A cut's marks by chance, 512 for each waiting write: of whole writes and torn ones, and wrong ones. They are given as runs: a pattern
that is repeated, in hex digits, or the seed of noise; and a length."""
import random
from functools import lru_cache

from model import BLOCK, FIRST_DATA, SLOTS

KEPT, LOST = ("01", BLOCK), ("00", BLOCK)
TWO_WAYS = (("00", "01"), ("01", "00"))


@lru_cache(1 << 12)
def run(pattern, length):
    if isinstance(pattern, int):
        return bytes(byte & 1 for byte in random.Random(pattern).randbytes(length))
    return (bytes.fromhex(pattern) * length)[:length]


def spelled(runs):
    """The marks, a byte each."""
    return b"".join(run(*one) for one in runs)


def told(runs):
    """In words: 1 for a write kept, 0 for one lost, else the runs."""
    return " ".join({KEPT: "1", LOST: "0"}.get(one, "%s*%d" % one) for one in runs)


# ---- the marks of one write

def odd_byte(chance, others, one):
    """Alike but for one, often the first, the last or one of the first 128, where the descriptor has its addresses."""
    at = chance.choice((0, BLOCK - 1, chance.randrange(BLOCK), chance.randrange(4 * SLOTS)))
    return (others, at), (one, 1), (others, BLOCK - 1 - at)


def torn(chance):
    """One byte kept or lost, halves, alternating bytes, any bytes, or the front or the back up to a byte."""
    kind, ways = chance.randrange(6), chance.choice(TWO_WAYS)
    if kind < 2:
        return odd_byte(chance, *ways)
    if kind == 2:
        return (chance.choice(("0001", "0100")), BLOCK),
    if kind == 3:
        return (chance.randrange(1 << 16), BLOCK),
    length = BLOCK // 2 if kind == 4 else chance.choice((4 * SLOTS, chance.randrange(1, BLOCK)))
    return (ways[0], length), (ways[1], BLOCK - length)


def over_one(chance):
    """A mark over 1, or all of them."""
    high = chance.choice(("02", "03", "80", "ff"))
    return ((high, BLOCK),) if chance.random() < 0.2 else odd_byte(chance, chance.choice(("00", "01", "01")), high)


# ---- those of a cut, by the addresses of the waiting writes

def all_but(queue, at, marks):
    """Every write is kept, but for one."""
    return [marks if i == at else (KEPT,) for i in range(len(queue))]


def places(queue, header):
    """Where the writes to block 0 wait, or the others; all places if there are none."""
    return [i for i, address in enumerate(queue) if (address == 0) == header] or range(len(queue))


def log_places(queue):
    """Where the writes to the log's blocks and the descriptor wait; all but the headers if there are none."""
    return [i for i, address in enumerate(queue) if 0 < address < FIRST_DATA] or places(queue, False)


def scattered(chance, queue, header):
    """Kept, lost and torn by chance. A write to block 0 is whole, and kept with the chance given."""
    tears = chance.choice((0, 0.2, 1))
    for address in queue:
        if address and chance.random() < tears:
            yield torn(chance)
        else:
            yield (KEPT if chance.random() < (0.8 if address else header) else LOST),


def wrong_number(chance, waiting):
    """One or 512 too few or too many, none, or one for each write."""
    right = BLOCK * waiting
    numbers = {right - 1, right + 1, right - BLOCK, right + BLOCK, 0, waiting} - {right}
    return (chance.choice(("00", "01", "01")), chance.choice(sorted(n for n in numbers if n >= 0))),


def drawn(chance, queue):
    """Mostly what a cut takes, and the header kept more often than lost."""
    kind = chance.random()
    if kind < 0.07 or not queue:
        return wrong_number(chance, len(queue)) if kind < 0.07 else ()
    if kind < 0.13:
        writes = all_but(queue, chance.choice(places(queue, chance.random() < 0.5)), over_one(chance))
    elif kind < 0.23 and 0 in queue:
        writes = all_but(queue, chance.choice(places(queue, True)), torn(chance))
    elif kind < 0.44:
        writes = [(KEPT if kind < 0.36 else LOST,)] * len(queue)
    elif kind < 0.62:
        at = chance.choice(log_places(queue) if chance.random() < 0.7 else places(queue, False))
        writes = all_but(queue, at, torn(chance) if kind < 0.56 else (LOST,))
    else:
        writes = scattered(chance, queue, 0.9 if kind < 0.82 else 0.2)
    return tuple(one for runs in writes for one in runs)
