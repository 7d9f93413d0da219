"""A list of gets, W-207: its addresses and the buffer for its blocks by chance, and the list beside the library's own gets. They are given
as the addresses, how many bytes follow them, the buffer's length, and what fills it before the call."""
from crash import BUFFERS, must
from model import BLOCK, FIRST_DATA, LIST

TOP = 2**32 - 1

# Two addresses have one bucket if they agree in their low bits.
BUCKETS = 128


def spelled(addresses, tail):
    """The list, 4 bytes for each address."""
    return b"".join(address.to_bytes(4, "little") for address in addresses) + bytes([FIRST_DATA, 0, 0])[:tail]


# ---- lists by chance

def same_bucket(address, blocks):
    """The data blocks in the bucket of an address."""
    return range(FIRST_DATA + (address - FIRST_DATA) % BUCKETS, blocks, BUCKETS)


def pool(chance, blocks, held):
    """What a list is drawn from: any data blocks, few, what open, group, log and queue have, with others or without, or few buckets."""
    every, kind = range(FIRST_DATA, blocks), chance.randrange(6)
    if kind < 2:
        return (every, chance.choice((every[:1], every[:10], every[-2:])))[kind]
    if kind < 4:
        return [*held, *chance.choices(every, k=1 + len(held) // 2)] if kind == 3 or not held else held
    seeds = chance.choices(held or every, k=chance.choice((1, 3, 12)))
    return sorted({near for address in seeds for near in same_bucket(address, blocks)[:LIST]}) or every


def drawn_addresses(chance, blocks, lists):
    """Up to 32 addresses, now and then more; repeats are allowed. One list in seven has a wrong one, at either end or between."""
    count = chance.choice((0, 1, 2, 3, 6, 12, LIST - 1, LIST)) if chance.random() < 0.94 else chance.choice((33, 33, 34, 64))
    several = pool(chance, blocks, [address for listed in lists for address in listed if FIRST_DATA <= address < blocks])
    if chance.random() < 0.4 and len(several) >= count:
        addresses = chance.sample(several, count)
    else:
        addresses = chance.choices(several, k=count)
    if count and chance.random() < 0.3:
        wrong = chance.random() < 0.5
        addresses[chance.choice((0, count // 2, count - 1))] = chance.choice((0, FIRST_DATA - 1, blocks, TOP)) if wrong else blocks - 1
    return tuple(addresses)


def drawn(chance, blocks, lists):
    """A list on a card of so many blocks whose open, group, log and queue have these addresses. Mostly both lengths are right."""
    addresses = drawn_addresses(chance, blocks, lists)
    right = BLOCK * len(addresses)
    tail = chance.choice((1, 2, 3)) if chance.random() < 0.04 else 0
    others = {0, BLOCK - 1, BLOCK, right - BLOCK, right - 1, right + 1, right + BLOCK} - {right}
    length = right if chance.random() < 0.94 else chance.choice(sorted(n for n in others if n >= 0))
    return addresses, tail, length, chance.randrange(256, 264)


# ---- beside the library's own gets

def held(library, lent, outcome):
    """Holds a list to a get of each of its addresses, on the same bytes. The model is asked for nothing."""
    (answer, slots), data, blocks = outcome, lent["addresses"].read(), lent["blocks"]
    must(answer == 0 or slots == 0, "a refusal has %d slots", slots)
    if answer == 1:
        return
    must(len(data) % 4 == 0 and len(data) <= 4 * LIST and blocks.length == BLOCK * (len(data) // 4), "a wrong list is not refused as 1")
    found = [library.call("get", lent, (int.from_bytes(data[at:at + 4], "little"),)) for at in range(0, len(data), 4)]
    numbers = {number for number, _, _ in found}
    must(max(numbers, default=answer) == answer and (answer == 6 or numbers <= {answer}), "gets of its addresses answer %s", numbers)
    for i, (_, buffer, offset) in enumerate(found if answer == 0 else []):
        block = lent[BUFFERS[buffer]].read(offset, BLOCK)
        must(blocks.read(BLOCK * i, BLOCK) == block, "block %d is not what a get of its address finds", i)
