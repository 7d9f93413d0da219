"""Two cards for alike, W-208: made by a seed and the names of what is done to the second of two equal ones, and what a pair is like, as
cells of the coverage table. A change of the log leaves the data blocks as they are laid, as far as home blocks can make up for it."""
import random
import struct
from copy import copy

from madeup import noise, save_number
from model import BLOCK, EMPTY_SUM, FIRST_DATA, FORMAT, SLOTS, choice, chosen, home, laid, log, log_sum, read_header

HEADER = "<4I3Q"


class Card:
    """A card that is taken: its settled bytes, the entries chosen, and what the header says besides."""

    def __init__(self, settled):
        _, count, _, self.back, _ = choice(len(settled) // BLOCK, settled)
        self.settled, self.entries = bytearray(settled), log(settled, count)
        _, _, self.previous, self.count, _, _, self.save = read_header(settled)

    def twin(self):
        other = copy(self)
        other.settled, other.entries = bytearray(self.settled), list(self.entries)
        return other

    def blocks(self):
        return len(self.settled) // BLOCK

    def listed(self):
        return [address for address, _ in self.entries]

    def newest(self, address):
        """The block at an address, as laid."""
        return dict(self.entries).get(address, home(self.settled, address))

    def set_block(self, number, block):
        self.settled[BLOCK * number:BLOCK * (number + 1)] = block

    def set_entry(self, slot, address, block):
        """The bytes of a slot, be it one of the chosen or not."""
        struct.pack_into("<I", self.settled, BLOCK + 4 * slot, address)
        self.set_block(2 + slot, block)

    def finished(self):
        """The slots of the chosen entries, and a header that has just these chosen."""
        for slot, entry in enumerate(self.entries):
            self.set_entry(slot, *entry)
        taken = len(self.entries)
        count = max(taken, self.count) if self.back else taken
        previous = taken if self.back else min(self.previous, taken)
        sums = [log_sum(log(self.settled, n)) for n in (previous, count)]
        sums[1] ^= self.back
        save = self.save or int(previous != count or sums[0] != sums[1])
        struct.pack_into(HEADER, self.settled, 0, FORMAT, self.blocks(), previous, count, *sums, save)
        return self.settled


def any_card(blocks, chance):
    """A card with few addresses in its log, so that some fill several slots, and few different blocks."""
    settled = noise(chance, BLOCK * blocks)
    struct.pack_into(HEADER, settled, 0, FORMAT, blocks, 0, 0, EMPTY_SUM, EMPTY_SUM, 0)
    card = Card(settled)
    pool = chance.choices(range(FIRST_DATA, blocks), k=chance.choice((1, 2, 8, 40, 40))) + [FIRST_DATA, blocks - 1]
    card.entries = [(chance.choice(pool), any_block(chance)) for _ in range(chance.choice((0, 1, 1, 2, 3, 5, 8, 16, 31, 32)))]
    card.previous, card.save = chance.randint(0, len(card.entries)), chance.choice((0, save_number(chance)))
    card.finished()
    return card


def any_block(chance):
    return bytes([chance.randrange(3)]) * BLOCK if chance.random() < 0.6 else chance.randbytes(BLOCK)


def spoiled(chance, block):
    """The same block but for one byte, often the first or the last."""
    at = chance.choice((0, BLOCK - 1, chance.randrange(BLOCK)))
    return block[:at] + bytes([block[at] ^ 1 << chance.randrange(8)]) + block[at + 1:]


def place(chance, count):
    """Often the first slot or the last."""
    return chance.choice((0, count - 1, chance.randrange(count)))


# ---- changes of the second card's log

def log_applied(one, two, chance):
    two.entries = []


def one_slot_more(one, two, chance):
    """Its entry is what the data block has already."""
    if len(two.entries) < SLOTS:
        address = chance.choice((chance.randrange(FIRST_DATA, two.blocks()), *two.listed()))
        two.entries.append((address, two.newest(address)))


def last_slot_less(one, two, chance):
    two.entries[-1:] = []


def first_slot_less(one, two, chance):
    two.entries[:1] = []


def other_address(one, two, chance):
    """In one slot; often it is one that stands in a later slot, too, or has the same lowest byte."""
    if two.entries:
        at = place(chance, len(two.entries))
        data, address, block = range(FIRST_DATA, two.blocks()), *two.entries[at]
        others = chance.choice((data, two.listed()[at + 1:], data[(address - FIRST_DATA) % 256::256])) or data
        two.entries[at] = chance.choice(others), block


def other_block(one, two, chance):
    """In one slot; mostly it is one whose address stands in a later slot, too."""
    hidden = [at for at, (address, _) in enumerate(two.entries) if address in two.listed()[at + 1:]]
    slots = hidden if hidden and chance.random() < 0.65 else range(len(two.entries))
    if slots:
        at = slots[place(chance, len(slots))]
        address, block = two.entries[at]
        two.entries[at] = address, spoiled(chance, block)


def other_entry(one, two, chance):
    """In one slot, address and block."""
    if two.entries:
        two.entries[place(chance, len(two.entries))] = chance.randrange(FIRST_DATA, two.blocks()), any_block(chance)


def other_order(one, two, chance):
    """Two entries change places."""
    if len(two.entries) > 1:
        i, j = chance.sample(range(len(two.entries)), 2)
        two.entries[i], two.entries[j] = two.entries[j], two.entries[i]


def shorter_fallback(one, two, chance):
    """The same slots, and a header that has fewer of them chosen."""
    if two.entries:
        two.back, two.count = True, len(two.entries)
        two.entries = two.entries[:chance.randrange(len(two.entries))]


# ---- changes that leave a pair alike

def falls_back(one, two, chance):
    """To the same entries, whatever follows them."""
    two.back, two.count = True, chance.randint(len(two.entries), SLOTS)


def no_fallback(one, two, chance):
    two.back = False


def other_save(one, two, chance):
    two.save = chance.choice((0, save_number(chance)))


def other_previous(one, two, chance):
    two.previous = chance.randint(0, len(two.entries))


def beyond_count(one, two, chance):
    """A slot that is not chosen, and bytes of header and descriptor that are not read."""
    two.settled[chance.randrange(40, BLOCK)] ^= 1
    two.settled[chance.randrange(BLOCK + 4 * SLOTS, 2 * BLOCK)] ^= 1
    if len(two.entries) < SLOTS:
        at = chance.randrange(len(two.entries), SLOTS)
        two.set_entry(at, chance.choice((0, FIRST_DATA, two.blocks(), chance.randrange(1 << 32))), chance.randbytes(BLOCK))


def under_log(one, two, chance):
    """Home blocks of addresses in the log, one or all."""
    listed = sorted(set(two.listed()))
    for address in listed and chance.choice(([chance.choice(listed)], listed)):
        two.set_block(address, spoiled(chance, home(two.settled, address)))


# ---- changes of the data and of N

def other_data(one, two, chance):
    """A byte of a data block that the log has not, and it may be that of a slot that is not chosen."""
    free = sorted({FIRST_DATA, two.blocks() - 1, *chance.choices(range(FIRST_DATA, two.blocks()), k=9)} - set(two.listed()))
    if free:
        address = free[place(chance, len(free))]
        two.set_block(address, spoiled(chance, home(two.settled, address)))
        if len(two.entries) < SLOTS and chance.random() < 0.5:
            two.set_entry(chance.randrange(len(two.entries), SLOTS), address, any_block(chance))


def other_size(one, two, chance):
    """Some blocks more."""
    if two.blocks() < 3000:
        two.settled += bytes(BLOCK * chance.randint(1, 3))


LOG = (log_applied, one_slot_more, last_slot_less, first_slot_less, other_address, other_address, other_address, other_block, other_block,
       other_entry, other_entry, other_order, other_order, shorter_fallback)
LIKE = (falls_back, falls_back, no_fallback, other_save, other_previous, beyond_count, beyond_count, under_log, under_log)
UNLIKE = (other_data, other_data, other_data, other_size)
CHANGES = {change.__name__: change for change in LOG + LIKE + UNLIKE}


def drawn(chance):
    """Mostly one change of the log or none, and some of the others; rarely data or N too."""
    kind = chance.random()
    log_changes = chance.sample(LOG, 0 if kind < 0.4 else 1 if kind < 0.95 else 2)
    unlike = chance.sample(UNLIKE, 1) if kind < 0.12 or kind > 0.92 else []
    return tuple(change.__name__ for change in log_changes + chance.sample(LIKE, chance.choice((0, 0, 1, 2, 4))) + unlike)


# ---- the two cards

def made_up_for(one, two, both):
    """Home blocks make the data blocks equal again: those of the second card, and of the first one if both may be written."""
    for address in {*one.listed(), *two.listed()}:
        first, second = one.newest(address), two.newest(address)
        if first != second and address not in two.listed():
            two.set_block(address, first)
        elif first != second and both and address not in one.listed():
            one.set_block(address, second)


def changed(one, two, chance, names, both):
    log_changes = [name for name in names if CHANGES[name] in LOG]
    for name in log_changes:
        CHANGES[name](one, two, chance)
    if log_changes:
        made_up_for(one, two, both)
    for name in names[len(log_changes):]:
        CHANGES[name](one, two, chance)


def twin(settled, seed, names):
    """The second card of a pair whose first one is lent as it is. One that is refused has a copy."""
    if chosen(settled)[0]:
        return bytearray(settled)
    one = Card(settled)
    two = one.twin()
    changed(one, two, random.Random(seed), names, False)
    return two.finished()


def pair(blocks, seed, names):
    """Both cards; the first one needs a fallback now and then, too."""
    chance = random.Random(seed)
    one = any_card(blocks, chance)
    if chance.random() < 0.2:
        falls_back(None, one, chance)
    two = one.twin()
    changed(one, two, chance, names, True)
    return one.finished(), two.finished()


# ---- what a pair is like that is not refused and has one N

def where(slot, count):
    return "only" if count == 1 else "first" if slot == 0 else "last" if slot == count - 1 else "middle"


def unlike_part(entry, other):
    return "address" if entry[1] == other[1] else "block" if entry[0] == other[0] else "entry"


def unlike_counts(few_entries, more):
    yield "one log empty" if not few_entries else "the counts unlike"
    if more[:-1] == few_entries:
        yield "one slot more"


def unlike_slots(listed, others):
    """Two logs of one count."""
    slots = [i for i, (entry, other) in enumerate(zip(listed, others)) if entry != other]
    if sorted(listed) == sorted(others):
        yield "the same entries in another order"
    if all(entry[1] == other[1] for entry, other in zip(listed, others)):
        yield "the same blocks in all slots"
    if len(slots) == 1:
        entry, other = listed[slots[0]], others[slots[0]]
        yield "%s unlike in the %s slot alone" % (unlike_part(entry, other), where(slots[0], len(listed)))
        if entry[0] != other[0] and entry[1] == other[1] and entry[0] % 256 == other[0] % 256:
            yield "an address unlike above its lowest byte alone"


def unlike_logs(cards):
    (listed, one, back), (others, other, other_back) = cards
    yield from unlike_slots(listed, others) if len(listed) == len(others) else unlike_counts(*sorted((listed, others), key=len))
    counts = [read_header(settled)[3] for settled in (one, other)]
    if counts[0] == counts[1] and log(one, counts[0]) == log(other, counts[0]):
        yield "the headers' whole lists equal"
    if back != other_back:
        yield "one card falls back"


def unlike_data(cards):
    """The same log, and unlike data blocks: where, if it is one alone."""
    (listed, one, _), (_, other, _) = cards
    last = len(one) // BLOCK - 1
    differ = [x for x in range(FIRST_DATA, last + 1) if home(one, x) != home(other, x) and x not in dict(listed)]
    if len(differ) == 1:
        x, named = differ[0], {FIRST_DATA: "the first block alone", last: "the last block alone"}
        yield "unlike in " + ("the only block" if last == FIRST_DATA else named.get(x, "a middle block alone"))
        if sum(byte != twin for byte, twin in zip(home(one, x), home(other, x))) == 1:
            yield "unlike in a byte alone"
        if any(x in dict(log(settled, SLOTS)[len(listed):]) for settled in (one, other)):
            yield "unlike in a block of a slot that is not chosen"


def same_cards(cards):
    """A yes."""
    (listed, one, back), (_, other, other_back) = cards
    count, heads = len(listed), (read_header(one), read_header(other))
    for case, holds in (
            ("%d slots" % count, count in (0, 1, SLOTS)), ("an address in several slots", len(dict(listed)) < count),
            ("an address beyond the count unlike", one[BLOCK + 4 * count:BLOCK + 4 * SLOTS] != other[BLOCK + 4 * count:BLOCK + 4 * SLOTS]),
            ("a block beyond the count unlike", one[BLOCK * (2 + count):BLOCK * FIRST_DATA] != other[BLOCK * (2 + count):BLOCK * FIRST_DATA]),
            ("a home block under the log unlike", any(home(one, x) != home(other, x) for x in dict(listed))),
            ("the first card falls back", back and not other_back), ("the second card falls back", other_back and not back),
            ("both cards fall back", back and other_back), ("a fallback to nothing", count == 0 and back != other_back),
            ("a fallback from unlike n", back and other_back and heads[0][3] != heads[1][3]),
            ("p unlike, no fallback", not back and not other_back and heads[0][2] != heads[1][2])):
        if holds:
            yield "yes, " + case


def likeness(one, other, yes):
    cards = [(chosen(settled)[1], settled, choice(len(settled) // BLOCK, settled)[3]) for settled in (one, other)]
    (listed, _, _), (others, _, _) = cards
    if yes:
        yield from same_cards(cards)
    elif listed == others:
        yield from ("no, the same log, data " + case for case in unlike_data(cards))
    else:
        same = laid(one, listed) == laid(other, others)
        yield from (("no, the same data, " if same else "no, unlike data, ") + case for case in unlike_logs(cards))
