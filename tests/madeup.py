"""Made-up records and cards, by a seed and the names of the faults put in: each as no history of calls would leave it."""
import random
import struct

from model import (BLOCK, CLOSED, DIRECT, DOWN, EMPTY_SUM, ENTRY, FIRST_DATA, FORMAT, LAST, MOST_WAITING, OPEN, PLACES, SLOTS, WAITING, WORK,
                   Record, encode, entries, log, log_sum)

TOP = 2**32 - 1
RUN = 1 << 16


def noise(chance, length):
    """Bytes of any kind. A large card has them at both ends and here and there between, and is zero elsewhere."""
    if length <= 2 * RUN:
        return bytearray(chance.randbytes(length))
    data = bytearray(length)
    data[:RUN], data[-RUN:] = chance.randbytes(RUN), chance.randbytes(RUN)
    for _ in range(200):
        data[chance.randrange(length)] = chance.randrange(256)
    return data


def few(chance, most):
    return min(most, chance.choice((0, 1, 2, 3, 5, 8, 16, 31, 32)))


def save_number(chance):
    """The largest and the one before it, those at a carry into the upper half, small ones, those with one bit, and any but 0."""
    return chance.choice((LAST, LAST, LAST - 1, LAST - 1, TOP, TOP, TOP + 1, 1, 2, 1 << chance.randrange(64), chance.randrange(1, LAST)))


class Made:
    """A record that fits its bytes and a card that a recovery takes, until a fault is put in."""

    def __init__(self, blocks, chance):
        self.chance, self.blocks = chance, blocks
        self.settled, self.waiting, self.work = (noise(chance, n) for n in (BLOCK * blocks, WAITING, WORK))
        self.mode, self.N, self.power = chance.choice((CLOSED, OPEN, OPEN, DOWN)), blocks, chance.choice((0, 1, 2, 3, 5, 9, 40, 80, TOP))
        self.room = min(SLOTS, blocks - FIRST_DATA)
        self.opened, self.grouped, self.logged = few(chance, self.room), few(chance, self.room), few(chance, SLOTS)
        self.queued = self.some_waiting()
        self.count = chance.choice((self.logged, few(chance, SLOTS)))
        self.previous = min(self.count, few(chance, SLOTS))
        self.version, self.header_blocks, self.flips, self.one_sum, self.bare = FORMAT, blocks, [0, 0], False, False
        self.save = 0 if self.previous == self.count and chance.random() < 0.3 else save_number(chance)
        self.record_save = chance.choice((0, self.save, save_number(chance), save_number(chance)))
        self.list_addresses()

    def some_waiting(self):
        """None when closed, up to 32 when open, up to 66 when down."""
        some = few(self.chance, DIRECT)
        return {CLOSED: 0, OPEN: self.chance.choice((0, some)), DOWN: self.chance.choice((some, DIRECT + some, PLACES))}[self.mode]

    def open(self):
        """Open, with no more waiting than may."""
        self.mode, self.queued = OPEN, min(self.queued, DIRECT)

    def data(self):
        return self.chance.randrange(FIRST_DATA, self.blocks)

    def stray(self):
        """An address that is no data block."""
        return self.chance.choice((0, 1, FIRST_DATA - 1, self.blocks, self.blocks + 1, TOP))

    def list_addresses(self):
        for first in (0, SLOTS):
            for i, address in enumerate(self.chance.sample(range(FIRST_DATA, self.blocks), self.room)):
                self.list_at(first + i, address)
        for i in range(SLOTS):
            self.log_at(i, self.data())
        wild = self.mode != OPEN or self.chance.random() < 0.2
        for i in range(PLACES):
            strange = self.chance.randrange(self.blocks), self.chance.randrange(FIRST_DATA)
            self.wait_at(i, self.chance.choice((self.data(), *strange)) if wild else self.data())

    def listed(self):
        """The addresses of open, group and log, as far as there is room for them."""
        counts = [min(count, SLOTS) for count in (self.opened, self.grouped, self.logged)]
        logged = [address for address, _ in log(self.settled, counts[2])]
        return entries(self.work, 0, counts[0]) + entries(self.work, SLOTS, counts[1]) + logged

    def list_at(self, place, address):
        struct.pack_into("<I", self.work, ENTRY * place, address)

    def log_at(self, slot, address):
        struct.pack_into("<I", self.settled, BLOCK + 4 * slot, address)

    def wait_at(self, place, address):
        struct.pack_into("<I", self.waiting, ENTRY * place, address)

    def spoil(self):
        """Strays where no address is read: beyond the counts, and in work memory unless open."""
        unread = self.mode != OPEN
        for i in range(0 if unread else self.opened, SLOTS):
            self.list_at(i, self.stray())
        for i in range(0 if unread else self.grouped, SLOTS):
            self.list_at(SLOTS + i, self.stray())
        for i in range(max(self.logged, self.count), SLOTS):
            self.log_at(i, self.stray())
        for i in range(self.queued, PLACES):
            self.wait_at(i, self.blocks)

    def finished(self):
        """The header's sums come last, and so does the record's."""
        if self.chance.random() < 0.5:
            self.spoil()
        sums = [log_sum(log(self.settled, min(n, SLOTS))) ^ flip for n, flip in zip((self.previous, self.count), self.flips)]
        if self.one_sum:
            sums[0] = sums[1]
        if not self.bare:
            struct.pack_into("<4I3Q", self.settled, 0, self.version, self.header_blocks, self.previous, self.count, *sums, self.save)
        total = self.chance.choice((EMPTY_SUM, sums[1], self.chance.randrange(2**64)))
        rec = Record(self.mode, self.N, self.opened, self.grouped, self.logged, self.queued, self.power, total, self.record_save)
        return bytearray(encode(rec)), self.settled, self.waiting, self.work


# ---- faults of the record

def over(limit):
    return lambda made: made.chance.choice((limit + 1, limit + 2, 255, TOP))


def mode(made):
    made.mode = over(DOWN)(made)


def open_count(made):
    made.opened = over(SLOTS)(made)


def group_count(made):
    made.grouped = over(SLOTS)(made)


def log_count(made):
    made.logged = over(SLOTS)(made)


def waiting_when_closed(made):
    made.mode, made.queued = CLOSED, made.chance.choice((1, 1, made.chance.randint(1, PLACES), TOP))


def waiting_when_open(made):
    made.mode, made.queued = OPEN, made.chance.choice((DIRECT + 1, over(DIRECT)(made), PLACES))


def waiting_when_down(made):
    made.mode, made.queued = DOWN, over(PLACES)(made)


def other_blocks(made):
    """The header has the same one, or the card's."""
    made.N = made.chance.choice((made.blocks - 1, made.blocks + 1, 0, FIRST_DATA, TOP))
    made.header_blocks = made.chance.choice((made.N, made.blocks))


def place(made, count, limit):
    """One of the places in use, also where another fault made the count absurd."""
    return made.chance.randrange(min(count, limit))


def open_address(made):
    made.open()
    made.opened = max(made.opened, 1)
    made.list_at(place(made, made.opened, SLOTS), made.stray())


def group_address(made):
    made.open()
    made.grouped = max(made.grouped, 1)
    made.list_at(SLOTS + place(made, made.grouped, SLOTS), made.stray())


def log_address(made):
    made.open()
    made.logged = max(made.logged, 1)
    made.log_at(place(made, made.logged, SLOTS), made.stray())


def waiting_address(made):
    made.mode = made.chance.choice((OPEN, DOWN))
    made.queued = max(min(made.queued, MOST_WAITING[made.mode]), 1)
    made.wait_at(place(made, made.queued, PLACES), made.chance.choice((made.blocks, made.blocks + 1, TOP)))


def twice(made, first, count):
    one, other = made.chance.sample(range(min(max(count, 2), SLOTS)), 2)
    made.open()
    for at in (one, other):
        made.list_at(first + at, made.blocks - 1)
    return max(count, 2)


def twice_in_open(made):
    made.opened = twice(made, 0, made.opened)


def twice_in_group(made):
    made.grouped = twice(made, SLOTS, made.grouped)


def few_buckets(made):
    """No fault by itself: the addresses of open, group, log and queue agree in their low 7 bits with few, and often with each other."""
    data, chance = range(FIRST_DATA, made.blocks), made.chance
    lows = chance.sample(data[:128], min(len(data), chance.choice((1, 3, 9))))
    pool = [address for low in lows for address in data[low - FIRST_DATA::128][:9]]
    made.open()
    made.opened, made.grouped = min(made.opened, len(pool)), min(made.grouped, len(pool))
    for first in (0, SLOTS):
        for i, address in enumerate(chance.sample(pool, min(len(pool), SLOTS))):
            made.list_at(first + i, address)
    for i in range(SLOTS):
        made.log_at(i, chance.choice(pool))
        made.wait_at(i, chance.choice(pool))


def few_blocks(made):
    """No fault by itself: many writes wait for few blocks, block 0 among them."""
    made.mode, made.queued, blocks = DOWN, made.chance.randint(2, PLACES), (0, 0, 1, made.data(), made.data())
    for i in range(PLACES):
        made.wait_at(i, made.chance.choice(blocks))


def photograph(made):
    """No fault by itself: direct writes wait for few data blocks, those of open, group and log among them, and there is little power."""
    chance = made.chance
    made.open()
    made.queued, made.power = chance.choice((1, 5, DIRECT - 1, DIRECT, DIRECT)), chance.choice((0, 1, 2, made.power, made.power))
    made.grouped, made.logged = chance.choice((0, made.grouped, made.room)), chance.choice((0, made.logged, SLOTS, SLOTS))
    pool = [made.data() for _ in range(4)] + chance.choice(([], made.listed()))
    for i in range(DIRECT):
        made.wait_at(i, chance.choice(pool))


def last_save(made):
    """No fault by itself: a group that meets the largest save number, or leaves it, or an empty one."""
    made.record_save, made.grouped = made.chance.choice((LAST, LAST, LAST - 1)), made.chance.choice((0, max(made.grouped, 1)))


# ---- faults of the card

def card_format(made):
    made.version = made.chance.choice((0, 1, 1, 3, 258, TOP))


def card_blocks(made):
    made.header_blocks = made.chance.choice((made.blocks - 1, made.blocks + 1, TOP))


def card_count(made):
    made.count = over(SLOTS)(made)


def card_previous(made):
    made.previous = min(made.count + made.chance.choice((1, 2, 300)), TOP)


def sum_of_count(made):
    made.flips[1] = 1 << made.chance.randrange(64)


def sum_of_previous(made):
    made.flips[0] = 1 << made.chance.randrange(64)


def neither_sum(made):
    sum_of_count(made)
    sum_of_previous(made)


def no_save_counts(made):
    """Save number 0 and unlike counts, with the sum of n twice or with both."""
    made.save, made.count = 0, max(made.count, 1)
    made.previous, made.one_sum = min(made.previous, made.count - 1), made.chance.random() < 0.5


def no_save_sums(made):
    """Save number 0 and unlike sums. The counts are alike, so that one of the two sums is wrong."""
    made.save, made.previous = 0, made.count
    made.flips[made.chance.randrange(2)] = 1 << made.chance.randrange(64)


def stray_in_list(made):
    made.count = max(made.count, 1)
    made.log_at(place(made, made.count, SLOTS), made.stray())


# ---- cards that a format takes, with those that are foreign

def zeros(made):
    made.settled, made.bare = bytearray(len(made.settled)), True


def any_bytes(made):
    made.bare = True


def empty_log(made):
    made.previous = made.count = 0


def empty_unsound(made):
    """No entries, and neither sum is that of none: recover would answer 9."""
    empty_log(made)
    neither_sum(made)
    made.save = save_number(made.chance)


RECORD_FAULTS = (mode, open_count, group_count, log_count, waiting_when_closed, waiting_when_open, waiting_when_down, other_blocks, open_address,
                 group_address, log_address, waiting_address, twice_in_open, twice_in_group, few_blocks, few_blocks, few_buckets, photograph,
                 last_save)
CARD_FAULTS = (card_format, card_blocks, card_count, card_previous, sum_of_count, sum_of_count, sum_of_previous, neither_sum, stray_in_list,
               no_save_counts, no_save_sums)
UNUSED = (zeros, any_bytes, empty_log, empty_unsound, card_format, card_blocks, card_count, card_previous, no_save_counts, no_save_sums)
FAULTS = {fault.__name__: fault for fault in RECORD_FAULTS + CARD_FAULTS + UNUSED}


def made(blocks, seed, faults):
    """The record and the three buffers. A faulty card is mostly one that a recovery meets closed, or down."""
    chance = random.Random(seed)
    state = Made(blocks, chance)
    if any(FAULTS[name] in CARD_FAULTS for name in faults) and chance.random() < 0.8:
        state.mode, state.queued = chance.choice((CLOSED, CLOSED, CLOSED, CLOSED, DOWN)), 0
    for name in faults:
        FAULTS[name](state)
    return state.finished()
