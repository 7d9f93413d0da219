"""Lists of calls by chance: histories from a format on, and calls on made-up records and cards. A step is chosen by the record as it
stands, and holds all that its call needs, so that a list of steps can be made again without these choices."""
from collections import namedtuple

import marks
import pairs
import wanted
from madeup import CARD_FAULTS, RECORD_FAULTS, TOP, UNUSED
from model import BLOCK, CLOSED, COSTS, DIRECT, DOWN, FIRST_DATA, OPEN, RECORD, SLOTS, WAITING, WORK, fresh

# odd: pairs of a lent buffer's name and another length for it.
Step = namedtuple("Step", "call arguments odd", defaults=((), ()))
ELEVEN = ("power", "put", "direct", "get", "get_list", "commit", "abandon", "sync", "apply", "recover", "cut")
SIZES = (35, 36, 37, 40, 48, 66, 67, 70, 80, 100, 300)
LARGE_SIZES = (65535, 65536)


def size(chance, large):
    """Mostly a small card; which are the largest is decided by the history's index."""
    if large:
        return chance.choice(LARGE_SIZES)
    return chance.choice(SIZES) if chance.random() < 0.96 else chance.randrange(35, 1200)


# ---- arguments

def wrong_address(chance, blocks):
    return chance.choice((0, FIRST_DATA - 1, blocks, TOP))


def address(chance, blocks):
    """Mostly a data block, of few, so that some come again; on a card that is large enough also others in the buckets of those."""
    if chance.random() < 0.04:
        return wrong_address(chance, blocks)
    edge = chance.choice((FIRST_DATA, blocks - 1))
    if chance.random() < 0.2:
        return edge
    return chance.choice(wanted.same_bucket(FIRST_DATA + chance.randrange(min(blocks - FIRST_DATA, 40)), blocks)[:3])


def few_addresses(blocks):
    """The first data blocks, and the last."""
    return [*range(FIRST_DATA, min(blocks, FIRST_DATA + 40)), blocks - 1]


def free_addresses(lists, blocks):
    """Those of few data blocks that open, group and log don't have."""
    taken = set().union(*lists[:3])
    return [address for address in few_addresses(blocks) if address not in taken]


def direct_address(chance, lists, blocks):
    """Mostly one that open, group and log don't have, often one that waits; else one of a list, any, or a wrong one."""
    free, kind = free_addresses(lists, blocks), chance.random()
    if kind < 0.6 and free:
        return chance.choice(free)
    several = [listed for listed in (lists[:3] if kind < 0.8 else lists[3:]) if listed]
    if several and kind < 0.92:
        return chance.choice(chance.choice(several))
    return address(chance, blocks) if kind < 0.97 else wrong_address(chance, blocks)


def block(chance):
    """A byte that fills it, or the seed of noise; and its length."""
    length = BLOCK if chance.random() < 0.97 else chance.choice((0, 511, 513, 1024))
    return (chance.randrange(4) if chance.random() < 0.6 else chance.randrange(256, 1 << 16)), length


def ends(rec):
    """The powers at which a sync, an apply or a recovery ends at each of its kinds of order, as the paper counts them."""
    n, m = rec.logged, rec.grouped
    inner = (n, n + 1, n + 2, n + 2, n + 3) if n else ()
    before = n + 3 if n + m > SLOTS else 0
    own = (before, before + 1, before + m, before + m + 1, before + m + 2, before + m + 3) if m else ()
    behind = (before + m + 2,) * 6 if m and rec.waiting else ()
    return (0, 1, 2) + inner + own * 2 + behind


def power(chance, rec):
    """None, little, what ends the next call at a place of note, or plenty."""
    places = ends(rec)
    return chance.choice(places + (chance.randrange(max(places) + 1), TOP) + (1000,) * (len(places) // 2))


def arguments(chance, call, bench, blocks):
    """What a call is given. Of an inquiry: whether it is held to its call order by order."""
    if call == "power":
        return (power(chance, bench.rec()),)
    if call == "put":
        return address(chance, blocks), block(chance)
    if call == "direct":
        return direct_address(chance, bench.listed(), blocks), block(chance)
    if call == "get":
        queue = bench.queue() if chance.random() < 0.2 else ()
        return (chance.choice(queue) if queue else address(chance, blocks),)
    if call == "get_list":
        return wanted.drawn(chance, blocks, bench.listed())
    if call == "cut":
        return (marks.drawn(chance, bench.queue()),)
    if call in COSTS:
        return ("order by order",) if blocks not in LARGE_SIZES and chance.random() < 0.25 else ()
    return ()


def other_card(chance, blocks, large):
    """What alike is lent beside the card, and on which side; or two others."""
    kind = chance.choice(("itself", "copy", "copy", "laid", "made", "made", "twin", "twin", "twin", *(() if large else ("pair",) * 6)))
    detail = ()
    if kind == "twin":
        detail = chance.randrange(1 << 32), pairs.drawn(chance)
    if kind == "pair":
        detail = chance.choice((35, 36, 37, 48, 600, size(chance, False))), chance.randrange(1 << 32), pairs.drawn(chance)
    if kind == "copy":
        detail = tuple((chance.randrange(BLOCK * blocks), chance.randrange(256)) for _ in range(chance.randrange(3)))
    if kind == "made":
        sizes = (blocks,) if large else (blocks, blocks, size(chance, False))
        faults = chance.choice(((), card_faults(chance, 1), card_faults(chance, 2), ("neither_sum",)))
        detail = chance.choice(sizes), chance.randrange(1 << 32), faults
    return kind, detail, chance.choice(("first", "second"))


# ---- histories

class History:
    """The next steps of a history, by the mode that the last one left."""

    def __init__(self, chance, bench, blocks):
        self.chance, self.bench, self.blocks, self.group = chance, bench, blocks, []

    def steps(self):
        return {OPEN: self.when_open, CLOSED: self.when_closed, DOWN: self.when_down}[self.bench.rec().mode]()

    def step(self, call):
        return Step(call, arguments(self.chance, call, self.bench, self.blocks))

    def any(self):
        call = self.chance.choice(ELEVEN + COSTS + ("format", "tally", "alike"))
        if call == "alike":
            return [Step(call, other_card(self.chance, self.blocks, self.blocks in LARGE_SIZES))]
        return [self.step(call)]

    def when_open(self):
        kind, chance, waiting = self.chance.random(), self.chance, self.bench.rec().waiting
        if chance.random() < (0.5 if waiting >= DIRECT - 1 else 0.2 if waiting else 0):
            return self.when_waiting(waiting)
        if kind < 0.1:
            return [self.step("put")]
        if kind < 0.2:
            return [self.step("get" if kind < 0.15 else "get_list")]
        if kind < 0.3:
            return self.any()
        if kind < 0.4:
            return self.photograph()
        if kind < 0.9 and (self.bench.rec().grouped == 0 or chance.random() < 0.15):
            return self.many() if chance.random() < 0.2 else self.few()
        call = chance.choice(("sync", "sync", "sync", "apply"))
        return [self.step("power"), *self.asked(call), *([Step("format")] if chance.random() < 0.05 else [])]

    def when_waiting(self, waiting):
        """Behind a photograph: one more write with little power, a cut, a sync without a group, or a look at what waits."""
        kind, chance = self.chance.random(), self.chance
        if kind < 0.6 and waiting >= DIRECT - 1:
            return [Step("power", (chance.choice((0, 1, 1, 2)),)), self.step("direct"), self.step("direct")]
        if kind < 0.6:
            return [self.step("cut")]
        if kind < 0.8:
            return [Step("power", (chance.choice((0, 1, 2, 1000)),)), *self.asked("sync")]
        return [Step("get", (chance.choice(self.bench.queue()),)), self.step("get_list")]

    def photograph(self):
        """Direct writes to blocks that no list has, one after another, or to any; the 33rd that waits finds 32."""
        chance, lists = self.chance, self.bench.listed()
        free = free_addresses(lists, self.blocks)
        count = chance.choice((1, 1, 1, 2, 2, 3, 5, 5, 8, DIRECT - 1, DIRECT, DIRECT + 1) if free else (1, 2))
        if free and chance.random() < 0.6:
            first = chance.randrange(len(free))
            addresses = [free[(first + i) % len(free)] for i in range(count)]
        else:
            addresses = [direct_address(chance, lists, self.blocks) for _ in range(count)]
        before = [Step("power", (1000,))] if chance.random() < 0.7 else []
        return before + [Step("direct", (address, block(chance))) for address in addresses]

    def asked(self, call):
        """A call that gives orders; before half of them comes its inquiry, as firmware makes it."""
        before = [self.step(call + "_cost")] if self.chance.random() < 0.5 else []
        return before + [Step(call)]

    def many(self):
        """Puts that fill the open transaction or much of it, and their commit."""
        chance = self.chance
        count = min(self.blocks - FIRST_DATA, chance.choice((8, 16, SLOTS - 1, SLOTS, SLOTS + 1)))
        first, fill = chance.randrange(FIRST_DATA, self.blocks - count + 1), chance.randrange(3)
        more = [Step("put", (self.blocks, (fill, BLOCK)))] if chance.random() < 0.2 else []
        return [Step("put", (first + i, (fill, BLOCK))) for i in range(count)] + more + [Step("commit")]

    def few(self):
        """A small group, often the last one again: then a write that a cut loses may leave the bytes that it had."""
        chance, queue = self.chance, self.bench.queue()
        if not self.group or chance.random() < (0.2 if queue else 0.5):
            self.group = [(address(chance, self.blocks), block(chance)) for _ in range(chance.choice((1, 1, 2, 3, 6)))]
        photographed = [(chance.choice(queue), block(chance))] if queue and chance.random() < 0.3 else []
        return [Step("put", put) for put in self.group + photographed] + [Step("commit")]

    def when_closed(self):
        kind = self.chance.random()
        if kind < 0.03:
            return [Step("format")]
        if kind < 0.08:
            return [self.step("cut")]
        if kind < 0.28:
            return self.any()
        return [Step("power", (self.chance.choice((0, 1, 2, 3, 1000)),)), *self.asked("recover")]

    def when_down(self):
        if self.chance.random() < 0.25:
            return self.any()
        return [self.step("cut")]


def lived(chance, bench, large):
    """A history from a format that answers 0, whatever the record holds before it. A later format is refused, or begins another history."""
    blocks = size(chance, large)
    history = History(chance, bench, blocks)
    faults = chance.choice(RECORD_FAULTS), chance.choice(UNUSED)
    yield Step("make", (blocks, chance.randrange(1 << 32), tuple(fault.__name__ for fault in faults)))
    yield Step("format")
    if bench.rec() != fresh(blocks):
        return  # refused, by a planted fault
    if large:
        yield Step("get_list", ((blocks - 1, FIRST_DATA, blocks - 1), 0, 3 * BLOCK, 256))
    for _ in range(8 if large else 50):
        yield from history.steps()
    if large:
        yield Step("tally")
        yield Step("alike", ("laid", (), "second"))
        yield Step("format")


# ---- made-up records and cards

def card_faults(chance, count):
    return tuple(fault.__name__ for fault in chance.sample(CARD_FAULTS, count))


def odd_length(chance, call, blocks, large):
    """A lent buffer's name and a wrong length for it."""
    if call in ("tally", "alike"):
        name = "settled" if call == "tally" else chance.choice(("settled", "other"))
    else:
        name = "settled" if large else chance.choice(("record", "settled", "waiting", "work"))
    lengths = {"record": (0, RECORD - 8, RECORD - 1, RECORD + 1, 2 * RECORD),
               "waiting": (0, WAITING - 1, WAITING + 1, WAITING - 516, WAITING + 516),
               "work": (0, WORK - 1, WORK + 1, WORK - 516, WORK + 516)}
    if name in lengths:
        return name, chance.choice(lengths[name])
    if large:
        return name, BLOCK * 65537
    whole = BLOCK * blocks
    return name, chance.choice((0, BLOCK, 34 * BLOCK, 35 * BLOCK - 1, whole - 1, whole + 1, whole + 100, whole - BLOCK, whole + BLOCK))


def odd_lengths(chance, call, blocks):
    """For one call in four a wrong length, or two; rarely that of a card too large."""
    kind = chance.random()
    if kind < 0.75:
        return ()
    large = chance.random() < 0.05
    return tuple(dict(odd_length(chance, call, blocks, large) for _ in range(1 if large or kind < 0.95 else 2)).items())


def screens(chance, bench):
    """Lists of gets on a card that is large enough for buckets of several, and a record that has few of these."""
    blocks = chance.choice((300, 1200, 3000))
    yield Step("make", (blocks, chance.randrange(1 << 32), ("few_buckets",)))
    for _ in range(8):
        yield Step("get_list", arguments(chance, "get_list", bench, blocks))


def photographs(chance, bench):
    """Calls on an open record with direct writes waiting."""
    blocks = chance.choice((70, 100, size(chance, False)))
    yield Step("make", (blocks, chance.randrange(1 << 32), ("photograph",) if chance.random() < 0.7 else ("photograph", "last_save")))
    calls = chance.choices(("direct", "sync", "apply", "get", "get_list", "put"), k=3)
    begin = chance.choice((("sync_cost", "power", "sync"), ("power", "sync"), ("apply_cost", "power", "apply"), ("direct", "direct")))
    if begin[0] == "direct":
        yield Step("power", (chance.choice((0, 1, 1, 2)),))
    for call in [*begin, *calls, "cut"]:
        yield Step(call, arguments(chance, call, bench, blocks))


def demonstrations(chance, bench):
    """Pairs of cards that are equal but for little, and cards beside those that are refused."""
    blocks = size(chance, False)
    yield Step("make", (blocks, chance.randrange(1 << 32), chance.choice(((), (), (), (), card_faults(chance, 1), ("neither_sum",)))))
    for _ in range(30):
        yield Step("alike", other_card(chance, blocks, False), odd_lengths(chance, "alike", blocks) if chance.random() < 0.3 else ())


def made_up(chance, bench, large):
    """A record and a card with nought to three faults, and calls on them; now and then lists of gets alone, calls behind direct writes, or
    pairs of cards."""
    if not large and chance.random() < 0.35:
        kinds = screens, screens, demonstrations, demonstrations, demonstrations, *[photographs] * 6
        yield from chance.choice(kinds)(chance, bench)
        return
    blocks, count = size(chance, large), chance.choice((0, 0, 1, 1, 1, 1, 2, 3))
    pool = chance.choice((RECORD_FAULTS, RECORD_FAULTS, CARD_FAULTS, RECORD_FAULTS + CARD_FAULTS))
    yield Step("make", (blocks, chance.randrange(1 << 32), tuple(fault.__name__ for fault in chance.sample(pool, count))))
    calls = chance.choices(ELEVEN + COSTS + ("get_list", "get_list", "direct", "sync", "tally", "alike"), k=chance.randint(3, 14))
    calls += ["cut", "cut", "recover_cost", "recover"]
    for _ in range(chance.choice((0, 0, 1, 2))):
        calls.insert(chance.randint(len(calls) // 2, len(calls)), "format")
    for call in calls:
        if call == "alike":
            given = other_card(chance, blocks, large)
        else:
            given = arguments(chance, call, bench, blocks)
        yield Step(call, given, () if large else odd_lengths(chance, call, blocks))
