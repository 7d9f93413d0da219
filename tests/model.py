"""Document 01's twelve calls, with W-201, the three inquiries of W-202, the torn cut of W-204, the refusal of W-205, the list of gets of
W-207, the alike of W-208 and the direct write of W-209 of document 02, on plain Python values, written from the papers and not from the code
of the crates.

Buffers are bytearrays. A call of the ten and a direct write return their number and the record that they leave; sync, apply, recover and a
direct write their orders between. An inquiry returns its number and its four figures, tally and alike their number and what they found, a
list of gets its number and the slots read. `c_call` is any of the seventeen as C sees it.
"""
import struct
from dataclasses import dataclass, replace
from functools import lru_cache

BLOCK, ENTRY, SLOTS, FIRST_DATA, PLACES, RECORD = 512, 516, 32, 34, 66, 44
LEAST, MOST = 35, 65536
WAITING, WORK = PLACES * ENTRY, 2 * SLOTS * ENTRY
CLOSED, OPEN, DOWN = 0, 1, 2
DIRECT = 32
EMPTY_SUM = 14695981039346656037
FORMAT, LAST, ENOUGH = 2, 2**64 - 1, 2**32 - 1
LIST = 32
KEPT = bytes([1]) * BLOCK


@dataclass(frozen=True)
class Record:
    mode: int
    blocks: int
    opened: int = 0
    grouped: int = 0
    logged: int = 0
    waiting: int = 0
    power: int = 7
    sum: int = EMPTY_SUM
    save: int = 0


@lru_cache(1 << 14)
def fnv(data, h=EMPTY_SUM):
    for byte in data:
        h = (h ^ byte) * 1099511628211 & 0xffffffffffffffff
    return h


def fresh(blocks):
    return Record(OPEN, blocks, power=1000000)


def number(data, at, size=4):
    return int.from_bytes(data[at:at + size], "little")


def entries(data, first, count):
    """The addresses of entries in waiting bytes or work memory."""
    return [number(data, ENTRY * (first + i)) for i in range(count)]


def lists(rec, settled, work):
    return (entries(work, 0, rec.opened), entries(work, SLOTS, rec.grouped),
            [number(settled, BLOCK + 4 * i) for i in range(rec.logged)])


def is_data(blocks, address):
    return FIRST_DATA <= address <= blocks - 1


def home(settled, address):
    return bytes(settled[BLOCK * address:BLOCK * (address + 1)])


def log(settled, count):
    """The first entries of the log, as pairs of address and block."""
    return [(number(settled, BLOCK + 4 * i), home(settled, 2 + i)) for i in range(count)]


def log_sum(log_entries, h=EMPTY_SUM):
    for address, block in log_entries:
        h = fnv(address.to_bytes(4, "little") + block, h)
    return h


def read_header(settled):
    """Format number, N, p, n, the sums of both, the save number."""
    return struct.unpack_from("<4I3Q", settled)


def unnumbered(previous, count, previous_sum, count_sum, save):
    """What a header with save number 0 may not have, by name."""
    unlike = [name for name, wrong in (("counts", previous != count), ("sums", previous_sum != count_sum)) if wrong]
    return "save 0, unlike " + " and ".join(unlike) if save == 0 and unlike else None


def foreign(blocks, head):
    """What row 8 finds in a header, by name."""
    version, counted, previous, count = head[:4]
    for name, wrong in (("format 1", version == 1), ("another format", version not in (1, FORMAT)), ("N", counted != blocks),
                        ("n over 32", count > SLOTS), ("p over n", previous > count)):
        if wrong:
            yield name
    yield from filter(None, [unnumbered(*head[2:])])


def in_use(settled):
    """W-205: recover would not call the card foreign, and the header's count is above 0. N is the buffer's."""
    head = read_header(settled)
    return head[3] > 0 and not any(foreign(len(settled) // BLOCK, head))


def choice(blocks, settled):
    """What a recovery comes to: its number, the count and the sum of the list taken, whether it falls back, and the number found."""
    head = read_header(settled)
    if any(foreign(blocks, head)):
        return 8, 0, 0, False, 0
    _, _, previous, count, previous_sum, count_sum, save = head
    for taken, total, back in ((count, count_sum, False), (previous, previous_sum, True)):
        listed = log(settled, taken)
        if all(is_data(blocks, a) for a, _ in listed) and log_sum(listed) == total:
            return 0, taken, total, back, save - back
    return 9, 0, 0, False, 0


# W-209: the most writes that wait in a record, by its mode.
MOST_WAITING = {CLOSED: 0, OPEN: DIRECT, DOWN: PLACES}


def wrong_counts(rec, settled):
    """What row 2 finds in the record alone, by name."""
    most = MOST_WAITING.get(rec.mode, PLACES)
    for name, wrong in (("mode", rec.mode > DOWN), ("open count", rec.opened > SLOTS), ("group count", rec.grouped > SLOTS),
                        ("log count", rec.logged > SLOTS), ("waiting when closed", rec.mode == CLOSED and rec.waiting > most),
                        ("waiting when open", rec.mode == OPEN and rec.waiting > most),
                        ("waiting when down", rec.mode >= DOWN and rec.waiting > most),
                        ("N", rec.blocks != len(settled) // BLOCK)):
        if wrong:
            yield name


def wrong_lists(rec, settled, waiting, work):
    """What row 2 finds in the lists, of a record whose counts are right."""
    if any(a >= rec.blocks for a in entries(waiting, 0, rec.waiting)):
        yield "waiting address"
    if rec.mode != OPEN:
        return
    opened, grouped, logged = lists(rec, settled, work)
    for name, listed in (("open address", opened), ("group address", grouped), ("log address", logged)):
        if not all(is_data(rec.blocks, a) for a in listed):
            yield name
    for name, listed in (("twice in open", opened), ("twice in group", grouped)):
        if len(set(listed)) < len(listed):
            yield name


def wrong_record(rec, settled, waiting, work):
    return any(wrong_counts(rec, settled)) or any(wrong_lists(rec, settled, waiting, work))


def marks_of(marks, i):
    """The marks of the i-th waiting write, a byte each."""
    return marks[BLOCK * i:BLOCK * (i + 1)]


def torn(kept):
    """Whether a write's marks are unlike."""
    return len(set(kept)) > 1


def wrong_marks(rec, waiting, marks):
    """What row 10 finds in a cut's marks, by name."""
    if len(marks) != BLOCK * rec.waiting:
        yield "number"
    if max(marks, default=0) > 1:
        yield "over 1"
    queue = entries(waiting, 0, min(rec.waiting, PLACES))
    if any(torn(marks_of(marks, i)) for i, address in enumerate(queue) if address == 0):
        yield "torn header"


def wanted(addresses):
    """The addresses of a list, those that are whole."""
    return [number(addresses, 4 * i) for i in range(len(addresses) // 4)]


def wrong_list(addresses, blocks):
    """What row 1 finds in a list of addresses and the buffer lent for their blocks, by name."""
    count = len(addresses) // 4
    for name, wrong in (("no whole addresses", len(addresses) % 4), ("over 32", count > LIST), ("buffer", len(blocks) != BLOCK * count)):
        if wrong:
            yield name


def wrong_size(settled):
    return len(settled) % BLOCK != 0 or not LEAST <= len(settled) // BLOCK <= MOST


def cause(call, rec, settled, waiting, work, address=None, block=None, marks=None, listed=None):
    """The first row of the table that applies, or 0. `listed` are the addresses of a list and the buffer for its blocks."""
    if wrong_size(settled):
        return 1
    if len(waiting) != WAITING or len(work) != WORK or (call in ("put", "direct") and len(block) != BLOCK):
        return 1
    if call == "get_list" and any(wrong_list(*listed)):
        return 1
    if call == "format":
        return 13 if in_use(settled) else 0
    if wrong_record(rec, settled, waiting, work):
        return 2
    if call == "power":
        return 0
    if call == "cut":
        return 10 if any(wrong_marks(rec, waiting, marks)) else 0
    if call == "recover":
        return {OPEN: 5, DOWN: 4}.get(rec.mode) or choice(rec.blocks, settled)[0]
    if rec.mode != OPEN:
        return 3 if rec.mode == CLOSED else 4
    if call in ("put", "direct", "get") and not is_data(rec.blocks, address):
        return 6
    if call == "get_list":
        return 0 if all(is_data(rec.blocks, a) for a in wanted(listed[0])) else 6
    opened, grouped, logged = lists(rec, settled, work)
    if call == "direct":
        return 14 if address in opened + grouped + logged else 0
    if call == "put" and address not in opened and rec.opened == SLOTS:
        return 7
    if call == "commit" and len(set(opened) | set(grouped)) > SLOTS:
        return 7
    if call == "sync" and rec.grouped and rec.save == LAST:
        return 12
    return 0


def format(rec, settled, waiting, work):
    answer = cause("format", rec, settled, waiting, work)
    if answer:
        return answer, rec
    blocks = len(settled) // BLOCK
    header = bytes([FORMAT, 0, 0, 0]) + blocks.to_bytes(4, "little") + bytes(8) + EMPTY_SUM.to_bytes(8, "little") * 2
    for buffer in (settled, waiting, work):
        buffer[:] = bytes(len(buffer))
    settled[:len(header)] = header
    return 0, fresh(blocks)


def power(rec, settled, waiting, work, count):
    answer = cause("power", rec, settled, waiting, work)
    return answer, rec if answer else replace(rec, power=count)


def put(rec, settled, waiting, work, address, block):
    answer = cause("put", rec, settled, waiting, work, address, block)
    if answer:
        return answer, rec
    opened = entries(work, 0, rec.opened)
    i = opened.index(address) if address in opened else rec.opened
    work[ENTRY * i:ENTRY * (i + 1)] = address.to_bytes(4, "little") + bytes(block)
    return 0, rec if address in opened else replace(rec, opened=rec.opened + 1)


def commit(rec, settled, waiting, work):
    answer = cause("commit", rec, settled, waiting, work)
    if answer:
        return answer, rec
    grouped = entries(work, SLOTS, rec.grouped)
    for i in range(rec.opened):
        entry = bytes(work[ENTRY * i:ENTRY * (i + 1)])
        address = number(entry, 0)
        if address not in grouped:
            grouped.append(address)
        j = SLOTS + grouped.index(address)
        work[ENTRY * j:ENTRY * (j + 1)] = entry
    return 0, replace(rec, opened=0, grouped=len(grouped))


def abandon(rec, settled, waiting, work):
    answer = cause("abandon", rec, settled, waiting, work)
    return answer, rec if answer else replace(rec, opened=0)


def bounded(rec):
    """The record with no list longer than there is room for."""
    return replace(rec, opened=min(rec.opened, SLOTS), grouped=min(rec.grouped, SLOTS), logged=min(rec.logged, SLOTS),
                   waiting=min(rec.waiting, PLACES))


def held(rec, settled, waiting, work):
    """The addresses of open, group, log and queue."""
    return (*lists(rec, settled, work), entries(waiting, 0, rec.waiting))


def last(listed, address):
    return max(i for i, a in enumerate(listed) if a == address)


def newest(address, opened, grouped, logged, queued):
    """The buffer (1 settled, 2 work, 3 waiting) with the newest block at an address, and the byte at which it starts there."""
    if address in opened:
        return 2, ENTRY * opened.index(address) + 4
    if address in grouped:
        return 2, ENTRY * (SLOTS + grouped.index(address)) + 4
    if address in logged:
        return 1, BLOCK * (2 + last(logged, address))
    if address in queued:
        return 3, ENTRY * last(queued, address) + 4
    return 1, BLOCK * address


def part(place, settled, waiting, work):
    """The block at a place."""
    buffer, at = place
    return {1: settled, 2: work, 3: waiting}[buffer][at:at + BLOCK]


def get(rec, settled, waiting, work, address):
    """The number, then the buffer and the byte at which the block starts in it."""
    answer = cause("get", rec, settled, waiting, work, address)
    return (answer, 0, 0) if answer else (0, *newest(address, *held(rec, settled, waiting, work)))


def get_list(rec, settled, waiting, work, addresses, blocks):
    """The number and the slots read; the blocks are copied out in the order listed."""
    answer = cause("get_list", rec, settled, waiting, work, listed=(addresses, blocks))
    if answer:
        return answer, 0
    places = held(rec, settled, waiting, work)
    for i, address in enumerate(wanted(addresses)):
        blocks[BLOCK * i:BLOCK * (i + 1)] = part(newest(address, *places), settled, waiting, work)
    return 0, rec.logged if addresses else 0


class Orders:
    """Orders to the card, while there is power; the most writes that waited at any moment, and whether a sync began with an apply."""

    def __init__(self, rec, settled, waiting):
        self.power, self.count, self.done, self.gone = rec.power, rec.waiting, 0, False
        self.settled, self.waiting = settled, waiting
        self.peak, self.applies = self.count, False

    def happens(self):
        self.gone = self.gone or self.power == 0
        if not self.gone:
            self.power -= 1
            self.done += 1
        return not self.gone

    def write(self, address, block):
        if self.happens():
            at = ENTRY * self.count
            self.waiting[at:at + ENTRY] = address.to_bytes(4, "little") + block
            self.count += 1
            self.peak = max(self.peak, self.count)

    def flush(self):
        if self.happens():
            for i in range(self.count):
                settle(self.settled, self.waiting, i, KEPT)
            self.count = 0

    def outcome(self, finished, short):
        left = replace(replace(short, mode=DOWN) if self.gone else finished, waiting=self.count, power=self.power)
        return (4 if self.gone else 0), self.done, left


def settle(settled, waiting, i, kept):
    """The bytes of the i-th waiting write whose mark is 1 go over what its block has."""
    at, block = BLOCK * number(waiting, ENTRY * i), waiting[ENTRY * i + 4:ENTRY * (i + 1)]
    if torn(kept):
        block = bytes(new if mark else old for mark, new, old in zip(kept, block, settled[at:at + BLOCK]))
    if any(kept):
        settled[at:at + BLOCK] = block


def tear(settled, waiting, marks):
    """A cut's writes, oldest first: so byte by byte the newest kept one wins."""
    for i in range(len(marks) // BLOCK):
        settle(settled, waiting, i, marks_of(marks, i))


def header(rec, previous, count, previous_sum, count_sum, save):
    return struct.pack("<4I3Q", FORMAT, rec.blocks, previous, count, previous_sum, count_sum, save).ljust(BLOCK, b"\0")


def checkpoint(rec, orders):
    """The orders of an apply, and the record that they leave if all of them happen."""
    for address, block in log(orders.settled, rec.logged):
        orders.write(address, block)
    orders.flush()
    orders.write(0, header(rec, 0, 0, EMPTY_SUM, EMPTY_SUM, rec.save))
    orders.flush()
    return replace(rec, logged=0, sum=EMPTY_SUM)


def barrier(orders):
    """W-209: a sync with an empty group flushes if anything waits."""
    if orders.count:
        orders.flush()


def sync_orders(rec, orders, work):
    """A sync that is not refused: its number, its orders, and the record that it leaves."""
    if rec.grouped == 0:
        barrier(orders)
        return orders.outcome(rec, rec)
    before = rec
    if rec.logged + rec.grouped > SLOTS:
        orders.applies, before = True, checkpoint(rec, orders)
        if orders.gone:
            return orders.outcome(before, rec)
    group = [(number(work, ENTRY * (SLOTS + i)), bytes(work[ENTRY * (SLOTS + i) + 4:ENTRY * (SLOTS + i + 1)]))
             for i in range(rec.grouped)]
    count, total = before.logged + rec.grouped, log_sum(group, before.sum)
    addresses = bytes(orders.settled[BLOCK:BLOCK + 4 * before.logged]) + b"".join(a.to_bytes(4, "little") for a, _ in group)
    for i, (_, block) in enumerate(group):
        orders.write(2 + before.logged + i, block)
    orders.write(1, addresses.ljust(BLOCK, b"\0"))
    orders.write(0, header(rec, before.logged, count, before.sum, total, rec.save + 1))
    orders.flush()
    return orders.outcome(replace(before, logged=count, sum=total, grouped=0, save=rec.save + 1), before)


def apply_orders(rec, orders, work):
    return orders.outcome(checkpoint(rec, orders) if rec.logged else rec, rec)


def recover_orders(rec, orders, work):
    _, count, total, back, save = choice(rec.blocks, orders.settled)
    if back:
        orders.write(0, header(rec, count, count, total, total, save))
        orders.flush()
    return orders.outcome(replace(rec, mode=OPEN, opened=0, grouped=0, logged=count, sum=total, save=save), rec)


GIVEN = {"sync": sync_orders, "apply": apply_orders, "recover": recover_orders}


def ordered(call, rec, settled, waiting, work):
    """sync, apply or recover: its orders to the card, and what it returns."""
    answer, orders = cause(call, rec, settled, waiting, work), Orders(rec, settled, waiting)
    return orders, (answer, 0, rec) if answer else GIVEN[call](rec, orders, work)


def sync(rec, settled, waiting, work):
    return ordered("sync", rec, settled, waiting, work)[1]


def apply(rec, settled, waiting, work):
    return ordered("apply", rec, settled, waiting, work)[1]


def recover(rec, settled, waiting, work):
    return ordered("recover", rec, settled, waiting, work)[1]


# ---- W-209: a block of a photograph, outside any transaction

def direct_orders(orders, address, block):
    """With 32 waiting it flushes first."""
    if orders.count == DIRECT:
        orders.flush()
    orders.write(address, bytes(block))


def direct(rec, settled, waiting, work, address, block):
    answer, orders = cause("direct", rec, settled, waiting, work, address, block), Orders(rec, settled, waiting)
    if answer:
        return answer, 0, rec
    direct_orders(orders, address, block)
    return orders.outcome(rec, rec)


# ---- W-202: the call made next on the same bytes and record but for power enough, here on copies

def cost(call, rec, settled, waiting, work):
    """The number, the orders, whether an apply comes first, the most writes that wait, and whether the power reaches."""
    orders, (answer, done, _) = ordered(call, replace(rec, power=ENOUGH), bytearray(settled), bytearray(waiting), work)
    return (answer, 0, 0, 0, 0) if answer else (0, done, int(orders.applies), orders.peak, int(rec.power >= done))


def sync_cost(rec, settled, waiting, work):
    return cost("sync", rec, settled, waiting, work)


def apply_cost(rec, settled, waiting, work):
    return cost("apply", rec, settled, waiting, work)


def recover_cost(rec, settled, waiting, work):
    return cost("recover", rec, settled, waiting, work)


def cut(rec, settled, waiting, work, marks):
    answer = cause("cut", rec, settled, waiting, work, marks=marks)
    if answer:
        return answer, rec
    tear(settled, waiting, marks)
    return 0, Record(CLOSED, rec.blocks, power=rec.power)


# ---- settled bytes alone

def chosen(settled):
    """The number, and the list that a recovery of these settled bytes takes."""
    if wrong_size(settled):
        return 1, []
    answer, count = choice(len(settled) // BLOCK, settled)[:2]
    return answer, log(settled, count)


def laid(settled, listed):
    """The data blocks, one after another, with the list laid over."""
    data = bytearray(memoryview(settled)[BLOCK * FIRST_DATA:])
    for address, block in listed:
        at = BLOCK * (address - FIRST_DATA)
        data[at:at + BLOCK] = block
    return data


def data_sum(settled, listed):
    """The sum of all data bytes with the list laid over."""
    return sum(laid(settled, listed).translate(None, b"\0"))


def tally(settled):
    answer, listed = chosen(settled)
    return answer, 0 if answer else data_sum(settled, listed)


def same_logs(listed, others):
    """W-208: the same count, and the same entry in each slot. They are the lists chosen, whatever the headers count."""
    return len(listed) == len(others) and all(entry == twin for entry, twin in zip(listed, others))


def alike(one, other):
    (first, listed), (second, others) = chosen(one), chosen(other)
    if first or second:
        return first or second, 0
    return 0, int(len(one) == len(other) and same_logs(listed, others) and laid(one, listed) == laid(other, others))


# ---- what C sees

def decode(record):
    return Record(*struct.unpack("<7I2Q", record))


def encode(rec):
    return struct.pack("<7I2Q", rec.mode, rec.blocks, rec.opened, rec.grouped, rec.logged, rec.waiting, rec.power, rec.sum, rec.save)


COSTS = ("sync_cost", "apply_cost", "recover_cost")
OUTS = {"get": 2, "get_list": 1, "direct": 1, "sync": 1, "apply": 1, "recover": 1, "tally": 1, "alike": 1, **dict.fromkeys(COSTS, 4)}


def c_call(call, lent, arguments=()):
    """A call as C sees it: lent are the record and the three buffers, or a card or two. Its number, then its out-parameters."""
    made = globals()[call]
    if call in ("tally", "alike"):
        return made(*lent)
    record, *card = lent
    if len(record) != RECORD:
        return (1,) + (0,) * OUTS.get(call, 0)
    outcome = made(decode(record), *card, *arguments)
    if call in ("get", "get_list") or call in COSTS:
        return outcome
    record[:] = encode(outcome[-1])
    return outcome[:-1]
