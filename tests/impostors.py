"""Faults for the model, to see that the lockstep bites: those of document 01's "Faults to keep out", two of the save number, three of
the inquiries, those of a torn cut, two of which are faults of the plain disk and of the witness that feeds it, those of a format that
meets a card in use, one of which is a fault of the bench, those of a tally that corrects the home blocks' sum for the log, those of a
list of gets, one of which is a fault of the plain disk, those of an alike that compares too little or too much, and those of direct writes and
of what waits behind them, with faults of the plain disk and of the witness among these."""
from contextlib import contextmanager
from dataclasses import replace

import model
from bench import Bench
from crash import Witness
from model import BLOCK, EMPTY_SUM, ENTRY
from plain import Plain, Short


def checkpoint(rec, orders):
    """apply's last flush is dropped"""
    for address, block in model.log(orders.settled, rec.logged):
        orders.write(address, block)
    orders.flush()
    orders.write(0, model.header(rec, 0, 0, EMPTY_SUM, EMPTY_SUM, rec.save))
    return replace(rec, logged=0, sum=EMPTY_SUM)


def log_sum(log_entries, h=EMPTY_SUM):
    """the sum starts afresh at the new entries"""
    h = EMPTY_SUM
    for address, block in log_entries:
        h = model.fnv(address.to_bytes(4, "little") + block, h)
    return h


def choice(blocks, settled):
    """the count is trusted without the sum"""
    head = model.read_header(settled)
    if any(model.foreign(blocks, head)):
        return 8, 0, 0, False, 0
    return 0, head[3], head[5], False, head[6]


def get(rec, settled, waiting, work, address):
    """get takes the first slot"""
    answer, buffer, at = real_get(rec, settled, waiting, work, address)
    logged = model.lists(rec, settled, work)[2] if answer == 0 else []
    if buffer == 1 and address in logged:
        at = BLOCK * (2 + logged.index(address))
    return answer, buffer, at


def recover(rec, settled, waiting, work):
    """a fallback hands back the number of the save that was lost"""
    answer, orders, left = real_recover(rec, settled, waiting, work)
    return answer, orders, replace(left, save=left.save + 1) if answer == 0 and orders else left


def unnumbered(previous, count, previous_sum, count_sum, save):
    """a header with save number 0 and unlike sums is not foreign"""
    return real_unnumbered(previous, count, 0, 0, save)


def sync_cost(rec, settled, waiting, work):
    """a sync's descriptor does not wait"""
    answer, orders, applies, peak, reaches = real_sync_cost(rec, settled, waiting, work)
    return answer, orders, applies, peak - (orders > 0 and peak == rec.grouped + 2), reaches


def apply_cost(rec, settled, waiting, work):
    """the power reaches at one order less"""
    answer, orders, applies, peak, reaches = real_apply_cost(rec, settled, waiting, work)
    return answer, orders, applies, peak, int(answer == 0 and rec.power + 1 >= orders)


def recover_cost(rec, settled, waiting, work):
    """a recovery takes two orders, whatever it finds"""
    answer, *figures = real_recover_cost(rec, settled, waiting, work)
    return (answer, *figures) if answer else (0, 2, 0, 1, int(rec.power >= 2))


# ---- torn cuts

def oldest_wins(settled, waiting, marks):
    """byte by byte the oldest kept write wins"""
    for i in reversed(range(len(marks) // BLOCK)):
        model.settle(settled, waiting, i, model.marks_of(marks, i))


def newest_alone(settled, waiting, marks):
    """of the writes to a block only the newest is kept, where its marks are 1"""
    newest = {model.number(waiting, ENTRY * i): i for i in range(len(marks) // BLOCK)}
    for i in newest.values():
        model.settle(settled, waiting, i, model.marks_of(marks, i))


def next_write(settled, waiting, marks):
    """a write goes by the marks of the next one, the newest by those of the oldest"""
    real_tear(settled, waiting, marks[BLOCK:] + marks[:BLOCK])


def oldest_write(settled, waiting, marks):
    """byte j of every write goes by mark j of the oldest"""
    real_tear(settled, waiting, marks[:BLOCK] * (len(marks) // BLOCK))


def next_byte(settled, waiting, marks):
    """a byte goes by the mark of the next one, the last of a block by the next write's first"""
    real_tear(settled, waiting, marks[1:] + marks[:1])


def first_mark(settled, waiting, marks):
    """the first mark of a write stands for all"""
    real_tear(settled, waiting, b"".join(marks[at:at + 1] * BLOCK for at in range(0, len(marks), BLOCK)))


def any_mark(settled, waiting, marks):
    """a write is kept whole if one of its bytes is"""
    real_tear(settled, waiting, b"".join(bytes([max(model.marks_of(marks, i))]) * BLOCK for i in range(len(marks) // BLOCK)))


def torn_header(rec, waiting, marks):
    """a torn header is accepted"""
    return (part for part in real_wrong_marks(rec, waiting, marks) if part != "torn header")


def torn_older_header(rec, waiting, marks):
    """a header that is not the newest write may be torn"""
    last = rec.waiting - 1
    seen = rec.waiting and model.number(waiting, ENTRY * last) == 0 and model.torn(model.marks_of(marks, last))
    return (part for part in real_wrong_marks(rec, waiting, marks) if part != "torn header" or seen)


def mark_for_each(rec, waiting, marks):
    """a mark for each write is accepted, as before W-204"""
    return () if len(marks) == rec.waiting else real_wrong_marks(rec, waiting, marks)


def unlike(self, marks):
    """the plain disk accepts a header whose marks are unlike"""
    return len(marks) != BLOCK * self.waiting or max(marks, default=0) > 1


def before_tearing(self, fates):
    """the plain disk is told of the log found before tearing"""
    same, waiting, settled = real_cut(self, fates), self.lent["waiting"], self.lent["settled"]
    whole = {waiting.number(ENTRY * i): waiting.read(ENTRY * i + 4, BLOCK) for i, fate in enumerate(fates) if fate != "lost"}
    block = lambda address: whole.get(address) or settled.read(BLOCK * address, BLOCK)
    return same or [(model.number(block(1), 4 * i), block(2 + i)) for i in range(settled.number(12))] == self.written


# ---- a format of a card in use

def before_lengths(call, lent, arguments=()):
    """13 comes before 1"""
    used = call == "format" and len(lent[1]) >= BLOCK and model.in_use(lent[1])
    return (13,) if used else real_c_call(call, lent, arguments)


def any_card(settled):
    """a format refuses a foreign card with n above 0"""
    return model.read_header(settled)[3] > 0


def by_previous(settled):
    """a format goes by p instead of n"""
    return real_in_use(settled) and model.read_header(settled)[2] > 0


def without_count(settled):
    """a format refuses a card with n = 0"""
    return not any(model.foreign(len(settled) // BLOCK, model.read_header(settled)))


def without_save(settled):
    """a format does not look at the save number"""
    head = model.read_header(settled)
    return head[3] > 0 and not any(model.foreign(len(settled) // BLOCK, (*head[:6], 1)))


def with_good_list(settled):
    """a format refuses no card on which recover would answer 9"""
    return real_in_use(settled) and model.chosen(settled)[0] == 0


def with_found_list(settled):
    """a format refuses no card on which recover would fall back to nothing"""
    return real_in_use(settled) and model.chosen(settled) != (0, [])


def records_blocks(call, rec, settled, *more, **named):
    """a format goes by the record's N"""
    answer = real_cause(call, rec, settled, *more, **named)
    if call != "format" or answer == 1:
        return answer
    head = model.read_header(settled)
    return 13 if head[3] > 0 and not any(model.foreign(rec.blocks, head)) else 0


def clears_waiting(rec, settled, waiting, work):
    """a format clears the waiting bytes and then refuses"""
    answer, left = real_format(rec, settled, waiting, work)
    if answer == 13:
        waiting[:] = bytes(len(waiting))
    return answer, left


def begins_again(self, step, outcome):
    """the plain disk begins again at a format that is refused"""
    real_follow(self, step, (0,) if step.call == "format" and outcome[0] == 13 else outcome)


# ---- a tally by corrections

def corrected(settled, listed):
    """The sum of the home blocks, corrected for each entry of a list."""
    return real_data_sum(settled, []) + sum(sum(block) - sum(settled[BLOCK * address:BLOCK * (address + 1)]) for address, block in listed)


def every_slot(settled, listed):
    """a tally is corrected for every slot"""
    return corrected(settled, listed)


def first_slot(settled, listed):
    """a tally is corrected for the first slot of an address"""
    return corrected(settled, dict(reversed(listed)).items())


def own_for_home(settled, listed):
    """a tally takes off the bytes of the slot's own block"""
    return real_data_sum(settled, [])


def first_block_out(settled, listed):
    """a tally leaves out the first data block"""
    return sum(model.laid(settled, listed)[BLOCK:])


def last_block_out(settled, listed):
    """a tally leaves out the last data block"""
    return sum(model.laid(settled, listed)[:-BLOCK])


# ---- a list of gets

def own_list(rec, settled, waiting, work, addresses, blocks, find):
    """Copies the block of each address from where it is found; one that is found nowhere is left out."""
    for i, address in enumerate(model.wanted(addresses)):
        place = find(i, address, *model.held(rec, settled, waiting, work))
        if place:
            blocks[BLOCK * i:BLOCK * (i + 1)] = model.part(place, settled, waiting, work)


def served(find):
    """A list of gets that finds its blocks otherwise."""
    def get_list(rec, settled, waiting, work, addresses, blocks):
        answer = model.cause("get_list", rec, settled, waiting, work, listed=(addresses, blocks))
        if answer == 0:
            own_list(rec, settled, waiting, work, addresses, blocks, lambda *where: find(model.wanted(addresses), *where))
        return answer, rec.logged if answer == 0 and addresses else 0
    get_list.__doc__ = find.__doc__
    return get_list


@served
def once(wanted, i, address, *lists):
    """the repeats of a list are served once"""
    return None if address in wanted[:i] else model.newest(address, *lists)


@served
def first_slots(wanted, i, address, opened, grouped, logged, queued):
    """a list takes the first slot"""
    buffer, at = model.newest(address, opened, grouped, logged, queued)
    return (1, BLOCK * (2 + logged.index(address))) if buffer == 1 and address in logged else (buffer, at)


@served
def group_first(wanted, i, address, opened, grouped, logged, queued):
    """a list takes the group over open"""
    return model.newest(address, [] if address in grouped else opened, grouped, logged, queued)


@served
def log_first(wanted, i, address, opened, grouped, logged, queued):
    """a list takes the log over open and group"""
    return model.newest(address, *([], []) if address in logged else (opened, grouped), logged, queued)


@served
def list_home_first(wanted, i, address, opened, grouped, logged, queued):
    """a list takes the home block over waiting writes"""
    return model.newest(address, opened, grouped, logged, [])


@served
def sorted_out(wanted, i, address, *lists):
    """a list is copied out in the order of its addresses"""
    return model.newest(sorted(wanted)[i], *lists)


@served
def one_of_bucket(wanted, i, address, *lists):
    """of a list's addresses with the same low bits the last one is looked for, the others are read at home"""
    last = max(k for k, other in enumerate(wanted) if other % 128 == address % 128)
    return model.newest(address, *lists) if wanted[last] == address else (1, BLOCK * address)


def copied_first(rec, settled, waiting, work, addresses, blocks):
    """a list is copied up to the address that is refused"""
    answer, slots = real_get_list(rec, settled, waiting, work, addresses, blocks)
    if answer == 6:
        wanted = model.wanted(addresses)
        bad = next(i for i, address in enumerate(wanted) if not model.is_data(rec.blocks, address))
        own_list(rec, settled, waiting, work, addresses[:4 * bad], blocks, lambda _, *where: model.newest(*where))
    return answer, slots


def one_more(addresses, blocks):
    """a list of 33 addresses is served"""
    return () if len(addresses) == 132 and len(blocks) == 33 * BLOCK else real_wrong_list(addresses, blocks)


def half_addresses(addresses, blocks):
    """bytes behind the last whole address are passed over"""
    return real_wrong_list(addresses[:len(addresses) // 4 * 4], blocks)


def longer_buffer(addresses, blocks):
    """a list takes a longer buffer"""
    return real_wrong_list(addresses, blocks[:BLOCK * (len(addresses) // 4)])


def empty_walk(*lent):
    """slots are counted for an empty list"""
    answer, slots = real_get_list(*lent)
    return answer, lent[0].logged if answer == 0 else slots


def walk_for_each(*lent):
    """the log is walked for each address of a list, and each walk counted"""
    answer, slots = real_get_list(*lent)
    return answer, slots * (len(lent[4]) // 4)


def first_address(call, rec, *more, **named):
    """a list is refused by its first address alone"""
    answer = real_cause(call, rec, *more, **named)
    first = model.wanted(named["listed"][0])[:1] if call == "get_list" else ()
    return 0 if answer == 6 and any(model.is_data(rec.blocks, address) for address in first) else answer


def counted_by_list(self, addresses, blocks):
    """the plain disk counts a slot for each address"""
    return len(addresses) // 4, real_plain_list(self, addresses, blocks)[1]


# ---- alike; the old meaning is that of the data alone

def data_alone(listed, others):
    """alike has its old meaning: the logs play no part but for the data"""
    return True


def counts_alone(listed, others):
    """of the logs alike compares the counts alone"""
    return len(listed) == len(others)


def addresses_alone(listed, others):
    """of a slot alike compares the address alone"""
    return [address for address, _ in listed] == [address for address, _ in others]


def blocks_alone(listed, others):
    """of a slot alike compares the block alone"""
    return [block for _, block in listed] == [block for _, block in others]


def any_order(listed, others):
    """alike takes the slots in any order"""
    return sorted(listed) == sorted(others)


def without_counts(listed, others):
    """alike compares the slots that both logs have, and not their counts"""
    return all(entry == other for entry, other in zip(listed, others))


def without_last_slot(listed, others):
    """alike leaves out the last slot"""
    return len(listed) == len(others) and listed[:-1] == others[:-1]


def likewise(more):
    """An alike that asks for more, or gives more, on two cards that are not refused and have one N."""
    def alike(one, other):
        answer, yes = real_alike(one, other)
        return answer, int(more(one, other, yes)) if answer == 0 and len(one) == len(other) else yes
    alike.__doc__ = more.__doc__
    return alike


@likewise
def beyond_count(one, other, yes):
    """alike compares all 32 slots"""
    return yes and model.log(one, model.SLOTS) == model.log(other, model.SLOTS)


@likewise
def headers_list(one, other, yes):
    """alike compares the header's whole list where the first p are chosen"""
    lists = [model.log(settled, model.read_header(settled)[3]) for settled in (one, other)]
    return lists[0] == lists[1] and model.laid(one, model.chosen(one)[1]) == model.laid(other, model.chosen(other)[1])


@likewise
def fallback_apart(one, other, yes):
    """a card that needs a fallback is not alike one that does not"""
    return yes and len({model.choice(len(settled) // BLOCK, settled)[3] for settled in (one, other)}) == 1


@likewise
def saves_too(one, other, yes):
    """alike compares the save numbers"""
    return yes and model.read_header(one)[6] == model.read_header(other)[6]


@likewise
def homes_too(one, other, yes):
    """alike compares the home blocks under the log"""
    return yes and model.laid(one, []) == model.laid(other, [])


@likewise
def logs_only(one, other, yes):
    """alike does not compare the data where the logs are equal"""
    return model.same_logs(model.chosen(one)[1], model.chosen(other)[1])


def second_first(one, other):
    """alike gives the second card's refusal first"""
    return real_alike(one, other) if model.chosen(other)[0] == 0 else (model.chosen(other)[0], 0)


# ---- direct writes, and what waits behind them

def no_flush(orders, address, block):
    """a direct write with 32 waiting does not flush"""
    orders.write(address, bytes(block))


def early_flush(orders, address, block):
    """a direct write with 31 waiting flushes"""
    if orders.count >= model.DIRECT - 1:
        orders.flush()
    orders.write(address, bytes(block))


def late_flush(orders, address, block):
    """a direct write with 32 waiting flushes behind its write"""
    full = orders.count == model.DIRECT
    orders.write(address, bytes(block))
    if full:
        orders.flush()


def one_order(rec, settled, waiting, work, address, block):
    """a direct write counts one order with its flush"""
    answer, orders, left = real_direct(rec, settled, waiting, work, address, block)
    return answer, min(orders, 1), left


def listed_in(*which):
    """A direct write refused by some lists alone: 0 open, 1 group, 2 log."""
    def cause(call, rec, settled, waiting, work, address=None, *more, **named):
        answer = real_cause(call, rec, settled, waiting, work, address, *more, **named)
        held = model.lists(rec, settled, work) if call == "direct" and answer == 14 else ()
        return 0 if held and not any(address in held[i] for i in which) else answer
    return cause


not_in_open, not_in_group, not_in_log = listed_in(1, 2), listed_in(0, 2), listed_in(0, 1)
not_in_open.__doc__, not_in_group.__doc__, not_in_log.__doc__ = ("a direct write of an address in %s is served" % name
                                                                 for name in ("open", "the group", "the log"))


def stale_slots(call, rec, settled, waiting, work, address=None, *more, **named):
    """a direct write of an address in a slot beyond the count is refused"""
    answer = real_cause(call, rec, settled, waiting, work, address, *more, **named)
    return 14 if call == "direct" and answer == 0 and address in model.lists(replace(rec, logged=model.SLOTS), settled, work)[2] else answer


def listed_before_down(call, rec, settled, waiting, work, address=None, *more, **named):
    """14 comes before 4"""
    answer = real_cause(call, rec, settled, waiting, work, address, *more, **named)
    listed = call == "direct" and answer == 4 and any(address in held for held in model.lists(rec, settled, work))
    return 14 if listed else answer


def waiting_refused(call, rec, settled, waiting, work, address=None, *more, **named):
    """a put of a waiting address is refused as 14"""
    answer = real_cause(call, rec, settled, waiting, work, address, *more, **named)
    return 14 if call == "put" and answer == 0 and address in model.entries(waiting, 0, rec.waiting) else answer


def oldest_write_first(address, opened, grouped, logged, queued):
    """get takes the oldest waiting write"""
    buffer, at = real_newest(address, opened, grouped, logged, queued)
    return (3, ENTRY * queued.index(address) + 4) if buffer == 3 else (buffer, at)


def home_first(address, opened, grouped, logged, queued):
    """get takes the home block over waiting writes"""
    return real_newest(address, opened, grouped, logged, [])


def waiting_first(address, opened, grouped, logged, queued):
    """get takes a waiting write over the log"""
    return real_newest(address, opened, grouped, [] if address in queued else logged, queued)


def no_barrier(orders):
    """a sync with an empty group does not flush"""


def always_barrier(orders):
    """a sync with an empty group flushes where nothing waits"""
    orders.flush()


def empty_apply(rec, settled, waiting, work):
    """an apply of an empty log flushes what waits"""
    if rec.logged or model.cause("apply", rec, settled, waiting, work):
        return real_apply(rec, settled, waiting, work)
    orders = model.Orders(rec, settled, waiting)
    model.barrier(orders)
    return orders.outcome(rec, rec)


def without_earlier(call, rec, settled, waiting, work):
    """an inquiry's peak is without the writes that wait before"""
    answer, orders, applies, peak, reaches = real_cost(call, rec, settled, waiting, work)
    return answer, orders, applies, peak - (0 if answer or applies else rec.waiting), reaches


def most_waiting(mode, most):
    """Another bound in row 2."""
    def wrong_counts(rec, settled):
        fits = rec.mode == mode and rec.waiting <= most
        return (part for part in real_wrong_counts(rec, settled) if not (fits and part.startswith("waiting")))
    return wrong_counts


one_more_open, one_more_closed = most_waiting(model.OPEN, model.DIRECT + 1), most_waiting(model.CLOSED, 1)
one_more_open.__doc__, one_more_closed.__doc__ = "an open record may have 33 waiting writes", "a closed record may have a waiting write"


def as_before(rec, settled):
    """an open record may have no waiting writes, as before W-209"""
    yield from real_wrong_counts(rec, settled)
    if rec.mode == model.OPEN and rec.waiting:
        yield "waiting when open"


def forgotten(self):
    """the plain disk forgets the loose addresses at a second cut"""
    self.loose = set(self.writes)


def emptied(self, found):
    """the plain disk empties the loose addresses at a recovery cut short"""
    outcome = real_plain_recover(self, found)
    self.loose = set() if outcome[0] else self.loose
    return outcome


def laid_when_short(self, address, block):
    """the plain disk lays the block of a direct write cut short"""
    outcome = real_plain_direct(self, address, block)
    self.S[address] = bytes(block)
    return outcome


def kept_in_queue(self):
    """the plain disk keeps the waiting addresses where the flush happened in a call cut short"""
    return False


def nothing_loose(self):
    """the plain disk has no loose addresses"""


def all_loose(self):
    """the plain disk takes every block for loose where any waits"""
    self.loose |= set(self.S) if self.writes else set()


def header_place(self):
    """the header of a sync behind waiting writes is looked for as if nothing had waited"""
    return 0


def settled_before(self, call, arguments, answer, orders):
    """the direct writes that wait are taken for settled, so that a block is found old or as the last of them"""
    real_photograph(self, call, arguments, answer, orders)
    self.writes = {}


real_direct, real_newest, real_apply, real_cost = model.direct, model.newest, model.apply, model.cost
real_wrong_counts, real_plain_recover, real_plain_direct, real_photograph = model.wrong_counts, Plain.recover, Plain.direct, Witness.photograph
real_get, real_recover, real_unnumbered = model.get, model.recover, model.unnumbered
real_sync_cost, real_apply_cost, real_recover_cost = model.sync_cost, model.apply_cost, model.recover_cost
real_tear, real_wrong_marks, real_cut = model.tear, model.wrong_marks, Witness.cut
real_c_call, real_in_use, real_cause, real_format, real_follow = model.c_call, model.in_use, model.cause, model.format, Bench.follow
real_data_sum, real_alike = model.data_sum, model.alike
real_get_list, real_wrong_list, real_plain_list = model.get_list, model.wrong_list, Plain.get_list

# What each replaces: the function of its name in the model, unless a pair says otherwise.
TORN = {oldest_wins: (model, "tear"), newest_alone: (model, "tear"), next_write: (model, "tear"), oldest_write: (model, "tear"),
        next_byte: (model, "tear"), first_mark: (model, "tear"), any_mark: (model, "tear"), torn_header: (model, "wrong_marks"),
        torn_older_header: (model, "wrong_marks"), mark_for_each: (model, "wrong_marks"), unlike: (Plain, "wrong_marks"),
        before_tearing: (Witness, "cut")}
USED = {before_lengths: (model, "c_call"), any_card: (model, "in_use"), by_previous: (model, "in_use"), without_count: (model, "in_use"),
        without_save: (model, "in_use"), with_good_list: (model, "in_use"), with_found_list: (model, "in_use"),
        records_blocks: (model, "cause"), clears_waiting: (model, "format"), begins_again: (Bench, "follow")}
SUMMED = dict.fromkeys((every_slot, first_slot, own_for_home, first_block_out, last_block_out), (model, "data_sum"))
LISTED = {**dict.fromkeys((once, first_slots, group_first, log_first, list_home_first, sorted_out, one_of_bucket, copied_first, empty_walk,
                           walk_for_each), (model, "get_list")),
          **dict.fromkeys((one_more, half_addresses, longer_buffer), (model, "wrong_list")), first_address: (model, "cause"),
          counted_by_list: (Plain, "get_list")}
ALIKE = {**dict.fromkeys((data_alone, counts_alone, addresses_alone, blocks_alone, any_order, without_counts, without_last_slot),
                         (model, "same_logs")),
         **dict.fromkeys((beyond_count, headers_list, fallback_apart, saves_too, homes_too, logs_only, second_first), (model, "alike"))}
DIRECT = {**dict.fromkeys((no_flush, early_flush, late_flush), (model, "direct_orders")), one_order: (model, "direct"),
          **dict.fromkeys((not_in_open, not_in_group, not_in_log, stale_slots, listed_before_down, waiting_refused), (model, "cause")),
          **dict.fromkeys((oldest_write_first, home_first, waiting_first), (model, "newest")),
          **dict.fromkeys((no_barrier, always_barrier), (model, "barrier")), empty_apply: (model, "apply"),
          without_earlier: (model, "cost"), **dict.fromkeys((one_more_open, one_more_closed, as_before), (model, "wrong_counts")),
          **dict.fromkeys((forgotten, nothing_loose, all_loose), (Plain, "loosen")), emptied: (Plain, "recover"),
          laid_when_short: (Plain, "direct"), kept_in_queue: (Short, "flushed"), header_place: (Witness, "first_own"),
          settled_before: (Witness, "photograph")}
OTHERS = {**TORN, **USED, **SUMMED, **LISTED, **ALIKE, **DIRECT}
IMPOSTORS = (checkpoint, log_sum, choice, get, recover, unnumbered, sync_cost, apply_cost, recover_cost, *OTHERS)


@contextmanager
def planted(impostor):
    """The model, the plain disk, the witness or the bench with one of its functions replaced."""
    owner, name = OTHERS.get(impostor, (model, impostor.__name__))
    real = getattr(owner, name)
    setattr(owner, name, impostor)
    try:
        yield
    finally:
        setattr(owner, name, real)
