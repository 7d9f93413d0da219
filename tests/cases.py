"""What one call met, as cells of the coverage table. It is asked before the call, and told the outcome after it."""
from collections import Counter
from dataclasses import replace

from coverage import BUFFER, HELD, IN_APPLY, IN_SYNC, NUMBER, TWO
from model import (BLOCK, CLOSED, COSTS, DIRECT, DOWN, EMPTY_SUM, FIRST_DATA, LAST, LEAST, LIST, MOST, OPEN, PLACES, RECORD, SLOTS, WAITING, WORK,
                   bounded, choice, chosen, data_sum, entries, foreign, held, in_use, is_data, lists, log, marks_of, read_header, torn, wanted,
                   wrong_counts, wrong_list, wrong_lists, wrong_marks)
from pairs import likeness
from wanted import BUCKETS


def settled_sizes(settled):
    blocks = len(settled) // BLOCK
    for part, wrong in (("settled length", len(settled) % BLOCK), ("N under 35", blocks < LEAST), ("N over 65536", blocks > MOST)):
        if wrong:
            yield part


def wrong_sizes(views):
    """The parts of row 1 that apply."""
    if "record" in views and len(views["record"]) != RECORD:
        yield "record length"
    for name in ("settled", "other"):
        yield from settled_sizes(views[name]) if name in views else ()
    for name, right in (("waiting", WAITING), ("work", WORK)):
        if name in views and len(views[name]) != right:
            yield name + (" short" if len(views[name]) < right else " long")


# ---- where orders ended

def place_in_apply(orders, n):
    return IN_APPLY[max(orders - n, 0)]


def place_in_sync(orders, m):
    return IN_SYNC[max(orders - m, 0)]


def empty_sync_case(rec, answer):
    if rec.waiting == 0:
        return "sync: nothing to save"
    return "sync: an empty group, " + ("cut short at once" if answer else "flushed, exactly enough power" if rec.power == 1 else "flushed")


def sync_case(rec, answer, orders):
    n, m = rec.logged, rec.grouped
    if m == 0:
        return empty_sync_case(rec, answer)
    applied = n + 3 if n + m > SLOTS else 0
    name = "sync that applies: " if applied else "sync: "
    if answer == 0:
        return name + ("done, exactly enough power" if rec.power == orders else "done")
    if orders < applied:
        return name + ("cut short in its apply, " + place_in_apply(orders, n) if orders else "cut short before its apply")
    if orders == applied:
        return name + ("cut short right after its apply" if applied else "cut short at once")
    return name + ("cut short after its apply, " if applied else "cut short, ") + place_in_sync(orders - applied, m)


def apply_case(rec, answer, orders):
    if answer == 0:
        return "apply: " + ("nothing to do" if rec.logged == 0 else "done, exactly enough power" if rec.power == orders else "done")
    return "apply: cut short" + (", " + place_in_apply(orders, rec.logged) if orders else " at once")


def direct_case(rec, answer, orders):
    name = "direct, 32 wait: " if rec.waiting == DIRECT else "direct: "
    if answer == 0:
        return name + ("done, exactly enough power" if rec.power == orders else "done")
    return name + ("cut short after its flush" if orders else "cut short at once")


def recover_case(rec, answer, orders):
    if answer == 0 and orders == 0:
        return "recover: whole" + (" at power 0" if rec.power == 0 else "")
    if answer == 0:
        return "recover: fallback" + (", exactly enough power" if rec.power == 2 else "")
    return "recover: cut short" + (", header waits" if orders else " at once")


# ---- inquiries

def reach(power, orders):
    if orders == 0:
        return "no orders, " + ("some power" if power else "power 0")
    if power >= orders:
        return "exactly enough power" if power == orders else "more than enough power"
    return "one order short" if power == orders - 1 else "more than one order short"


def waiting_costs(call, rec, applies, peak):
    """An inquiry that is served, with something waiting."""
    yield "something waits"
    for case, holds in (("nothing to save", call == "sync_cost" and rec.grouped == 0), ("nothing to do", call == "apply_cost" and rec.logged == 0),
                        ("applies", applies), ("peak %d" % peak, peak in (PLACES - 2, PLACES))):
        if holds:
            yield "something waits, " + case


def cost_cases(call, rec, orders, applies, peak):
    """An inquiry that is served."""
    n, m = rec.logged, rec.grouped
    yield reach(rec.power, orders)
    yield from waiting_costs(call, rec, applies, peak) if rec.waiting else ()
    if call == "sync_cost" and m == 0 and rec.save == LAST:
        yield "save number 2^64 - 1, nothing to save"
    if call == "sync_cost" and m and n + m in (SLOTS, SLOTS + 1):
        yield "n + m = %d" % (n + m)
    first = rec.waiting + n
    if applies and first != m + 2:
        yield "applies, peak " + ("in its apply" if first > m + 2 else "after its apply")


# ---- a format

def counts_entries(settled):
    """Whether row 13 applies, be the buffer's length right or not."""
    return len(settled) >= BLOCK and in_use(settled)


def used(rec, wrong, settled, head):
    """A card in use."""
    previous, count, blocks = head[2], head[3], len(settled) // BLOCK
    yield "p = 0" if previous == 0 else "p = n" if previous == count else "0 < p < n"
    answer, _, _, back, _ = choice(blocks, settled)
    yield "recover would " + ("answer 9" if answer else "take n" if not back else "fall back" if previous else "fall back to 0")
    for case, holds in (("n = 1", count == 1), ("n = 32", count == SLOTS), ("save 0", head[6] == 0), ("a wrong record", wrong),
                        ("another N in the record", rec.blocks != blocks), ("N %d" % blocks, blocks in (LEAST, MOST - 1, MOST))):
        if holds:
            yield case


def unused(rec, wrong, parts, head):
    """A card that is formatted; parts are those of row 8 that apply."""
    if head[3] > 0 and len(parts) == 1:
        yield "n above 0, foreign by " + parts[0]
        yield from ["n above 0, foreign by N, which is the record's"] if parts == ["N"] and head[1] == rec.blocks else []
    if head[3] == 0:
        for case, holds in (("foreign", parts), ("save 0", not parts and head[6] == 0), ("some save", not parts and head[6]),
                            ("a wrong record", not parts and wrong), ("recover would answer 9", not parts and EMPTY_SUM not in head[4:6])):
            if holds:
                yield "n = 0: " + case


# ---- the marks of a cut; writes are pairs of an address and its marks, oldest first

def tearing(kept):
    """How a write is torn whose marks are 0 and 1."""
    count, half = sum(kept), BLOCK // 2
    if count in (1, BLOCK - 1):
        return "one byte " + ("kept" if count == 1 else "lost")
    if count == half and not torn(kept[:half]):
        return "half kept"
    return "every other byte kept" if not torn(kept[::2]) and not torn(kept[1::2]) else "any bytes kept"


def written_twice(writes):
    """Of a write and the next one to the same block, which is not block 0."""
    newest = {}
    for address, kept in writes:
        before = newest.get(address, b"") if address else b""
        if torn(before) and torn(kept) and before != kept:
            yield "both torn unlike"
        elif before and torn(before) != torn(kept):
            yield "the newer torn" if torn(kept) else "the older torn"
        newest[address] = kept


def taken(writes):
    """Marks that are not refused."""
    headers, others = ([kept for address, kept in writes if (address == 0) == header] for header in (True, False))
    yield from ("a write torn, " + tearing(kept) for kept in others if torn(kept))
    if writes and not any(map(torn, others)):
        yield "whole writes alone"
    if others and all(map(torn, others)):
        yield "every write torn but headers"
    if len(headers) > 1:
        yield "several headers, " + ("the newest kept" if any(headers[-1]) else "the newest lost" if any(map(any, headers)) else "all lost")
    yield from ("one block written twice, " + case for case in written_twice(writes))


def refused(parts, writes, excess):
    """Marks that are refused: the parts of row 10 that apply, and by how many they are too many."""
    headers = [kept for address, kept in writes if address == 0]
    if parts == ["number"]:
        yield NUMBER.get(excess, "another number of marks")
        if excess == (1 - BLOCK) * len(writes):
            yield "a mark for each write"
    if parts == ["over 1"]:
        yield "a mark over 1" if all(max(kept) < 2 for kept in headers) else "all of a header's marks over 1"
    if parts == ["over 1", "torn header"] and any(kept.count(1) == BLOCK - 1 for kept in headers):
        yield "a header's mark over 1, the others 1"
    if parts == ["torn header"]:
        yield from ("a header torn, " + tearing(kept) for kept in headers if torn(kept))
        yield from ["one of several headers torn"] if len(headers) > 1 else []


# ---- gets, and lists of them

def standing(address, lists):
    """Where an address stands, the newest first."""
    return [name for name, listed in zip(HELD, lists) if address in listed] + ["home"]


def found_place(address, lists):
    """Where a block is found, and over what."""
    place, *older = standing(address, lists)
    yield place
    yield from ("%s over %s" % (place, other) for other in older if other != "home")
    if place == "log" and lists[2].count(address) > 1:
        yield "log, of two slots"
    if place == "waiting" and lists[3].count(address) > 1:
        yield "waiting, of two writes"


def found_places(addresses, lists):
    """Where the blocks of a list are found, and over what."""
    newest = set()
    for address in set(addresses):
        place, *more = found_place(address, lists)
        newest.add(place)
        yield from more
        if addresses.count(address) > 1:
            yield place + " repeated"
    yield from newest
    if len(newest) == len(HELD) + 1:
        yield "every place"


def bucket_cases(addresses, lists):
    """Addresses that agree in their low bits: of the list, and one of it with one of open, group, log or queue that is not in it."""
    last, unlike, lows = {}, set(addresses), [address % BUCKETS for address in addresses]
    for i, (address, low) in enumerate(zip(addresses, lows)):
        if any(addresses[k] != address and lows[k] == low for k in range(last.get(address, i), i)):
            yield "a repeat, and another of its bucket between"
        last[address] = i
    fullest = max(Counter(address % BUCKETS for address in unlike).values(), default=0)
    yield from ("%d unlike of one bucket" % least for least in (2, 8, 16) if fullest >= least)
    for place, listed in zip(HELD, lists):
        if any(address % BUCKETS in lows for address in set(listed) - unlike):
            yield "a bucket's other address in " + place


def served_list(addresses, lists, blocks):
    """A list that is served."""
    count, logged = len(addresses), len(lists[2])
    for case, holds in (("no addresses", count == 0), ("1 address", count == 1), ("%d addresses" % count, count in (LIST - 1, LIST)),
                        ("32 alike", count == LIST and len(set(addresses)) == 1), ("34", FIRST_DATA in addresses), ("N - 1", blocks - 1 in addresses),
                        ("N - 1 of the largest card", blocks == MOST and blocks - 1 in addresses), ("no slots", count and not logged),
                        ("32 slots", count and logged == SLOTS), ("no addresses, some log", count == 0 and logged)):
        if holds:
            yield case
    yield from found_places(addresses, lists)
    yield from bucket_cases(addresses, lists)


def refused_size(data, blocks):
    """A list that row 1 refuses by one part: its bytes, and the buffer."""
    parts, count, excess = list(wrong_list(data, blocks)), len(data) // 4, len(blocks) - BLOCK * (len(data) // 4)
    if parts == ["no whole addresses"]:
        yield "%d byte%s over" % (len(data) % 4, "s" if len(data) % 4 > 1 else "")
        yield from ["129 to 131 bytes"] if count == LIST else ["under 4 bytes"] if count == 0 else []
    if parts == ["over 32"]:
        yield "33 addresses" if count == LIST + 1 else "over 33 addresses"
    if parts == ["buffer"]:
        yield "buffer " + BUFFER[excess] if excess in BUFFER else "another buffer"
        yield from ["no buffer"] if len(blocks) == 0 else ["a buffer for none"] if count == 0 else []


def refused_addresses(addresses, blocks):
    """A list with one wrong address: which it is, and where."""
    wrong = [i for i, address in enumerate(addresses) if not is_data(blocks, address)]
    if len(wrong) == 1:
        at, last = wrong[0], len(addresses) - 1
        yield "a wrong address, " + ("alone" if last == 0 else "first" if at == 0 else "last" if at == last else "between")
        yield "a wrong address, " + {blocks: "N", 2**32 - 1: "2^32 - 1"}.get(addresses[at], str(addresses[at]))


# ---- the save number

NAMED = {0: "0", 1: "1", 2**32 - 1: "2^32 - 1", 2**32: "2^32", LAST - 1: "2^64 - 2", LAST: "2^64 - 1"}


def save_cases(call, rec, number, orders, head):
    """The record's for sync, apply and cut, the header's for recover. Those of note are counted."""
    ended = "cut short" if number == "gone" else "done"
    if call == "sync":
        if number == "12":
            yield "refused at " + NAMED[rec.save]
        elif rec.save in NAMED:
            yield NAMED[rec.save] + ", " + (ended if rec.grouped else "nothing to save")
        if number == "gone" and rec.save and rec.logged + rec.grouped > SLOTS and orders >= rec.logged + 3:
            yield "cut short, kept after its apply"
    if call == "apply" and rec.save in NAMED and rec.logged:
        yield NAMED[rec.save] + ", " + ended
    if call == "recover":
        if number == "gone" and rec.save not in (head[6], head[6] - 1):
            yield "cut short, the record's kept"
        elif number == "0" and head[6] in NAMED:
            yield NAMED[head[6]] + ", " + ("fallback" if orders else "whole")
    if call == "cut" and rec.save:
        yield "forgotten"


def foreign_part(call, settled):
    """The part of row 8 that alone applies."""
    parts = list(foreign(len(settled) // BLOCK, read_header(settled)))
    if len(parts) == 1:
        yield "cause 8", parts[0], call


# ---- row 2, and row 14

def bound(rec, part):
    """One write more than may wait."""
    more = {"waiting when closed": "1 waits, closed", "waiting when open": "33 wait, open", "waiting when down": "67 wait, down"}
    if part in more and rec.waiting == {CLOSED: 1, OPEN: DIRECT + 1, DOWN: PLACES + 1}.get(rec.mode):
        yield "row 2: " + more[part]


def beyond(rec, settled, work, address):
    """Where an address stands beyond a count."""
    most = lists(replace(rec, opened=SLOTS, grouped=SLOTS, logged=SLOTS), settled, work)
    for name, listed, count in zip(HELD, most, (rec.opened, rec.grouped, rec.logged)):
        if address in listed[count:]:
            yield "beyond the count of " + name


def refused_direct(address, lists, power):
    """A direct write of an address that open, group or log has."""
    names = standing(address, lists[:3])[:-1]
    yield "in %s alone" % names[0] if len(names) == 1 else "in several lists"
    for case, holds in (("power 0", power == 0), ("it waits", address in lists[3]), ("32 wait", len(lists[3]) == DIRECT)):
        if holds:
            yield "listed, " + case


SEVEN = ("put", "get", "get_list", "commit", "abandon", "sync", "apply")
ORDERS = {"direct": direct_case, "sync": sync_case, "apply": apply_case, "recover": recover_case}


class Met:
    """A call with a record, or an inquiry."""

    def __init__(self, call, views, rec, numbers, more):
        self.call, self.views, self.rec, self.numbers, self.more = call, views, rec, numbers, more
        self.rows = call.removesuffix("_cost")
        self.blocks, self.sizes, self.parts, self.lists = len(views["settled"]) // BLOCK, list(wrong_sizes(views)), [], None
        self.head = None if self.sizes else read_header(views["settled"])
        if self.sizes or call in TWO:
            return
        card = views["settled"], views["waiting"], views["work"]
        self.parts = list(wrong_counts(rec, card[0])) or list(wrong_lists(rec, *card))
        if not self.parts and rec.mode == OPEN:
            self.lists = held(rec, *card)

    def cells(self, outcome, after):
        answer = outcome[0]
        number = "gone" if answer == 4 and self.rec.mode != DOWN else str(answer)
        yield "causes", self.call, number
        if answer == 1 and len(self.sizes) == 1:
            yield "cause 1", self.sizes[0], self.call
        if answer == 2 and len(self.parts) == 1:
            yield "cause 2", self.parts[0], self.call
            yield from (("cases", case, "") for case in bound(self.rec, self.parts[0]))
        if answer == 8:
            yield from foreign_part(self.call, self.foreigner())
        if 0 < answer < 10:
            table = "first of two" + (", asked" if self.call in COSTS else "")
            yield from ((table, number, str(later)) for later in self.later() if later > answer)
        yield from (("cases", case, "") for case in self.cases(outcome, number, after))

    def foreigner(self):
        return self.views["settled"]

    def later(self):
        """Rows that apply, be they the first or not, as far as the record and the arguments show it. An inquiry has its call's."""
        if any(self.parts) or any(wrong_counts(self.rec, self.views["settled"])):
            yield 2
        if self.rows in (*SEVEN, "direct") and self.rec.mode in (CLOSED, DOWN):
            yield 3 if self.rec.mode == CLOSED else 4
        if self.rows in ("put", "direct", "get") and not is_data(self.blocks, self.numbers[0]):
            yield 6
        if self.rows == "direct" and any(self.numbers[0] in listed for listed in self.bounded_lists()):
            yield 14
        if self.rows == "get_list" and not all(is_data(self.blocks, address) for address in wanted(self.more[0])):
            yield 6
        if self.rows == "put" and self.rec.opened == SLOTS and not is_data(self.blocks, self.numbers[0]):
            yield 7
        if self.rows == "sync" and self.rec.grouped and self.rec.save == LAST:
            yield 12
        if self.rows == "recover":
            yield {OPEN: 5, DOWN: 4}.get(self.rec.mode, 0)
            yield 0 if self.sizes else choice(self.blocks, self.views["settled"])[0]
        if self.rows == "format" and counts_entries(self.views["settled"]):
            yield 13
        if self.rows == "cut" and any(wrong_marks(self.rec, self.views["waiting"], *self.more)):
            yield 10

    def bounded_lists(self):
        """The addresses of open, group and log, whatever the record says and however long the buffers are."""
        return lists(bounded(self.rec), self.views["settled"], self.views["work"])

    def cases(self, outcome, number, after):
        if self.call in ORDERS and number in ("0", "gone"):
            case = ORDERS[self.call](self.rec, *outcome)
            yield case
            yield from ["behind waiting writes, " + case] if self.call in ("sync", "apply") and self.rec.waiting else []
        if self.call in ("format", "put", "direct", "get", "get_list", "commit", "cut"):
            yield from getattr(self, self.call)(outcome[0], after)
        elif self.call in COSTS and number == "0":
            yield from ("%s: %s" % (self.call, case) for case in cost_cases(self.call, self.rec, *outcome[1:4]))
        if number in ("0", "gone", "12"):
            cases = save_cases(self.call, self.rec, number, outcome[-1], self.head)
            yield from ("save number, %s: %s" % (self.call, case) for case in cases)
        if outcome[0] == 0 and after.mode == OPEN:
            yield from self.accepted()

    def accepted(self):
        for state, count in (("32 open", self.rec.opened), ("32 in the group", self.rec.grouped), ("32 in the log", self.rec.logged),
                             ("32 waiting", self.rec.waiting)):
            if count == SLOTS and self.lists:
                yield "accepted: " + state
        if self.blocks in (LEAST, MOST - 1, MOST):
            yield "accepted: N %d" % self.blocks

    def edge(self, answer):
        """Addresses at the edges of the data blocks."""
        named = {FIRST_DATA: "34", self.blocks - 1: "N - 1", FIRST_DATA - 1: "33", self.blocks: "N", 2**32 - 1: "2^32 - 1"}
        if answer in (0, 6) and self.numbers[0] in named:
            yield "%s: %s" % (self.call, named[self.numbers[0]])

    def format(self, answer, after):
        settled = self.views["settled"]
        if answer == 1 and len(self.sizes) == 1 and counts_entries(settled):
            yield "format, card in use, wrong " + self.sizes[0]
        if answer == 13:
            yield from ("format, card in use: " + case for case in used(self.rec, self.parts, settled, self.head))
        if answer == 0:
            parts = list(foreign(self.blocks, self.head))
            yield from ("format, " + case for case in unused(self.rec, self.parts, parts, self.head))

    def wrong_block(self, answer):
        if answer == 1 and not self.sizes:
            yield "%s: block %s" % (self.call, "short" if len(self.more[0]) < BLOCK else "long")

    def put(self, answer, after):
        yield from self.wrong_block(answer)
        yield from self.edge(answer)
        if answer == 0 and self.numbers[0] in self.lists[0]:
            yield "put: replaces" + (", 32 open" if after.opened == SLOTS else "")
        elif answer == 0:
            yield "put: adds" + (" the 32nd" if after.opened == SLOTS else "")

    def direct(self, answer, after):
        yield from self.wrong_block(answer)
        yield from self.edge(answer)
        address, settled, work = self.numbers[0], self.views["settled"], self.views["work"]
        if answer == 14:
            yield from ("direct refused: " + case for case in refused_direct(address, self.lists, self.rec.power))
        if answer == 6 and self.rec.power == 0:
            yield "direct refused: no data block, power 0"
        if answer == 0:
            yield from ("direct: " + case for case in beyond(self.rec, settled, work, address))
            for case, holds in (("nothing waits", self.rec.waiting == 0), ("31 wait", self.rec.waiting == DIRECT - 1),
                                ("an address that waits", address in self.lists[3])):
                if holds:
                    yield "direct: " + case

    def get(self, answer, after):
        yield from self.edge(answer)
        if answer == 0:
            yield from ("get: " + case for case in found_place(self.numbers[0], self.lists))

    def get_list(self, answer, after):
        data, buffer = self.more
        if answer == 0:
            yield from ("get_list: " + case for case in served_list(wanted(data), self.lists, self.blocks))
            return
        own = answer == 1 and not self.sizes
        cases = refused_size(data, buffer) if own else refused_addresses(wanted(data), self.blocks) if answer == 6 else ()
        yield from ("get_list refused: " + case for case in cases)
        if own or answer > 1:
            first = "1 of the list," if own else answer
            yield from ("get_list refused: %s before %d" % (first, later) for later in self.later() if later > answer)

    def commit(self, answer, after):
        if answer == 0:
            opened, grouped = self.lists[:2]
            replaced = sum(address in grouped for address in opened)
            for case, holds in (("empty", not opened), ("replaces", replaced), ("joins", replaced < len(opened)),
                                ("gives 32", opened and after.grouped == SLOTS)):
                if holds:
                    yield "commit: " + case

    def cut(self, answer, after):
        if answer not in (0, 10):
            return
        waiting, marks = self.views["waiting"], self.more[0]
        writes = [(address, marks_of(marks, i)) for i, address in enumerate(entries(waiting, 0, self.rec.waiting))]
        if answer == 10:
            excess = len(marks) - BLOCK * self.rec.waiting
            yield from ("cut refused: " + case for case in refused(list(wrong_marks(self.rec, waiting, marks)), writes, excess))
            return
        yield from ("cut: " + case for case in taken(writes))
        if self.rec.waiting in (0, PLACES):
            yield "cut: " + ("66 wait" if self.rec.waiting else "nothing waits")
        if self.rec.mode == OPEN and self.rec.waiting:
            yield "cut: an open record, " + ("32 wait" if self.rec.waiting == DIRECT else "something waits")


class MetCards(Met):
    """tally or alike."""

    def later(self):
        return ()

    def foreigner(self):
        """The card that is refused."""
        one = self.views["settled"]
        return one if chosen(one)[0] else self.views["other"]

    def cases(self, outcome, number, after):
        answer, found = outcome
        one, other = self.views["settled"], self.views.get("other")
        if self.call == "alike":
            yield from self.alike(answer, found, one, other)
        elif answer == 0:
            yield from self.tally(found, one)
        if answer == 0 and self.head[6] == LAST:
            yield "save number, %s: 2^64 - 1, %s" % (self.call, "fallback" if choice(self.blocks, one)[3] else "whole")

    def tally(self, total, one):
        _, count, _, back, _ = choice(self.blocks, one)
        listed, homes = log(one, count), data_sum(one, [])
        addresses = {address for address, _ in listed}
        yield "tally: " + ("fallback list" if back else "whole log" if listed else "no log")
        for case, applies in (("N 65536", self.blocks == MOST), ("32 slots", len(listed) == SLOTS),
                              ("an address in several slots", len(addresses) < len(listed)),
                              ("more than the home blocks", total > homes), ("less than the home blocks", total < homes)):
            if applies:
                yield "tally: " + case

    def alike(self, answer, yes, one, other):
        (first, listed), (second, others) = chosen(one), chosen(other)
        if answer:
            yield "alike: %d by the %s" % (answer, "first" if first else "second")
            yield from ["alike: %d before %d" % (first, second)] if first and second else []
            return
        yield "alike: " + ("no" if not yes else "yes, one card twice" if one is other else "yes, other bytes" if one != other else "yes, a copy")
        if len(one) != len(other):
            yield "alike: no, other N" + (", the same log" if listed == others else "")
        else:
            yield from ("alike: " + case for case in likeness(one, other, yes))
        if yes and self.blocks == MOST:
            yield "alike: yes, N 65536"
        if yes and self.head[6] != read_header(other)[6]:
            yield "save number, alike: unlike, yes"


def met(call, views, rec, numbers, more):
    return (MetCards if call in TWO else Met)(call, views, rec, numbers, more)
