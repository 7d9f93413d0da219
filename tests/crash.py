"""Demands 2 and 3 in document 01's words, over the torn cut of W-204 and the direct writes of W-209, on the C library itself: beside a list of
calls from a format answering 0 stand the plain disk, the log written, the old and the new disk of a sync cut short, the direct writes that wait
or waited at a cut, and the groups laid. Of the card it reads what the library left there. By W-205 a later format is refused exactly where the
log written is not empty, and the list goes on."""
from plain import BLOCK, DOWN, FIRST_DATA, OPEN, SLOTS, ZERO, Plain
from model import fnv

ENTRY = 4 + BLOCK

# The buffers that a get names.
BUFFERS = {1: "settled", 2: "work", 3: "waiting"}


class Difference(Exception):
    pass


def must(holds, what, *values):
    if not holds:
        raise Difference(what % values)


def fates(marks):
    """What became of each waiting write: kept, lost or torn."""
    for at in range(0, len(marks), BLOCK):
        kept = sum(marks[at:at + BLOCK])
        yield "kept" if kept == BLOCK else "torn" if kept else "lost"


def mixed(block, versions):
    """Whether each byte is that of one of the versions."""
    return block in versions or all(byte in column for byte, column in zip(block, zip(*versions)))


def likeness(block, versions):
    """What a loose block is like: the versions are as it was settled, and its writes, oldest first."""
    if block in versions:
        return "as it was settled" if block == versions[0] else "as its newest write" if block == versions[-1] else "as an older write"
    return "torn, of several writes" if len(versions) > 2 else "torn"


class CutShort:
    """A sync cut short: its group, the queue places of its own first write and of its own header write or None, and, after the next cut,
    whether it is new."""

    def __init__(self, group, first, place):
        self.group, self.first, self.place, self.decided = group, first, place, None


class Witness:
    def __init__(self, library, lent):
        self.library, self.lent = library, lent
        self.plain = Plain(lent["settled"].length // BLOCK)
        self.written, self.waiting_header, self.expected = [], None, []
        self.old, self.short, self.excepted, self.events = {}, None, False, []
        self.groups, self.saved, self.behind = 0, False, set()
        # Of each address with direct writes that wait, and of each loose one: the block before the first of them, then these.
        self.writes, self.loose = {}, {}

    # ---- what the library left

    def record(self, field):
        return self.lent["record"].number(4 * ("mode", "N", "open", "group", "n", "waiting", "power").index(field))

    def save(self):
        """The save number, behind seven numbers of 4 bytes and the sum."""
        return self.lent["record"].number(36, 8)

    def log(self, count):
        settled = self.lent["settled"]
        return [(settled.number(BLOCK + 4 * i), settled.read(BLOCK * (2 + i), BLOCK)) for i in range(count)]

    def group(self):
        work, places = self.lent["work"], range(SLOTS, SLOTS + self.record("group"))
        return [(work.number(ENTRY * i), work.read(ENTRY * i + 4, BLOCK)) for i in places]

    def block(self, outcome):
        answer, buffer, offset = outcome
        return None if answer else self.lent[BUFFERS[buffer]].read(offset, BLOCK)

    def home(self, address):
        return self.lent["settled"].read(BLOCK * address, BLOCK)

    def found(self, address):
        """Where a get right after the recovery finds a data block."""
        outcome = self.library.call("get", self.lent, (address,))
        must(outcome[0] == 0, "a get of %d after the recovery answers %d", address, outcome[0])
        return outcome

    def fed(self, address):
        """What the plain disk is fed of a recovery that is finished."""
        must(address in self.loose, "the plain disk asks for block %d, which is not loose", address)
        return self.block(self.found(address))

    # ---- a call

    def before(self, call):
        self.mode, self.n, self.queued = self.record("mode"), self.record("n"), self.record("waiting")
        if call == "sync":
            self.stood, self.entries = self.log(self.n if self.mode == OPEN else 0), self.group() if self.mode == OPEN else []
        if call == "cut":
            self.homes = {address: self.home(address) for address in self.writes}

    def after(self, call, arguments, outcome, lent):
        """Lent are also the buffers of this call alone, as it left them."""
        if call == "format":
            return self.formatted(outcome[0])
        same = True
        if call == "cut" and outcome[0] == 0:
            must(self.plain.refusal(call, arguments) == 0, "the plain disk refuses it")
            same = self.cut(list(fates(arguments[0])))
        if self.excepted:
            return
        answer, orders, block = self.plain.step(call, arguments, self.fed if call == "recover" else same)
        must(outcome[0] == answer, "the plain disk answers %d", answer)
        if call in ("direct", "sync", "apply", "recover"):
            must(outcome[1] == orders, "the plain disk hands back %d orders", orders)
            self.ledger(call, *outcome)
            self.photograph(call, arguments, *outcome)
        if call == "get":
            must(self.block(outcome) == block, "the plain disk has another block")
        if call == "get_list":
            self.compare_list(arguments, outcome[1], lent["blocks"].read(), answer, orders, block)
        if call == "cut" and answer == 10 and self.waiting_header:
            self.refused(arguments[0])
        self.compare_record()
        self.judge(call, outcome)
        self.saved = call == "sync" and answer == 0 and len(self.entries) > 0

    def compare_list(self, arguments, slots, left, answer, read, blocks):
        """The slots and every block of a list; refused, the buffer as it was."""
        must(slots == read, "the plain disk reads %d slots", read)
        must(left == (arguments[1] if answer else blocks), "the plain disk has other blocks" if answer == 0 else "a refused list is copied")
        self.events.append("get_list in a history: " + (str(answer) if answer else "some addresses" if arguments[0] else "no addresses"))

    def compare_record(self):
        for field in ("mode", "power", "waiting"):
            must(self.record(field) == getattr(self.plain, field), "the plain disk's %s is %d", field, getattr(self.plain, field))
        if self.plain.mode == OPEN:
            must(self.record("n") == self.plain.n, "the plain disk's n is %d", self.plain.n)
            must(self.save() == self.plain.laid, "the plain disk has %d groups laid, the save number is %d", self.plain.laid, self.save())
            self.compare_addresses()

    def compare_addresses(self):
        """W-209: the log's addresses and the waiting ones; those are of data blocks that the log does not have."""
        settled, waiting = self.lent["settled"], self.lent["waiting"]
        logged = [settled.number(BLOCK + 4 * i) for i in range(self.plain.n)]
        queue = [waiting.number(ENTRY * i) for i in range(self.plain.waiting)]
        must(logged == self.plain.log, "the plain disk has other addresses in the log")
        must(queue == self.plain.writes, "the plain disk has other waiting addresses")
        must(all(FIRST_DATA <= a < self.plain.blocks and a not in logged for a in queue), "a waiting write is to a block of the log, or to no data block")

    # ---- a format in the list

    def formatted(self, answer):
        """Refused, it leaves the plain disk and all that stands here; else another list begins."""
        expected = 13 if self.written else 0
        must(answer == expected, "the log written has %d entries: a format must answer %d", len(self.written), expected)
        self.events.append("format in a history: %d, %s" % (answer, self.where()))
        if answer:
            self.compare_record()
            self.behind.add("refused format")

    def where(self):
        """What the card is like where the format comes."""
        if self.mode == DOWN:
            return "down"
        if not self.written:
            return "after an apply" if self.groups else "as format left it"
        return "a fallback to come" if self.plain.F else "right after a sync" if self.saved else "a log"

    # ---- the log written

    def ledger(self, call, answer, orders):
        """From the call and its orders: which list the card's header, or the header that waits, took its sum from."""
        if call == "direct" or answer not in (0, 4) or (answer == 4 and self.mode == DOWN):
            return
        if call == "recover":
            self.recovered(answer, orders)
        elif call == "apply":
            self.emptied(orders, "apply's")
        elif self.entries:
            applied = self.n + 3 if self.n + len(self.entries) > SLOTS else 0
            if applied:
                self.emptied(orders, "sync's apply's")
            self.appended(orders - applied, ([] if applied else self.stood) + self.entries)

    def recovered(self, answer, orders):
        if answer == 0:
            taken = self.log(self.record("n"))
            must(taken == self.expected, "the list taken is not the log written, or its first p entries")
            self.written = taken
        elif orders == 1:
            self.waiting_header = 0, self.log(self.lent["settled"].number(8)), "recover's"

    def emptied(self, orders, whose):
        if orders == self.n + 2:
            self.waiting_header = 0, [], whose
        elif orders > self.n + 2:
            self.written = []

    def appended(self, orders, listed):
        m = len(self.entries)
        if orders == m + 2:
            self.waiting_header = self.first_own() + m + 1, listed, "sync's own"
        elif orders == m + 3:
            self.written = listed

    def first_own(self):
        """The queue place of a sync's own first write: behind what waited before it, or the first after an apply."""
        return 0 if self.n + len(self.entries) > SLOTS else self.queued

    # ---- W-209: the direct writes that wait, and the loose addresses

    def photograph(self, call, arguments, answer, orders):
        """What a call with orders makes of the direct writes that wait."""
        if call == "direct" and self.mode == OPEN:
            self.directed(answer, orders)
        if self.mode != OPEN or answer not in (0, 4):
            return
        if self.flushed(call, answer, orders):
            self.writes = {}
        if call == "direct" and answer == 0:
            address, block = arguments
            self.writes.setdefault(address, [self.old.get(address, ZERO)]).append(bytes(block))
            self.old[address] = bytes(block)

    def directed(self, answer, orders):
        done = {0: "done" + (", flushed first" if orders == 2 else ""), 4: "cut short" + (" after its flush" if orders else "")}
        self.events.append("direct in a history: " + done.get(answer, str(answer)))

    def flushed(self, call, answer, orders):
        """Whether one of its orders was a flush."""
        if call == "direct":
            return orders == (2 if answer == 0 else 1)
        if call == "apply":
            return orders > self.n
        return orders > 0 if answer == 0 else self.n + len(self.entries) > SLOTS and orders > self.n

    def loosen(self):
        """At a cut the waiting addresses join the loose ones. Just before it each was settled as S was before the first of its writes."""
        for address, versions in self.writes.items():
            must(self.homes[address] == versions[0], "block %d was settled otherwise than before its first waiting write", address)
        if self.loose:
            self.events.append("loose addresses: a second cut" + (", of a recovery cut short" if self.mode == DOWN else ""))
        self.loose.update(self.writes)
        self.writes = {}

    def compare_loose(self, address, place, block, new):
        """A loose block: as new has it, if that is found and its group has the address; else at home, byte by byte as it was settled or as one
        of its writes that waited."""
        versions = self.loose[address]
        if new and address in self.short.group:
            must(block == self.short.group[address], "demand 3: the loose block %d is not the new disk's", address)
            self.events.append("a loose block: as new has it")
            return
        must(place == (0, 1, BLOCK * address), "demand 3: the loose block %d is not found at home", address)
        must(mixed(block, versions), "demand 3: the loose block %d is neither as it was settled nor as its writes, byte by byte", address)
        self.events.append("a loose block: " + likeness(block, versions))

    def refused(self, marks):
        """A cut that is refused for a torn header alone."""
        place, _, whose = self.waiting_header
        if len(marks) == BLOCK * (place + 1) and max(marks) == 1 and list(fates(marks))[place] == "torn":
            self.events.append("cut: %s header torn, refused" % whose)

    def cut(self, fates):
        """Whether the log found is the log written, by the header that the cut left."""
        if self.waiting_header:
            place, listed, whose = self.waiting_header
            self.events.append("cut: %s header %s" % (whose, fates[place]))
            if fates[place] == "kept":
                self.written = listed
        self.waiting_header = None
        self.behind.update("torn " + self.block_torn(i) for i, fate in enumerate(fates) if fate == "torn")
        if self.mode == OPEN and fates:
            self.events.append("cut: an open record, a photograph waits")
        self.loosen()
        previous, count = (self.lent["settled"].number(at) for at in (8, 12))
        found = self.log(count)
        same = found == self.written
        must(len(found) == len(self.written), "the log written has %d entries, the header says %d", len(self.written), count)
        self.excepted = not same and total(found) == total(self.written)
        self.expected = self.written if same else self.written[:previous]
        if self.short and self.short.decided is None:
            self.decide(fates, same)
        return same

    def block_torn(self, i):
        """What the i-th write was to. The direct writes that wait come before those of a call cut short."""
        address = self.lent["waiting"].number(ENTRY * i)
        if i < sum(len(versions) - 1 for versions in self.writes.values()):
            return "photograph"
        return "descriptor" if address == 1 else "log block" if address < FIRST_DATA else "home block"

    # ---- demand 3

    def decide(self, fates, same):
        """New exactly if the next cut kept the sync's own header write and the log found is the log written."""
        place, before, own = self.short.place, fates[:self.short.first], fates[self.short.first:]
        kept = place is not None and fates[place] == "kept"
        self.short.decided = kept and same
        self.groups += self.short.decided
        whole = place is not None and set(own) == {"kept"}
        must(not whole or self.short.decided, "all writes of a sync were made and kept, and it is not new")
        if not self.short.group:
            self.events.append("demand 3, old: an empty sync")
            return
        became = "new: all kept" if whole else self.became(own, kept, same)
        self.events += ["demand 3, " + became] + (["demand 3, behind a photograph, " + became] if before else [])
        if whole and set(before) - {"kept"}:
            self.events.append("demand 3, new: all kept but for a photograph")

    def became(self, fates, kept, same):
        """Of a sync of which not all was kept, by the fates of its own writes."""
        torn = "torn" in fates
        if kept and same:
            return "new: harmless tearing" if torn else "new: a harmless loss"
        if kept:
            return "old: a write torn" if torn else "old: a write lost"
        return "old: " + ("no header" if self.short.place is None else "header lost") + (", others torn" if torn else "")

    def judge(self, call, outcome):
        answer = outcome[0]
        if call == "sync" and answer == 0 and self.entries:
            self.groups += 1
        if call == "sync" and answer == 4 and self.mode == OPEN:
            must(self.short is None, "two syncs cut short since the last finished sync or recovery")
            place = self.first_own() + len(self.entries) + 1
            self.short = CutShort(dict(self.entries), self.first_own(), place if self.plain.short.own_header() else None)
        if call == "recover" and answer == 0:
            new = self.short is not None and self.short.decided
            self.compare_disk(new)
            which = "new" if new else "old, by a fallback" if outcome[1] else "old"
            self.compare_number(which)
            self.events += ["behind a %s: %s" % (what, which) for what in self.behind]
            self.behind, self.loose = set(), {}
        if call in ("sync", "recover") and answer == 0:
            self.old, self.short = dict(self.plain.S), None

    def compare_disk(self, new):
        """The disk found is every data block as a get right after the recovery gives it. Old has the direct writes since laid over it, new has
        the group over old."""
        which, disk = ("new", {**self.old, **self.short.group}) if new else ("old", self.old)
        for address in range(FIRST_DATA, self.plain.blocks):
            place = self.found(address)
            block = self.block(place)
            if address in self.loose:
                self.compare_loose(address, place, block, new)
            else:
                must(block == disk.get(address, ZERO), "demand 3: block %d is not the %s disk's", address, which)
            must(block == self.plain.get(address), "demand 2: block %d is not the plain disk's", address)
        self.events.append("demand 3, the %s disk found" % which)

    def compare_number(self, which):
        """W-201: the number found counts the nonempty groups laid: syncs that finished, and those cut short that a cut made new."""
        must(self.save() == self.groups, "the save found is number %d, and %d groups were laid", self.save(), self.groups)
        self.events.append("the number found: " + which)


def total(listed):
    h = 14695981039346656037
    for address, block in listed:
        h = fnv(address.to_bytes(4, "little") + block, h)
    return h
