"""The coverage table of the lockstep: each cause by each call that has it, and the cases that a run must meet. A hole fails."""
from itertools import zip_longest

from model import COSTS

TWELVE = ("format", "power", "put", "direct", "get", "get_list", "commit", "abandon", "sync", "apply", "recover", "cut")
TWO = ("tally", "alike")
NUMBERS = ("0", "1", "2", "3", "4", "gone", "5", "6", "7", "8", "9", "10", "12", "13", "14")

# The numbers that each call may give; 4 is a record that was down, gone is power gone in the call.
CAUSES = {
    "format": "0 1 13", "power": "0 1 2", "put": "0 1 2 3 4 6 7", "get": "0 1 2 3 4 6", "get_list": "0 1 2 3 4 6", "commit": "0 1 2 3 4 7",
    "abandon": "0 1 2 3 4", "direct": "0 1 2 3 4 gone 6 14",
    "sync": "0 1 2 3 4 gone 12", "apply": "0 1 2 3 4 gone", "recover": "0 1 2 4 gone 5 8 9", "cut": "0 1 2 10",
    "sync_cost": "0 1 2 3 4 12", "apply_cost": "0 1 2 3 4", "recover_cost": "0 1 2 4 5 8 9", "tally": "0 1 8 9", "alike": "0 1 8 9",
}

# The parts of rows 1 and 2. A cell counts the calls at which that part alone applied.
SIZES = ("record length", "settled length", "N under 35", "N over 65536", "waiting short", "waiting long", "work short", "work long")
PARTS = ("mode", "open count", "group count", "log count", "waiting when closed", "waiting when open", "waiting when down", "N",
         "waiting address", "open address", "group address", "log address", "twice in open", "twice in group")

# The parts of row 8, likewise, and the calls that have it.
FOREIGN = ("format 1", "another format", "N", "n over 32", "p over n", "save 0, unlike counts", "save 0, unlike sums",
           "save 0, unlike counts and sums")
FOUR = ("recover", "recover_cost", "tally", "alike")

# Where two rows apply: the number given, and the later ones; of the calls, and of the inquiries.
FIRST = {"1": "2 3 4 5 6 10 12 13 14", "2": "3 4 5 6 8 9 10 12 14", "3": "6 12 14", "4": "6 8 9 12 14", "5": "8 9", "6": "7"}
FIRST_ASKED = {"1": "2 3 4 5 12", "2": "3 4 5 8 9 12", "3": "12", "4": "8 9 12", "5": "8 9"}

# The places at which orders end.
IN_APPLY = ("home blocks wait", "home blocks flushed", "header waits")
IN_SYNC = ("log blocks wait", "descriptor waits", "header waits")

# The ways in which a write is torn; and by how many marks they are too many.
TORN = ("one byte kept", "one byte lost", "half kept", "every other byte kept", "any bytes kept")
NUMBER = {-1: "a mark too few", 1: "a mark too many", -512: "512 marks too few", 512: "512 marks too many"}

# The lists in which a block may be found, the newest first; the places; and the lengths of a list's buffer by how many bytes they are too many.
HELD = ("open", "group", "log", "waiting")
PLACES = HELD + ("home",)
BUFFER = {-1: "a byte too short", 1: "a byte too long", -512: "a block too short", 512: "a block too long"}

# Where two logs of one count are unlike in one slot. The data blocks as laid have the block of the last slot, and that of the only one.
SLOT = ("only", "first", "middle", "last")
UNLIKE_SLOT = {"address": SLOT, "block": ("first", "middle"), "entry": SLOT}

# How far the power reaches in an inquiry that is served.
REACHES = ("no orders, power 0", "no orders, some power", "more than enough power", "exactly enough power", "one order short",
           "more than one order short")


def prefixed(prefix, names):
    return tuple(prefix + name for name in names)


SAVES = (
    prefixed("sync: ", ("done", "done, exactly enough power", "cut short at once"))
    + prefixed("sync: cut short, ", IN_SYNC)
    + prefixed("sync that applies: ", ("done", "done, exactly enough power", "cut short before its apply"))
    + prefixed("sync that applies: cut short in its apply, ", IN_APPLY)
    + ("sync that applies: cut short right after its apply",)
    + prefixed("sync that applies: cut short after its apply, ", IN_SYNC)
    + prefixed("apply: ", ("nothing to do", "done", "done, exactly enough power", "cut short at once"))
    + prefixed("apply: cut short, ", IN_APPLY)
)

# What becomes of a sync cut short.
NEW = ("new: all kept", "new: a harmless loss", "new: harmless tearing")
OLD = ("old: a write lost", "old: a write torn", "old: header lost", "old: header lost, others torn", "old: no header",
       "old: no header, others torn")

CASES = (
    SAVES
    + prefixed("behind waiting writes, ", SAVES)
    + prefixed("sync: ", ("nothing to save", "an empty group, flushed", "an empty group, flushed, exactly enough power",
                          "an empty group, cut short at once"))
    + prefixed("direct: ", ("done", "done, exactly enough power", "cut short at once", "nothing waits", "31 wait", "an address that waits",
                            "34", "N - 1", "33", "N", "2^32 - 1", "block short", "block long"))
    + tuple("direct: beyond the count of " + name for name in HELD[:3])
    + prefixed("direct, 32 wait: ", ("done", "done, exactly enough power", "cut short at once", "cut short after its flush"))
    + tuple("direct refused: in %s alone" % name for name in HELD[:3])
    + prefixed("direct refused: ", ("in several lists", "listed, power 0", "listed, it waits", "listed, 32 wait", "no data block, power 0"))
    + prefixed("direct in a history: ", ("done", "done, flushed first", "cut short", "cut short after its flush", "14"))
    + prefixed("row 2: ", ("1 waits, closed", "33 wait, open", "67 wait, down"))
    + prefixed("recover: ", ("whole", "whole at power 0", "fallback", "fallback, exactly enough power", "cut short at once",
                             "cut short, header waits"))
    + tuple("cut: %s header %s" % (whose, fate) for whose in ("sync's own", "sync's apply's", "apply's", "recover's")
            for fate in ("kept", "lost", "torn, refused"))
    + prefixed("cut: ", ("nothing waits", "66 wait", "whole writes alone", "every write torn but headers"))
    + prefixed("cut: an open record, ", ("something waits", "32 wait", "a photograph waits"))
    + prefixed("cut: a write torn, ", TORN)
    + prefixed("cut: one block written twice, ", ("both torn unlike", "the newer torn", "the older torn"))
    + prefixed("cut: several headers, ", ("the newest kept", "the newest lost", "all lost"))
    + prefixed("cut refused: ", (*NUMBER.values(), "another number of marks", "a mark for each write", "a mark over 1",
                                 "a header's mark over 1, the others 1", "all of a header's marks over 1", "one of several headers torn"))
    + prefixed("cut refused: a header torn, ", TORN)
    + prefixed("demand 3, ", NEW + OLD + ("new: all kept but for a photograph", "old: an empty sync", "the old disk found", "the new disk found"))
    + prefixed("demand 3, behind a photograph, ", NEW + OLD)
    + prefixed("a loose block: ", ("as it was settled", "as its newest write", "as an older write", "torn", "torn, of several writes",
                                   "as new has it"))
    + prefixed("loose addresses: ", ("a second cut", "a second cut, of a recovery cut short"))
    + tuple("behind a %s: %s" % (what, found) for what in ("torn log block", "torn descriptor", "torn photograph", "refused format")
            for found in ("new", "old", "old, by a fallback"))
    + ("behind a torn home block: old",)
    + prefixed("format, card in use: ", ("p = 0", "0 < p < n", "p = n", "n = 1", "n = 32", "save 0", "a wrong record",
                                         "another N in the record", "N 35", "N 65535", "N 65536"))
    + prefixed("format, card in use: recover would ", ("take n", "fall back", "fall back to 0", "answer 9"))
    + prefixed("format, card in use, wrong ", ("record length", "settled length", "waiting short", "waiting long", "work short", "work long"))
    + prefixed("format, n above 0, foreign by ", FOREIGN)
    + ("format, n above 0, foreign by N, which is the record's",)
    + prefixed("format, n = 0: ", ("save 0", "some save", "a wrong record", "recover would answer 9", "foreign"))
    + prefixed("format in a history: 13, ", ("right after a sync", "a log", "a fallback to come", "down"))
    + prefixed("format in a history: 0, ", ("as format left it", "after an apply", "down"))
    + prefixed("get: ", (*PLACES, "log, of two slots", "waiting, of two writes", "34", "N - 1", "33", "N", "2^32 - 1"))
    + tuple("%s: %s over waiting" % (call, place) for call in ("get", "get_list") for place in HELD[:3])
    + prefixed("get_list: ", ("no addresses", "1 address", "31 addresses", "32 addresses", "34", "N - 1", "N - 1 of the largest card", *PLACES,
                              "every place", "log, of two slots", "waiting, of two writes", "open over group", "open over log",
                              "group over log"))
    + tuple("get_list: %s repeated" % place for place in PLACES)
    + prefixed("get_list: ", ("32 alike", "a repeat, and another of its bucket between", "2 unlike of one bucket", "8 unlike of one bucket",
                              "16 unlike of one bucket"))
    + tuple("get_list: a bucket's other address in %s" % place for place in HELD)
    + prefixed("get_list: ", ("no slots", "32 slots", "no addresses, some log"))
    + prefixed("get_list refused: ", ("33 addresses", "over 33 addresses", "1 byte over", "2 bytes over", "3 bytes over", "129 to 131 bytes",
                                      "under 4 bytes", "no buffer", "a buffer for none", "another buffer"))
    + prefixed("get_list refused: buffer ", BUFFER.values())
    + prefixed("get_list refused: a wrong address, ", ("alone", "first", "between", "last", "0", "33", "N", "2^32 - 1"))
    + prefixed("get_list refused: ", ("1 of the list, before 2", "1 of the list, before 3", "1 of the list, before 4", "1 of the list, before 6",
                                      "2 before 6", "3 before 6", "4 before 6"))
    + prefixed("get_list in a history: ", ("some addresses", "no addresses", "1", "3", "4", "6"))
    + prefixed("put: ", ("34", "N - 1", "33", "N", "2^32 - 1", "adds", "adds the 32nd", "replaces", "replaces, 32 open", "block short",
                         "block long"))
    + prefixed("commit: ", ("empty", "joins", "replaces", "gives 32"))
    + prefixed("accepted: ", ("32 open", "32 in the group", "32 in the log", "32 waiting", "N 35", "N 65535", "N 65536"))
    + prefixed("tally: ", ("no log", "whole log", "fallback list", "N 65536", "32 slots", "an address in several slots",
                           "more than the home blocks", "less than the home blocks"))
    + prefixed("alike: ", ("yes, one card twice", "yes, a copy", "yes, other bytes", "no", "no, other N", "no, other N, the same log",
                           "yes, N 65536"))
    + prefixed("alike: yes, ", ("0 slots", "1 slots", "32 slots", "an address in several slots", "an address beyond the count unlike",
                                "a block beyond the count unlike", "a home block under the log unlike", "the first card falls back",
                                "the second card falls back", "both cards fall back", "a fallback to nothing", "a fallback from unlike n",
                                "p unlike, no fallback"))
    + prefixed("alike: no, the same data, ", ("one log empty", "the counts unlike", "one slot more", "the same entries in another order",
                                              "the same blocks in all slots", "the headers' whole lists equal", "one card falls back",
                                              "an address unlike above its lowest byte alone"))
    + tuple("alike: no, the same data, %s unlike in the %s slot alone" % (part, slot) for part, slots in UNLIKE_SLOT.items() for slot in slots)
    + tuple("alike: no, unlike data, block unlike in the %s slot alone" % slot for slot in SLOT)
    + prefixed("alike: no, the same log, data unlike in ", ("the only block", "the first block alone", "a middle block alone", "the last block alone",
                                                            "a byte alone", "a block of a slot that is not chosen"))
    + tuple("alike: %d by the %s" % (number, card) for number in (1, 8, 9) for card in ("first", "second"))
    + tuple("alike: %d before %d" % (first, second) for first in (1, 8, 9) for second in (1, 8, 9))
    + prefixed("save number, sync: ", ("refused at 2^64 - 1", "2^64 - 1, nothing to save", "2^64 - 2, done", "2^64 - 2, cut short",
                                       "2^32 - 1, done", "cut short, kept after its apply"))
    + prefixed("save number, apply: ", ("2^64 - 1, done", "2^64 - 1, cut short"))
    + prefixed("save number, recover: ", ("0, whole", "2^64 - 1, whole", "1, fallback", "2^32, fallback", "2^64 - 1, fallback",
                                          "cut short, the record's kept"))
    + tuple("save number, %s: 2^64 - 1, %s" % (call, found) for call in TWO for found in ("whole", "fallback"))
    + ("save number, alike: unlike, yes", "save number, cut: forgotten")
    + prefixed("the number found: ", ("new", "old", "old, by a fallback"))
    + tuple("%s: %s" % (call, case) for call in COSTS for case in REACHES + ("order by order",))
    + prefixed("sync_cost: ", ("n + m = 32", "n + m = 33", "applies, peak in its apply", "applies, peak after its apply",
                               "applies, order by order", "save number 2^64 - 1, nothing to save"))
    + prefixed("sync_cost: something waits", ("", ", nothing to save", ", applies", ", peak 64", ", peak 66", ", order by order"))
    + prefixed("apply_cost: something waits", ("", ", nothing to do", ", peak 64", ", order by order"))
)


def required():
    """Every cell that a run must fill: a table's name, a row and a column."""
    for call, numbers in CAUSES.items():
        yield from (("causes", call, number) for number in numbers.split())
    for size in SIZES:
        yield from (("cause 1", size, call) for call in TWELVE + COSTS)
    for size in SIZES[1:4]:
        yield from (("cause 1", size, call) for call in TWO)
    for part in PARTS:
        yield from (("cause 2", part, call) for call in TWELVE[1:] + COSTS)
    for part in FOREIGN:
        yield from (("cause 8", part, call) for call in FOUR)
    for name, first in (("first of two", FIRST), ("first of two, asked", FIRST_ASKED)):
        yield from ((name, number, other) for number, later in first.items() for other in later.split())
    yield from (("cases", case, "") for case in CASES)


def table(seen, name, rows, columns):
    """Counts by row and column. A cell that no call can reach is blank."""
    cells = {(row, column) for named, row, column in required() if named == name}
    wide = max(22, *(len(row) + 2 for row in rows))
    right = lambda words: "".join(word.rjust(max(8, len(column) + 2)) for word, column in zip(words, columns)).rstrip()
    yield name.ljust(wide) + right(columns)
    for row in rows:
        yield ("  " + row).ljust(wide) + right(str(seen[name, row, column]) if (row, column) in cells else "" for column in columns)


def report(seen):
    """The lines of the table."""
    yield from table(seen, "causes", CAUSES, NUMBERS)
    yield from table(seen, "cause 1", SIZES, TWELVE + COSTS + TWO)
    yield from table(seen, "cause 2", PARTS, TWELVE[1:] + COSTS)
    yield from table(seen, "cause 8", FOREIGN, FOUR)
    yield from table(seen, "first of two", FIRST, NUMBERS)
    yield from table(seen, "first of two, asked", FIRST_ASKED, NUMBERS)
    yield "cases"
    half = -(-len(CASES) // 2)
    halves = CASES[:half], CASES[half:]
    columns = [[case.ljust(max(map(len, cases))) + "%7d" % seen["cases", case, ""] for case in cases] for cases in halves]
    yield from ("  " + "   ".join(filter(None, cells)) for cells in zip_longest(*columns))


def holes(seen):
    return [cell for cell in required() if not seen[cell]]
