"""The plain disk, from its own section of document 01: fed N, a call's arguments and, at a cut, whether the log found is the log
written. By W-201 it counts the nonempty groups laid into S, by W-204 a cut has 512 marks for each waiting write, by W-207 there are lists of gets.
By W-209 it keeps the log's addresses, those of the direct writes that wait, and the loose ones: those that waited at a cut. There it is fed what
the next finished recovery finds. It knows no bytes of a card."""

CLOSED, OPEN, DOWN = 0, 1, 2
BLOCK, SLOTS, FIRST_DATA, LIST, DIRECT = 512, 32, 34, 32, 32
LAST = 2**64 - 1
ZERO = bytes(BLOCK)


class Short:
    """The call cut short: its orders, and those of the apply before a sync's own (n + 3 of them, or 0)."""

    def __init__(self, call, orders, n, m, applied):
        self.call, self.orders, self.n, self.m, self.applied = call, orders, n, m, applied

    def header(self):
        """Whether a header waits, which is then the last write that does."""
        if self.call == "recover":
            return self.orders == 1
        return self.own_header() or ((self.call == "apply" or self.applied > 0) and self.orders == self.n + 2)

    def own_header(self):
        """Whether a sync's own header write was carried out."""
        return self.call == "sync" and self.orders - self.applied == self.m + 2

    def flushed(self):
        """Whether one of its orders was a flush."""
        if self.call == "direct":
            return self.orders > 0
        return (self.call == "apply" or self.applied > 0) and self.orders > self.n

    def queued(self):
        """The number of its own writes that wait when the orders end here."""
        orders = self.orders
        if self.call == "direct":
            return 0
        if self.call == "apply" or (self.applied and orders < self.applied):
            return orders if orders <= self.n else orders - self.n - 1
        return orders - self.applied


def wanted(addresses):
    """The addresses of a list, 4 bytes each."""
    return [int.from_bytes(addresses[at:at + 4], "little") for at in range(0, len(addresses) // 4 * 4, 4)]


class Plain:
    def __init__(self, blocks):
        """As a format answering 0 leaves it."""
        self.blocks, self.S, self.G, self.T = blocks, {}, {}, {}
        self.log, self.writes, self.loose = [], [], set()
        self.F, self.mode, self.power, self.short = 0, OPEN, 1000000, None
        self.laid = 0

    @property
    def n(self):
        return len(self.log)

    @property
    def waiting(self):
        """The direct writes that wait, and behind them those of the call cut short."""
        return len(self.writes) + (self.short.queued() if self.short else 0)

    def refusal(self, call, arguments):
        if call in ("put", "direct") and len(arguments[1]) != BLOCK or call == "get_list" and self.wrong_list(*arguments):
            return 1
        if call == "power":
            return 0
        if call == "cut":
            return 10 if self.wrong_marks(arguments[0]) else 0
        if call == "recover":
            return {CLOSED: 0, OPEN: 5, DOWN: 4}[self.mode]
        if self.mode != OPEN:
            return 3 if self.mode == CLOSED else 4
        asked = arguments[:1] if call in ("put", "direct", "get") else wanted(arguments[0]) if call == "get_list" else ()
        if not all(FIRST_DATA <= address < self.blocks for address in asked):
            return 6
        if call == "direct" and any(arguments[0] in listed for listed in (self.T, self.G, self.log)):
            return 14
        if call == "put" and arguments[0] not in self.T and len(self.T) == SLOTS:
            return 7
        if call == "commit" and len(self.T.keys() | self.G.keys()) > SLOTS:
            return 7
        return 12 if call == "sync" and self.G and self.laid == LAST else 0

    def wrong_marks(self, marks):
        """Not 512 for each waiting write, one over 1, or those of a header unlike."""
        torn = self.short is not None and self.short.header() and len(set(marks[-BLOCK:])) > 1
        return len(marks) != BLOCK * self.waiting or max(marks, default=0) > 1 or torn

    def wrong_list(self, addresses, blocks):
        """Not 4 bytes for each address, too many of them, or a buffer that is not 512 bytes for each."""
        return len(addresses) % 4 != 0 or len(addresses) > 4 * LIST or len(blocks) != BLOCK * len(wanted(addresses))

    def step(self, call, arguments=(), found=True):
        """The answer, the orders handed back or the slots of a list, and the block of a get or those of a list. Found is, at a cut, whether
        the log found is the log written, and, at a recovery, what it finds at an address, if it is finished."""
        answer = self.refusal(call, arguments)
        if answer:
            return answer, 0, None
        if call == "power":
            self.power = arguments[0]
            return 0, 0, None
        outcome = getattr(self, call)(*arguments, *([found] if call in ("cut", "recover") else []))
        if call == "get":
            return 0, 0, outcome
        if call == "get_list":
            return 0, *outcome
        return outcome + (None,) if outcome else (0, 0, None)

    def put(self, address, block):
        self.T[address] = bytes(block)

    def get(self, address):
        return next((listed[address] for listed in (self.T, self.G, self.S) if address in listed), ZERO)

    def get_list(self, addresses, blocks):
        """The slots, which are n for a list with any address, and each block as a get reads it."""
        return self.n if addresses else 0, b"".join(map(self.get, wanted(addresses)))

    def commit(self):
        self.G.update(self.T)
        self.T = {}

    def abandon(self):
        self.T = {}

    def carried_out(self, call, orders, n=0, m=0, applied=0):
        """Whether there is power for all these orders. Otherwise the call is cut short."""
        if self.power >= orders:
            self.power -= orders
            return 0, orders
        self.short = Short(call, self.power, n, m, applied)
        if self.short.flushed():
            self.writes = []
        self.mode, self.power = DOWN, 0
        return 4, self.short.orders

    def direct(self, address, block):
        """Done, it lays its block into S; cut short, it leaves S. With 32 waiting it flushes first."""
        full = len(self.writes) == DIRECT
        outcome = self.carried_out("direct", 2 if full else 1)
        if outcome[0] == 0:
            self.S[address] = bytes(block)
            self.writes = ([] if full else self.writes) + [address]
        return outcome

    def sync(self):
        m = len(self.G)
        if m == 0:
            return self.barrier()
        applied = self.n + 3 if self.n + m > SLOTS else 0
        outcome = self.carried_out("sync", applied + m + 3, self.n, m, applied)
        if outcome[0] == 0:
            self.lay(applied)
            self.G, self.writes = {}, []
        return outcome

    def barrier(self):
        """A sync with an empty group: one order if anything waits."""
        outcome = self.carried_out("sync", 1 if self.writes else 0)
        if outcome[0] == 0:
            self.writes = []
        return outcome

    def lay(self, applied):
        """The group goes over S, and its addresses behind the log's, or in their place if there was an apply."""
        self.S.update(self.G)
        self.log = ([] if applied else self.log) + list(self.G)
        self.laid += 1

    def apply(self):
        if self.n == 0:
            return 0, 0
        outcome = self.carried_out("apply", self.n + 3, self.n)
        if outcome[0] == 0:
            self.log, self.writes = [], []
        return outcome

    def recover(self, found):
        outcome = self.carried_out("recover", 2 if self.F else 0)
        if outcome[0] == 0:
            self.F, self.mode = 0, OPEN
            self.S.update((address, found(address)) for address in self.loose)
            self.loose = set()
        return outcome

    def cut(self, marks, found):
        if self.short:
            self.choose(self.short, bool(marks) and all(marks[-BLOCK:]), found)
        self.loosen()
        self.G, self.T, self.writes = {}, {}, []
        self.mode, self.short = CLOSED, None

    def loosen(self):
        """The waiting addresses join the loose ones, which only a finished recovery empties."""
        self.loose |= set(self.writes)

    def choose(self, short, kept, found):
        """By the last header write of the call cut short, which is the last write that waits."""
        if short.call == "recover":
            if short.orders == 1:
                self.F = 0 if kept else 1
            return
        if short.call == "apply" or short.applied:
            if short.orders == short.n + 2:
                self.log, self.F = [] if kept else self.log, 0
            elif short.orders > short.n + 2:
                self.log, self.F = [], 0
        if short.own_header():
            if kept and found:
                self.lay(False)
                self.F = 0
            else:
                self.F = 1 if kept else 0
