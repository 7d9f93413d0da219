"""W-202 on the C library itself: beside an inquiry stands the call that it asks about, made on copies of the same bytes and record but
for power enough, with the power there is and, of some, with every power below its orders. The model is asked for nothing."""
from crash import must
from guarded import Guarded

ENOUGH, SLOTS = 2**32 - 1, 32

# Where these numbers of the record start.
GROUP, LOG, WAITING, POWER = 12, 16, 20, 24


class Copies:
    """A call made again and again from the bytes that the inquiry was lent, each time with another power."""

    def __init__(self, library, call, lent, at_end):
        self.library, self.call = library, call
        self.first = {name: buffer.read() for name, buffer in lent.items()}
        self.lent = {name: Guarded(data, at_end) for name, data in self.first.items()}

    def close(self):
        for buffer in self.lent.values():
            buffer.close()

    def made(self, power):
        """The number and the orders handed back."""
        record = self.first["record"]
        self.lent["record"].fill(record[:POWER] + power.to_bytes(4, "little") + record[POWER + 4:])
        for name in ("settled", "waiting"):
            self.lent[name].fill(self.first[name])
        return self.library.call(self.call, self.lent)

    def asked(self, at):
        """A number of the record that the inquiry met."""
        return int.from_bytes(self.first["record"][at:at + 4], "little")

    def left(self, at):
        """A number of the record that the call left."""
        return self.lent["record"].number(at)

    def applied(self):
        """Whether an apply comes first: then the call, with power for its n + 3 orders alone, is cut short with an empty log."""
        n = self.asked(LOG)
        return 0 < n and self.made(n + 3) == (4, n + 3) and self.left(LOG) == 0

    def peak(self, orders):
        """The most writes that wait after its first k orders, for every k."""
        waiting = []
        for k in range(orders + 1):
            made = self.made(k)
            must(made == (4 if k < orders else 0, k), "the %s made with power %d gives %s", self.call, k, made)
            waiting.append(self.left(WAITING))
        return max(waiting)


def closed_form(call, n, m, waiting, orders):
    """The orders, the apply and the peak as document 01 counts them, behind what waits before the call: nothing before a recovery."""
    if call == "recover":
        return (2, 0, 1) if orders else (0, 0, 0)
    if call == "apply":
        return (n + 3, 0, waiting + n) if n else (0, 0, waiting)
    if m == 0:
        return int(waiting > 0), 0, waiting
    return (n + 3 + m + 3, 1, max(waiting + n, m + 2)) if n + m > SLOTS else (m + 3, 0, waiting + m + 2)


def compare(copies, walk, number, orders, applies, peak, reaches):
    """An inquiry's number and figures, with the library's own call."""
    call, made = copies.call, copies.made(ENOUGH)
    must(made == (number, orders), "the %s made next with power enough gives %s", call, made)
    if number:
        must((applies, peak, reaches) == (0, 0, 0), "a refusal has figures")
        return
    n, m, waiting = copies.asked(LOG), copies.asked(GROUP), copies.asked(WAITING)
    if call == "sync":
        must(copies.left(LOG) == (0 if applies else n) + m, "the sync made next leaves %d in the log", copies.left(LOG))
    must(applies == copies.applied(), "the %s made next begins otherwise", call)
    form = closed_form(call, n, m, waiting, orders)
    must((orders, applies, peak) == form, "the paper counts %s", form)
    power = copies.asked(POWER)
    answer = copies.made(power)[0]
    must(reaches == (answer != 4) == (power >= orders), "the %s made next with power %d answers %d", call, power, answer)
    if walk:
        most = copies.peak(orders)
        must(peak == most, "at most %d writes wait in the %s made next", most, call)


def held(library, lent, at_end, inquiry, walk, outcome):
    """Holds an inquiry to the call that it asks about, made from the bytes that it was lent."""
    copies = Copies(library, inquiry.removesuffix("_cost"), lent, at_end)
    try:
        compare(copies, walk, *outcome)
    finally:
        copies.close()
