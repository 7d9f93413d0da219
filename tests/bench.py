"""The library and the model side by side: one step, then everything that the call returned or was lent is compared."""
import random
from collections import Counter
from functools import lru_cache

import costs
import marks
import model
import pairs
import wanted
from cases import met
from crash import Witness, must
from guarded import FUNCTIONS, Guarded
from madeup import made
from model import BLOCK, COSTS, PLACES

CARD = ("record", "settled", "waiting", "work")


@lru_cache(1 << 12)
def content(fill, length):
    return bytes([fill]) * length if fill < 256 else random.Random(fill).randbytes(length)


def resized(data, length):
    return bytearray(data[:length].ljust(length, b"\xa5"))


def laid_card(settled):
    """A card with the same data blocks, no log and no save, or the card itself where a recovery would refuse it."""
    answer, listed = model.chosen(settled)
    if answer:
        return bytearray(settled)
    blocks = len(settled) // BLOCK
    empty = model.header(model.fresh(blocks), 0, 0, model.EMPTY_SUM, model.EMPTY_SUM, 0)
    return bytearray(empty + settled[BLOCK:BLOCK * model.FIRST_DATA] + model.laid(settled, listed))


def second_card(settled, kind, detail):
    """The other card of an alike."""
    if kind == "made":
        return made(*detail)[1]
    if kind == "laid":
        return laid_card(settled)
    if kind == "twin":
        return pairs.twin(settled, *detail)
    other = bytearray(settled)
    for at, value in detail:
        other[at] = value
    return other


def two_cards(settled, kind, detail):
    """The two cards of an alike: mostly this one and another."""
    if kind == "pair":
        return pairs.pair(*detail)
    return settled, settled if kind == "itself" else second_card(settled, kind, detail)


def given(step):
    """The numbers of a call, and the buffers behind them: a block, cut's marks, a list and what its buffer holds before."""
    if step.call in ("put", "direct"):
        return step.arguments[:1], (content(*step.arguments[1]),)
    if step.call == "cut":
        return (), (marks.spelled(step.arguments[0]),)
    if step.call == "get_list":
        addresses, tail, length, fill = step.arguments
        return (), (wanted.spelled(addresses, tail), content(fill, length))
    return (() if step.call == "alike" or step.call in COSTS else step.arguments), ()


class Bench:
    """Without a library it is the model alone, which is how a list of steps is made again."""

    def __init__(self, library=None, at_end=True):
        self.library, self.at_end = library, at_end
        self.model, self.lent, self.witness, self.seen, self.calls = {}, {}, None, Counter(), 0

    def bytes_of(self, name):
        return self.model[name]

    def rec(self):
        return model.decode(self.bytes_of("record"))

    def queue(self):
        """The addresses of the writes that wait, as far as the record says so; those beyond the buffer read as 0."""
        return model.entries(self.bytes_of("waiting"), 0, min(self.rec().waiting, 2 * PLACES))

    def listed(self):
        """The addresses of open, group, log and queue, as far as there is room for what the record says."""
        return model.held(model.bounded(self.rec()), self.bytes_of("settled"), self.bytes_of("waiting"), self.bytes_of("work"))

    def close(self):
        for buffer in self.lent.values():
            buffer.close()
        self.lent = {}

    def make(self, blocks, seed, faults):
        self.close()
        self.model, self.witness = dict(zip(CARD, made(blocks, seed, faults))), None
        if self.library:
            self.lent = {name: Guarded(data, self.at_end) for name, data in self.model.items()}

    # ---- a call

    def perform(self, step):
        if step.call == "make":
            return self.make(*step.arguments)
        self.calls += 1
        views, (numbers, more) = self.views(step), given(step)
        if not self.library:
            return self.by_model(step, views, numbers, more)
        before, lent, followed = self.met(step, views, numbers, more), self.guarded(step, views, more), self.followed(step)
        if followed:
            self.witness.before(step.call)
        outcome = self.library.call(step.call, lent, numbers)
        self.compare(step, outcome, lent, views, numbers, more)
        self.hold(step, outcome, lent)
        if followed:
            self.witness.after(step.call, (*numbers, *more), outcome, lent)
            self.seen.update(("cases", event, "") for event in self.witness.events)
            self.witness.events.clear()
        self.release(lent)
        self.seen.update(before.cells(outcome, self.rec()) if before else ())
        self.follow(step, outcome)

    def met(self, step, views, numbers, more):
        return met(step.call, views, self.rec(), numbers, more)

    def by_model(self, step, views, numbers, more):
        """What the model gives, and the buffers behind the numbers as it leaves them."""
        left = [bytearray(data) for data in more]
        return model.c_call(step.call, list(views.values()), (*numbers, *left)), left

    def views(self, step):
        """The buffers that the model is lent."""
        views = dict(self.model)
        if step.call == "alike":
            kind, detail, side = step.arguments
            two = two_cards(views["settled"], kind, detail)
            views["other"], views["settled"] = two if side == "first" else reversed(two)
        views.update((name, resized(views[name], length)) for name, length in step.odd)
        return {name: views[name] for name in FUNCTIONS[step.call][0]}

    def guarded(self, step, views, more):
        """The same buffers for the library: its own where the call is lent those, else copies between guard pages."""
        lent = {}
        for name, view in views.items():
            own = next((self.lent[mine] for mine, data in self.model.items() if data is view), None)
            lent[name] = own or Guarded(view, self.at_end)
        lent.update((name, Guarded(data, self.at_end)) for name, data in zip(FUNCTIONS[step.call][3], more))
        return lent

    def compare(self, step, outcome, lent, views, numbers, more):
        """Number, out-parameters and every lent byte, with the model's."""
        expected, left = self.by_model(step, views, numbers, more)
        must(outcome == expected, "the library gives %s, the model %s", outcome, expected)
        for name, view in (*views.items(), *zip(FUNCTIONS[step.call][3], left)):
            must(lent[name].same(view), "the %s bytes differ", name)

    def hold(self, step, outcome, lent):
        """A list of gets, to the library's own gets; an inquiry, to the library's own call, some order by order."""
        if step.call == "get_list":
            wanted.held(self.library, lent, outcome)
        if step.call not in COSTS:
            return
        walk = bool(step.arguments)
        costs.held(self.library, lent, self.at_end, step.call, walk, outcome)
        if walk and outcome[1]:
            waits = lent["record"].number(costs.WAITING) > 0
            for what in ("applies, " if outcome[2] else "", *(["something waits, "] if waits else [])):
                self.seen["cases", "%s: %sorder by order" % (step.call, what), ""] += 1

    def release(self, lent):
        """Copies made for one call go."""
        for buffer in lent.values():
            if buffer not in self.lent.values():
                buffer.close()

    # ---- a list of calls from a format on

    def followed(self, step):
        """Whether the call is one of the list that the witness follows."""
        return self.witness is not None and not step.odd and step.call not in ("tally", "alike", *COSTS)

    def follow(self, step, outcome):
        """A format that answers 0 begins a list; a refused one leaves the list as it is."""
        if step.call == "format" and outcome[0] == 0:
            self.witness = None if step.odd else Witness(self.library, self.lent)
        elif step.odd and outcome[0] in (0, 4):
            self.witness = None
        if self.witness and self.witness.excepted:
            self.witness = None
