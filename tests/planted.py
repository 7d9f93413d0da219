"""Plants faults in a copy of the archive's source, one at a time, and shows that the lockstep finds each.

The copy is compiled without proof: Rattle's code is Rust's but for the clauses of contracts, which are left out, and rustc builds the
shared object. First the copy without a fault must run like the archive. Those that break demand 2 or 3, what W-202 says of an inquiry,
what W-205 says of a format in a history, what W-207 says of a list of gets or what W-209 says of direct writes are also to be found by the plain
disk, the log written, the old and new disks and the library's own calls alone, with nothing compared to the model. Not a part of the gate, since
it needs rustc."""
import re
import shutil
import subprocess
import sys
import tempfile
from collections import namedtuple
from pathlib import Path

from bench import Bench
from guarded import Library
from lockstep import ROOT, SEED, Found, Run, compared, show

CRATES = ("cells", "refusals", "fnv", "card", "journal", "store", "inspect", "firmware", "firmware_c")
CALLS = 40000
CLAUSE = re.compile(r"^(\s*(pub )?ghost .*|#!\[tactic.*|\s*(requires|ensures) (\w+ )?\{.*\})\n", re.M)

Fault = namedtuple("Fault", "name file old new demands", defaults=(False,))
FAULTS = (
    Fault("apply's last flush is dropped", "journal/checkpoint", "Header::empty(blocks, save).order(flushed, settled, waiting)\n",
          "let mut b = [0u8; 512];\nHeader::empty(blocks, save).fill(&mut b);\nflushed.write(waiting, 0, &b)\n", True),
    Fault("the count is trusted without the sum", "journal/choice", "if good(settled, blocks, h.count, h.sum)", "if true", True),
    Fault("the sum starts afresh at the new entries", "journal/append", "sum_group(log.sum, group)", "sum_group(fnv::START, group)", True),
    Fault("get takes the first slot", "journal/lookup", "for i in (0..n).rev() {", "for i in 0..n {", True),
    Fault("a recovery always falls back", "journal/choice", "if good(settled, blocks, h.count, h.sum)", "if false", True),
    Fault("byte by byte the oldest kept write wins", "card/queue", "settle_bytes(settled, waiting, marks, i);",
          "settle_bytes(settled, waiting, marks, n - 1 - i);"),
    Fault("a write goes by the marks of the next one", "card/queue", "let at = BLOCK * i;", "let at = BLOCK * (i + 1) % marks.len();", True),
    Fault("every write goes by the marks of the oldest", "card/queue", "let at = BLOCK * i;", "let at = 0;", True),
    Fault("the marks of a write begin a byte late", "card/queue", "let at = BLOCK * i;",
          "let at = std::cmp::min(BLOCK * i + 1, marks.len() - BLOCK);"),
    Fault("the first mark of a write stands for all", "card/marks", "left(marks[i],", "left(marks[0],"),
    Fault("a write is kept whole if one of its bytes is", "card/marks", "left(marks[i],", "left(marks.contains(&1) as u8,"),
    Fault("a torn header is accepted", "card/marks", "headers_whole(marks, waiting, n)", "true", True),
    Fault("a header that is not the newest write may be torn", "card/marks", "|i| accepts(marks, waiting, i)",
          "|i| i + 1 < n || accepts(marks, waiting, i)"),
    Fault("the last mark of a header is not looked at", "card/marks", "marks.iter().all(", "marks[..marks.len() - 1].iter().all(", True),
    Fault("a mark over 1 is a byte lost", "card/marks", "|&mark| 1 < mark", "|_| false", True),
    Fault("marks may be too many", "card/marks", "marks.len() == BLOCK * n", "marks.len() >= BLOCK * n", True),
    Fault("a fallback keeps the save number", "journal/choice", "h.save - 1", "h.save", True),
    Fault("a fallback's header keeps the save number", "journal/fallback", "p, sum, p, sum, save)", "p, sum, p, sum, save + 1)", True),
    Fault("apply's header starts the save number afresh", "journal/checkpoint", "Header::empty(blocks, save).order", "Header::empty(blocks, 0).order",
          True),
    Fault("a sync cut short takes the next save number", "store/sync", "self.after(ordered, done)", "self.with_save(self.save + 1).after(ordered, done)"),
    Fault("a cut keeps the record's save number", "store/cut", "self.with_save(0)", "self.with_save(self.save)"),
    Fault("a header with save number 0 and unlike sums is not foreign", "journal/choice", "h.presum != h.sum", "false"),
    Fault("the largest save number refuses an empty group too", "store/sync", "if self.grouped != 0 && self.save == LAST_SAVE",
          "if self.save == LAST_SAVE"),
    Fault("an inquiry forgets the apply at n + m = 33", "store/cost", "if self.fits()", "if self.logged + self.grouped <= 33", True),
    Fault("an inquiry sees an apply at n + m = 32", "store/cost", "if self.fits()", "if self.logged + self.grouped < 32", True),
    Fault("an inquiry's peak is without the descriptor", "store/cost", "self.waiting + writes)", "self.waiting + writes - DESCRIPTORS)", True),
    Fault("the power reaches at one order less", "store/cost", "reaches: orders <= self.power", "reaches: orders.saturating_sub(1) <= self.power",
          True),
    Fault("an inquiry refuses power gone", "firmware/costs", "number(said)\n",
          "if said.is_ok() && !cost.reaches { 4 } else { number(said) }\n", True),
    Fault("an inquiry answers on a down record", "store/cost", "self.check_open(settled, waiting, work)?;",
          "let open = self.check_open(settled, waiting, work);\nif open != Err(Refusal::Down) {\nopen?;\n}", True),
    Fault("a recovery's inquiry always has two orders", "store/cost", "Choice::Whole(_, _, _) => Ok(self.cost(0, false, self.waiting)),",
          "Choice::Whole(_, _, _) => Ok(self.cost(2, false, self.waiting + 1)),", True),
    Fault("a format of a card in use is served", "store/own_rows", "if in_use(settled, blocks_in(settled) as u32)", "if false", True),
    Fault("13 comes before 1", "store/own_rows", "if wrong_sizes(settled, waiting, work) {",
          "if 512 <= settled.len() && in_use(settled, blocks_in(settled) as u32) {\nreturn Err(Refusal::InUse);\n}\n"
          "if wrong_sizes(settled, waiting, work) {"),
    Fault("a format refuses a foreign card", "journal/choice", "!is_foreign(head, blocks)",
          "(!is_foreign(head, blocks) || head.count != 0)"),
    Fault("a format goes by p instead of n", "journal/choice", "0 < head.count", "0 < head.previous", True),
    Fault("a format refuses a card with n = 0", "journal/choice", "0 < head.count", "true", True),
    Fault("a format of a card with n = 1 is served", "journal/choice", "0 < head.count", "1 < head.count", True),
    Fault("a format refuses only if the n entries are good", "journal/choice", "0 < head.count",
          "0 < head.count && good(settled, blocks, head.count, head.sum)", True),
    Fault("a format refuses only if a list is good", "journal/choice", "0 < head.count", "0 < head.count\n"
          "&& (good(settled, blocks, head.count, head.sum) || good(settled, blocks, head.previous, head.presum))"),
    Fault("a format goes by the record's N", "store/format", "check_format(settled, waiting, work)?;",
          "if check_format(settled, waiting, work) == Err(Refusal::Size) {\nreturn Err(Refusal::Size);\n}\n"
          "if journal::choice::in_use(settled, self.blocks) {\nreturn Err(Refusal::InUse);\n}"),
    Fault("a format clears the waiting bytes and then refuses", "store/format", "check_format(settled, waiting, work)?;",
          "let checked = check_format(settled, waiting, work);\nif checked == Err(Refusal::InUse) {\nzero(waiting);\n}\nchecked?;", True),
    Fault("a format that refuses leaves a fresh record", "firmware/calls", "told(rec, held, formatted)",
          "told(rec, store::record::Record::fresh((settled.len() / 512) as u32), formatted)", True),
    Fault("the table of multiples has a wrong entry", "fnv/product", "2175,", "2176,"),
    Fault("the product loses the carry between its halves", "fnv/product", "half(&table, a % 4294967296)",
          "(half(&table, a % 4294967296) % 4294967296)"),
    Fault("a tally is corrected for every slot", "inspect/tally", "last_slot(self.settled, a, self.count) == Some(i)",
          "last_slot(self.settled, a, self.count) >= Some(i)"),
    Fault("a tally is corrected for the first slot of an address", "inspect/tally", "last_slot(self.settled, a, self.count) == Some(i)",
          "last_slot(self.settled, a, i) == None"),
    Fault("a tally takes off the bytes of the slot's own block", "inspect/tally", "sum - home + own", "sum - own + own"),
    Fault("a tally leaves out the last data block", "inspect/tally", "(FIRST_DATA..blocks)", "(FIRST_DATA..blocks - 1)"),
    Fault("a tally leaves out the last chunk of a block", "inspect/tally", "chunks.iter()", "chunks[..chunks.len() - 1].iter()"),
    Fault("a tally leaves out the log's last slot", "inspect/tally", "for i in 0..self.count {",
          "for i in 0..self.count.saturating_sub(1) {"),
    Fault("alike compares no log", "inspect/alike", "self.same_slots(other) && ", ""),
    Fault("alike compares no counts", "inspect/alike", "(first.blocks, first.count) == (second.blocks, second.count)",
          "first.blocks == second.blocks"),
    Fault("alike compares no data", "inspect/alike", " && self.same_data(other)", ""),
    Fault("of a slot alike compares the address alone", "inspect/alike",
          "&& same(slot_block(self.settled, i), slot_block(other.settled, i))", ""),
    Fault("of a slot alike compares the block alone", "inspect/alike", "slot_address(self.settled, i) == slot_address(other.settled, i)",
          "true"),
    Fault("of a slot alike compares the address or the block", "inspect/alike",
          "&& same(slot_block(self.settled, i), slot_block(other.settled, i))",
          "|| same(slot_block(self.settled, i), slot_block(other.settled, i))"),
    Fault("of an address alike compares the lowest byte", "inspect/alike",
          "slot_address(self.settled, i) == slot_address(other.settled, i)",
          "slot_address(self.settled, i) as u8 == slot_address(other.settled, i) as u8"),
    Fault("alike takes the slots in any order", "inspect/alike", "|i| self.same_slot(other, i)",
          "|i| {\n(0..self.count).any(|k| slot_address(self.settled, i) == slot_address(other.settled, k)\n"
          "&& same(slot_block(self.settled, i), slot_block(other.settled, k)))\n}"),
    Fault("alike leaves out the first slot", "inspect/alike", "(0..self.count).all(", "(1..self.count).all("),
    Fault("alike leaves out the last slot", "inspect/alike", "(0..self.count).all(", "(0..self.count.saturating_sub(1)).all("),
    Fault("alike compares all 32 slots", "inspect/alike", "(0..self.count).all(", "(0..32).all("),
    Fault("alike compares the header's n where the first p are chosen", "inspect/alike", "first.same_contents(&second)",
          "Reading { count: a[12] as u32, ..first }.same_contents(&second)"),
    Fault("alike compares the save numbers", "inspect/alike", "first.same_contents(&second)",
          "a[32..40] == b[32..40] && first.same_contents(&second)"),
    Fault("alike compares the home blocks under the log", "inspect/alike", "last_slot(self.settled, x, self.count).is_some()", "false"),
    Fault("alike takes a home block that is unlike for one under the log", "inspect/alike",
          "last_slot(self.settled, x, self.count).is_some()", "true"),
    Fault("alike looks for a home block that is unlike in all 32 slots", "inspect/alike", "last_slot(self.settled, x, self.count)",
          "last_slot(self.settled, x, 32)"),
    Fault("alike leaves out the first data block", "inspect/alike", "(FIRST_DATA..self.blocks)", "(FIRST_DATA + 1..self.blocks)"),
    Fault("alike leaves out the last data block", "inspect/alike", "(FIRST_DATA..self.blocks)", "(FIRST_DATA..self.blocks - 1)"),
    Fault("alike leaves out the last word of a block", "cells/bytes", "a == b\n", "a[..504] == b[..504]\n"),
    Fault("alike gives the second card's refusal first", "inspect/alike", "let first = Reading::inspect(a)?;",
          "Reading::inspect(b)?;\nlet first = Reading::inspect(a)?;"),
    Fault("the repeats of a list are served once", "journal/wanted", "i = self.before[i] as usize;", "i = 0;", True),
    Fault("an address of a list is taken for another of its bucket", "journal/wanted", "a == wanted(self.list, i)",
          "a % 128 == wanted(self.list, i) % 128", True),
    Fault("a list takes the first slot", "journal/wanted", "a == wanted(self.list, i)", "a == wanted(self.list, i) && met[i] == None",
          True),
    Fault("a list's walk leaves out the last slot", "journal/wanted", "for k in 0..n {", "let n = n.saturating_sub(1);\nfor k in 0..n {",
          True),
    Fault("a list of 33 addresses is served", "store/get_list", "MOST_WANTED: usize = 32;", "MOST_WANTED: usize = 33;", True),
    Fault("a list leaves out the last entry of open, group and queue", "store/lists", "for i in 0..n {",
          "for i in 0..n.saturating_sub(1) {", True),
    Fault("a list takes the group over open", "store/get_list", "if let Some(i) = opened {", "if let (Some(i), None) = (opened, grouped) {",
          True),
    Fault("a list takes the log over the group", "store/get_list", "if let Some(i) = grouped {",
          "if let (Some(i), None) = (grouped, logged) {", True),
    Fault("a list is copied out backwards", "store/get_list", "let at = BLOCK * i;", "let at = BLOCK * (count(list) - 1 - i);", True),
    Fault("a list is copied up to the address that is refused", "store/get_list", "self.check_list(settled, waiting, work, list, blocks)?;",
          "let checked = self.check_list(settled, waiting, work, list, blocks);\nif checked == Err(Refusal::Address) {\nlet mut k = 0;\n"
          "while is_data(self.blocks, wanted(list, k)) {\nk += 1;\n}\n"
          "self.show(settled, waiting, work, &list[..4 * k], &mut blocks[..512 * k]);\n}\nchecked?;", True),
    Fault("slots are counted for an empty list", "store/get_list", "if count(list) == 0 {", "if false {", True),
    Fault("the log's slots are counted for each address of a list", "store/get_list", "Ok(self.show(settled, waiting, work, list, blocks))",
          "Ok(self.show(settled, waiting, work, list, blocks) * (count(list) as u32))", True),
    Fault("a list is refused by its first address alone", "store/get_list", "|i| !is_data(", "|i| i == 0 && !is_data(", True),
    Fault("bytes behind the last whole address of a list are passed over", "store/get_list", "list.len() % ADDRESS != 0", "false", True),
    Fault("a list takes a longer buffer", "store/get_list", "blocks.len() != BLOCK * count(list)", "blocks.len() < BLOCK * count(list)",
          True),
    Fault("a wrong list comes after the record's causes", "store/get_list", "if wrong_list(list, blocks) {",
          "if wrong_list(list, blocks) && self.check_open(settled, waiting, work).is_ok() {", True),
    Fault("a wrong address of a list comes before the record's causes", "store/get_list", "self.check_open(settled, waiting, work)?;",
          "if stray(list, self.blocks) {\nreturn Err(Refusal::Address);\n}\nself.check_open(settled, waiting, work)?;", True),
    Fault("a list takes the home block over waiting writes", "store/get_list", "if let Some(i) = waited {",
          "if let Some(i) = None::<u32> {", True),
    Fault("a list takes a waiting write over the log", "store/get_list", "if let Some(k) = logged {",
          "if let (Some(k), None) = (logged, waited) {"),
    Fault("a direct write with 32 waiting does not flush", "store/direct", "if self.waiting < DIRECT {", "if true {", True),
    Fault("a direct write with 31 waiting flushes", "store/direct", "if self.waiting < DIRECT {", "if self.waiting + 1 < DIRECT {", True),
    Fault("a direct write with 32 waiting flushes behind its write", "store/direct",
          "let flushed = self.queue().flush(settled, waiting)?;\n        flushed.write(waiting, address, block)",
          "let written = self.queue().write(waiting, address, block)?;\nwritten.flush(settled, waiting)", True),
    Fault("a direct write cut short behind its flush is taken for done", "store/direct", "flushed.write(waiting, address, block)",
          "Ok(flushed.write(waiting, address, block).unwrap_or_else(|lost| lost.queue))", True),
    Fault("a direct write counts one order with its flush", "firmware/orders", "told_orders(rec, orders, held, written)",
          "let number = told_orders(rec, orders, held, written);\n*orders = std::cmp::min(*orders, 1);\nnumber", True),
    Fault("a direct write of an address in open is served", "store/direct", "holds(work, OPEN, self.opened, address)", "false", True),
    Fault("a direct write of an address in the group is served", "store/direct", "holds(work, GROUP, self.grouped, address)", "false",
          True),
    Fault("a direct write of an address in the log is served", "store/direct", "last_slot(settled, address, self.logged)",
          "last_slot(settled, address, 0)", True),
    Fault("a direct write of an address in a slot beyond the count is refused", "store/direct", "last_slot(settled, address, self.logged)",
          "last_slot(settled, address, 32)", True),
    Fault("14 comes before 4", "store/direct", "self.check_open(settled, waiting, work)?;",
          "if self.mode == 2 && self.check_record(settled, waiting, work).is_ok() && self.lists(settled, work, address) {\n"
          "return Err(Refusal::Listed);\n}\nself.check_open(settled, waiting, work)?;", True),
    Fault("get takes the oldest waiting write", "store/get", "Place::Waiting(place_of(WAITING_FROM, i))", "let mut k = 0;\n"
          "while crate::lists::address(waiting, WAITING_FROM, k) != address {\nk += 1;\n}\nPlace::Waiting(place_of(WAITING_FROM, k))", True),
    Fault("get takes the home block over waiting writes", "store/get", "find(waiting, WAITING_FROM, self.waiting, address)",
          "find(waiting, WAITING_FROM, 0, address)", True),
    Fault("get takes a waiting write over the log", "store/get", "last_slot(settled, address, self.logged)", "last_slot(settled, address, "
          "if crate::lists::holds(waiting, WAITING_FROM, self.waiting, address) { 0 } else { self.logged })"),
    Fault("a sync with an empty group does not flush", "store/sync", "return self.flushed(settled, waiting);", "return self;", True),
    Fault("a sync with an empty group flushes where nothing waits", "store/sync", "if self.waiting == 0 {", "if false {", True),
    Fault("an apply of an empty log flushes what waits", "store/apply", "return self.saved(self);",
          "return self.saved(self.after(self.queue().flush(settled, waiting), self));", True),
    Fault("a sync's writes take the places of those that wait", "store/sync", "append(self.queue(),",
          "append(card::queue::Queue { waiting: 0, power: self.power },", True),
    Fault("an apply's writes take the places of those that wait", "store/apply", "self.queue(),",
          "card::queue::Queue { waiting: 0, power: self.power },", True),
    Fault("an inquiry's peak is without the writes that wait before", "store/cost", "self.waiting + writes)", "writes)", True),
    Fault("an inquiry's peak in an apply is without the writes that wait before", "store/cost", "writes.max(self.waiting + self.logged)",
          "writes.max(self.logged)", True),
    Fault("an inquiry of a sync with an empty group has no flush", "store/cost", "self.cost(1, false, self.waiting)",
          "self.cost(0, false, self.waiting)", True),
    Fault("an open record may have 33 waiting writes", "store/check", "DIRECT as usize,", "DIRECT as usize + 1,"),
    Fault("an open record may have 31 waiting writes", "store/check", "DIRECT as usize,", "DIRECT as usize - 1,", True),
    Fault("a closed record may have a waiting write", "store/check", "CLOSED => 0,", "CLOSED => 1,"),
    Fault("a down record may have 65 waiting writes", "store/check", "=> PLACES,", "=> PLACES - 1,"),
    Fault("a direct write reads a byte behind its block", "firmware/orders", "let written = held.direct(",
          "unsafe { std::ptr::read_volatile(block.as_ptr().add(block.len())) };\nlet written = held.direct("),
    Fault("a direct write writes a const byte with itself", "firmware/orders", "let written = held.direct(",
          "unsafe { std::ptr::write_volatile(work.as_ptr() as *mut u8, work[0]) };\nlet written = held.direct("),
    Fault("a list reads a byte behind its addresses", "firmware/reads", "let listed = held.get_list(",
          "unsafe { std::ptr::read_volatile(addresses.as_ptr().add(addresses.len())) };\nlet listed = held.get_list("),
    Fault("a list writes a const byte with itself", "firmware/reads", "let listed = held.get_list(",
          "unsafe { std::ptr::write_volatile(work.as_ptr() as *mut u8, work[0]) };\nlet listed = held.get_list("),
    Fault("put reads a byte behind its block", "firmware/calls", "let placed = held.put(",
          "unsafe { std::ptr::read_volatile(block.as_ptr().add(block.len())) };\nlet placed = held.put("),
    Fault("commit writes a const byte with itself", "firmware/calls", "let committed = held.commit(",
          "unsafe { std::ptr::write_volatile(settled.as_ptr() as *mut u8, settled[0]) };\nlet committed = held.commit("),
)


class Blind(Bench):
    """The library alone, along lists of calls from a format, beside the plain disk, an inquiry beside the library's own call and a list
    of gets beside its own gets: the model is asked for nothing."""

    def bytes_of(self, name):
        return self.lent[name].read()

    def perform(self, step):
        if not step.odd and step.call not in ("tally", "alike"):
            super().perform(step)

    def met(self, *_):
        return None

    def compare(self, *_):
        pass


def translated(folder):
    """The crates' code as Rust."""
    for crate in CRATES:
        (folder / crate).mkdir()
        for source in (ROOT / "crates" / crate / "src").glob("*.rt"):
            (folder / crate / source.with_suffix(".rs").name).write_text(CLAUSE.sub("", source.read_text()))


def built(folder):
    """The shared object of the crates in a folder. Each crate is given those below it, by crates.txt."""
    uses = dict(re.findall(r"^(\w+)(?: staticlib)?: *(.*)$", (ROOT / "crates.txt").read_text(), re.M))
    for crate in CRATES:
        kind, name = ("cdylib", "libtrapcard.so") if crate == "firmware_c" else ("rlib", "lib%s.rlib" % crate)
        subprocess.run(["rustc", "--edition", "2021", "-O", "-A", "warnings", "--crate-name", crate, "--crate-type", kind,
                        folder / crate / "lib.rs", "-L", folder, "-o", folder / name]
                       + [word for use in uses[crate].split() for word in ("--extern", "%s=%s" % (use, folder / ("lib%s.rlib" % use)))],
                       check=True)
    return Library(folder / "libtrapcard.so")


def plant(folder, fault):
    source = folder / (fault.file + ".rs")
    code = source.read_text()
    if code.count(fault.old) != 1:
        raise SystemExit("planted: %s: %r is not in %s once" % (fault.name, fault.old, fault.file))
    source.write_text(code.replace(fault.old, fault.new))


def found(fault, library, bench, how):
    """Prints the calls that show a fault; whether there are any."""
    run = Run(library, SEED, CALLS, bench=bench)
    result = compared(run)
    if not isinstance(result, Found):
        print("planted: %s: NOT FOUND by %s" % (fault.name, how))
        return False
    print("planted: %s: found by %s" % (fault.name, how))
    print("\n".join(show(run, result)))
    return True


def one(fault):
    with tempfile.TemporaryDirectory() as name:
        folder = Path(name)
        translated(folder)
        plant(folder, fault)
        library = built(folder)
        every = found(fault, library, Bench, "comparison")
        return every and (not fault.demands or found(fault, library, Blind, "the demands alone"))


def unharmed():
    """The copy as it is: whatever is found later is the fault's."""
    with tempfile.TemporaryDirectory() as name:
        translated(Path(name))
        library = built(Path(name))
        for bench in (Bench, Blind):
            result = compared(Run(library, SEED, CALLS, bench=bench))
            if isinstance(result, Found):
                raise SystemExit("planted: the copy without a fault differs: %s" % result.what)


def main():
    if not shutil.which("rustc"):
        raise SystemExit("missing: rustc, which compiles the copy of the sources")
    unharmed()
    missed = [fault.name for fault in FAULTS if not one(fault)]
    print("planted: %d faults in a copy of the sources, %d found" % (len(FAULTS), len(FAULTS) - len(missed)))
    return 1 if missed else 0


if __name__ == "__main__":
    sys.exit(main())
