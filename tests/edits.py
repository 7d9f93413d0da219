"""Every wrong change of the must-fail edits is refused at the fact that it breaks.

usage: edits.py [CRATE...]          tries each edit: a check of its crate in a copy of the repository, whose log stays in target/must-fail until
                                    something that it stands on changes
       edits.py --fit [CRATE...]    the edits alone: each is of the form below and fits the sources
       edits.py --said LOG          the edits, and what `rt ci` or `rt must-fail` said in LOG: each is refused, and neither by a limit of the prover
                                    nor only because a proof names what the edit took away. rt tells of one error of each, so this
                                    shows less

`rt` holds an edit for refused whatever the reason, and keeps no log of it. This script reads the edits and the prover's logs and demands
more. RT_JOBS edits are tried at a time, by default two.

An .edit file holds one or more wrong changes, each of these lines:

    # LABEL: what is wrong, in words
    expect: FILE                     the file of the crate in which the error has to show; more than one if need be. Of the files
                                     Answers.antt and Invariants.antt of one function either will do
    file: FILE                       of src/ or specs/, in a crate without code of proofs/ too, and not the one expected; then
                                     pairs, as rt reads them
    old: TEXT
    new: TEXT

A file may hold more than one change if no other can be the reason for an error: the declaration that fails depends, by the sources
and by their edited copy, on what the change is a change of, and on nothing that another change of the file is a change of
(`reach.py`). So edits of the bodies of different functions stand together, and a change of a statement stands with any that its
proof does not read.

An expectation is met by an error in that file that is a fact which no longer holds. These forms count:

    two types or values differ, an expected type is not the one found, or an equation does not hold
    `omega`: the goal, or a part of it, fails at the counterexample that is printed
    `search`: no proof of the goal that is printed was found; or it did not prove a goal of a function that the file leaves to it
    `rw` leaves an equation whose two ends are not equal

All else does not: a declaration that was not admitted because another was not; a goal, a field or a name that is not there; nothing
to rewrite.
"""
import concurrent.futures
import hashlib
import os
import pathlib
import queue
import re
import shutil
import subprocess
import sys
import tempfile
import threading

from reach import Reach, trouble

FACTS = [
    r"(computed as far as they go|as printed), the two (types|values|sides) ",
    r"computed as a goal is, one side reads `(.|\n)* but this has type ",
    r"expected type (.|\n)* but this has type ",
    r"`.*`(\n  | )≟ `.*`:?(\n  | )does not hold ",
    r"`omega`: the (goal|part `[^`]*` of the goal) does not follow from what it read\. "
    r"All of that holds, and the (goal|part) fails, at ",
    r"`search`: no proof of `[^`]*`(\n  | )was found",
    r"give a proof of that as the last argument, .*\n"
    r"  `rw` has no last argument, so what it leaves must be a path whose two ends are equal",
]


class Wrong(Exception):
    pass


def parts(crate):
    """The folders in which a change of a crate is a wrong program or definition: without code, proofs/ has definitions that laws
    speak of."""
    code = any(re.search(r"^ *(pub )?fn ", file.read_text(), re.M) for file in (crate / "src").glob("*.rt"))
    return ("src/", "specs/") if code else ("src/", "specs/", "proofs/")


def changes(edit):
    """The wrong changes of an edit file: label, expected files, and triples of file, old and new text."""
    found, file, old = [], None, None
    for number, line in enumerate(edit.read_text().splitlines(), 1):
        word, _, rest = line.partition(" ")
        if not line:
            continue
        if match := re.fullmatch(r"# (\w+): .+", line):
            found.append((match[1], [], []))
            file = None
        elif word not in ("expect:", "file:", "old:", "new:") or not found:
            raise Wrong(f"{edit}:{number}: not a line of a wrong change that has a name, `# LABEL: …`")
        elif word == "expect:":
            found[-1][1].append(rest)
        elif word == "file:":
            file = rest
        elif word == "old:":
            old = rest
        else:
            found[-1][2].append((file, old, rest))
    for label, expected, pairs in found:
        edited = {file for file, _, _ in pairs}
        allowed = parts(edit.parent.parent)
        if not expected or not all(file and file.startswith(allowed) for file in edited):
            raise Wrong(f"{edit}: {label}: no `expect:` line, or a pair without a `file:` line that names {', '.join(allowed)}")
        if edited & set(expected):
            raise Wrong(f"{edit}: {label}: expected in the file that it edits, where any nonsense is an error")
    if not found or not all(pairs for _, _, pairs in found):
        raise Wrong(f"{edit}: a change without `old:` and `new:`")
    return found


def fit(crate, edit, found):
    """The files that the edit changes, by their texts. Demands that each `old:` text occurs once in what the pairs before it left."""
    texts = {}
    for label, _, pairs in found:
        for file, old, new in pairs:
            text = texts[file] if file in texts else (crate / file).read_text()
            if text.count(old) != 1:
                raise Wrong(f"{edit}: {label}: {file} has {text.count(old)} times `{old}`")
            texts[file] = text.replace(old, new)
    return texts


def facts(log):
    """The files and lines at which the log has an error that is a fact, and what the other errors say."""
    error = re.compile(r"^(?:\./)?(\S+?):(\d+):\d+: error: (?:`([^`]*)`: )?(.*\n(?:  .*\n)*)", re.M)
    held, other = [], []
    for file, line, name, message in error.findall(log):
        if name and any(re.match(form, message) for form in FACTS):
            held.append((file, int(line)))
        else:
            other.append(f"{file}:{line}: `{name}`: {message.splitlines()[0][:120]}")
    for file in re.findall(r"^fn .*: no proof: expected answers in \./(\S+?); `search` did not prove `", log, re.M):
        held.append((file, 0))
    return held, other


def meets(path, file):
    """Whether an error in a file is one in the file that is expected: of the two files that answer for a function each stands for both."""
    if path == file:
        return True
    (at, name), (there, other) = os.path.split(path), os.path.split(file)
    return at == there and {name, other} <= {"Answers.antt", "Invariants.antt"}


def sources(crate):
    """What each declaration of a crate can depend on; all of its files must be understood."""
    trouble.clear()
    reach = Reach(crate, crate.name)
    if trouble:
        raise SystemExit(f"edits: can't read {trouble[0]}")
    return reach


def alone(reaches, label, touched, file, line):
    """Whether an error can come of this change and of no other of its edit."""
    reached = set().union(*(reach.from_error(file, line) for reach in reaches))
    return all(bool(reached & nodes) == (other == label) for other, nodes in touched.items())


def refused(edit, log, found, reach, copy):
    """Demands of every expectation that the log has a fact in its file, for which the change is the only reason."""
    held, other = facts(log)
    if reach:
        reaches = reach, Reach(copy, edit.parent.parent.name)
        touched = {label: set().union(*(reach.changed(*pair) for pair in pairs)) for label, _, pairs in found}
    missed = []
    for label, expected, _ in found:
        for file in expected:
            places = [(path, line) for path, line in held if meets(path, file)]
            if not places:
                near = [line for line in other if meets(line.partition(":")[0], file)] or [f"{f}:{n}: a fact" for f, n in sorted(held)]
                missed.append("\n    ".join([f"{edit}: {label}: no fact fails in {file}; the log has", *near]))
            elif reach and not any(alone(reaches, label, touched, *place) for place in places):
                missed.append(f"{edit}: {label}: what fails in {file} may come of another change of this file")
    if missed:
        raise Wrong("\n".join(missed))


# ---- the tries


PARTS = ("src", "specs", "proofs")


def files(crate):
    return sorted(path for part in PARTS for path in (crate / part).rglob("*") if path.is_file())


def below(name):
    """The crates of the repository that a crate stands on, and itself."""
    lines = [line.partition("#")[0].partition(":") for line in pathlib.Path("crates.txt").read_text().splitlines()]
    used = {head.split()[0]: rest.split() for head, _, rest in lines if head.strip()}
    found, todo = set(), [name]
    while todo:
        one = todo.pop()
        if one in used and one not in found:
            found.add(one)
            todo += used[one]
    return sorted(found)


def stands_on(crate, edit):
    """A sum of all that a try of an edit reads."""
    read = hashlib.sha256(subprocess.run(["rt", "version"], stdout=subprocess.PIPE, check=True).stdout)
    for path in [edit, *(file for name in below(crate.name) for file in files(pathlib.Path("crates") / name))]:
        read.update(f"{path} {hashlib.sha256(path.read_bytes()).hexdigest()}\n".encode())
    return read.hexdigest()


class Room:
    """A copy of the repository, without what rt made in it."""

    def __init__(self, root):
        self.root = pathlib.Path(root)
        for name in ("crates.txt", "HANDLES"):
            if os.path.exists(name):
                shutil.copy(name, self.root)
        for crate in pathlib.Path("crates").iterdir():
            for part in PARTS:
                if (crate / part).is_dir():
                    shutil.copytree(crate / part, self.root / crate / part)

    def log(self, crate, texts):
        """What a check of the crate with these texts says."""
        there = self.root / crate
        try:
            for file, text in texts.items():
                (there / file).write_text(text)
            words = {"stdin": subprocess.DEVNULL, "stdout": subprocess.PIPE, "stderr": subprocess.STDOUT}
            return subprocess.run(["rt", "check"], cwd=there, text=True, errors="replace", **words).stdout
        finally:
            for file in texts:
                shutil.copy(crate / file, there / file)


def log_of(crate, edit, texts, rooms):
    """The log of a try of an edit, of an earlier one if nothing that it stands on has changed. Only a log with a verdict is kept."""
    kept, own = pathlib.Path("target/must-fail") / crate.name / f"{edit.stem}.log", stands_on(crate, edit)
    if kept.exists() and kept.read_text().partition("\n")[0] == own:
        return kept.read_text().partition("\n")[2]
    room = rooms.get()
    try:
        log = room.log(crate, texts)
    finally:
        rooms.put(room)
    # in a new room rt first proves what stands below, and says so
    if re.findall(r"^logic=(\S+)", log, re.M)[-1:] != ["not-proved"]:
        raise Wrong(f"{edit}: the check with it does not end in logic=not-proved\n    " + "\n    ".join(log.splitlines()[-5:]))
    kept.parent.mkdir(parents=True, exist_ok=True)
    kept.write_text(f"{own}\n{log}")
    return log


def tried(crate, edit, rooms):
    """Demands all of one edit."""
    found = changes(edit)
    texts = fit(crate, edit, found)
    log = log_of(crate, edit, texts, rooms)
    with tempfile.TemporaryDirectory() as copy:
        copy = pathlib.Path(copy)
        if len(found) > 1:
            for path in files(crate):
                (copy / path.relative_to(crate)).parent.mkdir(parents=True, exist_ok=True)
                shutil.copy(path, copy / path.relative_to(crate))
            for file, text in texts.items():
                (copy / file).write_text(text)
        with reading:
            refused(edit, log, found, sources(crate) if len(found) > 1 else None, copy)


def said(edit, told):
    """Demands that rt says of an edit that it is refused, and adds nothing that makes it count for less."""
    name = f"{edit.parent.parent.name}/{edit.name}"
    line = re.search(rf"^rt: must-fail {re.escape(name)}: (.*)$", told, re.M)
    if not line or not line[1].startswith("refused, as it must be: "):
        raise Wrong(f"{edit}: rt says {line[1] if line else 'nothing of this edit'}")


# ---- what is demanded


reading = threading.Lock()


def demanded(words):
    """The edits with the demand on each: label and file, and what to call."""
    names = [word for word in words if not word.startswith("--")]
    log = pathlib.Path(names.pop()).read_text() if "--said" in words else None
    for crate in sorted(pathlib.Path("crates").iterdir()):
        if not names or crate.name in names:
            for edit in sorted((crate / "must-fail").glob("*.edit")):
                yield crate, edit, log


def main(words):
    os.chdir(pathlib.Path(__file__).resolve().parent.parent)
    wrong, shown, own, edits = [], 0, {}, list(demanded(words))
    for crate, edit, _ in edits:
        try:
            found = changes(edit)
            fit(crate, edit, found)
            labels = own.setdefault(crate.name, [])
            labels += [label for label, _, _ in found]
            if len(set(labels)) < len(labels):
                raise Wrong(f"{edit}: a label that the crate has already")
            shown += len(found)
        except (Wrong, OSError) as reason:
            wrong.append(str(reason))
    jobs = int(os.environ.get("RT_JOBS") or 2)
    with tempfile.TemporaryDirectory() as place, concurrent.futures.ThreadPoolExecutor(jobs) as pool:
        rooms, doing = queue.Queue(), []
        if not wrong and "--said" in words:
            doing = [pool.submit(said, edit, log) for _, edit, log in edits]
        elif not wrong and "--fit" not in words:
            for number in range(jobs):
                os.mkdir(f"{place}/{number}")
                rooms.put(Room(f"{place}/{number}"))
            doing = [pool.submit(tried, crate, edit, rooms) for crate, edit, _ in edits]
        for one in doing:
            try:
                one.result()
            except (Wrong, OSError) as reason:
                wrong.append(str(reason))
                print(reason, flush=True)
    if wrong:
        print(*([] if doing else wrong), f"{len(wrong)} wrong edits", sep="\n")
        return 1
    ends = "" if "--fit" in words else ", each edit refused" if "--said" in words else ", each refused at its fact"
    print(f"{shown} wrong changes in {len(edits)} edits{ends}")
    return 0


if __name__ == "__main__":
    sys.exit(main(sys.argv[1:]))
