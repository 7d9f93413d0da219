#!/usr/bin/env python3
"""Spells this repository's own names as today's Rattle does, in every crate: words in snake case, a dash only between two names.

usage: python3 tools/port_names.py            at the top, once, right after /opt/rattle/port/port.py

A hump becomes an underscore (`setCell`, `set_cell`), in every name that begins with a small letter. A dash in a name that the repository declares
becomes an underscore, but between two definitions (`length-set_cell`), and where the new name would meet another. Names of src/ stay. Prints both lists of what it left.
"""
import re
import sys
from collections import defaultdict
from pathlib import Path

NAME = r"[^\s(){}.;,@\"«»\[\]]+"
DECLARES = re.compile(
    r"^( *)((?:(?:pub|abbrev|unfoldable)\s+)*)((?:data|record|ruleset|module)\s+)?(" + NAME + r")(?=(?: \{[^{}\n]*\})*(?: :(?: |$)| =$| = | where$))", re.M)
# Words of the library that stand in names of laws.
WORDS = set("length take drop append get_or set sets replicate map list sum min max num le cell some".split())
# Two names of the repository that would be one, and the name that a definition gets instead.
OTHER = {"Causes·cause-passes": "causes_passes", "Record·fresh": "fresh_record"}
# A law that would have the name of its definition, in the one file that has both.
LAWS = {
    "crates/store/proofs/Costs.antt": ("goes_on", "goes_on_lem"),
    "crates/history/proofs/Boundary/Refusals.antt": ("cut_short", "cut_short_lem"),
    "crates/history/proofs/Worked/Second.antt": ("new_by", "new_by_lem"),
    "crates/history/proofs/Steps/Worlds.antt": ("open_plain", "open_plain_lem"),
} | {
    f"crates/{p}.antt": ("same_log", "same_log_lem")
    for p in (
        "crash/proofs/Appends", "crash/proofs/Cards", "crash/proofs/Frames", "crash/proofs/Logs", "crash/proofs/Waiting",
        "history/proofs/Atomicity/ShortSyncs", "history/proofs/Twins/Pairs", "history/proofs/Twins/Shows")
}
TOKEN = re.compile(NAME)


def texts(root):
    for p in sorted(root.glob("crates/*/*/**/*.antt")) + sorted(root.glob("crates/*/*/**/*.rt")):
        if "out" not in p.parts:
            yield p


def hump(part):
    if not part[:1].islower():
        return part
    part = re.sub(r"^getD(?![a-z])", "get_or", part)
    return re.sub(r"(?<=[a-z0-9])[A-Z]", lambda m: "_" + m[0].lower(), part)


def humps(name):
    return "-".join(hump(p) for p in name.split("-"))


def main():
    root = Path(".")
    all_ = {p: p.read_text() for p in texts(root)}
    for p, (old, law) in LAWS.items():
        p = Path(p)
        all_[p] = TOKEN.sub(lambda m: law if m[0] == old else m[0], all_[p])
    declared, words = defaultdict(set), set(WORDS)
    for p, t in all_.items():
        if p.suffix != ".antt":
            continue
        for m in DECLARES.finditer(t):
            if m[4].startswith(("tie.", "--")):
                continue
            declared[m[4]].add(p)
            if "abbrev" in m[2] or "unfoldable" in m[2] or (m[3] or "").strip() in ("data", "record"):
                words.add(humps(m[4]))
    tokens = {w for t in all_.values() for w in TOKEN.findall(t)}
    needs = {m[1] for p, t in all_.items() if p.name == "Proof.antt" for m in re.finditer(r"(?m)^(\S+) : tie\.", t)}
    new = {}
    for w in tokens:
        if re.search(r"[a-z0-9][A-Z]", w) and w[0].islower():
            new[w] = humps(w)
        if w in OTHER:
            new[w] = OTHER[w]
    taken = defaultdict(set)
    for w in tokens:
        taken[new.get(w, w)].add(w)
    kept = []
    for w in sorted(declared):
        if "-" not in w or w in needs or w.startswith("-") or not w[0].isalpha():
            continue
        parts = humps(w).split("-")
        out = parts[0]
        for a, b in zip(parts, parts[1:]):
            out += ("-" if a in words and b in words else "_") + b
        if out == new.get(w, w):
            continue
        if taken[out] - {w} or not out:
            kept.append(f"{w}: {out} is {', '.join(sorted(taken[out] - {w}))[:60]}")
            continue
        taken[out].add(w)
        new[w] = out
    for w, n in list(new.items()):
        if w not in OTHER and len(taken[n]) > 1 and "-" not in w:
            there = [str(p) for p, t in all_.items() if p.suffix == ".antt" and p.name != "Proof.antt" and any(x in TOKEN.findall(t) for x in taken[n] - {w})]
            print(f"falls together: {w} and {sorted(taken[n] - {w})}: {n}", there or "(a name of src/ alone)")
    for p, t in all_.items():
        if p.suffix == ".antt":
            u = TOKEN.sub(lambda m: new.get(m[0], m[0]), t)
        else:
            u = TOKEN.sub(lambda m: new.get(m[0], m[0]) if (re.search(r"[a-z][A-Z]", m[0]) or "-" in m[0]) else m[0], t)
        if u != p.read_text() and "--dry" not in sys.argv:
            p.write_text(u)
    for k in kept:
        print("dash kept:", k)
    print(len(new), "names,", len(kept), "dashes kept")
    # A parameter or a function of src/ that has the name of a definition which its file imports.
    for p, t in all_.items():
        if p.suffix != ".rt":
            continue
        imported = {new.get(n, n) for m in re.finditer(r"ghost use [^{;]*\{([^}]*)\}", t) for n in re.split(r"[\s,]+", m[1])}
        code = re.sub(r"ghost use [^;]*;|//.*", "", t)
        rust = set(re.findall(r"\bfn (\w+)|\blet (?:mut )?(\w+)|(?<![\w.])(\w+): ", code))
        rust = {x for y in rust for x in y if x}
        both = {x for x in imported & rust if x}
        if both:
            print("meets in", p, sorted(both))
    if "--table" in sys.argv:
        Path("/tmp/port-names.tsv").write_text("".join(f"{a}\t{b}\n" for a, b in sorted(new.items())))


main()
