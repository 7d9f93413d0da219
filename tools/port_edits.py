#!/usr/bin/env python3
"""Brings the must-fail edits from the spelling of one commit to that of the working tree.

usage: python3 tools/port_edits.py OLD TABLE [--write] [--show] [CRATE...]
           OLD: the last commit in the old spelling; TABLE: own names, old<TAB>new
       python3 tools/port_edits.py --fit [CRATE...]         does each pair fit the working tree, and is each expected file there?
       python3 tools/port_edits.py --expect [CRATE...]      the same, and brings the `expect:` lines up to today's proof files

Each pair of an edit is applied to its file as it stood at OLD, the lines that it changes are spelled anew, and the line that this gives is looked for in the
file of today. What could not be placed so is printed, for a hand to do.
"""
import difflib
import re
import subprocess
import sys
from pathlib import Path

args = [a for a in sys.argv[1:] if not a.startswith("--")]
FITS = "--fit" in sys.argv or "--expect" in sys.argv
OLD, TABLE, ONLY = ("", "", args) if FITS else (args[0], args[1], args[2:])
NAMES = {} if FITS else dict(line.split("\t") for line in Path(TABLE).read_text().splitlines())
NAMES |= {"getD": "get_or", "clamped": "clamp_len"}
QUALIFIED = {"Prim.Native.Nat.suc": "suc", "Prim.Native.Nat.pred": "pred", "mathlib.Core.Bool.cond": "cond", "lib.Dec.eqb": "eqb", "lib.ListN.replicate": "replicate",
             "lib.ListN.set": "set", "lib.ListN.take": "take", "lib.Seq.sets": "sets", "Prim.Native.Nat.min": "min"}
PRELUDE = "Rattle.std.specs.Prelude."
ATOM = r"[^\s(){}.;,@\"«»\[\]]+"
TOKEN = re.compile(r"\s+|\.\.=?|\.(?=\d)|\d+\.\.|[(){};,\[\]]|λ [^.]*\.|" + r"[^\s(){};,\[\]]+")
INFIX = set("≡ ≢ + * - / % ≤ < ≥ > && || ∷ ++ = : → × ↔ ⊎ ; , in ^ == != ≟ let pub requires ensures fn λ × ∘ $ as u64 u32 usize u8".split())


def old_text(path):
    run = subprocess.run(["git", "show", f"{OLD}:{path}"], capture_output=True, text=True)
    return run.stdout if run.returncode == 0 else None


def name(word):
    if word in NAMES:
        return NAMES[word]
    for long, short in QUALIFIED.items():
        if word == long:
            return (PRELUDE if short != "sets" else "Rattle.std.proofs.lemmas.List.Edits.") + short
    word = re.sub(r"Rattle·(\w+)(?:·specs)?\.specs\.", r"Rattle.\1.specs.", word)
    if "." in word and not word.startswith("."):
        head, _, last = word.rpartition(".")
        return head + "." + own(last)
    if word.startswith(".") and len(word) > 1:
        return "." + own(word[1:])
    return own(word)


def own(word):
    if word in NAMES:
        return NAMES[word]
    return re.sub(r"(?<=[a-z0-9])[A-Z]", lambda m: "_" + m[0].lower(), word) if re.fullmatch(r"[a-z]\w*[A-Z]\w*", word) else word


def tree(tokens, i, close):
    """Reads up to a closing bracket: a list of words, spaces and groups (open, inside, close)."""
    out = []
    while i < len(tokens):
        t = tokens[i]
        if t in "([{" and len(t) == 1:
            inside, i, end = tree(tokens, i + 1, {"(": ")", "[": "]", "{": "}"}[t])
            out.append((t, inside, end))
            continue
        if t in ")]}" and len(t) == 1:
            if t == close:
                return out, i + 1, t
            if close:
                return out, i, ""
            out.append(t)
            i += 1
            continue
        out.append(t)
        i += 1
    return out, i, ""


def show(node):
    return node if isinstance(node, str) else node[0] + "".join(show(n) for n in node[1]) + node[2]


def is_space(n):
    return isinstance(n, str) and n.isspace()


def is_atom(n):
    if isinstance(n, tuple):
        return n[0] != "{" or True
    return not n.isspace() and n not in INFIX and not n.startswith(("λ",)) and n not in (";", ",", ")", "]", "}") and not n.startswith("⌜") and n != "⌝"


class Spell:
    """Spells a line anew; modes are the modes of the parameters in scope ('own', 'ref', 'mut'), result the name of the result in the clause."""

    def __init__(self, modes):
        self.modes = modes

    def expr(self, nodes, result=None):
        out = []          # done nodes (strings)
        start = 0         # where the running application starts in out
        k = 0
        while k < len(nodes):
            n = nodes[k]
            if isinstance(n, str) and re.fullmatch(r"\.[^\W\d][\w′-]*", n) and k and is_space(nodes[k - 1]) and out:
                # a projection of what stands before it
                while out and out[-1].isspace():
                    out.pop()
                head = "".join(out[start:])
                lead = len(head) - len(head.lstrip())
                lead_s, head = head[:lead], head[lead:]
                atoms = self.atoms(head)
                field = name(n)
                new = head + field if atoms <= 1 else f"({head}){field}"
                if field in (".entry", ".exit"):
                    new = f"{head}{field}"
                out[start:] = [lead_s + new]
                k += 1
                continue
            if isinstance(n, tuple):
                out.append(self.group(n, result))
            elif n.isspace():
                out.append(n)
            else:
                w = name(n)
                if result and n == result:
                    w = "result"
                out.append(w)
                if not is_atom(n):
                    start = len(out)
            k += 1
        text = "".join(out)
        return text

    def atoms(self, text):
        nodes, _, _ = tree(TOKEN.findall(text), 0, "")
        return sum(1 for n in nodes if not is_space(n) and not (isinstance(n, str) and n.startswith(".")))

    def group(self, n, result):
        inside = self.expr(n[1], result)
        if n[0] == "(" and n[2] == ")":
            nodes = [x for x in tree(TOKEN.findall(inside), 0, "")[0] if not is_space(x)]
            if len(nodes) == 1 and isinstance(nodes[0], str) and not re.match(r"^[λ]|^\d+$", nodes[0]) and nodes[0] != inside.strip()[:0] and "." in nodes[0]:
                return inside
            # (f x).field alone in brackets
            if len(nodes) == 2 and isinstance(nodes[0], tuple) and isinstance(nodes[1], str) and nodes[1].startswith("."):
                return inside
        return n[0] + inside + n[2]

    def line(self, text):
        if re.match(r"\s*(//|--)", text):
            return text
        m = re.match(r"(\s*)(requires|ensures)( \w+)? \{ (.*) \}$", text)
        result = None
        body = text
        if m:
            body = m[4]
            r = re.match(r"λ ([\w_]+)\. (.*)$", body)
            if r:
                result, body = r[1], r[2]
            body = re.sub(r"^⌜ (.*) ⌝$", r"\1", body)
            while True:
                stripped = strip_brackets(body)
                if stripped == body or not re.match(r"\(\(?[\w ]+ : ", body):
                    break
                body = stripped
        body = operators(body)
        body = "".join(self.expr(tree(TOKEN.findall(body), 0, "")[0], result if result != "_" else None)) if self.spells(text) else body
        body = self.moments(body)
        if m:
            return f"{m[1]}{m[2]} {{ {body} }}"
        return body

    def spells(self, text):
        return self.modes is None or bool(re.match(r"\s*(requires|ensures|ghost)\b", text)) or "⌜" in text or "ghost use" in text

    def moments(self, text):
        """now (x.entry), now x, now (x.exit)"""
        def of(x, moment):
            base = x.split(".")[0]
            mode = (self.modes or {}).get(base)
            if moment == "exit":
                return x + ".new"
            if mode == "mut":
                return x + ".old"
            return x + ".now"

        text = re.sub(r"\((?<![\w.])now ([\w.]+)\.(entry|exit)\)", lambda m: of(m[1], m[2]), text)
        text = re.sub(r"(?<![\w.])now ([\w.]+)\.(entry|exit)\b", lambda m: of(m[1], m[2]), text)
        text = re.sub(r"\(now \(?([\w]+)\)?\)", lambda m: of(m[1], "entry"), text)
        text = re.sub(r"(?<![\w.])now (\w+)\b", lambda m: of(m[1], "entry"), text)
        text = re.sub(r"\(([\w.]+\.(?:old|now|new))\)", r"\1", text)
        return text


def strip_brackets(text):
    nodes, _, _ = tree(TOKEN.findall(text), 0, "")
    if len(nodes) == 1 and isinstance(nodes[0], tuple) and nodes[0][0] == "(":
        return text[1:-1]
    return text


def operators(text):
    """Prim.Native.Nat._+_ a b: a + b"""
    at = text.find("Prim.Native.Nat._+_ ")
    while at >= 0:
        end = at + len("Prim.Native.Nat._+_ ")
        words = []
        while len(words) < 2:
            m = re.match(r"\s*", text[end:])
            end += m.end()
            if text[end] == "(":
                depth, j = 0, end
                while True:
                    depth += {"(": 1, ")": -1}.get(text[j], 0)
                    j += 1
                    if not depth:
                        break
            else:
                j = end + re.match(r"[^\s()]+", text[end:]).end()
            words.append(text[end:j])
            end = j
        text = text[:at] + f"{words[0]} + {words[1]}" + text[end:]
        at = text.find("Prim.Native.Nat._+_ ")
    return text


def modes_at(text, offset):
    """The modes of the parameters of the function whose header stands before this place."""
    head = [m for m in re.finditer(r"\bfn (\w+)", text) if m.start() <= text.find("\n", offset)]
    if not head:
        return {}
    start = head[-1].start()
    end = re.search(r"\n\s*(requires|ensures|\{)|\{|;", text[start:])
    sig = text[start:start + end.start()] if end else text[start:start + 400]
    modes = {}
    for m in re.finditer(r"(?:mut )?(\w+): (&mut |&)?", sig):
        modes[m[1]] = {"&mut ": "mut", "&": "ref", None: "own"}[m[2]]
    if "&mut self" in sig:
        modes["self"] = "mut"
    elif "&self" in sig:
        modes["self"] = "ref"
    return modes


def function_at(text, offset):
    head = [m for m in re.finditer(r"(?m)^ *(?:pub(?:\(crate\))? )?(?:extern \"C\" )?fn (\w+)", text) if m.start() <= offset]
    return head[-1][1] if head else ""


def changes(edit, text=None):
    """The label's line, the expected files and the pairs [file, old, new] of each wrong change"""
    found, file, old = [], None, None
    for line in (edit.read_text() if text is None else text).splitlines():
        if line.startswith("# "):
            found.append({"label": line, "expect": [], "pairs": []})
            file = None
        elif line.startswith("expect: "):
            found[-1]["expect"].append(line[8:])
        elif line.startswith("file: "):
            file = line[6:]
        elif line.startswith("old: "):
            old = line[5:]
        elif line.startswith("new:"):
            found[-1]["pairs"].append([file, old, line[5:]])
        elif line.strip():
            raise SystemExit(f"{edit}: {line}")
    return found


NAMED = re.compile(r"^(\s*)(requires|ensures) (\w+) \{")


def no_name(line):
    return NAMED.sub(r"\1\2 {", line)


TOKENS = re.compile(r"\s+|[\w′·.◌]+|[^\w\s]")


def common(a, b):
    """The tokens in which two lines differ: (from, to in a, to in b), of tokens that end in the same way."""
    i = 0
    while i < len(a) and i < len(b) and a[i] == b[i]:
        i += 1
    j = 0
    while j < len(a) - i and j < len(b) - i and a[-1 - j] == b[-1 - j]:
        j += 1
    return i, len(a) - j, len(b) - j


def reach(was, start, end, line):
    """The part of today's line that holds what stood from start to end of the old one: by the tokens that are the same."""
    spans, at = [], 0
    for t in TOKENS.findall(was):
        spans.append((at, at + len(t), name(t)))
        at += len(t)
    today = TOKENS.findall(line)
    match = difflib.SequenceMatcher(None, [s[2] for s in spans], today, autojunk=False)
    to = {}
    for i, j, n in match.get_matching_blocks():
        for k in range(n):
            to[i + k] = j + k
    inside = [to[i] for i, (a, b, t) in enumerate(spans) if start < b and a < end and i in to and not t.isspace() and t not in ("(", ")")]
    return (min(inside), max(inside) + 1) if inside else None


def piece(line, new_line, wanted, text):
    """The shortest piece of the line, of whole tokens, that holds what differs and what is wanted, and occurs once in the text."""
    a, b = TOKENS.findall(line), TOKENS.findall(new_line)
    i, ja, jb = common(a, b)
    if line == new_line:
        return None
    if wanted:
        di, dj = i - min(i, wanted[0]), max(ja, wanted[1]) - ja
        i, ja, jb = i - di, ja + dj, jb + dj
    while i > 0 and a[i - 1] == "(" :
        i -= 1
    while i > 0 and a[i].isspace():
        i -= 1
    while ja < len(a) and a[ja] == ")" and "".join(a[i:ja]).count("(") > "".join(a[i:ja]).count(")"):
        ja, jb = ja + 1, jb + 1
    while True:
        old, new = "".join(a[i:ja]), "".join(b[i:jb])
        if old.strip() and old == old.rstrip() and text.count(old) == 1 and (old == old.lstrip() or i == 0):
            return old, new
        if ja < len(a) and (a[ja - 1].isspace() or ja == i or i == 0 or a[i - 1].isspace() and i == 1):
            ja, jb = ja + 1, jb + 1
        elif i > 0:
            i -= 1
        elif ja < len(a):
            ja, jb = ja + 1, jb + 1
        else:
            return None


def port(crate, edit, change, said):
    """The pairs of a change in today's spelling; what fails is None."""
    old_files, now_files, out = {}, {}, []
    for file, old, new in change["pairs"]:
        path = f"{crate}/{file}"
        if file not in old_files:
            old_files[file] = old_text(path)
            now_files[file] = Path(path).read_text() if Path(path).exists() else None
        was, now = old_files[file], now_files[file]
        if was is None or now is None or was.count(old) != 1:
            said.append((edit, change["label"], file, old, new, "no such file or text", "", ""))
            out.append(None)
            continue
        at = was.find(old)
        start, end = was.rfind("\n", 0, at) + 1, was.find("\n", at + len(old))
        line = was[start:end]
        new_line = line[:at - start] + new + line[at - start + len(old):]
        old_files[file] = was[:start] + new_line + was[end:]
        spell = Spell(None if file.endswith(".antt") else modes_at(was, start))
        today, today_new = spell.line(line), spell.line(new_line)
        lines = now.split("\n")
        hits = [k for k, l in enumerate(lines) if l == today] or [k for k, l in enumerate(lines) if no_name(l) == today] \
            or [k for k, l in enumerate(lines) if re.sub(r"[\s()]", "", no_name(l)) == re.sub(r"[\s()]", "", today)] \
            or [k for k, l in enumerate(lines) if re.sub(r"[\s(),]", "", no_name(l)) == re.sub(r"[\s(),]", "", today)]
        if len(hits) > 1:
            # the n-th such line of the old file, or the one in the function of the same name
            same = [m.start() for m in re.finditer("(?m)^" + re.escape(line) + "$", was)]
            if len(same) == len(hits):
                hits = [hits[same.index(start)]]
            else:
                f = function_at(was, start)
                offsets = [sum(len(l) + 1 for l in lines[:k]) for k in hits]
                hits = [k for k, o in zip(hits, offsets) if function_at(now, o) == f]
        if len(hits) != 1:
            close = difflib.get_close_matches(today, lines, n=1, cutoff=0.3)
            said.append((edit, change["label"], file, old, new, f"{len(hits)} lines", today, today_new + "\n      close: " + (close[0] if close else "")))
            out.append(None)
            continue
        k = hits[0]
        exact = lines[k] == today or no_name(lines[k]) == today
        if no_name(lines[k]) == today:
            m = NAMED.match(lines[k])
            if m:
                today_new = re.sub(r"^(\s*)(requires|ensures) \{", lambda x: f"{x[1]}{x[2]} {m[3]} {{", today_new)
        if not exact:
            said.append((edit, change["label"], file, old, new, "nearly", lines[k], today_new))
            out.append(None)
            continue
        imported = set(re.findall(r"[^\s,{}]+", " ".join(re.findall(r"Prelude\.\{([^}]*)\}", now))))
        today_new = re.sub(re.escape(PRELUDE) + r"(\w+)", lambda m: m[1] if m[1] in imported else m[0], today_new)
        got = piece(lines[k], today_new, reach(line, at - start, at - start + len(old), lines[k]), now)
        if got is None and lines[k] != today_new:
            said.append((edit, change["label"], file, old, new, "no piece", lines[k], today_new))
            out.append(None)
            continue
        if got is None:
            said.append((edit, change["label"], file, old, new, "no difference", lines[k], today_new))
            out.append(None)
            continue
        if old in lines[k] and now.count(old) == 1 and file.endswith(".rt") and now.replace(old, new) == "\n".join(lines[:k] + [today_new] + lines[k + 1:]):
            got = (old, new)
        out.append([file, got[0], got[1]])
        assert now.count(got[0]) == 1
        now_files[file] = now.replace(got[0], got[1])
    return out


def expected(crate, path):
    """The file in which the error has to show: the answers of a function, also where it needs none as it stands."""
    return re.sub(r"/Proof\.antt$", "/Answers.antt", path)


def stands(crate, path):
    """Whether there is such a file, or such a function."""
    function = re.fullmatch(r"proofs/(?:.+/)?(\w+)/(Answers|Invariants)\.antt", path)
    return (crate / path).exists() or bool(function) and any(re.search(rf"\bfn {function[1]}\b", f.read_text()) for f in (crate / "src").rglob("*.rt"))


def fit(crates):
    """Says what does not fit; counts files, changes and pairs."""
    files = labels = pairs = wrong = 0
    for crate in crates:
        for edit in sorted(crate.glob("must-fail/*.edit")):
            files += 1
            text = edit.read_text()
            if "--expect" in sys.argv:
                text = re.sub(r"(?m)^expect: (.*)$", lambda m: "expect: " + expected(crate, m[1]), text)
                edit.write_text(text)
            together = {}
            for change in changes(edit, text):
                labels += 1
                alone = {}
                for file, old, new in change["pairs"]:
                    pairs += 1
                    for texts, how in (alone, "alone"), (together, "with those before it"):
                        if file not in texts:
                            texts[file] = (crate / file).read_text() if (crate / file).exists() else ""
                        if texts[file].count(old) != 1 or old == new:
                            wrong += 1
                            print(f"{edit}: {change['label'].split(':')[0]}: {how}: {texts[file].count(old)} times in {file}: {old}")
                        texts[file] = texts[file].replace(old, new)
                for e in change["expect"]:
                    if not stands(crate, e):
                        wrong += 1
                        print(f"{edit}: {change['label'].split(':')[0]}: no file {e}")
    print(f"{files} edits, {labels} wrong changes, {pairs} pairs; {wrong} that do not fit")
    return wrong


def main():
    crates = [c for c in sorted(Path("crates").iterdir()) if not ONLY or c.name in ONLY]
    if FITS:
        sys.exit(1 if fit(crates) else 0)
    said, count, same, spelled = [], 0, 0, []
    for crate in crates:
        for edit in sorted(crate.glob("must-fail/*.edit")):
            text, lines = old_text(str(edit)), []
            for change in changes(edit, text):
                pairs = port(str(crate), str(edit), change, said)
                lines += [""] * bool(lines) + [change["label"]] + [f"expect: {expected(crate, e)}" for e in change["expect"]]
                file = None
                for pair, made in zip(change["pairs"], pairs):
                    made = made or pair
                    lines += [f"file: {made[0]}"] * (made[0] != file) + [f"old: {made[1]}", f"new: {made[2]}".rstrip() if not made[2] else f"new: {made[2]}"]
                    file = made[0]
                for pair, made in zip(change["pairs"], pairs):
                    count += 1
                    if made == pair:
                        same += 1
                    elif made:
                        spelled.append((str(edit), change["label"].split(":")[0], pair, made))
            if "--write" in sys.argv:
                edit.write_text("\n".join(lines) + "\n")
    if "--show" in sys.argv:
        for e, l, (f, o, n), (f2, o2, n2) in spelled:
            print(f"{e} {l} {f}\n  {o}\n  {n}\n    {o2}\n    {n2}")
    for e, l, f, o, n, why, t, tn in said:
        print(f"OPEN {e} {l.split(':')[0]} {f}: {why}\n  old: {o}\n  new: {n}\n      today: {t}\n      tonew: {tn}")
    print(count, "pairs;", same, "as they were;", len(spelled), "spelled anew;", len(said), "open")


main()
