"""Every public name of the specifications and proofs is used: it stands, directly or through others, below a contract, the proof
of a function (what its Answers.antt and Invariants.antt say of its goals), or a theorem that docs/READING.md names. A name in a comment, in its own body or in
an import is no use. Prints the names that are not, and fails; fields of records are not looked at."""
import re
import sys
from pathlib import Path

ROOT = Path(__file__).resolve().parent.parent
WORD = re.compile(r"[^\s(){}\[\],;:\"⌜⌝]+")
GOAL = re.compile(r"(pub )?\S+ : goal\.")
USE = re.compile(r"^ *(?:ghost |unfoldable )?(pub )?use (\S+?)(?:\.\{(.*?)\}| as (\S+?))?;?$", re.M | re.S)
NAMED = re.compile(r"^( *)((?:(?:abbrev|unfoldable|pub) )*)(record |data |ruleset )?([^\s:(){}=]+)(?= [:=({])")
OURS = re.compile(r"Rattle\.(\w+)\.((?:specs|proofs)\..*)")
CRATES = {path.name for path in ROOT.glob("crates/*")}


def module(path):
    """The file that a path of modules names, as its parts; None for another library's."""
    m = OURS.fullmatch(path)
    return f"{m[1]}.{m[2]}" if m and m[1] in CRATES else None


def uses(text):
    """What imports give: names to (module, name), modules by their short names, and the names handed on."""
    names, modules, handed = {}, {}, []
    for pub, path, some, other in USE.findall(text):
        of = module(path)
        if of and some:
            for item in some.split(","):
                name, _, alias = item.strip().partition(" as ")
                names[alias or name] = (of, name)
                handed += [name] if pub else []
        elif of:
            modules[other or path.rsplit(".", 1)[1]] = of
    return names, modules, handed


def blocks(text):
    """Each declaration: its name, whether it is public, and its lines with those of the module heads around it."""
    heads, lines, i = [], text.split("\n"), 0
    while i < len(lines):
        line = lines[i]
        deep = len(line) - len(line.lstrip())
        if line.strip():
            heads = [h for h in heads if h[0] < deep]
        m = NAMED.match(line)
        start, i = i, i + 1
        if line.lstrip().startswith(("use ", "pub use ", "pub mod ")):
            continue
        if line.lstrip().startswith("module "):
            while not lines[i - 1].endswith("where"):
                i += 1
            heads.append((deep, "\n".join(lines[start:i])))
        elif m:
            own = re.compile(rf" {{{deep}}}(unfolding |{re.escape(m[4])}\s|[)}}])|\s*$| {{{deep + 1}}}")
            while i < len(lines) and own.match(lines[i]):
                i += 1
            yield m[4], "pub " in m[2], (m[3] or "").strip(), "\n".join([h[1] for h in heads] + lines[start:i])


def cited(text, here, names, modules, own):
    """The declarations that a text names."""
    for m in WORD.finditer(text):
        word = m[0].rstrip(".")
        if word.startswith(".") or re.match(" = ?", text[m.end():]) and re.search(r"([{;\n]|\blet) *$", text[:m.start()]):
            continue
        if module(word.rpartition(".")[0]):
            yield module(word.rpartition(".")[0]), word.rpartition(".")[2]
        first, _, rest = word.partition(".")
        if rest and first in modules:
            yield modules[first], rest
        for name in {word, first}:
            if name in own:
                yield here, name
            elif name in names:
                yield names[name]


def main():
    public, edges, alias, roots = {}, {}, {}, []
    reading = set(re.findall(r"`([^`\s]+)`", (ROOT / "docs/READING.md").read_text()))
    antt = sorted(path for part in ("specs", "proofs") for path in ROOT.glob(f"crates/*/{part}/**/*.antt"))
    for path in antt + sorted(ROOT.glob("crates/*/src/**/*.rt")):
        file = str(path.relative_to(ROOT))
        here = ".".join(path.relative_to(ROOT / "crates").with_suffix("").parts)
        code = path.suffix == ".rt"
        text = re.sub(r"//.*" if code else r"(^|\s)--(\s.*|$)", "", path.read_text(), flags=re.M)
        names, modules, handed = uses(text)
        alias.update({(here, n): names[n] for n in handed})
        if code:
            roots += cited(USE.sub("", text), here, names, modules, ())
            continue
        found = list(blocks(text))
        own = {name for name, _, _, _ in found}
        for name, pub, kind, body in found:
            parts = re.findall(r"^\s+(?:pub )?([^\s:]+) :", body, re.M) if kind in ("record", "data") else []
            alias.update({(here, p): (here, name) for p in parts if p not in own})
            edges.setdefault((here, name), set()).update(c for c in cited(body, here, names, modules, own | set(parts)) if c != (here, name))
            if pub:
                public[here, name] = file
            told = pub and name in reading and (file in reading or path.name in reading)
            if told or path.name in ("Answers.antt", "Invariants.antt") and GOAL.search(body):
                roots.append((here, name))
    seen = set()
    while roots:
        at = roots.pop()
        at = alias.get(at, at)
        if at not in seen:
            seen.add(at)
            roots += edges.get(at, ())
    idle = sorted((file, name) for (here, name), file in public.items() if (here, name) not in seen)
    for file, name in idle:
        print(f"{file}: nothing uses {name}")
    print(f"laws: {len(public)} public names, {len(idle)} of no use")
    sys.exit(1 if idle else 0)


main()
