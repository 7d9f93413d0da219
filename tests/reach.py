"""What a declaration of a crate can depend on, by names: for `edits.py`, which asks which wrong change can be the reason for an error.

A node is a declaration of specs/ or proofs/, a constant or a type of src/, or of a function its contract or its body. It reaches what
the names in its text stand for, those of constructors too, by the imports of its file; a local name that is also a declaration's is taken
for that. A function's name in a body reaches its contract and never its body, and its proof reaches both; a method's contract reaches
its type. What has a record's fields names the record in its type, so more is reached than is used. Generated modules are not read: only
a function's own proof names one.
"""
import pathlib
import re
import sys

sys.path.insert(0, str(pathlib.Path(__file__).resolve().parent.parent / "tools"))
from declarations import declared, filed, imported, promised, trouble, words

ITEM = re.compile(r"\b(?:use|mod|const|struct|enum|impl|fn)\b")
CONSTANT = re.compile(r"^(?:pub(?:\(crate\))? )?const (\w+).*(?:\n(?: .*|\];))*", re.M)
HEAD = re.compile(r"^( *)(?:pub(?:\(crate\))? )?(?:extern \"C\" )?fn (\w+)|^impl(?:<.*?>)? (?:\S+ for )?(\w+)(?:<.*?>)? \{$", re.M)


def folder(file):
    """The folder of a module's proofs."""
    return "proofs/" if file.stem in ("lib", "main") else f"proofs/{file.stem}/"


def functions(crate, file):
    """The functions of a source file, as `rt fmt` lays it out: the folder of the proof of each, and where it, its body and its end are.
    The proofs of a method stand with the module of its type."""
    text = (crate / file).read_text()
    plain = owned = folder(crate / file)
    for match in HEAD.finditer(text):
        indent, name, owner = match.groups()
        if owner:
            home = [f for f in (crate / "src").glob("*.rt") if re.search(rf"(struct|enum) {owner}\b", f.read_text())]
            owned = f"{folder(home[0]) if home else plain}{owner}/"
            continue
        begin = re.compile(rf"^{indent}(\S.*)?\{{$", re.M).search(text, match.start())
        end = re.compile(rf"^{indent}\}}$", re.M).search(text, begin.end())
        yield f"{owned if indent else plain}{name}", match.start(), begin.end(), end.start()


def constructors(text):
    """The constructors of a datatype, or the variants of an enum."""
    if re.search(r"^(pub )?data\b", text, re.M):
        return re.findall(r"^(\S+) :", text, re.M)
    return re.findall(r"[{,] (\w+)", text) if re.match(r"(pub (\( crate \) )?)?enum\b", text) else []


class Reach:
    """The nodes of a crate in a folder, by file and name, and a body's by file and the folder of the function's proof."""

    def __init__(self, crate, name):
        self.crate, self.root, self.texts, self.lines, self.proofs, self.known = crate, f"crates/{name}/", {}, {}, {}, {}
        self.imports, self.home, self.code, self.calls = {}, {}, {}, {}
        for file in sorted([*crate.glob("specs/**/*.antt"), *crate.glob("proofs/**/*.antt"), *crate.glob("src/**/*.rt")]):
            path, text = str(file.relative_to(crate)), file.read_text()
            whole = self.root + path
            self.imports[whole] = imported(text)
            for d in promised(whole, text) if path.endswith(".rt") else declared(whole, text, ""):
                key, own = (path, d.name), "\n".join(d.parts)
                self.texts[key], self.lines[key] = own, d.lines
                for one in [d.name.partition(" (")[0].rpartition("::")[2], *constructors(own)]:
                    self.home.setdefault((whole, one), set()).add(key)
                    if path.endswith(".rt"):
                        (self.code if d.kind == "shapes" else self.calls).setdefault(one, set()).add(key)
        for file in sorted(crate.glob("src/**/*.rt")):
            path, text = str(file.relative_to(crate)), file.read_text()
            for proof, _, begin, end in functions(crate, path):
                self.proofs[proof] = {(path, proof)} | self.contract(path, proof)
                self.texts[path, proof], self.lines[path, proof] = text[begin:end], set()

    def named(self, whole, name):
        """What a name of a file stands for: what it declares, or what it imports, a type of the code among these."""
        found = self.home.get((whole, name), set())
        if name in self.imports.get(whole, {}):
            at, there = self.imports[whole][name]
            found = found | (self.named(at, there) if at != whole and at in self.imports else self.code.get(there, set()))
        return found

    def meant(self, whole, token, body):
        """What a token of a file stands for; a path goes by its module, a path of the code by each of its pieces. `trap.slots` names
        `trap`."""
        found = self.named(whole, token) | self.named(whole, token.partition(".")[0])
        module, _, name = token.rpartition(".")
        if module and not token.startswith("."):
            at = self.imports[whole].get(module + ".", (filed(module), ""))[0]
            found = found | self.named(at, name)
        if whole.endswith(".rt"):
            for piece in re.split(r"[.:!]+", token):
                found = found | self.code.get(piece, set()) | (self.calls.get(piece, set()) if body else set())
        return found

    def contract(self, path, proof):
        """The contract of a function, a method's by its type."""
        owner, name = proof.split("/")[-2:]
        return {k for k in self.texts if k[0] == path and k[1] in (name, f"{owner}::{name}")}

    def step(self, key):
        """What a node reaches at once; a method's contract its type too."""
        if key not in self.known:
            whole, body = self.root + key[0], key[1] in self.proofs
            tokens = set(words(self.texts[key])) | {key[1].partition("::")[0]}
            self.known[key] = self.answered(key[0]).union(*(self.meant(whole, t, body) for t in tokens))
        return self.known[key]

    def answered(self, file):
        """The body and the contract of the function whose proof a file is a part of."""
        return self.proofs.get(file.rpartition("/")[0], set())

    def from_error(self, file, line):
        """All that the declaration of an error can depend on; in the proof of a function, all that the file can."""
        proof = self.answered(file)
        mine = [k for k in self.texts if k[0] == file or proof and k[0].rpartition("/")[0] == file.rpartition("/")[0]]
        here = [k for k in mine if line in self.lines[k]]
        found = set(mine if proof or not here else here) | proof
        todo = list(found)
        while todo:
            new = self.step(todo.pop()) - found
            found |= new
            todo += new
        return found

    def changed(self, file, old, new):
        """The nodes that a change of this text is a change of: all of its file, where it stands in none or puts an item in."""
        text = (self.crate / file).read_text()
        mine = {k for k in self.texts if k[0] == file}
        if text.count(old) != 1 or file.endswith(".rt") and len(ITEM.findall(new)) > len(ITEM.findall(old)):
            return mine
        at = text.index(old)
        if file.endswith(".antt"):
            line = text.count("\n", 0, at) + 1
            return {k for k in mine if line in self.lines[k]} or mine
        for proof, start, begin, end in functions(self.crate, file):
            if start <= at < end:
                return {(file, proof)} if at >= begin else self.contract(file, proof)
        constants = {c[1] for c in CONSTANT.finditer(text) if c.start() <= at < c.end()}
        return {(file, name) for name in constants} or mine
