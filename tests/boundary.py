"""Holds include/trapcard.h to what stands behind it: the prototypes to the exported signatures of crates/firmware_c/src, each of which has
the contract of the function of crates/firmware/src that it calls; and each constant, as a C program prints it, to the number that the
specifications have. Prints each difference."""
import re
import subprocess
import tempfile
from pathlib import Path

ROOT = Path(__file__).resolve().parent.parent
HEADER = ROOT / "include/trapcard.h"
LIBRARY = ROOT / "crates/firmware/src"
SOURCES = ROOT / "crates/firmware_c/src"

# The types of parameters and results; a slice is two parameters.
SLICES = {"&[u8]": "const uint8_t *", "&mut [u8]": "uint8_t *"}
TYPES = {"u32": "uint32_t", "u64": "uint64_t", "&mut u32": "uint32_t *", "&mut u64": "uint64_t *"}

# Parameters that the header calls otherwise: function or any, name in the source, name in the header. `record` is a reserved
# word of the contracts' language.
RENAMED = {("any", "rec"): "record", ("trapcard_alike", "a"): "settled_a", ("trapcard_alike", "b"): "settled_b"}

# Constants that are numbers of the specifications: crate, file, name.
NUMBERS = {
    "TRAPCARD_BLOCK": ("cells", "Entry", "block_bytes"),
    "TRAPCARD_RECORD": ("firmware", "Face", "record_bytes"),
    "TRAPCARD_MOST": ("journal", "Layout", "most_blocks"),
    "TRAPCARD_LIST": ("store", "Causes", "most_wanted"),
    "TRAPCARD_EMPTY_SUM": ("fnv", "Fnv", "start"),
    "TRAPCARD_MODE_CLOSED": ("store", "State", "closed"),
    "TRAPCARD_MODE_OPEN": ("store", "State", "open_mode"),
    "TRAPCARD_MODE_DOWN": ("store", "State", "down"),
}

# The geometry that the code has: crate, file, name of the instance, and the record that it is one of.
TRAP = ("journal", "Geometry", "trap", "Geometry")

# Constants that are numbers of that geometry, and definitions that take a geometry, at that one.
OF_TRAP = {"TRAPCARD_SLOTS": "slots", "TRAPCARD_PLACES": "places", "TRAPCARD_DIRECT": "direct"}
AT_TRAP = {
    "TRAPCARD_WAITING": ("store", "Causes", "waiting_bytes"),
    "TRAPCARD_WORK": ("store", "Causes", "work_bytes"),
    "TRAPCARD_LEAST": ("journal", "Layout", "least_blocks"),
    "TRAPCARD_FIRST": ("journal", "Layout", "first_data"),
}

# Constants that are clauses of a definition by cases: crate, file, definition, case.
CLAUSES = {
    "TRAPCARD_DONE": ("store", "Causes", "first", "[]"),
    "TRAPCARD_NOWHERE": ("firmware", "Face", "buffer_number", "Nowhere"),
    "TRAPCARD_IN_SETTLED": ("firmware", "Face", "buffer_number", "Settled"),
    "TRAPCARD_IN_WORK": ("firmware", "Face", "buffer_number", "Work"),
    "TRAPCARD_IN_WAITING": ("firmware", "Face", "buffer_number", "Waiting"),
}

# Constants that are offsets in the record: the field as it stands in the row. These are all fields.
ROW = ("firmware", "Face", "record_fields")
FIELDS = {
    "TRAPCARD_RECORD_MODE": "mode",
    "TRAPCARD_RECORD_BLOCKS": "blocks",
    "TRAPCARD_RECORD_OPEN": "opened",
    "TRAPCARD_RECORD_GROUP": "grouped",
    "TRAPCARD_RECORD_LOG": "logged",
    "TRAPCARD_RECORD_WAITING": "waiting",
    "TRAPCARD_RECORD_POWER": "power",
    "TRAPCARD_RECORD_SUM": "sum",
    "TRAPCARD_RECORD_SAVE": "save",
}

# Constants that are rows of the table of causes: the definitions of the rows that they stand for. These are all rows.
TABLE = ("store", "Causes")
CAUSES = {
    "TRAPCARD_ERR_SIZE": ["size_row"],
    "TRAPCARD_ERR_STATE": ["record_row"],
    "TRAPCARD_ERR_CLOSED": ["closed_row"],
    "TRAPCARD_ERR_POWER": ["down_row"],
    "TRAPCARD_ERR_OPEN": ["open_row"],
    "TRAPCARD_ERR_ADDRESS": ["address_row", "addresses_row"],
    "TRAPCARD_ERR_FULL": ["open_full_row", "group_full_row"],
    "TRAPCARD_ERR_FOREIGN": ["foreign_row"],
    "TRAPCARD_ERR_UNSOUND": ["unsound_row"],
    "TRAPCARD_ERR_MARKS": ["marks_row"],
    "TRAPCARD_ERR_LAST": ["last_save_row"],
    "TRAPCARD_ERR_IN_USE": ["in_use_row"],
    "TRAPCARD_ERR_LISTED": ["listed_row"],
}

# Constants of rows whose test compares the number of the choice: the case of the choice that has that number.
CHOICE = ("journal", "Choice", "choice_number")
CHOSEN = {"TRAPCARD_ERR_FOREIGN": "Foreign", "TRAPCARD_ERR_UNSOUND": "Neither"}

GUARD = "TRAPCARD_H"


def unread(what):
    raise SystemExit("boundary: can't read " + what)


def squeezed(text):
    return " ".join(text.split())


# ---- the specifications


# What stands before the definitions that take a geometry. In them it has no argument of its own.
OVER = "module _ (geo : Geometry) where"


def sections(crate, name):
    """The file without its comments, in turn: what takes no geometry, and what does, each without its indentation."""
    path = ROOT / "crates" / crate / "specs" / (name.replace(".", "/") + ".antt")
    if not path.exists():
        unread("%s: there is no such file" % path.relative_to(ROOT))
    found = [(False, [])]
    for line in re.sub(r"[ \t]*--.*", "", path.read_text()).splitlines():
        if line.startswith("module "):
            if line != OVER:
                unread("%s/specs/%s: `%s`" % (crate, name, line))
            found.append((True, []))
        else:
            if line and line[0] != " " and found[-1][0]:
                found.append((False, []))
            found[-1][1].append(line.removeprefix("  ") if found[-1][0] else line)
    return [(over, "\n".join(lines) + "\n") for over, lines in found]


def spec(crate, name):
    """The file without its comments, its definitions without indentation."""
    return "".join(text for _, text in sections(crate, name))


def equations(crate, name, word):
    """The clauses of a definition: its section and whether that takes a geometry, the patterns, and the right side, which goes on in
    the lines that are indented and ends with them or with a brace."""
    form = re.compile(r"^%s((?: [^=\n]+)?) =(.*\n(?:[ \t]+.*\n|\}\n|\n)*)" % re.escape(word), re.M)
    return [(place, over, patterns.split(), squeezed(right))
            for place, (over, text) in enumerate(sections(crate, name)) for patterns, right in form.findall(text)]


def equation(crate, name, word):
    """A definition in one clause: its section, whether that takes a geometry, the names of the arguments, and the right side."""
    found = equations(crate, name, word)
    if len(found) != 1:
        unread("%s/specs/%s: `%s` is not one equation" % (crate, name, word))
    return found[0]


def clause(crate, name, word, case):
    """The number in the clause for a case."""
    found = [right for _, _, patterns, right in equations(crate, name, word) if patterns and patterns[0].strip("()") == case]
    if len(found) != 1 or not found[0].isdigit():
        unread("%s/specs/%s: `%s` of %s is not one number" % (crate, name, word, case))
    return int(found[0])


def home(crate, name, word):
    """The file that defines a word, as the file given sees it: itself, or the home that one of those has which it uses."""
    if re.search(r"^(?:abbrev|unfoldable) pub %s :" % re.escape(word), spec(crate, name), re.M):
        return crate, name
    uses = re.findall(r"^(?:pub )?use Rattle\.(\w+)\.specs\.([\w.]+)\.\{([^}]*)\}", spec(crate, name), re.M)
    for other, module, words in uses:
        if word in re.split(r"[,\s]+", words):
            return home(other, module, word)
    unread("%s/specs/%s: where does `%s` come from?" % (crate, name, word))


def number(crate, name, word, arguments=(), seen=None):
    """The value of a definition by sums and products of numerals, of its arguments, of a geometry's numbers and of such definitions.
    Its geometry is the first argument; it is understood where the word is `seen` from its own section, with the geometry there."""
    crate, name = home(crate, name, word)
    place, over, names, right = equation(crate, name, word)
    arguments = list(arguments)
    if over:
        names = ["geo"] + names
        if seen and seen[0] == (crate, name, place):
            arguments.insert(0, seen[1])
    if len(names) != len(arguments):
        unread("%s/specs/%s: `%s` has %d arguments, not %d" % (crate, name, word, len(names), len(arguments)))
    if over and not isinstance(arguments[0], dict) or any(isinstance(a, dict) for a in arguments[over:]):
        unread("%s/specs/%s: the geometry that `%s` takes" % (crate, name, word))
    return valued(crate, name, right, dict(zip(names, arguments)), (crate, name, place))


def valued(crate, name, right, bound, section):
    """The number that an expression of a file is, where the names bound have these values."""
    seen = section, bound.get("geo")
    meaning = lambda head, given: bound[head] if head in bound and not given else number(crate, name, head, given, seen)
    tokens = re.findall(r"[()]|[^\s()]+", right) + ["end"]
    value = summed(tokens, meaning)
    return value if tokens == ["end"] and isinstance(value, int) else unread("`%s`, which is to be a number" % right)


def geometry():
    """The numbers of the geometry that the code has; its other fields are proofs."""
    crate, name, word, kind = TRAP
    declared = re.search(r"^pub record %s : Type 0 where\n((?:  .*\n|\n)*)" % kind, spec(crate, name), re.M)
    place, over, names, right = equation(crate, name, word)
    given = re.fullmatch(r"record \{ (.*;) \}", right)
    if not declared or not given or over or names:
        unread("%s/specs/%s: `%s`, or the record %s" % (crate, name, word, kind))
    values = dict(re.findall(r"(\w+) = ([^;]*);", given[1]))
    fields = re.findall(r"^  pub (\w+) : ℕ$", declared[1], re.M)
    if not fields or set(fields) - set(values):
        unread("%s/specs/%s: the numbers of %s" % (crate, name, word))
    return {field: valued(crate, name, values[field], {}, (crate, name, place)) for field in fields}


def summed(tokens, meaning):
    value = multiplied(tokens, meaning)
    while tokens[0] == "+":
        tokens.pop(0)
        value += multiplied(tokens, meaning)
    return value


def multiplied(tokens, meaning):
    value = applied(tokens, meaning)
    while tokens[0] == "*":
        tokens.pop(0)
        value *= applied(tokens, meaning)
    return value


def applied(tokens, meaning):
    """A word and the atoms that it is applied to, or an atom, or a number of a geometry."""
    if tokens[0] == "(" or tokens[0].isdigit():
        return atom(tokens, meaning)
    head, given = tokens.pop(0), []
    if "." in head:
        return worth(head, meaning)
    while tokens[0] not in ("+", "*", ")", "end"):
        given.append(atom(tokens, meaning))
    return meaning(head, given)


def worth(word, meaning):
    """The value of a word, or of a field of a geometry."""
    head, _, field = word.partition(".")
    whole = meaning(head, [])
    if not field:
        return whole
    return whole[field] if isinstance(whole, dict) and field in whole else unread("`%s`" % word)


def atom(tokens, meaning):
    head = tokens.pop(0)
    if head != "(":
        return int(head) if head.isdigit() else worth(head, meaning)
    value = summed(tokens, meaning)
    return value if tokens.pop(0) == ")" else unread("a sum in parentheses")


def offsets():
    """Each field of the record with the byte where it starts."""
    at, found = 0, {}
    _, over, names, right = equation(*ROW)
    if over or names:
        unread("%s: it has arguments" % ROW[2])
    for part in right.removesuffix("∷ []").split("∷"):
        piece = re.fullmatch(r"\((\d+), λ (\w+)\. \2\.(\w+)\)", part.strip())
        if not piece:
            unread("`%s` of %s" % (part.strip(), ROW[2]))
        found[piece[3]] = at
        at += int(piece[1])
    if at != number(*NUMBERS["TRAPCARD_RECORD"]) or sorted(found) != sorted(FIELDS.values()):
        unread("%s: it has %d bytes, %s" % (ROW[2], at, ", ".join(found)))
    return found


# The forms of a row: one that calls share, in front of the rest, and one that calls have of their own behind those.
SHARED = r"cond \((?P<test>[^{};]*)\) (?P<number>\d+) rest"
OWN = r"record \{ number = (?P<number>\d+); behind = [^{};]*; test = (?P<test>[^{};]*);? \}"


def rows():
    """The rows of the table of causes: the name of each with its number and its test."""
    text = spec(*TABLE)
    found = {}
    for name in re.findall(r"^abbrev pub (\w+_row) :", text, re.M):
        right = [right for _, _, _, right in equations(*TABLE, name)]
        row = len(right) == 1 and (re.fullmatch(SHARED, right[0]) or re.fullmatch(OWN, right[0]))
        if not row:
            unread("`%s`, a row of the table of causes" % name)
        found[name] = (int(row["number"]), row["test"])
    if len(found) != text.count("record {") + len(re.findall(r"\brest = cond ", text)):
        unread("the table of causes: a row has no definition of its own")
    return found


def causes():
    """Each constant of a cause with the number of its rows."""
    found, table = {}, rows()
    if sorted(name for names in CAUSES.values() for name in names) != sorted(table):
        raise SystemExit("boundary: a row of the table of causes has no constant of its own")
    for macro, names in CAUSES.items():
        numbers = set(table[name][0] for name in names)
        if macro in CHOSEN:
            chosen = clause(*CHOICE, CHOSEN[macro])
            if not all(re.fullmatch(r"λ st\. eqb \(choice_number \(.*\)\) %d" % chosen, table[name][1]) for name in names):
                unread("the rows of %s: they do not test for the number of %s" % (macro, CHOSEN[macro]))
            numbers.add(chosen)
        if len(numbers) != 1:
            unread("the rows of %s: they have several numbers" % macro)
        found[macro] = numbers.pop()
    if len(set(found.values())) != len(found):
        raise SystemExit("boundary: two constants have one number")
    return found


def specified():
    """Every constant with the number that the specifications have."""
    trap = geometry()
    values = {macro: number(*where) for macro, where in NUMBERS.items()}
    values.update((macro, trap[field]) for macro, field in OF_TRAP.items())
    values.update((macro, number(*where, [trap])) for macro, where in AT_TRAP.items())
    values.update((macro, clause(*where)) for macro, where in CLAUSES.items())
    places = offsets()
    values.update((macro, places[field]) for macro, field in FIELDS.items())
    values.update(causes())
    return values


# ---- the header


def header():
    """The header without its comments and its two blocks for C++."""
    text = re.sub(r"/\*.*?\*/", " ", HEADER.read_text(), flags=re.S)
    return re.sub(r'#ifdef __cplusplus\n(?:extern "C" \{|\})\n#endif\n', "", text)


def macros():
    """The names of the constants. A macro of another kind can't be read."""
    found = re.findall(r"^[ \t]*#[ \t]*define[ \t]+(.*?)[ \t]*$", header(), re.M)
    names = [re.fullmatch(r"(TRAPCARD_\w+)[ \t]+\S.*", text) for text in found if text != GUARD]
    if None in names or len(set(n[1] for n in names)) != len(names):
        unread("the macros of the header: each has a name of its own, TRAPCARD_…, and a value")
    return [n[1] for n in names]


def printed(names):
    """Each constant as a C program prints it."""
    lines = "".join('    printf("%%llu\\n", (%s) | 0ull);\n' % name for name in names)
    source = '#include <stdio.h>\n#include "trapcard.h"\nint main(void)\n{\n%s    return 0;\n}\n' % lines
    with tempfile.TemporaryDirectory() as out:
        program = Path(out) / "constants"
        gcc = ["gcc", "-std=c99", "-Wall", "-Wextra", "-Werror", "-I", HEADER.parent, "-x", "c", "-", "-o", program]
        if subprocess.run(gcc, input=source.encode()).returncode != 0:
            unread("the constants of the header: gcc refuses them")
        numbers = subprocess.run([program], stdout=subprocess.PIPE, check=True).stdout.split()
    return dict(zip(names, map(int, numbers)))


def prototypes():
    """Each function that the header declares: its result and its parameters. Inline functions are passed over."""
    text = re.sub(r"^[ \t]*#.*\n", "", header(), flags=re.M)
    text = re.sub(r"^static inline [^;{}]*\{\n(?:(?:[ \t].*)?\n)*\}\n", "", text, flags=re.M)
    found = {}
    for declaration in filter(None, map(squeezed, text.split(";"))):
        parts = re.fullmatch(r"(\w+) (\w+)\(([^()]*)\)", declaration)
        if not parts or parts[2] in found:
            unread("the header: " + declaration)
        found[parts[2]] = parts[1], [p.strip() for p in parts[3].split(",")]
    return found


# ---- the exported signatures


def declared(function, parameter):
    """A parameter of the source as C declares it."""
    name, kind = map(str.strip, parameter.split(":"))
    name = RENAMED.get((function, name), RENAMED.get(("any", name), name))
    if kind in SLICES:
        return [SLICES[kind] + name, "size_t %s_len" % name]
    if kind not in TYPES:
        unread("a parameter of type %s in %s" % (kind, function))
    return [(TYPES[kind] + " " + name).replace("* ", "*")]


FUNCTION = re.compile(r"pub (?P<extern>extern \"C\" )?fn (?P<name>\w+)\((?P<parameters>[^()]*)\) -> (?P<result>\w+) "
                      r"(?P<contract>(?:(?:requires|ensures)[^{}]*\{(?:[^{}]|\{[^{}]*\})*\} )*)\{(?P<body>[^{}]*)\}")


def code(folder):
    """The text of each source file without its comments, by module."""
    return {path.stem: squeezed(re.sub(r"//.*", "", path.read_text())) for path in sorted(folder.rglob("*.rt"))}


def contracts():
    """Each public function of the library: its module, parameters, result and contract. It exports none."""
    found = {}
    for module, text in code(LIBRARY).items():
        if "no_mangle" in text or 'extern "C"' in text:
            unread("%s.rt of firmware: a library exports nothing" % module)
        for function in re.finditer(FUNCTION.pattern.replace(r"\{(?P<body>[^{}]*)\}", r"\{"), text):
            found[function["name"]] = module, function["parameters"].strip(" ,"), function["result"], function["contract"]
    return found


def exported():
    """Each exported function: its result and its parameters, as C declares them. It has the name, the parameters and the contract of a
    function of the library, and only calls it."""
    library, found = contracts(), {}
    text = " ".join(code(SOURCES).values())
    for function in FUNCTION.finditer(text):
        name, parameters = function["name"], function["parameters"].strip(" ,")
        given = ", ".join(p.partition(":")[0].strip() for p in parameters.split(","))
        if name not in library or library[name][1:] != (parameters, function["result"], function["contract"]):
            unread("%s of firmware_c: no function of firmware has this name, these parameters and this contract" % name)
        if not re.fullmatch(r"firmware::%s::%s\( ?%s,? ?\)" % (library[name][0], name, re.escape(given)), function["body"].strip()):
            unread("%s of firmware_c: it does not just call the function of firmware" % name)
        parts = [declared(name, p) for p in parameters.split(",")]
        found[name] = TYPES.get(function["result"]), sum(parts, [])
    if not text.count("#[unsafe(no_mangle)]") == text.count("no_mangle") == text.count('extern "C"') == len(found) > 0:
        unread("an exported function of firmware_c")
    return found


# ---- the comparison


def differences(what, here, there):
    for name in sorted(here.keys() | there.keys()):
        if here.get(name) != there.get(name):
            yield "%s: the header has %s, %s %s" % (name, here.get(name, "none"), what, there.get(name, "none"))


def shown(functions):
    return {name: "%s (%s)" % (result, ", ".join(parameters)) for name, (result, parameters) in functions.items()}


functions, constants = prototypes(), printed(macros())
wrong = list(differences("the source", shown(functions), shown(exported())))
wrong += differences("the specifications", constants, specified())
for line in wrong:
    print("boundary: " + line)
if wrong:
    raise SystemExit(1)
print("boundary: the header declares %d functions as they are exported, and its %d constants are the specifications'"
      % (len(functions), len(constants)))
