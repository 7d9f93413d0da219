"""Draws the map of power cuts, docs/powercut.svg, from what the program `powercut` writes (crates/powercut/stdout).

usage: python3 -B docs/powercut.py >docs/powercut.svg

A row is a power, a cell a set of writes kept whole, or a write torn in three ways. Fails if a cut finds neither old nor new, or if a line
has more or fewer cuts than its waiting writes give, of which the photograph is the first."""
import sys
from pathlib import Path

MAP = Path(__file__).resolve().parent.parent / "crates/powercut/stdout"
COLOURS = {"o": "#4a7fb5", "n": "#f08a24"}
INK, FAINT = "#222", "#777"
LEFT, TOP, WIDTH = 60, 96, 1130

# The height of a row; the widths of a set's cell and of a tear, a third of a cell; the gap between the sets and the tears.
ROW, SET, TEAR, GAP = 11, 8, 3, 16

# What waits before the save, and the orders of a save, a word for each; row p is the loss behind the first p of them.
BEFORE = ["photograph"]
SAVE = ["log block"] * 3 + ["descriptor", "header", "flush"]
APPLY = ["home block"] * 30 + ["flush", "header of the empty log", "flush"]
SCENARIOS = {
    "append": ("The log has room: 6 orders", SAVE),
    "apply": ("The log has no room and is applied first: 39 orders", APPLY + SAVE),
}
FEW = 6  # up to so many waiting writes every set is tried
WAYS = 3  # the ways in which a write is torn


def tries(orders):
    """How many sets and how many tears are tried behind these orders: by the writes since the last flush, the photograph's too. A header is
    not torn."""
    writes = BEFORE + orders
    waiting = writes[len(writes) - writes[::-1].index("flush") if "flush" in writes else 0:]
    torn = sum(not word.startswith("header") for word in waiting)
    n = len(waiting)
    return 2**n if n <= FEW else 2 * n + 2, WAYS * (torn + 1) if torn else 0


def rows():
    """The characters of each scenario's lines, by power: those of the sets, and those of the tears."""
    *lines, last = MAP.read_text().splitlines()
    found = {name: [] for name in SCENARIOS}
    for line in lines:
        name, power, cells = line.split(" ")
        sets, tears = tries(SCENARIOS[name][1][:int(power)])
        if int(power) != len(found[name]) or set(cells) - set(COLOURS) or len(cells) != sets + tears:
            sys.exit(f"{MAP.name}: {line}")
        found[name].append((cells[:sets], cells[sets:]))
    if last != "every save is whole" or any(len(found[n]) != len(SCENARIOS[n][1]) + 1 for n in found):
        sys.exit(f"{MAP.name}: {last}")
    return found


def text(x, y, words, size=12, fill=INK, anchor="start", weight="normal"):
    return (f'<text x="{x}" y="{y}" font-size="{size}" fill="{fill}" text-anchor="{anchor}" '
            f'font-weight="{weight}">{words}</text>')


def boxes(places, y, width, paint):
    """Cells of one row that look the same, one path."""
    high = ROW - 1
    return f'<path d="{"".join(f"M{x} {y}h{width}v{high}h-{width}z" for x in places)}" {paint}/>'


def row(y, torn_at, sets, tears):
    """The cells of a line; its tears start at a place of their own, those of one write side by side."""
    for letter, colour in COLOURS.items():
        cells = [LEFT + SET * i for i, c in enumerate(sets) if c == letter]
        thirds = [torn_at + (WAYS * TEAR + 1) * (i // WAYS) + TEAR * (i % WAYS) for i, c in enumerate(tears) if c == letter]
        yield from (boxes(places, y, width, f'fill="{colour}"') for places, width in ((cells, SET - 1), (thirds, TEAR)) if places)


def phases(orders):
    """Runs of equal orders: the word, the first row and the last row behind which they lie."""
    runs = []
    for row, word in enumerate(orders, 1):
        if runs and runs[-1][0] == word:
            runs[-1][2] = row
        else:
            runs.append([word, row, row])
    return runs


def label(word, first, last):
    if first < last:
        return f"{last - first + 1} {word}s written"
    return "flushed" if word == "flush" else f"{word} written"


def panel(y, head, orders, lines):
    """A scenario from y on: its head, a row for each power, and what the last order before the loss was."""
    most_sets, most_tears = (max(map(len, part)) for part in zip(*lines))
    torn_at = LEFT + SET * most_sets + GAP
    out = [text(LEFT, y, head, 14, weight="bold"), text(LEFT - 8, y, "orders", 10, FAINT, "end"), text(torn_at, y, "torn", 10, FAINT)]
    y += 12
    for power, line in enumerate(lines):
        at = y + ROW * power
        out += [text(LEFT - 8, at + 9, power, 9, FAINT, "end"), *row(at, torn_at, *line)]
    side = torn_at + (WAYS * TEAR + 1) * most_tears // WAYS + 10
    out.append(text(side + 8, y + 9, "the photograph waits", 10, FAINT))
    for word, first, last in phases(orders):
        top, bottom = y + ROW * first, y + ROW * (last + 1) - 1
        bold = word.startswith("header")
        out.append(f'<path d="M{side} {top}h4V{bottom}h-4" fill="none" stroke="{INK if bold else FAINT}"/>')
        done = ": the save is done" if last == len(orders) else ""
        out.append(text(side + 8, (top + bottom) / 2 + 3.5, label(word, first, last) + done, 10, INK if bold else FAINT,
                        weight="bold" if bold else "normal"))
    return out, y + ROW * len(lines)


def legend(y, counts):
    items = [(f"all three blocks {word}: {counts[c]:,} cuts", f'fill="{COLOURS[c]}"') for c, word in [("o", "old"), ("n", "new")]]
    items.append(("a mixture, or anything else: none", f'fill="none" stroke="{FAINT}" stroke-dasharray="2"'))
    out = []
    for i, (words, paint) in enumerate(items):
        out += [boxes([LEFT + 240 * i], y - 9, ROW - 1, paint), text(LEFT + 240 * i + 16, y, words)]
    return out


def notes(y):
    lines = [
        "A row is a power loss behind so many orders of the save. A cell on the left is a set of waiting writes, kept whole.",
        f"Up to {FEW} waiting: every set, none first and all last. More: none, each alone kept, each alone lost, all.",
        "A cell on the right is a waiting write that was torn, a third for each way: first half kept, second half, every other byte.",
        "Each write is torn alone, oldest first, and at last all at once. What is not torn is kept; block 0, the header, is never torn.",
        "Before the save a block of a photograph, written directly, waits: it is the oldest write up to the first flush. Found, it is byte by byte",
        "as it was or the photograph, and the colour is that of the other blocks.",
        "New exactly where the save's own header was kept or flushed and the log found is the log written.",
        "Each cell stands for the recovery behind that cut and for every cut inside the recovery, recovered again.",
    ]
    return [text(LEFT, y + 16 * i, line, 11, FAINT) for i, line in enumerate(lines)]


def main():
    found = rows()
    counts = {c: sum(part.count(c) for lines in found.values() for line in lines for part in line) for c in COLOURS}
    out = [text(LEFT, 34, "A save of three blocks with a photograph waiting, cut at every order", 20, weight="bold")]
    out += legend(62, counts)
    y = TOP
    for name, (head, orders) in SCENARIOS.items():
        drawn, y = panel(y, head, orders, found[name])
        out += drawn
        y += 34
    out += notes(y)
    height = y + 128
    print(f'<svg xmlns="http://www.w3.org/2000/svg" viewBox="0 0 {WIDTH} {height}" width="{WIDTH}" height="{height}" '
          'font-family="Helvetica, Arial, sans-serif">')
    print(f"<title>The map of power cuts: {counts['o']} cuts find the old blocks, {counts['n']} the new, none a mixture</title>")
    print(f'<rect width="{WIDTH}" height="{height}" fill="#fff"/>')
    print("\n".join(out))
    print("</svg>")


main()
