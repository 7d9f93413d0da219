"""The instructions of each call, from callgrind's dumps: store and plain C in turn."""
import pathlib
import re
import sys

dumps = sorted(pathlib.Path(sys.argv[1]).glob("dump.*"), key=lambda p: int(p.suffix[1:]))
rows = []
for dump in dumps:
    text = dump.read_text()
    name = re.search(r"^desc: Trigger: Client Request: (.*)$", text, re.M)
    if name:
        rows.append((name.group(1), int(re.search(r"^(?:totals|summary): (\d+)", text, re.M).group(1))))
print("| call | this store, instructions | plain C | ratio |\n|---|---|---|---|")
for (name, ours), (same, plain) in zip(rows[::2], rows[1::2]):
    assert name == same
    print(f"| {name} | {ours} | {plain} | {ours / plain:.2f} |")
