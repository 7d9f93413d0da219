"""Copies what `rt` prints, a line as soon as it comes, and says in front of rt's own lines how far it is: crates proved of how many. What
the prover says of a crate is left out if the crate is proved.

usage: rt ci 2>&1 | progress.py
       rt run 2>&1 >/dev/null | progress.py NAME     in the folder of the crate NAME; of what it stands on, what rt proves anew
"""
import pathlib
import re
import sys

LIST = pathlib.Path(__file__).resolve().parent.parent / "crates.txt"


def uses():
    """crates.txt: what each crate uses."""
    lines = [line.partition("#")[0].partition(":") for line in LIST.read_text().splitlines()]
    return {head.split()[0]: rest.split() for head, _, rest in lines if head.strip()}


def reached(names, graph):
    """The crates of the repository among the names and all that they use."""
    found, todo = set(), list(names)
    while todo:
        name = todo.pop()
        if name in graph and name not in found:
            found.add(name)
            todo += graph[name]
    return found


def say(text):
    print(text, end="", flush=True)


def main(names):
    graph = uses()
    crates, proved, held, name = len(reached(names or graph, graph)), 0, "", ""
    for line in sys.stdin:
        if found := re.match(r"rt: chose --jobs \d+ for (\w+)$", line):
            name = found[1]
        if re.match(r"rt: \w+ (proved$|is kept: )", line) or names and line.startswith("logic=proved "):
            proved += 1
            say(f"[{proved} of {crates} crates] " + (f"{name} proved\n" if names else line))
            held = ""
        elif line.startswith("rt: ") and not names:
            say(held + line)
            held = ""
        else:
            held += line
    say(held if "logic=not-proved" in held or not names else "")


main(sys.argv[1:])
