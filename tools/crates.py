#!/usr/bin/env python3
"""Closes the lists of crates.txt: tools/crates.py [--check]   (run in the repository)

rt hands a crate those crates that its line lists, and a walk also names the types inside the types that it uses; so each list holds all that the crate
reaches. A person writes what a crate uses; this adds what that uses, the nearest first, and keeps order and comments. --check only says whether it is so."""
import sys
from pathlib import Path

path = Path("crates.txt")
lines = path.read_text().splitlines()


def parts(line):
    """The name on a line, with the word `staticlib` where it has it, and what it lists; None where it names no crate."""
    head, colon, rest = line.split("#")[0].partition(":")
    return (head.strip(), rest.split()) if colon else None


uses = {head.split()[0]: rest for head, rest in filter(None, map(parts, lines))}
place = {name: k for k, name in enumerate(uses)}


def reached(name, seen):
    for d in uses.get(name, []):
        if d not in seen:
            seen.add(d)
            reached(d, seen)
    return seen


def written(line):
    if not parts(line):
        return line
    head, _ = parts(line)
    below = reached(head.split()[0], set())
    own = sorted((d for d in below if d in place), key=lambda d: -place[d])
    return f"{head}: {' '.join(own + sorted(d for d in below if d not in place))}".rstrip()


new = [written(line) for line in lines]
wrong = [a for a, b in zip(lines, new) if a != b]
late = [f"{n} stands before {d}, which it uses" for n in uses for d in uses[n] if d in place and place[d] > place[n]]
print("\n".join(late), end="\n" if late else "")
if "--check" in sys.argv[1:]:
    for line in wrong:
        print(f"not closed: {parts(line)[0]}")
elif wrong:
    path.write_text("\n".join(new) + "\n")
sys.exit(1 if late or ("--check" in sys.argv[1:] and wrong) else 0)
