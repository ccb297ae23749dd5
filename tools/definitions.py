#!/usr/bin/env python3
"""What a reader must believe: the files of docs/DEFINITIONS.txt. usage: tools/definitions.py  (run in the repository)

Holds that the list is whole: whatever a contract of an entry point cites stands in a listed file, and a listed file uses listed files alone
(besides the kit's library and the types that src/ declares). A line `FILE NAME ..` lists these definitions of the file alone: no contract may cite another,
and only what they use is followed. A line `invariant FILE` names a predicate that one call gives and the next asks for, of which
nothing else is said: a contract may cite it, but what it means is no part of the promise, so that its file is neither counted nor followed. Prints the lines
of each file without its `use` lines, blank lines and comments; then all together, also with the `use` lines counted, and with everything."""
import re
import sys
from pathlib import Path

ENTRY_POINTS = ["checker", "sets", "interpreter", "dispatcher", "editor", "files", "exports", "lines"]  # crates whose open functions are what others call
USE = re.compile(r"^\s*(?:ghost )?use Rattle\.(\w+)\.specs\.([\w.'-]+?)(?:\.\{([^}]*)\})?(?: as [\w'-]+)?;?$")


def listed():
    """The files to believe, each with the definitions that are named (none: all of them), and the invariants."""
    lines = [line.split() for line in Path("docs/DEFINITIONS.txt").read_text().splitlines() if line.strip() and not line.startswith("#")]
    files = [(line[0], line[1:]) for line in lines if line[0] != "invariant"]
    return files, [line[1] for line in lines if line[0] == "invariant"]


def part(path, names):
    """The lines of the definitions of a file that are named, with their comments; of all where none is."""
    lines = Path(path).read_text().splitlines()
    if not names:
        return lines
    blocks = [block.splitlines() for block in "\n".join(lines).split("\n\n")]
    found = [[block for block in blocks if any(re.match(rf"(?:abbrev|unfoldable) pub {re.escape(name)} :", line) for line in block)] for name in names]
    if not all(found):
        sys.exit(f"docs/DEFINITIONS.txt names what {path} does not define: {' '.join(names)}")
    return [line for blocks in found for block in blocks for line in block]


def words_of(lines):
    return set(re.findall(r"[^\s(){};,.]+", "\n".join(lines)))


def uses(path, chosen=()):
    """The files of definitions that a file, or what is chosen of it, uses, each with the names that it takes from there."""
    words = words_of(part(path, chosen)) if chosen else set()
    for line in Path(path).read_text().splitlines():
        m = USE.match(line)
        if m and Path("crates", m[1]).is_dir() and not m[2].startswith("declared."):
            names = [n.split(" as ")[-1].strip() for n in (m[3] or "").split(",")]
            if not chosen or words & set(names):
                yield f"crates/{m[1]}/specs/{m[2].split('.')[0]}.antt", names


def cited(crate):
    """The files that the contracts of the open functions of a crate's root cite, and those of functions for C wherever they stand."""
    root = Path(f"crates/{crate}/src/lib.rt")
    for source in sorted(root.parent.glob("*.rt")):
        text = source.read_text()
        contracts = "".join(re.findall(r'^pub (?:extern "C" )?fn .*?^\{$' if source == root else r'^pub extern "C" fn .*?^\{$', text, re.M | re.S))
        words = words_of([contracts])
        for path, names in uses(source):
            if words & set(names):
                yield path, words & set(names)


def size(lines):
    return sum(1 for line in map(str.strip, lines) if line and not line.startswith(("use ", "--")))


def main():
    entries, invariants = listed()
    files = [path for path, _ in entries]
    chosen = {path: set(names) for path, names in entries if names}
    needed = [(path, names, f"a contract of {crate}") for crate in ENTRY_POINTS for path, names in cited(crate)]
    needed += [(path, set(names), user) for user, own in entries for path, names in uses(user, own)]
    missing = sorted({(path, by) for path, names, by in needed if path not in files + invariants or path in chosen and not names <= chosen[path]})
    for path, by in missing:
        print(f"docs/DEFINITIONS.txt lacks {path}, which {by} uses")
    silent = [crate for crate in ENTRY_POINTS if not any(cited(crate))]  # contracts that this script no longer reads
    for crate in silent:
        print(f"no contract of {crate} cites a definition")
    for path, names in entries:
        print(f"{size(part(path, names)):5} {' '.join([path, *names])}")
    texts = [line for path, names in entries for line in part(path, names)]
    imports = sum(1 for line in texts if line.startswith("use "))
    total = size(texts)
    print(f"{total:5} lines of definitions in {len(files)} files ({total + imports} with imports, {len(texts)} with comments and blank lines too)")
    return 1 if missing or silent or len(set(files)) != len(files) else 0


sys.exit(main())
