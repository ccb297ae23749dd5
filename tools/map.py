#!/usr/bin/env python3
"""What docs/MAP.md names is there. usage: tools/map.py  (run in the repository)

Holds that each `name` behind a CRATE/FILE of a line "definition" is defined in that file; that each law of a line "contract or theorem" is (one that has a
CRATE/FILE in brackets behind it: in that file; one with a hyphen or an underscore in its name: in one file of specs/ or proofs/, or it is a function), and
that each `crate::..::name` there stands in that crate's code; that each edit and attack has its file, and that each vector is a case of vectors/. A mention
is not enough: a law that is taken away is missing.
Prints what is missing; the exit status is then 1."""
import re
import sys
from pathlib import Path

TEXT = re.sub(r"\n +(?![ -])", " ", Path("docs/MAP.md").read_text())  # an item in one line
CASES = {line.partition(":")[2].strip() for path in Path("vectors").glob("*.txt") for line in path.read_text().splitlines() if line.startswith("name:")}
PLACE = re.compile(r"\b([a-z_]+)/([A-Z]\w*)|`([^`]+)`|(;)")
LAW = re.compile(r"`([^`\s]+)`(?: \(([a-z_]+)/([A-Z]\w*)\))?")


def specs(crate, file):
    """The file of definitions and laws; laws that rest on definitions with a must-fail edit stand in proofs/."""
    return next((path for path in (Path(f"crates/{crate}/{folder}/{file}.antt") for folder in ("specs", "proofs")) if path.exists()),
                Path(f"crates/{crate}/specs/{file}.antt"))


def all_specs():
    return [path for folder in ("specs", "proofs") for path in Path("crates").glob(f"*/{folder}/*.antt")]


def defines(path, name):
    """Whether the file has a line that defines the name: a definition, a law, a record, a field or a constructor."""
    line = rf"^\s*(?:(?:unfoldable|abbrev|pub|record|data) )*{re.escape(name)} (?:[({{].*)?:"
    return path.exists() and re.search(line, path.read_text(), re.M)


def in_code(name, crates="*"):
    """Whether the code of these crates has a function, a type or a module of this name."""
    code = rf"\b(?:fn|struct|enum|mod) {re.escape(name)}\b"
    return any(re.search(code, path.read_text()) for path in Path("crates").glob(f"{crates}/src/**/*.rt"))


def missing_names(item):
    """The names of an item that the file named before them does not define."""
    where = None
    for crate, file, names, end in PLACE.findall(item):
        if end:
            where = None
        elif crate:
            where = specs(crate, file)
        elif where:
            yield from (f"{where} does not define {name}" for name in names.split() if not defines(where, name))


def missing_laws(item):
    """The laws and the functions of an item that are nowhere."""
    for name, crate, file in LAW.findall(item):
        if "::" in name:
            first, *_, last = name.split("::")
            if not in_code(last, first if first.islower() else "*"):
                yield f"no code has {name}"
        elif crate:
            if not defines(specs(crate, file), name):
                yield f"{specs(crate, file)} does not prove {name}"
        elif re.search("[-_]", name) and not any(defines(path, name) for path in all_specs()) and not in_code(name):
            yield f"no specs prove {name}"


def missing_edits(item):
    """Of edits `CRATE/NAME, CRATE/NAME`, those that have no file."""
    for crate, name in re.findall(r"\b([a-z_]+)/([a-z0-9_]+)", item):
        if not Path(f"crates/{crate}/must-fail/{name}.edit").exists():
            yield f"there is no edit {crate}/{name}"


def missing_case(item):
    name = item.split()[0]
    if name != "none:" and name not in CASES:
        yield f"there is no vector {name}"


def missing():
    for kind, item in re.findall(r"^ +- (definition|contract or theorem|edit|attack|vector): (.*)$", TEXT, re.M):
        if kind == "definition":
            yield from missing_names(item)
        elif kind == "contract or theorem":
            yield from missing_laws(item)
        elif kind == "edit":
            yield from missing_edits(item)
        elif kind == "vector":
            yield from missing_case(item)
        elif not Path(f"tools/attacks/{item.strip()}.edit").exists():
            yield f"there is no attack {item}"
    for row in re.findall(r"^\| (?!Near|Point)(.*) \|$", TEXT, re.M):
        *_, edits, case = row.split(" | ")
        yield from missing_edits(edits)
        yield from missing_case(case)


lost = list(missing())
print("\n".join(lost), end="\n" if lost else "")
sys.exit(1 if lost else 0)
