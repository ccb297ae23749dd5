#!/usr/bin/env python3
"""Figures of a landing: what a change moved and what stayed. usage: tools/landing.py BASE [HEAD]  (commits; run in the repository)

Groups: definitions (the files of docs/DEFINITIONS.txt), promises (the requires and ensures lines of src/), laws (other specs), code (other lines of
src/), proofs, must-fail edits, Rust (oracle, compare, tool, examples), other. For each: files touched of all, lines removed and added, and the share
of the group's lines at BASE that stayed. A file that only moved counts as it stood."""
import subprocess
import sys

GROUPS = ["definitions", "promises", "laws", "code", "proofs", "must-fail edits", "Rust", "other"]


def git(*words):
    return subprocess.run(["git", *words], capture_output=True, check=True).stdout.decode(errors="replace")


def listed(commit):
    """The files of definitions at a commit; none where it has no list yet."""
    try:
        text = git("show", f"{commit}:docs/DEFINITIONS.txt")
    except subprocess.CalledProcessError:
        return set()
    return {line.split()[0] for line in text.splitlines() if line.strip() and not line.startswith("#")}


def group(path, line, definitions):
    if path.endswith(".antt") and "/specs/" in path:
        return "definitions" if path in definitions else "laws"
    if "/proofs/" in path:
        return "proofs"
    if "/must-fail/" in path:
        return "must-fail edits"
    if path.endswith(".rt"):
        return "promises" if line.strip().startswith(("requires", "ensures")) else "code"
    if path.endswith((".rs", "Cargo.toml")):
        return "Rust"
    return "other"


def main(base, head="HEAD"):
    definitions = listed(base) | listed(head)
    total = dict.fromkeys(GROUPS, 0)
    files = {g: set() for g in GROUPS}
    for path in git("ls-tree", "-r", "--name-only", base).splitlines():
        if not path.startswith("vectors/"):
            for line in git("show", f"{base}:{path}").splitlines():
                total[group(path, line, definitions)] += 1
                files[group(path, line, definitions)].add(path)
    removed, added, touched = dict.fromkeys(GROUPS, 0), dict.fromkeys(GROUPS, 0), {g: set() for g in GROUPS}
    path, in_hunk = "", False
    for line in git("diff", "-M70", "--unified=0", base, head, "--", ".", ":!vectors").splitlines():
        if line.startswith("diff "):
            in_hunk = False
        elif not in_hunk and line.startswith(("--- ", "+++ ")):
            path = line[6:] if line[4:] != "/dev/null" else path
        elif line.startswith("@@"):
            in_hunk = True
        elif in_hunk and line[:1] in "+-":
            g = group(path, line[1:], definitions)
            touched[g].add(path)
            (added if line[0] == "+" else removed)[g] += 1
    print("| group | files touched | lines removed | lines added | stayed |")
    print("|---|---|---|---|---|")
    for g in GROUPS:
        if total[g] + added[g]:
            stayed = f"{100 * (total[g] - removed[g]) / total[g]:.1f} % of {total[g]}" if total[g] else "new"
            print(f"| {g} | {len(touched[g])} of {len(files[g] | touched[g])} | {removed[g]} | {added[g]} | {stayed} |")


if len(sys.argv) not in (2, 3):
    sys.exit(__doc__)
main(*sys.argv[1:])
