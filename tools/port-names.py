#!/usr/bin/env python3
"""Turns this repository's own definitions and lemmas to the spelling of today's Rattle: words in snake case, facts in camel case.

usage: tools/port-names.py        at the top, once, after the port.py of the kit

A definition in lower camel case (leastSum) is written least_sum, wherever it stands: specs/, proofs/, the clauses and comments of src/, must-fail/, attacks,
the documents. A definition that yields a type is a fact, and begins with a capital. A lemma keeps its dashes; some that port.py gave an underscore, since a
function of src/ is called so, get their dash back where the definition beside them now has that name.
"""

import glob
import os
import re

WORD = r"[A-Za-z_\u03b1-\u03c9\u2080-\u2089][\w'\u2080-\u2089]*"
DECLARED = re.compile(r"^\s*(?:abbrev |unfoldable |pub |data |record )*(" + WORD + r")(?: [({].*)? :(?: .*)?$")
CAMEL = re.compile(r"^[a-z][a-z0-9']*(?:[A-Z][a-z0-9']*)+$")

# Lemmas that port.py spelled as a function of src/ or a field is spelled: their dash comes back.
DASHED = ["left_alone", "end_same", "end_stays", "line_before", "size_in", "address_read", "load_read", "end_test", "entries_from", "end_before", "answer_at",
          "same_end", "end_fits", "offset_word", "ends_of", "start_right", "no_words", "same_known", "in_order", "sum_fits"]
# A lemma of these files alone.
SAME_KIND = "crates/edits/specs/"

# Rules over a set of facts, as files name them for themselves.
LOCAL = ["boundsRules", "factRules", "walkRules", "verdictRules", "plainBlock", "inRange"]

# Definitions that yield a type.
FACTS = ["startedIf", "editedIf", "setCheckedIf", "setRanIf", "checkedIf", "reportedTo", "ranIf", "dispatchedIf"]


def files(*patterns):
    for pattern in patterns:
        for p in sorted(glob.glob(pattern, recursive=True)):
            if os.path.isfile(p) and "/out/" not in p and not p.endswith(".patch"):
                yield p


def read(p):
    with open(p, encoding="utf-8") as f:
        return f.read()


def snake(name):
    return re.sub(r"(?<=[a-z0-9'])([A-Z])", lambda m: "_" + m.group(1).lower(), name)


def word(name, behind=""):
    return re.compile(r"(?<![\w'" + behind + r"-])" + re.escape(name) + r"(?![\w'-])")


def main():
    antt = list(files("crates/*/specs/**/*.antt", "crates/*/proofs/**/*.antt"))
    names = set()
    for p in antt:
        for line in read(p).splitlines():
            m = DECLARED.match(re.sub(r"--.*", "", line))
            if m and not line.startswith("use") and CAMEL.match(m.group(1)):
                names.add(m.group(1))
    turned = {n: snake(n) for n in [*names, *LOCAL]} | {n: n[0].upper() + n[1:] for n in FACTS}
    by = re.compile(r"(?<![\w'-])(" + "|".join(sorted(turned, key=len, reverse=True)) + r")(?![\w'-])")
    dashed = [(word(n, "."), n.replace("_", "-")) for n in DASHED]
    for p in files("crates/*/specs/**/*.antt", "crates/*/proofs/**/*.antt", "crates/*/src/**/*.rt", "crates/*/must-fail/*.edit", "tools/*", "tools/attacks/*",
                   "docs/*.md", "docs/landings/*.md", "README.md"):
        if os.path.basename(p) == "port-names.py":
            continue
        text = old = read(p)
        if p.endswith(".antt"):
            for pattern, to in dashed:
                text = pattern.sub(to, text)
            if p.startswith(SAME_KIND):
                text = word("same_kind", ".").sub("same-kind", text)
        text = by.sub(lambda m: turned[m.group(1)], text)
        if text != old:
            with open(p, "w", encoding="utf-8") as f:
                f.write(text)
    print(f"{len(turned)} names turned")


main()
