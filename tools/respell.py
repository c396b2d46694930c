#!/usr/bin/env python3
"""Brings the repository's own definitions and lemmas to today's spelling: snake case for functions, lemmas and fields,
upper camel case for facts and types.

usage: python3 tools/respell.py [FOLDER]    once, right after the toolchain's port.py; FOLDER is a checkout (default: here)

It collects the names that specs/ and proofs/ define, and replaces them as whole words in .antt files and in the clauses
of .rt files, not in comments and strings. Names of src/, of goals and of the toolchain keep their spelling. It stops,
with nothing written, where two names would fall together.
"""
import os
import re
import sys

# Names whose plain spelling is taken, or which follow a lemma's form: the left side, with a dash between two names.
SPECIAL = {
    "Row-fault": "IsRowFault",
    "length-rows-of": "length-rows_of",
    "row-at-getD": "row_at-get_or",
    "get_or-map-range_with_len": "get_or-map-range_with_len",
}
# Lemmas of answer files, beside the goals, whose names the toolchain makes; parameters and other local names.
LOCAL = (
    "by-content finally-more last-leads not-ended shown-is shown-once total-all total-more turned-back two-rows "
    "after-a after-b down-a down-b no-wake rail-energy rail-power same-a same-b told-by-device Unfit-table up-a up-b"
).split()
DEFINES = re.compile(r"^\s*(?:(?:pub|abbrev|unfoldable|record|data)\s+)*([^\s(){};:,.\"]+)\s*(?:[({].*)?(?:\s:\s|\s:$)")
WORD = re.compile(r"\"[^\"]*\"|[^\s(){}\[\];:,.\"`@«»]+")
ANSWERS = ("Answers.antt", "Invariants.antt")


def files(root):
    for folder, folders, names in os.walk(os.path.join(root, "crates")):
        folders[:] = sorted(f for f in folders if f != "out")
        for name in sorted(names):
            if name.endswith((".antt", ".rt")):
                yield os.path.join(folder, name)


def today(name):
    if name in SPECIAL:
        return SPECIAL[name]
    operator = re.match(r"(.*)-(\+\+)$", name)
    if operator:
        return today(operator.group(1)) + "-" + operator.group(2)
    if name[0].isupper():
        return "".join(part[:1].upper() + part[1:] for part in re.split("[-_]", name))
    return re.sub(r"(?<=[a-z])([A-Z])", lambda m: "_" + m.group(1).lower(), name.replace("-", "_"))


def defined(root):
    found = set(LOCAL)
    for path in files(root):
        if path.endswith(".antt") and not path.endswith(ANSWERS):
            with open(path) as text:
                for line in text:
                    name = None if line.lstrip().startswith(("--", "use ")) else DEFINES.match(line)
                    if name:
                        found.add(name.group(1))
    return found


def main():
    root = sys.argv[1] if len(sys.argv) > 1 else "."
    names = defined(root)
    table = {name: today(name) for name in sorted(names) if today(name) != name}
    turned = list(table.values())
    clash = {name for name in turned if turned.count(name) > 1 or name in names}
    if clash:
        sys.exit("would fall together: " + ", ".join(sorted(clash)))
    for path in files(root):
        with open(path) as text:
            old = text.read()
        comment = "--" if path.endswith(".antt") else "//"
        lines = [
            line if line.lstrip().startswith(comment) else WORD.sub(lambda m: table.get(m.group(0), m.group(0)), line)
            for line in old.split("\n")
        ]
        if "\n".join(lines) != old:
            with open(path, "w") as text:
                text.write("\n".join(lines))
    print(f"{len(table)} names")


main()
