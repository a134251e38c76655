#!/usr/bin/env python3
"""Brings the names and files of the pages to those that stand in specs/ and proofs/ today.

usage: respell_pages.py TOP     on the checkout TOP, after the code; a second run changes nothing

A name in a code span that no file declares is one with other signs between its words (judged-unique, judged_unique) or in
camelCase (isName, is_name): where today's name is told by that alone, it takes its place. A file of specs/ that is gone, and whose theorems
stand in the file of that name in proofs/, is named there; where a line names a theorem that moved, both files are named.
It prints what it leaves.
"""

import glob
import os
import re
import sys

DECLARED = re.compile(r"(?m)^\s*(?:(?:unfoldable|abbrev|opaque|pub|record|data) )*([^\s:(){}]+)[^\n]* :(?: |$)")
SPAN = re.compile(r"`([^`\n]+)`")
NAME = re.compile(r"[A-Za-z][A-Za-z0-9_'-]*")


def bare(name):
    """The words of the name, by dashes and by its big letters."""
    return tuple(it.lower() for it in re.split(r"[-_]|(?<=[a-z0-9'])(?=[A-Z])", name) if it)


def todays(name, among):
    """Returns today's spellings of a name among these: those that begin as large or small as it does, if there are any."""
    found = {it for it in among if bare(it) == bare(name)}
    return {it for it in found if it[0].isupper() == name[0].isupper()} or found


def main(top):
    declared = {}
    for file in glob.glob(f"{top}/crates/*/specs/*.antt") + glob.glob(f"{top}/crates/*/proofs/*.antt"):
        with open(file, encoding="utf-8") as it:
            declared[os.path.relpath(file, f"{top}/crates")] = set(DECLARED.findall(it.read()))
    every = set().union(*declared.values())
    # what the repository calls so elsewhere: functions, types, folders
    others = set()
    for file in glob.glob(f"{top}/crates/*/src/*.rt"):
        with open(file, encoding="utf-8") as it:
            others |= set(re.findall(r"\w+", it.read()))
    left = []
    pages = [f"{top}/README.md", *glob.glob(f"{top}/docs/*.md"), *glob.glob(f"{top}/tests/*.md")]
    for page in sorted(pages):
        if os.path.basename(page).startswith("PORT"):
            continue
        with open(page, encoding="utf-8") as it:
            lines = it.read().split("\n")
        for at, line in enumerate(lines):
            files = [it.removeprefix("crates/") for it in SPAN.findall(line) if it.endswith(".antt")]
            for file in files:
                moved = file.replace("/specs/", "/proofs/")
                if file not in declared and moved in declared and moved not in files:
                    line = line.replace(f"{file}`", f"{moved}`")
            for name in [it for it in SPAN.findall(line) if NAME.fullmatch(it)]:
                files = [it.removeprefix("crates/") for it in SPAN.findall(line) if it.endswith(".antt")]
                here = [it for it in files if it in declared]
                inside = set().union(*[declared[it] for it in here]) if here else every
                if name in inside or not here and (name in others or len(bare(name)) == 1):
                    continue
                found = todays(name, inside)
                # a theorem that moved to proofs/
                homes = [it.replace("/specs/", "/proofs/") for it in here]
                homes = [it for it in homes if it in declared and it not in files and todays(name, declared[it])]
                if len(homes) == 1 and not any(it[0].isupper() == name[0].isupper() for it in found):
                    found = todays(name, declared[homes[0]])
                    was = homes[0].replace("/proofs/", "/specs/")
                    line = line.replace(f"{was}`", f"{was}`, `{homes[0]}`", 1)
                if len(found) == 1:
                    line = line.replace(f"`{name}`", f"`{found.pop()}`")
                elif here or found:
                    left.append(f"{os.path.relpath(page, top)}:{at + 1}: {name}")
            lines[at] = line
        with open(page, "w", encoding="utf-8") as it:
            it.write("\n".join(lines))
    print("\n".join(left))


main(sys.argv[1])
