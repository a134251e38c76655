#!/usr/bin/env python3
"""Respells the definitions and lemmas that this repository declares in specs/ and proofs/ as today's Rattle spells names.

usage: respell.py TOP     once, right after port.py, on the checkout TOP

camelCase becomes snake_case, and types (Type 0) become CamelCase. Of two words that a dash joins, the dash stays where
both are names of definitions, as in length-drop; a plain word is added with '_'. Names that Rust declares, names of a
function's own proof (proofs/F/), strings and outputs stay. It turns specs/, proofs/, the contracts of src/, must-fail
edits and the code spans of the pages; it stops where two names would fall together.
"""

import collections
import os
import re
import sys

NAME = r'[^\s(){}.;,@"«»]+'
TOKEN = re.compile(rf'(?<![^\s(){{}};,@"«».\x60|]){NAME}')
DECLARES = re.compile(
    rf"(?m)^[ \t]*(?:pub )?(?:unfoldable |abbrev )?(?:pub )?(record |data |mutual )?(?:pub )?({NAME})(?=[^\n:=]*(?<=[\s)}}]):(?:[ \n]))([^\n]*)"
)
TYPES = {"stepIn": "StepIn", "linedIn": "LinedIn", "headedIn": "HeadedIn", "pick": None}
# Their new names stand elsewhere too, but nowhere in one scope: a call of a function, a constructor of another module.
APART = {"isName", "readNumber", "tooLong"}
KEEP = {"λ", "if", "where", "use", "unfolding", "module", "mutual", "infixl", "infixr", "infix"}


def files(top, folder, ends):
    for at, dirs, names in os.walk(os.path.join(top, folder)):
        dirs[:] = sorted(d for d in dirs if d not in ("out", "target", ".git"))
        for n in sorted(names):
            if n.endswith(ends):
                yield os.path.join(at, n)


def read(path):
    with open(path, encoding="utf-8") as f:
        return f.read()


def snake(word):
    return re.sub(r"(?<=[a-z0-9])[A-Z]", lambda m: "_" + m[0].lower(), word)


def main():
    top = sys.argv[1]
    crates = os.path.join(top, "crates")
    antt = list(files(top, "crates", ".antt"))
    rust = list(files(top, "crates", ".rt"))
    texts = {p: read(p) for p in antt + rust}
    # a function's own proof: proofs/F/..
    own = {p for p in antt if re.search(r"/proofs/.+/[^/]+$", p)}

    declared = collections.defaultdict(set)
    for p in antt:
        if p in own:
            continue
        for m in DECLARES.finditer(re.sub(r"--[^\n]*", "", texts[p])):
            declared[m.group(2)].add(p)
    of_rust = set()
    for p in rust:
        of_rust |= set(re.findall(r"\b(?:const|struct|enum|type) (\w+)", texts[p]))
        of_rust |= set(re.findall(r"(?m)^ +(?:pub )?(\w+): [^=]*,$", texts[p]))

    # every word that stands in antt, or in a clause, to see names that would fall together; a function's name stands in neither
    ghost = re.compile(r"ghost\s+use\b[^;]*;|(?:requires|ensures)\*?\s*(?:\w+\s*)?\{[^\n]*")
    words = collections.Counter()
    for p in antt:
        words.update(TOKEN.findall(re.sub(r"\.proofs\.[^.\s]+\.|--[^\n]*", "", texts[p])))
    for p in rust:
        for m in ghost.finditer(texts[p]):
            words.update(TOKEN.findall(m[0]))

    # words that are names of definitions, for the dash
    names = {snake(n) for n in declared if "-" not in n}
    imported = set()
    for p in antt:
        for m in re.finditer(r"(?m)^(?:pub )?use \S+\.\{([^}]*)\}", texts[p]):
            imported |= {w.split(" as ")[0].strip() for w in m.group(1).split(",")}
    names |= {w for w in imported if re.fullmatch(r"[A-Za-z][A-Za-z0-9_']*", w)}
    names |= {"append", "map", "nil", "cons", "suc"}

    table, clash = {}, []
    for n in sorted(declared):
        if n in KEEP or n in of_rust or re.search(r"[^\x00-\x7f]", n):
            continue
        if n in TYPES:
            new = TYPES[n] or n
        elif n[0].isupper() and "-" not in n:
            new = n
        else:
            parts = [snake(w) for w in n.split("-")]
            new = parts[0]
            for a, b in zip(parts, parts[1:]):
                new += ("-" if a in names and b in names else "_") + b
        if new != n:
            table[n] = new
    meet = collections.defaultdict(list)
    for n, new in table.items():
        meet[new].append(n)
    for new, olds in meet.items():
        camel = [n for n in olds if "-" not in n]
        if len(olds) > 1 and len(camel) == 1 and not words.get(new):
            # the definition takes the spelling, and the lemma beside it stays
            for n in olds:
                if n != camel[0]:
                    print(f"stays: {n} (beside {new})")
                    del table[n]
        elif len(olds) > 1 or words.get(new) and olds[0] not in APART:
            clash.append((new, olds, words.get(new, 0)))
            for n in olds:
                del table[n]
    for new, olds, n in clash:
        print(f"stays: {' '.join(olds)} (would be {new}, which stands {n} times)")

    # a module's own local binder of the same word is turned with it, so nothing is captured; behind a dot in a function's own
    # proof stand names that Rattle makes, which stay
    def turn(text, dotted=True):
        return TOKEN.sub(lambda m: table.get(m[0], m[0]) if dotted or m.string[m.start() - 1 : m.start()] != "." else m[0], text)

    comment = re.compile(r"(?<![^\s(){}.;,@\"«»])--[^\n]*")

    def turn_antt(text, dotted):
        out, at = [], 0
        for m in comment.finditer(text):
            out.append(turn(text[at : m.start()], dotted))
            out.append(TOKEN.sub(lambda w: table.get(w[0], w[0]) if re.search("[a-z][A-Z]", w[0]) else w[0], m[0]))
            at = m.end()
        out.append(turn(text[at:], dotted))
        return "".join(out)

    span = re.compile(r"\x60[^\x60\n]+\x60")
    changed = 0
    for p in antt:
        new = turn_antt(texts[p], p not in own)
        if new != texts[p]:
            changed += 1
            open(p, "w", encoding="utf-8").write(new)
    for p in rust:
        new = ghost.sub(lambda m: turn(m[0]), texts[p])
        if new != texts[p]:
            changed += 1
            open(p, "w", encoding="utf-8").write(new)
    for p in files(top, "crates", ".edit"):
        old = read(p)
        new = old if "file: src/" in old else "".join(turn(l) if l.startswith(("old:", "new:")) else l for l in old.splitlines(True))
        if new != old:
            changed += 1
            open(p, "w", encoding="utf-8").write(new)
    pages = [os.path.join(top, "README.md"), *files(top, "docs", ".md"), *files(top, "tests", ".md")]
    for p in pages:
        if not os.path.exists(p) or p.endswith("PORT.md"):
            continue
        old = read(p)
        new = span.sub(lambda m: turn(m[0]) if not m[0].startswith("\x60tyttmose") else m[0], old)
        if new != old:
            changed += 1
            open(p, "w", encoding="utf-8").write(new)
    with open(os.path.join(top, "tools", "respelled.tsv"), "w", encoding="utf-8") as f:
        for n in sorted(table):
            f.write(f"{n}\t{table[n]}\n")
    print(f"{len(table)} names, {changed} files")


main()
