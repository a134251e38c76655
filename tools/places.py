#!/usr/bin/env python3
# usage: places.py [--list] [--proofs] [TOP]   counts the places of docs/DESIGN-PASS.md in crates/*/src of the checkout TOP (this one),
# point by point; --list tells each place as crate/file:line, its name and why; --proofs counts point 8 in crates/*/proofs instead.
# The patterns are wider than the points: what they find that is no place, and what they can't see, stands in the page.

import collections
import difflib
import glob
import os
import re
import sys

WORD = r"[A-Za-z_]\w*"
TOKEN = re.compile(r'//[^\n]*|b?"(?:\\.|[^"\\])*"|b?\'(?:\\.|[^\'\\])\'|' + WORD + r"|\d\w*|->|=>|==|!=|<=|>=|&&|\|\||\+=|-=|\.\.=?|::|\S")
KEYWORDS = set("let mut if else while for in match return fn as self Self true false loop break continue move ref impl".split())
CLAUSES = {"requires", "ensures", "decreases"}
NUMBERS = {"u8", "u16", "u32", "u64", "usize"}
COMPARES = {"==", "!=", "<", "<=", ">", ">="}
OPEN, CLOSE = set("([{"), set(")]}")

TITLES = {
    "1a": "enums of two variants, one of which holds a value, or with a variant named as none or as a refusal",
    "1b": "structs with a refusal, a flag or a number for a kind in a field",
    "1c": "functions that answer a number which can be a literal or a constant; bool beside what is filled",
    "1d": "functions that compare with a literal or a constant, set a place to a literal, or hold 65535, 255, 254 or 3u8",
    "1e": "functions that give a literal where a u8 is asked for",
    "1f": "functions that hand a none or a refusal on by let else",
    "2a": "groups of functions or types equal but for names, types and literals, or nearly, or of client and server",
    "2b": "functions with the same parameters twice, for the client (c..) and the server (s..)",
    "3a": "while loops that step a variable of their condition by hand",
    "3b": "other while loops, and functions that call themselves",
    "3c": "for loops over a range that index with it",
    "4a": "functions that only convert",
    "4b": "functions with a cast",
    "4c": "functions that compare fields or variants one by one",
    "4d": "functions that copy, or make a value of their arguments alone",
    "4e": "functions that print a value or put its text",
    "4f": "functions that copy a field into a local that is read once",
    "5a": "groups of parameters, by name and type, in three signatures or more",
    "5b": "clauses in the contracts of three functions or more",
    "6a": "functions and structs with a count beside a slice or an array, or whose result is the count",
    "6b": "functions with a place beside a slice or an array",
    "6c": "functions that read two arrays at the same place",
    "6d": "loops that look for a place in an array",
    "6e": "functions that read an array at a place which another array holds",
    "7a": "functions that pick a step by the value of a letter, a number or an enum",
    "7b": "pairs of twins (2a) that differ in a function which they call",
}


class Item:
    """A function or a type: where it stands, and its parts as tokens."""

    def __init__(self, crate, file, line, kind, name):
        self.crate, self.file, self.line, self.kind, self.name = crate, file, line, kind, name
        self.params, self.result, self.clauses, self.body, self.parts = [], "", [], [], []

    def place(self, line=None):
        return f"{self.crate}/{os.path.basename(self.file)}:{line or self.line} {self.name}"


def closing(tokens, i):
    """The place of the bracket that closes the one at i."""
    depth = 0
    for k in range(i, len(tokens)):
        t = tokens[k] if isinstance(tokens[k], str) else tokens[k][0]
        depth += (t in OPEN) - (t in CLOSE)
        if depth == 0:
            return k
    return len(tokens) - 1


def split(tokens, sign=",", more=True):
    """The parts between these signs, outside of all brackets; < and > are brackets too where more is so."""
    out, part, depth = [], [], 0
    for t in tokens:
        depth += (t[0] in OPEN or more and t[0] == "<") - (t[0] in CLOSE or more and t[0] == ">")
        if t[0] == sign and depth <= 0:
            out.append(part)
            part = []
        else:
            part.append(t)
    return [p for p in out + [part] if p]


def said(tokens):
    """Tokens as one text."""
    text = re.sub(r" ?(::|[.;()\[\]&?!<>]) ?", r"\1", " ".join(t for t, _ in tokens))
    return text.replace("&mut", "&mut ").replace("  ", " ").replace(" ,", ",").replace(" :", ":")


def items_of(crate, file):
    """The functions and types of a file."""
    with open(file, encoding="utf-8") as f:
        text = f.read()
    tokens, line, last = [], 1, 0
    for m in TOKEN.finditer(text):
        line += text.count("\n", last, m.start())
        last = m.start()
        if not m[0].startswith("//"):
            tokens.append((m[0], line))
    for i in range(len(tokens) - 1):
        (word, _), (name, line) = tokens[i], tokens[i + 1]
        if word not in ("fn", "enum", "struct") or not re.fullmatch(WORD, name):
            continue
        it = Item(crate, file, line, word, name)
        k, depth = i + 2, 0
        while depth or tokens[k][0] not in "({;":
            depth += (tokens[k][0] == "<") - (tokens[k][0] == ">")
            k += 1
        end = closing(tokens, k)
        parts = split(tokens[k + 1 : end]) if tokens[k][0] != ";" else []
        if word != "fn":
            it.parts = [[t for t in p if t[0] != "pub"] for p in parts]
            yield it
            continue
        for p in parts:
            colon = next((n for n, t in enumerate(p) if t[0] == ":"), None)
            if colon:
                it.params.append((p[colon - 1][0], said(p[colon + 1 :])))
        k = start = end + 1
        while tokens[k][0] not in ("{", ";") and tokens[k][0] not in CLAUSES:
            k += 1
        it.result = said(tokens[start + 1 : k]).split(" where ")[0]
        while tokens[k][0] in CLAUSES:
            head = tokens[k][0]
            while tokens[k][0] != "{":
                k += 1
            end = closing(tokens, k)
            it.clauses.append((head, tokens[k + 1 : end]))
            k = end + 1
        if tokens[k][0] == "{":
            it.body = tokens[k + 1 : closing(tokens, k)]
        yield it


found = collections.defaultdict(list)


def add(point, it, why, line=None):
    """A place: one for a point and an item, with all that is found there. A loop is a place by itself, with its line."""
    for old in found[point]:
        if line is None and old[0] is it:
            old[2].extend([] if why in old[2] else [why])
            return
    found[point].append((it, line, [why]))


# 1: own Option and Result, a flag beside a value, numbers for kinds

NONE = re.compile(r"Off|None|No|Nowhere|Nothing|Other|Refused|Granted|Err|Error|Failed|Bad|Full|TooLong|Missing|Unknown|Invalid")
KIND = re.compile(r"number|code|kind|tag|cause|stops?|signs?|marks?|refusal|outcome|error|status|ok|found|valid|label")
LITERAL = re.compile(r"\d\w*|[A-Z][A-Z_0-9]+")


def point_1(it, bytes_of):
    if it.kind == "enum" and (len(it.parts) == 2 and any(len(p) > 1 for p in it.parts) or any(NONE.fullmatch(p[0][0]) for p in it.parts)):
        add("1a", it, " | ".join(said(p) for p in it.parts))
    if it.kind == "struct" and len(it.parts) > 1:
        for p in it.parts:
            name, kind = p[0][0], said(p[2:])
            if kind in {"Refusal", "Outcome", "bool"} or KIND.fullmatch(name) and (kind in NUMBERS or kind == "PerState" or kind.startswith("[u8")):
                add("1b", it, said(p))
    b, words = it.body, [t for t, _ in it.body]
    if it.result in NUMBERS:
        codes = [words[k + 1] for k in range(len(b) - 2) if words[k] in ("return", "=>") and LITERAL.fullmatch(words[k + 1]) and words[k + 2] in (";", ",", "}")]
        if b and LITERAL.fullmatch(words[-1]) and (len(b) == 1 or words[-2] in (";", "}")):
            codes.append(words[-1])
        if codes:
            add("1c", it, f"-> {it.result}: " + ", ".join(sorted(set(codes), key=codes.index)))
    if it.result == "bool" and any(kind.startswith("&mut") for _, kind in it.params):
        add("1c", it, "-> bool, and fills what is lent")
    for k in range(len(b)):
        if 0 < k < len(b) - 1 and words[k] in ("==", "!="):
            sides = [w for w in (words[k - 1], words[k + 1]) if LITERAL.fullmatch(w)]
            if sides and words[max(0, k - 3) : k] != ["len", "(", ")"] and "%" not in words[max(0, k - 2) : k]:
                add("1d", it, f"{words[k - 1]} {words[k]} {words[k + 1]}")
        if re.fullmatch(r"(65535|25[45]|3u8)(u8|u16)?", words[k]):
            add("1d", it, words[k])
        if words[k : k + 2] == ["]", "="] and words[k + 2].isdigit() and words[k + 3] == ";":
            add("1d", it, f"set to {words[k + 2]}")
        if k + 1 < len(b) and words[k + 1] == "(" and words[k] in bytes_of:
            for n, arg in enumerate(split(b[k + 2 : closing(b, k + 1)])):
                if len(arg) == 1 and arg[0][0].isdigit() and n in bytes_of[words[k]]:
                    add("1e", it, f"{words[k]} is given {arg[0][0]}")
    passed = len(re.findall(r"let [A-Z][^;{}=]* = [^;{}]* else \{ return", " ".join(words)))
    if passed:
        add("1f", it, f"{passed} times")


# 2: twins


def plain(tokens, rename):
    """The tokens, with literals alike, paths by their last word, and words by the order in which they come (rename) or alike."""
    out, order = [], {}
    for t in bare(tokens):
        if re.match(r"\d|b?[\"']", t):
            t = "#"
        elif re.fullmatch(WORD, t) and t not in KEYWORDS:
            t = f"w{order.setdefault(t, len(order))}" if rename else "w"
        out.append(t)
    return out


def bare(tokens):
    """The words, paths by their last word."""
    return [t for k, (t, _) in enumerate(tokens) if t != "::" and (k + 1 == len(tokens) or tokens[k + 1][0] != "::" or not re.fullmatch(WORD, t))]


def twins(items):
    """The groups of twins, each item with what it is like."""
    head = {id(it): id(it) for it in items}
    why = collections.defaultdict(list)

    def group(it):
        n = id(it)
        while head[n] != n:
            n = head[n]
        return n

    def join(a, b, how):
        head[group(a)] = group(b)
        why[id(a)].append(f"{how} {b.name}")

    shapes, sides = {}, {}
    for it in items:
        tokens = it.body if it.kind == "fn" else [t for p in it.parts for t in p + [(",", 0)]]
        if it.kind == "enum":
            shape = sorted(p[1][0] if len(p) > 1 else "" for p in it.parts)
        elif it.kind == "struct":
            shape = [t if t in NUMBERS else w for (t, _), w in zip(tokens, plain(tokens, False))]
        else:
            shape = plain(tokens, True)
        other = shapes.setdefault((it.kind, str(shape)), it)
        if tokens and other is not it:
            join(it, other, "as")
        side = re.sub("(?i)client|server", "", it.name)
        other = sides.setdefault((it.file, it.kind, side), it) if side not in ("", it.name) else it
        if other is not it:
            join(it, other, "the other side of")
    functions = [it for it in items if len(it.body) >= 14]
    form = {id(it): plain(it.body, False) for it in functions}
    for i, a in enumerate(functions):
        for b in functions[i + 1 :]:
            least = 0.85 if a.crate == b.crate else 0.93
            m = difflib.SequenceMatcher(None, form[id(a)], form[id(b)], autojunk=False)
            if group(a) != group(b) and m.real_quick_ratio() >= least and m.quick_ratio() >= least and m.ratio() >= least:
                join(b, a, f"{m.ratio():.2f} as")
    groups = collections.defaultdict(list)
    for it in items:
        groups[group(it)].append(it)
    return [[(it, why[id(it)]) for it in g] for g in groups.values() if len(g) > 1]


def point_2(it):
    both = [n for n, kind in it.params if n[0] == "c" and ("s" + n[1:], kind) in it.params]
    if len(both) > 1:
        add("2b", it, f"{len(both)} pairs: " + ", ".join(both))


# 3: loops


def loops(it):
    """Each loop: its line, word, condition and body."""
    words = [t for t, _ in it.body]
    for k, word in enumerate(words):
        if word == "while" or word == "for" and "in" in words[k : k + 8]:
            i = words.index("{", k)
            yield it.body[k][1], word, words[k + 1 : i], words[i + 1 : closing(words, i)]


def point_3(it):
    for line, word, cond, inner in loops(it):
        text = " ".join(cond)
        if word == "for":
            if ".." in cond and any(inner[j] == "[" and inner[j + 1] == cond[0] for j in range(len(inner) - 1)):
                add("3c", it, f"for {text}", line)
            continue
        steps = {inner[j] for j in range(len(inner) - 2) if inner[j + 1] in ("+=", "-=") and (inner[j + 2].isdigit() or inner[j] in cond)}
        steps |= {x for x in cond if f"let k = {x} - 1 ;" in " ".join(inner) and f"{x} = k ;" in " ".join(inner)}
        add("3a" if steps else "3b", it, f"while {text}" + ("; steps " if steps else "") + ", ".join(sorted(steps)), line)
    words = [t for t, _ in it.body]
    if any(words[k] == it.name and words[k + 1] == "(" and words[k - 1] not in (".", "::") for k in range(len(words) - 1)):
        add("3b", it, "calls itself", it.line)


# 4: what derives, From, TryFrom and Display write


def point_4(it, own):
    words = [t for t, _ in it.body]
    text = " ".join(words)
    casts = [f"{'(..)' if words[k - 1] == ')' else words[k - 1]} as {words[k + 1]}" for k in range(1, len(words) - 1) if words[k] == "as"]
    alone = it.params[0][1] if len(it.params) == 1 else "&"
    if re.fullmatch(r"[\w.]+ as \w+", text):
        add("4a", it, text)
    elif casts:
        add("4b", it, ", ".join(casts))
    if (alone in own or it.result in own) and alone[0] != "&" and it.result not in ("", "bool", alone) and "while" not in words and "&" not in words:
        if it.result in NUMBERS or alone in NUMBERS or "match" in words:
            add("4a", it, f"{alone} to {it.result}")
    fields = sum(w in COMPARES and (k > 1 and words[k - 2] == "." or words[k + 2 : k + 3] == ["."]) for k, w in enumerate(words))
    if it.result == "bool" and (fields > 1 or words.count("match") > 1):
        add("4c", it, f"{fields} fields" if fields > 1 else "variants")
    build = re.fullmatch(r"(?:Self|[A-Z]\w*) \{ (.*?),? \}", text)
    if build and it.params and all(re.fullmatch(r"\w+|\w+ : \w+", f.strip()) for f in build[1].split(",")):
        add("4d", it, "makes its result of its arguments alone")
    copy = re.match(r"let mut (\w+) = \w+ ;", text)
    if copy and text.endswith(f"; {copy[1]}") and it.result in own and "while" not in words:
        add("4d", it, "a copy with fields changed")
    if any(re.fullmatch(r"(let \w+ = \w+ - 1 ; )?\w+ \[[^\]]*\] = \w+ \[[^\]]*\] ; \w+ [+-]?=? ?\w+ ;?.*", " ".join(inner)) and len(inner) < 24 for _, _, _, inner in loops(it)):
        add("4d", it, "copies place by place")
    if any("impl Print" in kind for _, kind in it.params) and re.match("put|print|tell", it.name):
        add("4e", it, "prints")
    if [kind for _, kind in it.params[:2]] == ["&mut [u8]", "usize"] and it.result in ("usize", "Reached"):
        add("4e", it, "puts text at a place, and counts the place on")
    once = [m[1] for m in re.finditer(r"let (\w+) = \w+(?: \. \w+)+ ;", text) if words.count(m[1]) - text.count(f". {m[1]} ") == 2]
    if once:
        add("4f", it, ", ".join(once))


# 5: parameters that travel together, facts that stand in many contracts


def travel(items):
    """Groups of parameters in three signatures or more: the one that saves most first, then those of what is left."""
    left = {it: frozenset(it.params) for it in items if len(it.params) > 1}
    while True:
        sets = set(left.values())
        groups = set(sets)
        for _ in range(2):
            groups |= {a & b for a in groups for b in sets}
        counts = [(sum(g <= p for p in left.values()), g) for g in groups if len(g) > 1]
        worth = [((len(g) - 1) * n, len(g), sorted(g)) for n, g in counts if n > 2]
        if not worth:
            return
        best = frozenset(max(worth)[2])
        inside = [it for it in left if best <= left[it]]
        yield [p for p in inside[0].params if p in best], inside
        for it in inside:
            left[it] -= best


def atoms(clause):
    """A clause cut at ×, without the brackets around its parts."""
    while len(clause) > 2 and clause[0][0] == "(" and closing(clause, 0) == len(clause) - 1:
        clause = clause[1:-1]
    parts = split(clause, "×", False)
    return [clause] if len(parts) < 2 else [a for p in parts for a in atoms(p)]


def facts(items):
    """Clauses, without what they speak of, in the contracts of three functions or more."""
    out = collections.defaultdict(list)
    for it in items:
        names = {n for n, _ in it.params} | {"result", "self"}
        for head, clause in it.clauses:
            for a in atoms(clause):
                words, k = [], 0
                while k < len(a):
                    t = a[k][0]
                    if t == "." and k + 1 < len(a) and a[k + 1][0] in ("old", "new", "now"):
                        k += 1
                    elif t == "(":
                        k = closing(a, k)
                        words.append("_")
                    else:
                        words.append("_" if t in names else t)
                    k += 1
                fact = re.sub(r"_( _)+$", "_ ..", " ".join(words))
                if fact != "_" and not fact.startswith("_ ≡"):
                    out[fact].append((head, it))
    return sorted(((f, at) for f, at in out.items() if len({it for _, it in at}) > 2), key=lambda x: -len({it for _, it in x[1]}))


# 6: buffers, parallel arrays, searches

COUNTS = set("count n m t used len size end hi ie je states points clients found".split())
PLACES = set("at from place lo i0 j0 h next row".split())
ARRAYS = {"Messages", "PerState", "behaviour::Messages", "behaviour::PerState"}


def point_6(it):
    words = [t for t, _ in it.body]
    arrays = [n for n, kind in it.params if "[" in kind or kind in ARRAYS]
    counts = [n for n, kind in it.params if kind == "usize" and n in COUNTS]
    places = [n for n, kind in it.params if kind == "usize" and n in PLACES]
    if it.kind == "struct":
        arrays = [p[0][0] for p in it.parts if said(p[2:]) in ARRAYS or "[" in said(p)]
        counts = [p[0][0] for p in it.parts if said(p[2:]) in NUMBERS]
    if arrays and counts:
        add("6a", it, f"{', '.join(arrays)} with {', '.join(counts)}")
    if not places and it.result in ("usize", "io::Result<usize>") and any("&mut [" in kind for _, kind in it.params):
        add("6a", it, "fills what is lent: how much")
    if arrays and places:
        add("6b", it, f"{', '.join(arrays)} with {', '.join(places)}")
    by = collections.defaultdict(set)
    for k in range(1, len(words)):
        if words[k] == "[" and re.fullmatch(WORD, words[k - 1]) and words[k - 1] not in KEYWORDS:
            by[" ".join(words[k + 1 : closing(words, k)])].add(words[k - 1])
    held = set(re.findall(r"let (\w+) = (?:\w+ :: )?(?:wide \( )?\w+ \[", " ".join(words)))
    for index, which in by.items():
        if len(which) > 1 and not index.isdigit():
            add("6c", it, f"{', '.join(sorted(which))} at [{index}]")
        if index in held:
            add("6e", it, f"{', '.join(sorted(which))} at [{index}]")
    for line, word, cond, inner in loops(it):
        if "/ 2" in " ".join(inner).replace("/ 256", ""):
            add("6d", it, f"while {' '.join(cond)}, by halves", line)
        elif "[" in inner and "return" in inner:
            add("6d", it, f"{word} {' '.join(cond)}", line)


# 7: switches


def point_7(it):
    text = " ".join(t for t, _ in it.body)
    for name, n in collections.Counter(re.findall(r"if (\w+(?: \. \w+)*) == (?:\d+|b?'[^']*'|[A-Z][A-Z_]+) \{ (?:return )?[^{}]*\(", text)).items():
        if n > 1:
            add("7a", it, f"{n} steps by {name}")
    for m in re.finditer(r"match ([^{}]*?) \{", text):
        calls = set(re.findall(r"=> (?:\{ )?(?:return )?((?:\w+ (?:::|\.) )*[a-z]\w*) \(", text[m.end() :]))
        if len(calls) > 1 and not any(old[0] is it for old in found["4a"]):
            add("7a", it, f"match {m[1]}: {', '.join(sorted(calls)).replace(' ', '').replace(',', ', ')}")


def calls_apart(group):
    """Pairs of a group that are alike but for names, and differ in a function that they call."""
    functions = [it for it, _ in group if it.kind == "fn"]
    for i, a in enumerate(functions):
        for b in functions[i + 1 :]:
            p, q = bare(a.body), bare(b.body)
            apart = {f"{x}, {y}" for x, y, z in zip(p, q, p[1:]) if x != y and z == "(" and x[0].islower()}
            if apart and plain(a.body, False) == plain(b.body, False):
                yield a, b, apart


# 8: proofs


def proofs(top, order):
    """For each crate: answer files, answers, invariant files, files of lemmas, lemmas, and the groups of answers of one shape."""
    print("crate: answer files, answers, invariant files, lemma files, lemmas, groups of three answers or more of one shape")
    total = [0] * 6
    for crate in order:
        inside = sorted(glob.glob(f"{top}/crates/{crate}/proofs/**/*.antt", recursive=True))
        own = [f for f in inside if f.endswith("/Answers.antt")]
        given = [f for f in inside if f.endswith("/Invariants.antt")]
        rest = [f for f in inside if f not in own and f not in given and not f.endswith("/Lib.antt")]
        shapes, answers, lemmas = collections.defaultdict(list), 0, 0
        for f in own:
            with open(f, encoding="utf-8") as it:
                parts = re.split(r"(?m)^pub (\S+) : goal\.\S+\n", it.read())
            for name, body in zip(parts[1::2], parts[2::2]):
                answers += 1
                body = re.sub(r"--[^\n]*|unfolding[^\n]*", "", body)
                body = body.replace(name, "goal")
                order_of = {}
                shape = " ".join(f"w{order_of.setdefault(t, len(order_of))}" if re.match(WORD, t) else t for t in re.findall(r"[^\s().,{};]+|[().,{};]", body))
                shapes[shape].append(f"{f.split('/')[-2]}.{name}")
        for f in rest:
            with open(f, encoding="utf-8") as it:
                lemmas += len(re.findall(r"(?m)^ *(?:abbrev |unfoldable |opaque )*(?:pub )?(?!use |module )[^\s:(){}=]+ : ", it.read()))
        groups = sorted((g for g in shapes.values() if len(g) > 2), key=lambda g: -len(g))
        row = [len(own), answers, len(given), len(rest), lemmas, len(groups)]
        total = [a + b for a, b in zip(total, row)]
        if any(row):
            print(f"{crate}: " + ", ".join(map(str, row)))
        for g in groups if "--list" in sys.argv else []:
            print(f"    {len(g)}: " + ", ".join(g))
    print("all: " + ", ".join(map(str, total)))


def main():
    words = [a for a in sys.argv[1:] if not a.startswith("--")]
    top = words[0] if words else os.path.dirname(os.path.dirname(os.path.abspath(__file__)))
    with open(f"{top}/crates.txt", encoding="utf-8") as f:
        order = re.findall(r"(?m)^([a-z]\w*)", f.read())
    if "--proofs" in sys.argv:
        proofs(top, order)
        return
    items = [it for crate in order for f in sorted(glob.glob(f"{top}/crates/{crate}/src/**/*.rt", recursive=True)) for it in items_of(crate, f)]
    own = {it.name for it in items if it.kind != "fn"}
    bytes_of = collections.defaultdict(set)
    for it in items:
        bytes_of[it.name] |= {n for n, (_, kind) in enumerate(it.params) if kind == "u8"}
    for it in items:
        point_1(it, bytes_of)
        point_2(it)
        point_3(it)
        point_4(it, own)
        point_6(it)
        point_7(it)
    lines = {p: [f"{it.place(line)}: {'; '.join(why)}" for it, line, why in at] for p, at in found.items()}
    groups = twins(items)
    lines["2a"] = ["; ".join(it.place() + (f" ({', '.join(why)})" if why else "") for it, why in g) for g in groups]
    lines["7b"] = [f"{a.place()}, {b.place()}: {'; '.join(sorted(how))}" for g in groups for a, b, how in calls_apart(g)]
    lines["5a"] = [f"{len(inside)} x {', '.join(f'{n}: {kind}' for n, kind in group)}: {', '.join(it.place() for it in inside)}" for group, inside in travel(items)]
    lines["5b"] = []
    for fact, at in facts(items):
        heads = collections.Counter(head for head, _ in at)
        lines["5b"].append(f"{fact} ({', '.join(f'{h} {n}' for h, n in sorted(heads.items()))}): " + ", ".join(dict.fromkeys(it.place() for _, it in at)))
    print(f"{len(items)} functions and types in {len({it.file for it in items})} files")
    for point, title in TITLES.items():
        print(f"{point} {title}: {len(lines.get(point, []))}")
        for line in lines.get(point, []) if "--list" in sys.argv else []:
            print(f"    {line}")


main()
