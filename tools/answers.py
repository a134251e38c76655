#!/usr/bin/env python3
"""Turns each proofs/F/Proof.antt that answers the checker's goals (by its module Tie) into Invariants.antt and Answers.antt.

usage: answers.py TOP NAMES [CRATE..]     NAMES is the folder that 'rt names NAMES' wrote

An answer that only says 'search rules' goes, since the check tries that itself. What the script can't turn is said on a line 'left:'.
"""

import json
import os
import re
import shutil
import sys

KIT = os.path.dirname(os.path.dirname(os.path.realpath(shutil.which("rt") or "rt")))
WORD = r'[^\s(){}.;,@"«»]+'
PATH = re.compile(rf"(?<![^\s(){{}};,])({WORD})((?:\.{WORD})+)")
LET = re.compile(rf"let ({WORD}) = ({WORD}(?:\.{WORD})*) in\s*")


def norm(s):
    return s.replace("_", "-")


def exported():
    """The names that Common hands on."""
    out = set()
    with open(os.path.join(KIT, "rattle/std/proofs/Common.antt"), encoding="utf-8") as f:
        for m in re.finditer(r"pub use \S+?\.\{([^}]*)\}", f.read()):
            out |= {w.split(" as ")[-1].strip() for w in m.group(1).split(",")}
    return out


COMMON = exported()


def blocks(text):
    out, now = [], []
    for line in text.split("\n"):
        if line.strip() == "" and now:
            out.append(now)
            now = []
        elif line.strip():
            now.append(line)
    if now:
        out.append(now)
    return out


def nested(path, names, ended):
    """A place in a nest of pairs by its name: .0, .1.0, .1.1.0 and so on; the last needs no 0 where nothing ends the nest."""
    k = 0
    while k < len(path) and path[k] == "1":
        k += 1
    if k < len(names) and path[k : k + 1] == ["0"]:
        return [names[k]] + path[k + 1 :]
    if not ended and k and k == len(names) - 1:
        return [names[k]] + path[k:]
    return path


class Fn:
    def __init__(self, spec, where):
        self.spec, self.where = spec, where
        self.places = spec["places"]
        self.index = {}
        for i, p in enumerate(self.places):
            self.index.setdefault(norm(p[0]), i)
        self.said = []

    def left(self, text):
        self.said.append(text)

    def parent(self, i):
        up = self.places[i][1]
        return None if up is None else self.index[norm(up)]

    def chain(self, i):
        while i is not None:
            yield i
            i = self.parent(i)

    def step(self, i, whole, field):
        """The place at or above i, or else at or above whole, whose step is called so, by its old name."""
        f = norm(re.sub("_lem$", "", field)).lower()
        for fits in (lambda q: norm(self.places[q][2][0]).lower() == f, lambda q: norm(self.places[q][2][0]).replace("-", "").lower() == f.replace("-", "") or self.places[q][2][1] == field):
            for start in (i, whole):
                for q in self.chain(start):
                    if fits(q):
                        return q
        return None

    def turn_path(self, place, path):
        """What stands for c followed by this path, where c is at the place: ('place', i) or ('text', t)."""
        i = place
        path = list(path)
        while path and path[0] == "before":
            up = self.parent(i)
            # an older Rattle had more places, so the start may come early
            i, path = (i if up is None else up), path[1:]
        if not path:
            return "place", i
        f, rest = path[0], path[1:]
        if f == "args" and not rest:
            return "args", None
        if f == "args":
            return "text", self.args(["args"] + rest)
        if f in ("ranges", "told", "fits"):
            return "text", self.args([f] + rest)
        if f == "requires":
            pre = self.spec.get("pre")
            if pre:
                rest = nested(rest, pre["fields"], False)
            return "text", ".".join(["c.requires"] + rest)
        if norm(f) in ("well-formed", "lifetimes", "utf8"):
            return "text", ".".join(["c." + f.replace("-", "_")] + rest)
        q = self.step(i, place, f)
        if q is None:
            self.left(f"no step {f}")
            return "text", ".".join(["c", f] + rest)
        p = self.places[q]
        arm = self.spec["arms"][q]
        if arm:
            best = None
            for name, old, at in arm[2]:
                if norm(old) == norm(f) and rest[: len(at)] == at and not name.endswith("-own") and (best is None or len(at) > len(best[1])):
                    best = (name, at)
            if best:
                return "text", ".".join(["c", arm[0], best[0]] + rest[len(best[1]) :])
            if any(norm(old) == norm(f) and at[: len(rest)] == rest for name, old, at in arm[2]):
                return "step", (q, f, rest)
        if norm(f).startswith("shared-slice-known") and rest[:1] == ["given"]:
            for s, old in self.spec["typed"][q]:
                if norm(old) == norm(p[2][0]):
                    return "text", ".".join(["c.type_inv", s] + rest[1:])
            for s, old in self.spec["typed"][q]:
                return "text", ".".join(["c.type_inv", s] + rest[1:])
        if not rest:
            return "alias", q
        return "text", ".".join(["c", p[2][1]] + self.fields(q, rest))

    def fields(self, q, rest):
        """The fields behind the step of the place q, by their new names."""
        p = self.places[q]
        if p[4] and rest:
            turned = dict((a, b) for a, b in p[4])
            rest = [turned.get(rest[0], rest[0])] + rest[1:]
        clause = self.spec["clauses"][q]
        if clause and rest[:1] == ["ensures"]:
            rest = ["ensures"] + nested(rest[1:], clause["fields"], False)
        if rest and rest[0] in ("new", "auto") and p[3] in self.spec["params"]:
            rest = rest[:1] + nested(rest[1:], self.spec["params"][p[3]], True)
        return rest

    def args(self, path):
        text = "." + " .".join(path)
        for old, new in self.spec["args"]:
            if text == old or text.startswith(old + " "):
                text = new + text[len(old) :]
        return "c" + text.replace(" .", ".")

    def turn(self, body, env, goal):
        """The body with each path of a variable in env turned."""
        env = dict(env)

        def one(m):
            var, path = m.group(1), m.group(2)[1:].split(".")
            if var not in env:
                return m.group(0)
            kind, what = env[var]
            if kind == "args":
                return self.args(["args"] + path)
            if kind == "alias":
                return ".".join([var] + self.fields(what, path))
            if kind == "place":
                k, t = self.turn_path(what, path)
            else:
                q, f, at = what
                k, t = self.turn_path(q, [f] + at + path)
            if k == "text":
                return t
            if k == "place":
                return self.at(goal, t)
            if k == "args":
                return "c.args"
            if k == "alias":
                return "c." + self.places[t][2][1]
            self.left(f"a step alone: {m.group(0)}")
            return m.group(0)

        # lets that name a place or a step go, one after the other
        out, at = "", 0
        while True:
            m = LET.search(body, at)
            if not m:
                break
            var, path = m.group(2).split(".")[0], m.group(2).split(".")[1:]
            if var in env and env[var][0] not in ("args", "alias") and (path or env[var][0] == "place"):
                kind, what = env[var]
                k, t = self.turn_path(what, path) if kind == "place" else self.turn_path(what[0], [what[1]] + what[2] + path)
                before = PATH.sub(one, body[at : m.start()])
                before = self.bare(before, env, goal)
                out += before
                at = m.end()
                if k in ("place", "step", "args"):
                    env[m.group(1)] = (k, t)
                elif k == "alias":
                    env[m.group(1)] = (k, t)
                    out += f"let {m.group(1)} = c.{self.places[t][2][1]} in" + m.group(0)[m.group(0).rindex(" in") + 3 :]
                else:
                    env.pop(m.group(1), None)
                    out += m.group(0).replace(m.group(2), t, 1) if m.group(2) not in m.group(1) else f"let {m.group(1)} = {t} in" + m.group(0)[m.group(0).index(" in") + 3 :]
                continue
            piece = body[at : m.end()]
            out += self.bare(PATH.sub(one, piece), env, goal)
            at = m.end()
        rest = PATH.sub(one, body[at:])
        out += self.bare(rest, env, goal)
        return out

    def place(self, i):
        """The name of the place i; within an arm, that of the whole arm."""
        arm = self.spec["arms"][i]
        return arm[0][0].upper() + arm[0][1:] if arm else self.spec["places_by_name"][i]

    def at(self, goal, i):
        new = self.place(i)
        if goal:
            return f"(goal.at.{goal} c).{new}"
        return "c"

    def bare(self, text, env, goal):
        def one(m):
            v = m.group(0)
            if v in env and env[v][0] == "place" and v != "c":
                return self.at(goal, env[v][1])
            return v

        return re.sub(rf"(?<![^\s(){{}};,]){WORD}(?![^\s(){{}};,])", one, text)


def main():
    top, names = sys.argv[1:3]
    crates = sys.argv[3:] or sorted(os.listdir(os.path.join(names, "crates")))
    for crate in crates:
        with open(os.path.join(names, "crates", crate, "names.json"), encoding="utf-8") as f:
            known = json.load(f)
        for key, spec in sorted(known.items()):
            m = re.fullmatch(rf"Rattle-{crate}-proofs\.(.+)\.Lts", key)
            if not m:
                continue
            folder = os.path.join(top, "crates", crate, "proofs", *m.group(1).split("."))
            path = os.path.join(folder, "Proof.antt")
            if not os.path.exists(path):
                continue
            with open(path, encoding="utf-8") as f:
                text = f.read()
            if "tie." not in text:
                continue
            fn = Fn(spec, f"{crate} {m.group(1)}")
            convert(fn, crate, m.group(1), folder, text)
            for s in fn.said:
                print(f"left: {fn.where}: {s}")


def convert(fn, crate, name, folder, text):
    spec = fn.spec
    needs = {}
    for (old, new), (place, _) in zip(spec["needs"], spec["asked_at"]):
        needs[norm(old)] = (new, fn.index.get(norm(place)))
    loops = {norm(o): (n, vs, ch) for ((o, n), vs), ch in zip(spec["loops"], spec["changed"])}
    uses, head, invariants, answers = [], [], [], []
    for b in blocks(text):
        while b and b[0].startswith("--") and not head and not uses:
            head.append(b.pop(0))
        while b and b[0].startswith("use "):
            uses.append(b.pop(0))
        if not b:
            continue
        comment = []
        while b and b[0].startswith("--"):
            comment.append(b.pop(0))
        if not b:
            continue
        body = "\n".join(b)
        first = b[0]
        m = re.match(rf"abbrev (invariant|decreases)-({WORD}) : tie\.", first)
        if m:
            kind, loop = m.group(1), norm(m.group(2))
            if loop not in loops:
                fn.left(f"no loop {loop}")
                continue
            new, variables, changed = loops[loop]
            clause = "\n".join(b[1:])
            e = clause.index("=")
            params = clause[:e].split()[1:]
            value = clause[e + 1 :].strip("\n")
            moved = [v for v, c in zip(variables, changed) if c]
            order = [f"l.initial.{v}" if c else f"l.{v}" for v, c in zip(variables, changed)] + [f"l.{v}" for v in moved]
            if len(params) != len(order):
                fn.left(f"{kind}-{new}: {len(params)} parameters, {len(order)} variables: {' '.join(params)} | {' '.join(order)}")
            to = {p: q for p, q in zip(params, order) if p != "_"}
            value = re.sub(rf"(?<![^\s(){{}};,])({WORD})", lambda m: to.get(m.group(1), m.group(1)), value)
            invariants.append("\n".join(comment + [f"abbrev pub {kind}-{new} : goal.{kind}-{new}", f"{kind}-{new} l ={value if value.startswith(chr(10)) else ' ' + value.strip()}"]))
            continue
        if re.match(rf"pub {WORD}-spec : |pub {WORD}_spec : ", first):
            continue
        m = re.match(rf"({WORD}) : tie\.Need-({WORD})", first)
        if m:
            mine, need = m.group(1), norm(m.group(2))
            found = needs.get(need) or needs.get(re.sub("^overflow-", "", need)) or needs.get(re.sub("^(nonzero|bounds|offset-bounds)-", "", need))
            if not found:
                if norm(need) not in [norm(s) for s in spec["settled"]] and "known" not in need and "told" not in need:
                    fn.left(f"no goal {need}")
                continue
            new, place = found
            k = 1
            while k < len(b) and (b[k].startswith("    ") or b[k].startswith("unfolding")):
                k += 1
            opens = [l for l in b[1:k] if l.startswith("unfolding")]
            clause = "\n".join(b[k:])
            if not clause.startswith(mine + " "):
                fn.left(f"{new}: a clause that starts otherwise")
                continue
            e = clause.index("=")
            params = clause[:e].split()[1:]
            value = clause[e + 1 :]
            if value.strip() == "search rules" and not opens or re.match(r"enum_(known|told)", new):
                continue
            env = {params[0]: ("place", place)}
            value = fn.turn(value, env, new)
            plain = re.sub("^overflow-", "", need)
            asked = next((names for k, names in spec["asked"].items() if norm(k) == plain), None)
            if asked:
                value = by_name(value, asked) or value
            answers.append("\n".join(comment + [f"pub {new} : goal.{new}"] + opens + [f"{new} c ={value}"]))
            if params[0] != "c":
                fn.left(f"{new}: its argument is {params[0]}")
            continue
        # a helper of its own
        env = {}
        for m in re.finditer(rf"\(({WORD}) : tie\.({WORD})[^)]*\)", body):
            place = fn.index.get(norm(m.group(2)))
            if place is None:
                fn.left(f"helper at no place {m.group(2)}")
            else:
                env[m.group(1)] = ("place", place)
        body = re.sub(rf"tie\.({WORD})((?: (?:invariant|decreases)-{WORD})*)", lambda m: fn.place(fn.index[norm(m.group(1))]) if norm(m.group(1)) in fn.index else m.group(0), body)
        if env:
            body = fn.turn(body, env, None)
            fn.left(f"helper over a place: {first[:60]}")
        answers.append("\n".join(comment + [body]))
    imports = collect(uses)
    root = f"Rattle.{crate}.proofs.{name}"
    if invariants:
        put(os.path.join(folder, "Invariants.antt"), head, imports, f"use {root}.Given as goal", invariants)
        head = [h for h in head if "invariant" not in h] or []
    if answers:
        shared = sorted({w for w in re.findall(WORD, "\n".join(a.split(" ≡ ")[0] if False else a for a in answers)) if w in {fn.place(i) for i in range(len(spec["places"]))}})
        if shared:
            imports = dict(imports, **{w: (f"{root}.Goals", w) for w in shared})
        put(os.path.join(folder, "Answers.antt"), head, imports, f"use {root}.Goals as goal", answers)
    os.remove(os.path.join(folder, "Proof.antt"))


def by_name(value, names):
    """A tuple at the end of a body as a record of these names."""
    at = 0
    while True:
        m = re.compile(r"\s*let .*? in(?=\s)", re.S).match(value, at)
        if not m:
            break
        at = m.end()
    rest = value[at:].strip()
    parts = split(rest)
    if parts and len(parts) == 2 and len(names) > 2:
        while len(parts) < len(names) and split(parts[-1]):
            parts = parts[:-1] + split(parts[-1])
    if parts and len(parts) == len(names) + 1 and parts[-1] == "tt":
        parts = parts[:-1]
    if not parts or len(parts) != len(names):
        return None
    gap = value[at : len(value) - len(value[at:].lstrip())]
    return value[:at] + gap + "record { " + "; ".join(f"{n} = {p}" for n, p in zip(names, parts)) + " }"


def split(text):
    """The parts of a tuple that is the whole text, or None."""
    text = text.strip()
    if not text.startswith("("):
        return None
    depth, parts, at = 0, [], 1
    for i, ch in enumerate(text):
        if ch in "({[":
            depth += 1
        elif ch in ")}]":
            depth -= 1
            if depth == 0:
                if i != len(text) - 1:
                    return None
                parts.append(text[at:i].strip())
        elif ch == "," and depth == 1:
            parts.append(text[at:i].strip())
            at = i + 1
    parts = [p for p in parts if p]
    return parts if len(parts) > 1 else None


def collect(uses):
    out = {}
    for u in uses:
        m = re.match(r"use (\S+?)\.\{(.*)\}$", u)
        if not m:
            if " as tie" not in u:
                out.setdefault(u, None)
            continue
        if m.group(1).endswith(".Statement"):
            continue
        for item in m.group(2).split(","):
            item = item.strip()
            word = item.split(" as ")[-1].strip()
            module = "Rattle.std.proofs.Common" if word in COMMON and not m.group(1).startswith("Rattle.") else m.group(1)
            out[word] = (module, item)
    return out


def put(path, head, imports, own, parts):
    body = "\n\n".join(parts)
    words = set(re.findall(WORD, re.sub(r"--[^\n]*", "", body)))
    used = {}
    for word, at in imports.items():
        if at is None:
            used[word] = None
            continue
        plain = word.replace("◌", "")
        if word in words or plain in words or (word == "∷" and "∷" in words):
            used.setdefault(at[0], []).append(at[1])
    # a tactic's word is needed by its name alone
    lines = []
    if "Rattle.std.proofs.Common" in used:
        lines.append(f"use Rattle.std.proofs.Common.{{{', '.join(used.pop('Rattle.std.proofs.Common'))}}}")
    for module, items in used.items():
        lines.append(module if items is None else f"use {module}.{{{', '.join(items)}}}")
    lines.append(own)
    with open(path, "w", encoding="utf-8") as f:
        f.write("\n".join(head + lines) + "\n\n" + body + "\n")


main()
