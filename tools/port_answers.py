#!/usr/bin/env python3
"""Turns a crate's walks (proofs/F/Proof.antt of the older Rattle) to today's Invariants.antt and Answers.antt.

usage: python3 tools/port_answers.py CRATE NAMES [FUNCTION..]
       at the top; NAMES is the names.json that `rt check --generated FOLDER --old-names` wrote in crates/CRATE

A goal's answer keeps its text: `c.before.before.loop.invariant` becomes `c.loop-i.invariant`, by the steps that names.json lists.
An answer that is only `search rules` goes, since the check tries that by itself. What has no counterpart is printed.
The one walk of a cycle of calls is turned too, but for what it says in a `module _ (t : ℕ)`.
"""
import json
import os
import re
import sys

SIGNATURE = re.compile(r"^((?:abbrev |pub |unfoldable )*)([^\s:(){}]+) : ?(.*)$")
PATH = r"((?:\.before)*)((?:\.[\w₀-₉'-]+)*)"


def plain(name):
    return re.sub(r"^(overflow|slice|array|shared-slice|element)-", "", name.replace("_", "-"))


def dashed(name):
    return name.replace("_", "-")


class Walk:
    def __init__(self, told, where):
        self.told = told
        self.where = where
        self.places = {}
        for i, p in enumerate(told["places"]):
            self.places.setdefault(dashed(p[0]), i)
        self.lost = []

    def parent(self, i):
        name = self.told["places"][i][1]
        return None if name is None else self.places[dashed(name)]

    def step_at(self, i, name, rest):
        """The new name of a step of the place, and what is left of its path; None where the place has no such step."""
        old, new = self.told["places"][i][2]
        if dashed(old) != dashed(name):
            return None
        arm = self.told["arms"][i]
        if arm:
            for field, step, path in arm[2]:
                if dashed(step) == dashed(name) and rest[: len(path)] == path:
                    return [arm[0], field] + rest[len(path) :]
        return [new] + rest

    def turned(self, place, fields):
        got = self.found(place, fields)
        if got[0].startswith("if-") and len(got) > 1:
            got[1] = {"taken": "true", "left": "false"}.get(got[1], got[1])
        if "loop" in got[0] and len(got) > 1 and got[1] == "inv":
            got[1] = "invariant"
        return got

    def found(self, place, fields):
        name, rest = fields[0], fields[1:]
        if name == "pre":
            return ["requires"] + rest
        i = place
        while i is not None:
            got = self.step_at(i, name, rest)
            if got:
                return got
            i = self.parent(i)
        if name not in ("args", "requires", "ranges", "well_formed", "pre"):
            self.lost.append("%s: no step %s at %s" % (self.where, ".".join(fields), self.told["places"][place][0]))
        return fields

    def body(self, text, place, var="c", alias="c"):
        def one(m):
            fields = m.group(2).split(".")[1:]
            if not fields:
                if m.group(1):
                    self.lost.append("%s: a place passed on: %s" % (self.where, m.group(0)))
                return m.group(0) if m.group(1) else alias
            return alias + "." + ".".join(self.turned(place, fields))

        return re.sub(r"(?<![\w.'₀-₉-])" + re.escape(var) + r"(?![\w'₀-₉-])" + PATH, one, text)


def renamed_behind_aliases(text):
    """What stands behind a module's other name, as `pr.moreArgs`, gets the spelling of tools/port_names.tsv."""
    here = os.path.join(os.path.dirname(os.path.abspath(__file__)), "port_names.tsv")
    with open(here, encoding="utf-8") as f:
        rows = dict(line.rstrip("\n").split("\t") for line in f)
    for alias in re.findall(r"^use Rattle\.[^\s{]+ as ([\w-]+)$", text, re.M):
        text = re.sub(r"(?<![\w.-])(%s\.)([\w'-]+)" % re.escape(alias), lambda m: m.group(1) + rows.get(m.group(2), m.group(2)), text)
    return text


def blocks(text):
    """The head (comments and imports), and each declaration with the comments above it."""
    lines = text.split("\n")
    head, out, held = [], [], []
    for line in lines:
        if SIGNATURE.match(line) and not line.startswith(("use ", "--", "module ")):
            out.append(held + [line])
            held = []
        elif not out and (line.startswith(("use ", "--")) or line == ""):
            head.append(line)
        elif line.startswith("--"):
            held.append(line)
        else:
            (out[-1] if out else head).append(line)
    return head, out


def let_places(walk, text, place, var, short):
    """A `let s : tie.P = search in`, or `let s = c.before.before in`, names a place further out: what is cited of it is cited of c."""
    env = {var: place}
    while True:
        m = re.search(r"\blet ([\w₀-₉'-]+) : (?:tie\.)?([\w-]+)(?: [\w₀-₉'-]+)* = search in\s*", text)
        if m and ("tie." in m.group(0) or m.group(2) in short):
            name = short.get(m.group(2), m.group(2))
            if dashed(name) not in walk.places:
                walk.lost.append("%s: no place %s" % (walk.where, name))
            env[m.group(1)] = walk.places.get(dashed(name), place)
        else:
            known = "|".join(map(re.escape, env))
            m = re.search(r"\blet ([\w₀-₉'-]+) = (%s)((?:\.before)+) in\s*" % known, text)
            if not m:
                break
            at = env[m.group(2)]
            for _ in range(m.group(3).count("before")):
                at = walk.parent(at) if walk.parent(at) is not None else at
            env[m.group(1)] = at
        text = text[: m.start()] + text[m.end() :]
    for name, at in env.items():
        text = walk.body(text, at, name, var)
    return text


def short_places(decls):
    """`abbrev Head : Type 0` with `Head = tie.At-loop ..` is a short name of a place."""
    out = {}
    for block in decls:
        m = re.search(r"^([\w-]+)(?: t)? = (?:tie|[\w-]+-lts)\.([A-Z][\w-]*)", "\n".join(block), re.M)
        if m and "Need-" not in m.group(2):
            out[m.group(1)] = m.group(2)
    return out


def turn_helper(walk, text, short):
    """A helper that speaks of a place by `(c : tie.P ..)`."""
    while True:
        m = re.search(r"\(([\w₀-₉'-]+) : tie\.([\w-]+)[^()]*\)", text)
        if not m:
            break
        at = walk.places.get(dashed(m.group(2)))
        if at is None:
            walk.lost.append("%s: no place %s" % (walk.where, m.group(2)))
            break
        text = text[: m.start()] + "(%s : goal.%s)" % (m.group(1), walk.told["places_by_name"][at]) + text[m.end() :]
        text = let_places(walk, text, at, m.group(1), short)
    return text


def live(walk, loop, name):
    (_, new), names = loop
    changed = walk.told["changed"][[l[0][1] for l in walk.told["loops"]].index(new)]
    start = [(n + "₀" if c else n) for n, c in zip(names, changed)]
    rows = {s: ("l.initial." if c else "l.") + n for s, n, c in zip(start, names, changed)}
    rows.update({n: "l." + n for n, c in zip(names, changed) if c})
    order = start + [n for n, c in zip(names, changed) if c]
    return order, rows


def invariant(walk, block, kind):
    text = "\n".join(block)
    m = re.search(r"^%s-([\w-]+)((?: [^\s=]+)*) =" % kind, text, re.M)
    old = m.group(1)
    loop = [l for l in walk.told["loops"] if dashed(l[0][0]) == dashed(old)]
    if not loop:
        walk.lost.append("%s: no loop %s" % (walk.where, old))
        return text
    order, rows = live(walk, loop[0], kind)
    given = m.group(2).split()
    if len(given) != len(order):
        walk.lost.append("%s: loop %s has %s, and not %s" % (walk.where, old, order, given))
    by = {g: rows[o] for g, o in zip(given, order) if g != "_"}
    body = text[m.end() :]
    word = r"(?<![\w.'₀-₉-])(%s)(?![\w'₀-₉-])" % "|".join(sorted(map(re.escape, by), key=len, reverse=True)) if by else r"(?!)"
    body = re.sub(word, lambda w: by[w.group(1)], body)
    new = "%s-%s" % (kind, loop[0][0][1])
    comments = "".join(l + "\n" for l in block if l.startswith("--"))
    return "%sabbrev pub %s : goal.%s\n%s l =%s" % (comments, new, new, new, body)


def align(olds, news):
    """Each old goal's place in the new list."""
    out, used = {}, set()
    for name in (dashed, plain):
        for i, o in enumerate(olds):
            if i in out:
                continue
            for j, (n, _) in enumerate(news):
                if j not in used and name(n) == name(o):
                    out[i] = j
                    used.add(j)
                    break
    return out


def turn(crate, path, function, told, lost):
    with open(path, encoding="utf-8") as f:
        text = renamed_behind_aliases(f.read())
    walk = Walk(told, crate + "::" + function)
    head, decls = blocks(text)
    needs, invariants, helpers = [], [], []
    short = short_places(decls)
    for block in decls:
        name, kind = kind_of(block)
        m = re.match(r"tie\.Need-([\w-]+)", kind)
        if m:
            needs.append((name, m.group(1), block))
        elif re.match(r"tie\.(invariant|decreases)-", kind):
            to = kind[4:].split(" ")[0]
            invariants.append([re.sub(r"^((?:abbrev |pub )*)%s\b" % re.escape(name), lambda m: m.group(1) + to, l) for l in block])
        elif "statement M" in kind or any("tie.close" in l for l in block):
            continue
        else:
            helpers.append(block)
    at = align([n[1] for n in needs], told["needs"])
    renamed = {n[0]: told["needs"][at[i]][1] for i, n in enumerate(needs) if i in at}
    answers = []
    for i, (name, old, block) in enumerate(needs):
        text = "\n".join(block).rstrip("\n")
        m = re.search(r"^%s ([\w₀-₉']+)((?: [^\s=]+)*) =" % re.escape(name), text, re.M)
        if i not in at:
            if not text.endswith("= search rules") and not old.startswith(("same-length", "shape-of")):
                walk.lost.append("%s: no goal for %s" % (walk.where, old))
                answers.append("-- no goal: " + text.replace("\n", "\n-- "))
            continue
        if text.endswith("= search rules"):
            continue
        new = told["needs"][at[i]][1]
        if new.startswith("shape_of-"):
            continue
        place = walk.places[dashed(told["asked_at"][at[i]][0])]
        between = re.search(r"^unfolding .*$", text, re.M)
        comments = "".join(l + "\n" for l in block if l.startswith("--"))
        if not m:
            walk.lost.append("%s: no clause of %s" % (walk.where, name))
            continue
        body = let_places(walk, text[m.end() :], place, m.group(1), short)
        body = re.sub(r"\.auto(?:\.[01])+\b", ".auto.tree", body)
        # What an `if` on `!x` tells is a fact about x today.
        body = re.sub(r"not[-_](?:true|false) _ (c\.if-[\w.₀-₉-]+)", r"\1", body)
        extra = [x for x in m.group(2).split() if x not in ("_", "κs", "q") or re.search(r"(?<![\w-])%s(?![\w-])" % x, body)]
        extra = [x for x in extra if x not in ("κs", "_")]
        if re.search(r"κs", body):
            walk.lost.append("%s: κs in %s" % (walk.where, new))
        for a, b in renamed.items():
            if a != b:
                body = re.sub(r"(?<![\w.'₀-₉-])%s(?= c\b)" % re.escape(a), b, body)
        answers.append(
            "%spub %s : goal.%s\n%s%s c%s =%s"
            % (comments, new, new, between.group(0) + "\n" if between else "", new, "".join(" " + x for x in extra), body)
        )
    base = "Rattle.%s.proofs.%s" % (crate, function)
    uses = [l for l in head if not re.search(r"\.Statement\.\{statement\}|\.Tie as tie", l)]
    while uses and uses[-1] == "":
        uses.pop()
    comments = [l for l in uses if l.startswith("--")]
    uses = [l for l in uses if l.startswith("use ")]
    folder = os.path.dirname(path)
    mine = "\n\n".join(turn_helper(walk, "\n".join(b).rstrip("\n"), short) for b in helpers if not any(re.match(r"(abbrev )?%s " % re.escape(s), b[0]) for s in short))
    if re.search(r"\btie\.", mine):
        walk.lost.append("%s: a helper speaks of the walk" % walk.where)
    if invariants:
        made = []
        for b in invariants:
            kind = "invariant" if any("tie.invariant-" in l for l in b) else "decreases"
            made.append(invariant(walk, b, kind).rstrip("\n"))
        out = comments + uses + ["use %s.Given as goal" % base, "", "\n\n".join(made), ""]
        with open(os.path.join(folder, "Invariants.antt"), "w", encoding="utf-8") as f:
            f.write("\n".join(out))
        comments = []
    if answers or helpers:
        out = comments + uses + ["use %s.Goals as goal" % base, ""]
        if mine:
            out += [mine, ""]
        out += ["\n\n".join(answers), ""]
        with open(os.path.join(folder, "Answers.antt"), "w", encoding="utf-8") as f:
            f.write("\n".join(out))
    os.remove(path)
    lost += walk.lost




def kind_of(block):
    """The name and the type of a declaration, also where the type begins on the next line."""
    at = next(i for i, l in enumerate(block) if SIGNATURE.match(l))
    _, name, kind = SIGNATURE.match(block[at]).groups()
    return name, kind or block[at + 1].strip()


def by_place(path, params):
    """The parameter that a path through nested pairs leads to."""
    steps = path.split(".")
    n = 0
    while steps[n] == "1":
        n += 1
    return ".".join([params[n]] + steps[n + 1 :])


def turn_cycle(crate, path, cycle, told, lost):
    """The one walk of a cycle of calls: `unary-peek-requires : (t : ℕ) → unary-lts.Need-peek-requires ..` and measures `μ-unary`."""
    with open(path, encoding="utf-8") as f:
        text = renamed_behind_aliases(f.read())
    head, decls = blocks(text)
    members = {}
    params = {}
    for key, value in told.items():
        if ".%s.Lts-" % cycle in key:
            members[key.split(".Lts-")[1]] = Walk(value, key)
        if isinstance(value, dict):
            params.update({k.split("::")[-1]: v for k, v in (value.get("params") or {}).items()})
    dashes = {dashed(m): m for m in members}
    needs = {m: [] for m in members}
    invariants, measures, helpers = [], [], []
    short = short_places(decls)
    for block in decls:
        name, kind = kind_of(block)
        joined = " ".join(block)
        m = re.match(r"(?:\(t : ℕ\) → )?([\w-]+?)-lts\.Need-([\w-]+)", kind)
        if m:
            needs[dashes[dashed(m.group(1))]].append((name, m.group(2), block))
        elif re.match(r"[\w-]+-lts\.(invariant|decreases)-", kind):
            invariants.append((dashes[dashed(re.match(r"([\w-]+?)-lts", kind).group(1))], name, block))
        elif name.startswith("μ-") and "Measures" in kind:
            measures.append((dashes[dashed(name[2:])], block))
        elif re.search(r"statement M|\.Claims|: ℕ → In |close", joined):
            continue
        else:
            helpers.append(block)
    base = "Rattle.%s.proofs.%s" % (crate, cycle)
    uses = [l for l in head if l.startswith("use ")]
    uses = [l for l in uses if not re.search(r"\.(Reads|Kinds) as |Lts-|\{statement\}|Tie\.\{close\}|borrow\.Fn", l)]
    made = []
    for member, block in measures:
        body = "\n".join(block).split(" =", 1)[1].rstrip()
        body = re.sub(r"\ba\.((?:1\.)*0)\b", lambda m: "l." + by_place(m.group(1), params[member]), body)
        made.append("abbrev pub decreases-%s : goal.decreases-%s\ndecreases-%s l =%s" % (member, member, member, body))
    for member, name, block in invariants:
        walk = members[member]
        kind = "invariant" if any("-lts.invariant-" in l for l in block) else "decreases"
        old = "loop"
        lines = [re.sub(r"^%s\b" % re.escape(name), "%s-%s" % (kind, old), l) for l in block]
        one = invariant(walk, lines, kind).rstrip("\n")
        made.append(one.replace("%s-loop" % kind, "%s-%s-loop" % (kind, member)))
    out = uses + ["use %s.Given as goal" % base, "", "\n\n".join(made), ""]
    folder = os.path.dirname(path)
    with open(os.path.join(folder, "Invariants.antt"), "w", encoding="utf-8") as f:
        f.write("\n".join(out))
    answers = []
    for member, walk in members.items():
        at = align([n[1] for n in needs[member]], walk.told["needs"])
        for i, (name, old, block) in enumerate(needs[member]):
            text = "\n".join(block).rstrip("\n")
            if text.endswith("search rules"):
                continue
            if i not in at:
                if old.startswith("same-length"):
                    continue
                walk.lost.append("%s: no goal for %s" % (walk.where, old))
                answers.append("-- no goal: " + text.replace("\n", "\n-- "))
                continue
            new = walk.told["stem"] + walk.told["needs"][at[i]][1]
            place = walk.places[dashed(walk.told["asked_at"][at[i]][0])]
            m = re.search(r"^%s t ([\w₀-₉']+)((?: [^\s=]+)*) =" % re.escape(name), text, re.M)
            if not m:
                walk.lost.append("%s: no clause of %s" % (walk.where, name))
                continue
            body = let_places(walk, text[m.end() :], place, m.group(1), short)
            body = re.sub(r"not[-_](?:true|false) _ (c\.if-[\w.₀-₉-]+)", r"\1", body)
            body = re.sub(r"\.auto(?:\.[01])+\b", ".auto.tree", body)
            body = body.replace("c.requires.0", "c.decreases").replace("c.requires.1", "c.requires")
            answers.append("pub %s : goal.%s\n%s t c =%s" % (new, new, new, body))
        lost += walk.lost
    mine = "\n\n".join("\n".join(b).rstrip("\n") for b in helpers)
    out = [l for l in head if l.startswith("--")] + uses + ["use %s.Goals as goal" % base, ""] + ([mine, ""] if mine else [])
    out += ["\n\n".join(answers), ""]
    with open(os.path.join(folder, "Answers.antt"), "w", encoding="utf-8") as f:
        f.write("\n".join(out))
    os.remove(path)


def main():
    crate, names = sys.argv[1:3]
    only = sys.argv[3:]
    with open(names, encoding="utf-8") as f:
        told = json.load(f)
    top = os.path.join("crates", crate, "proofs")
    lost = []
    for folder, _, files in sorted(os.walk(top)):
        if "Proof.antt" not in files:
            continue
        function = os.path.relpath(folder, top).replace(os.sep, ".")
        if only and function not in only:
            continue
        if "+" in folder:
            turn_cycle(crate, os.path.join(folder, "Proof.antt"), function, told, lost)
            continue
        key = "Rattle-%s-proofs.%s.Lts" % (crate, function)
        if key not in told:
            print("no names of", function)
            continue
        turn(crate, os.path.join(folder, "Proof.antt"), function, told[key], lost)
    for l in lost:
        print(l)


main()
