#!/usr/bin/env python3
"""Spells this repository's own definitions and lemmas as today's Rattle does: words in snake case, types in camel case.

usage: python3 tools/port_names.py    at the top, once, right behind the kit's port.py; prints a row for each name: old, a tab, new

It turns the names that the files of specs/ and proofs/ declare (names that only a function's own Proof.antt declares are made
anew with that file; names that a file brings in from a library stay), wherever they stand in those files, in clauses and `ghost use` items of src/, and in code spans of comments
and of the pages. In a Proof.antt what stands behind a dot is a name that Rattle makes, and stays.
Where two names would fall together, the lemma gets `_lem`. Functions of src/, exported names, strings and inputs are not touched.
"""
import glob
import os
import re

WORD = re.compile(r"[^\s(){}.;,@\"«»\[\]|⟨⟩`]+")
DECLARED = re.compile(r"^\s*(?:abbrev |unfoldable |pub |private )*(?:data |record )?([^\s:(){}.,]+(?: +[^\s:(){}.,=]+)*)(?:\s+[({].*)?(?:\s+:(?:\s|$)|(?<=\))$)")
COMMENT = re.compile(r"(?m)(?<![^\s(){}.;,])--.*$")
KEYWORDS = {"use", "let", "in", "module", "where", "infix", "infixl", "infixr"}
# Lemmas that were in snake case already and have the name that a definition gets.
LEMMAS = {"plain_at": "plain_at_lem"}
# Ours that port.py spells by a library's word, and a production with a lemma's name.
OWN = {"Signed-by": "signed_by", "is_Signed": "is_signed", "no-day": "is_no_day", "no_default_lem": "no_default"}
# Productions that would have their symbol's name.
PRODUCTIONS = {"type-name": "named_type", "type-args": "some_type_args", "type-arg": "type_as_arg", "of-int": "some_of"}


def texts():
    found = glob.glob("crates/*/specs/**/*.antt", recursive=True) + glob.glob("crates/*/proofs/**/*.antt", recursive=True)
    return sorted(p for p in found if "/out/" not in p)


def read(path):
    with open(path, encoding="utf-8") as f:
        return f.read()


def is_walk(path):
    return os.path.basename(path) == "Proof.antt"


def declared(path):
    names = set()
    text = COMMENT.sub("", read(path))
    for line in text.split("\n"):
        m = DECLARED.match(line)
        words = m.group(1).split() if m else []
        if words and words[0] not in KEYWORDS:
            names.update(w for w in words if "◌" not in w and re.search("[a-z]", w))
    if not is_walk(path):
        names.update(re.findall(r"\bas ([^\s(){}.;,@«»]+)", text) + re.findall(r"\blet ([^\s(){}.;,@«»]+) [:=]", text))
        names.update(re.findall(r"[({]([^\s(){}.;,@«»]+) : ", text))
    return names


def is_old(name):
    return "-" in name or (name[0].islower() and re.search(r"[a-z0-9₀-₉][A-Z]", name))


def spelled(name):
    if name[0].isupper():
        return "".join(part[:1].upper() + part[1:] for part in name.split("-"))
    return re.sub(r"([a-z0-9₀-₉])([A-Z])", lambda m: m.group(1) + "_" + m.group(2).lower(), name).replace("-", "_")


def table():
    names = set()
    for path in texts():
        if not is_walk(path):
            names |= declared(path)
    old = sorted(n for n in names if is_old(n))
    camel = {spelled(n) for n in old if "-" not in n}
    rows = dict(LEMMAS | PRODUCTIONS | OWN)
    for n in old:
        if n in rows:
            continue
        to = spelled(n)
        if "-" in n and (to in camel or to in names):
            to += "_lem"
        rows[n] = to
    news = list(rows.values())
    assert len(set(news)) == len(news), [n for n in news if news.count(n) > 1]
    return rows


def turn(text, rows, own=frozenset(), dots=True):
    aliases = tuple(a + "." for a in re.findall(r"^use Rattle\.[^\s{]+ as ([\w-]+)$", text, re.M))

    def one(m):
        before = text[max(0, m.start() - 40) : m.start()]
        if not dots and before.endswith(".") and not re.search(r"(?<![\w.'-])(%s)$" % "|".join(map(re.escape, aliases or (" ",))), before):
            return m.group(0)
        if m.group(0) in own:
            return m.group(0)
        return rows.get(m.group(0), m.group(0))

    return WORD.sub(one, text)


def turn_spans(text, rows):
    return re.sub(r"`[^`\n]+`", lambda m: turn(m.group(0), rows), text)


def from_library(text):
    """The names that a file brings in from a library of the kit."""
    names = set()
    for module, items in re.findall(r"use ([^\s{]+)\.\{([^}]*)\}", text):
        if not re.match(r"Rattle\.(?!std\b)", module):
            names.update(item.split(" as ")[0].strip() for item in items.split(","))
    return names


def turn_proof(path, rows):
    text = read(path)
    walk = is_walk(path)
    own = set(re.findall(r"^(?:abbrev |pub )*([^\s:(){}.,]+) :", text, re.M)) if walk else set()
    own |= from_library(text)
    out, at = [], 0
    for m in COMMENT.finditer(text):
        out += [turn(text[at : m.start()], rows, own, not walk), turn_comment(m.group(0), rows)]
        at = m.end()
    return "".join(out) + turn(text[at:], rows, own, not walk)


def turn_comment(text, rows):
    camel = {a: b for a, b in rows.items() if "-" not in a and "_" not in a}
    return turn_spans(turn(text, camel), rows)


def turn_source(path, rows):
    lines = []
    for line in read(path).split("\n"):
        code, mark, comment = line.partition("//")
        if re.match(r"\s*ghost use ", code):
            code = turn(code, rows)
        else:
            code = turn(code, {a: b for a, b in rows.items() if is_old(a) or a in OWN})
        lines.append(code + (mark + turn_comment(comment, rows) if mark else ""))
    return "\n".join(lines)


def main():
    rows = table()
    files = [(p, turn_proof) for p in texts()]
    files += [(p, turn_source) for p in sorted(glob.glob("crates/*/src/**/*.rt", recursive=True))]
    pages = ["README.md", *sorted(glob.glob("docs/*.md")), *sorted(glob.glob("docs/notes/*.md"))]
    files += [(p, lambda p, rows: turn_spans(read(p), rows)) for p in pages if p != "docs/PORT.md"]
    for path, how in files:
        new = how(path, rows)
        if new != read(path):
            with open(path, "w", encoding="utf-8") as f:
                f.write(new)
    for old in sorted(rows):
        print(f"{old}\t{rows[old]}")


main()
