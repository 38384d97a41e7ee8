#!/usr/bin/env python3
"""Counts the places of docs/DESIGN-PASS.md in crates/*/src, point by point.

usage: design_places.py [--list] [COMMIT]

COMMIT   the commit whose files are counted (default: the files of the working tree that git tracks)
--list   each place too, as path:line and its text
Exit status: 0, or 2 on bad usage.
"""
import re
import subprocess
import sys
from collections import Counter


def git(*words):
    return subprocess.run(["git", *words], capture_output=True, text=True, check=True).stdout


def files(commit, pattern):
    names = git("ls-tree", "-r", "--name-only", commit) if commit else git("ls-files")
    for name in sorted(names.split("\n")):
        if re.fullmatch(pattern, name):
            yield name, git("show", f"{commit}:{name}") if commit else open(name).read()


def lines(texts, pattern):
    """The lines that have the pattern, but for comments."""
    return [
        (path, number, line.strip())
        for path, text in texts
        for number, line in enumerate(text.split("\n"), 1)
        if not line.lstrip().startswith("//") and re.search(pattern, line)
    ]


def blocks(texts, head):
    """The items that begin with the pattern at any indentation, up to the brace that ends them."""
    for path, text in texts:
        for m in re.finditer(r"^([ ]*)(?:%s)" % head, text, re.M):
            line = text[m.start() : text.index("\n", m.start())]
            end = re.compile(r"^%s\}" % m.group(1), re.M).search(text, m.start())
            stop = m.start() + len(line) if line.endswith(";") or not end else end.end()
            yield path, text[: m.start()].count("\n") + 1, text[m.start() : stop]


ERROR_LIKE = r"\b(Refused|Stopped|Unknown|AllWell|Clean|Missing|Different|Accepted|Half)\b"


def own_enums(src):
    return [(p, n, b.split("\n")[0]) for p, n, b in blocks(src, r"(?:pub )?enum ") if re.search(ERROR_LIKE, b)]


def normal(body):
    """A function's tokens with each name, number and text replaced by its place of first use; without contracts."""
    body = re.sub(r"//[^\n]*", "", body)
    body = re.sub(r"^\s*(requires|ensures)\b.*?(?=^\s*(requires|ensures)\b|^\s*\{$)", "", body, flags=re.M | re.S)
    keep = {"fn", "pub", "let", "mut", "if", "else", "while", "loop", "for", "in", "match", "return", "break", "continue", "as", "extern"}
    seen, out = {}, []
    for token in re.findall(r'b?"[^"]*"|b\'.\'|[A-Za-z_][A-Za-z0-9_:]*|\d+|\S', body):
        if re.match(r"[A-Za-z_0-9\"]|b['\"]", token) and token not in keep:
            token = "$" + str(seen.setdefault(token, len(seen)))
        out.append(token)
    return " ".join(out)


def twins(src):
    """Functions and types that are another's text but for names, numbers and texts: all but the first of each kind.

    A function whose body is one call is not counted: it is how a name stands for a case of another function."""
    first, again = {}, []
    for p, n, b in blocks(src, r'(?:pub )?(?:extern "C" )?fn |(?:pub )?(?:enum|struct) '):
        shape = normal(b)
        body = re.search(r"\{\n(.*)\}", b, re.S)
        if len(shape.split()) < 40 or " fn " in " " + b.split("(")[0] and body and not re.search(r"[;{]", body.group(1)):
            continue
        if shape in first:
            again.append((p, n, b.split("\n")[0] + "   like " + first[shape]))
        else:
            first[shape] = "%s:%d" % (p, n)
    return again


def index_loops(src):
    found = []
    for p, n, b in blocks(src, r"(?:'\w+: )?(?:while|loop)\b"):
        head = b.split("\n")[0].strip()
        for name in re.findall(r"\b([a-z_]\w*)\b", head if "while" in head else b):
            if re.search(r"\b%s [+-]= 1;" % name, b) and (("<" in head) or re.search(r"\b%s < |< %s\b" % (name, name), b)):
                found.append((p, n, head))
                break
    return found


def shared_facts(src):
    names = Counter()
    for _, _, line in lines(src, r"^\s*requires\b"):
        names.update(set(re.findall(r"\b([A-Z]\w+)\b", line)))
    return [("contracts", count, name) for name, count in sorted(names.items()) if count >= 3]


def long_lists(src):
    found = []
    for p, n, b in blocks(src, r'(?:pub )?(?:extern "C" )?fn '):
        names = re.findall(r"\b(\w+): ", b[: b.index(")") if ")" in b else 0])
        if len(names) >= 5:
            found.append((p, n, "%s(%s)" % (re.search(r"fn (\w+)", b).group(1), ", ".join(names))))
    return found


def points(commit):
    src = list(files(commit, r"crates/[^/]+/src/.*\.rt"))
    proofs = list(files(commit, r"crates/[^/]+/proofs/.*/Answers\.antt"))
    long = [(p, n, l[:80]) for p, t in proofs for n, l in enumerate(t.split("\n"), 1) if len(l) > 120]
    answers = lines(proofs, r"^pub ")
    return [
        ("1 own enums of the shape of Option or Result", own_enums(src)),
        ("1 arms that only hand a refusal on", lines(src, r"\b(Refused|Err)\((e|_)\) => (return )?[A-Za-z:]*(Refused|Err)\(e\)")),
        ("1 numbers that say that there is none", lines(src, r"^(pub )?const (NO_[A-Z]+|LIMIT): ")),
        ("1 kinds, classes, flags and refusals as numbers", lines(src, r"^pub const [A-Z_]+: (u8|u32) = [0-9]+;")),
        ("2 twins", twins(src)),
        ("3 loops that count an index by hand", index_loops(src)),
        ("4 equality, order, copying, conversion by hand", lines(src, r"\bfn (same|order|wide|swap|clear|spoil|least|most)\w*\(")),
        ("5 facts that three or more contracts ask for", shared_facts(src)),
        ("5 functions of five and more parameters", long_lists(src)),
        ("6 arrays of a written length", lines(src, r"\[[^\]\[]*; *[0-9A-Z_]+\]")),
        ("7 switches by a parameter", lines(src, r"^\s*\w+: bool,|\w+: bool[,)]|match call\b")),
        ("8 answers", answers),
        ("8 lines of answers over 120 characters", long),
    ]


def main(words):
    listed = "--list" in words
    words = [w for w in words if w != "--list"]
    if len(words) > 1 or any(w.startswith("-") for w in words):
        print(__doc__.strip(), file=sys.stderr)
        return 2
    for name, places in points(words[0] if words else None):
        print("%5d  %s" % (len(places), name))
        for path, number, text in places if listed and not name.startswith("8") else []:
            print("       %s:%s: %s" % (path, number, text))
    return 0


if __name__ == "__main__":
    sys.exit(main(sys.argv[1:]))
