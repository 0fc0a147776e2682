#!/usr/bin/env python3
"""Brings the repository's own words to today's spelling: definitions, lemmas, fields and constructors in snake case, lent lists by x.old and x.new.

    tools/respell.py        at the top of a checkout in which the kit's port.py has run, once

1. `(old x)` and `(new x)` of a clause become `x.old` and `x.new` of a list that the function may write to, `x.now` of any other.
2. Every word that a file of specs/ or proofs/ declares is written in snake case: `planeOf` is `plane_of`, `mirror-start` is `mirror_start`.
   Where a definition and a lemma fall together, the lemma ends in `_lem`.
Functions of src/, exported C names and strings keep their names. Papers follow for the words in camel case, and for dashed ones in backticks.
"""
import collections
import glob
import os
import re

WORD = r"[^\s(){}.;,@\"«»\[\]\\]+"
HEAD = re.compile(r"^((?:abbrev |unfoldable |pub |record |data |ruleset )*)([^\s:(){}]+)\s*(?:(?:\(|\{)[^=]*)?:(?!:)")
PART = re.compile(r"^ {2,}(?:(?:pub|abbrev|unfoldable) )*([^\s:(){}.]+)\s*:\s")
# What Rattle makes of a function's parts keeps the name that the toolchain gives it.
MADE = re.compile(r"^(invariant|decreases|returns|ghost)(-|$)|-spec$")
SPECIAL = {"is-nan": "is_nan_lem", "inSecond": "is_in_second", "in-second": "in_second"}


def snake(word):
    word = word.replace("-", "_")
    return re.sub(r"(?<=[a-z0-9₀-₉])([A-Z])", lambda m: "_" + m.group(1).lower(), word)


def read(path):
    with open(path, encoding="utf-8") as f:
        return f.read()


def write(path, text):
    if read(path) != text:
        with open(path, "w", encoding="utf-8") as f:
            f.write(text)


SPECS = sorted(glob.glob("crates/*/specs/*.antt"))
PROOFS = sorted(glob.glob("crates/*/proofs/**/*.antt", recursive=True))
SOURCES = sorted(glob.glob("crates/*/src/**/*.rt", recursive=True))
EDITS = sorted(glob.glob("crates/*/must-fail/*.edit"))
PAPERS = sorted(glob.glob("docs/*.md")) + ["README.md", "CONTRIBUTING.md"]


def declared():
    tops, parts = set(), set()
    for path in SPECS + PROOFS:
        for line in read(path).split("\n"):
            if line.startswith("use "):
                continue
            m = HEAD.match(line)
            if m:
                tops.add(m.group(2))
            m = PART.match(line)
            if m:
                parts.add(m.group(1))
    return tops, parts


def new_names():
    tops, parts = declared()
    words = tops | parts
    turned = collections.defaultdict(list)
    for word in words:
        if word[0].islower() and not MADE.search(word) and ("-" in word or re.search("[A-Z]", word)):
            turned[snake(word)].append(word)
    names = {}
    for to, froms in turned.items():
        for word in froms:
            together = len(froms) > 1 or (to in words and not (word in parts and to not in parts and word not in tops))
            names[word] = to + "_lem" if together and "-" in word else to
    names.update(SPECIAL)
    return names, parts


NAMES, PARTS = new_names()


def turn(text, fields=True):
    """The words of antt text in their new spelling; after a dot only a field."""

    def word(m):
        w = m.group(0)
        if w not in NAMES:
            return w
        if m.start() and text[m.start() - 1] == "." and not (w in PARTS and fields):
            before = re.search(r"[^\s(){};,]+\.$", text[: m.start()])
            if not (before and re.search(r"(^|\.)[A-Z]\w*\.$", before.group(0))):
                return w
        return NAMES[w]

    return re.sub(WORD, word, text)


def turn_comment(text):
    text = re.sub(WORD, lambda m: NAMES.get(m.group(0), m.group(0)) if "-" not in m.group(0) else m.group(0), text)
    return re.sub(r"`([^`\n]*)`", lambda m: "`" + re.sub(WORD, lambda n: NAMES.get(n.group(0), n.group(0)), m.group(1)) + "`", text)


def turn_antt(text):
    out = []
    for line in text.split("\n"):
        at = line.find("--")
        if at < 0:
            out.append(turn(line))
        else:
            out.append(turn(line[:at]) + turn_comment(line[at:]))
    return "\n".join(out)


def lent(text):
    """`old x` and `new x` in the clauses of each function."""
    out, at = [], 0
    for m in list(re.finditer(r"\bfn (\w+)", text)) + [None]:
        end = m.start() if m else len(text)
        piece = text[at:end]
        head = re.match(r"fn \w+[^{]*?(?=\n    (?:requires|ensures|ghost)|\n?\{|$)", piece, re.S)
        params = head.group(0) if head else ""
        mut = set(re.findall(r"\b(\w+): &(?:'\w+ )?mut ", params))

        def old(n):
            return n.group(1) + (".old" if n.group(1) in mut else ".now")

        for start in (r"\((?:old) ({0})\)", r"(?<![\w.:])old ({0})"):
            piece = re.sub(start.format(r"[a-z]\w*"), old, piece) if "ensures" in piece or "requires" in piece else piece
        for start in (r"\((?:new) ({0})\)", r"(?<![\w.:])new ({0})"):
            piece = re.sub(start.format(r"[a-z]\w*"), lambda n: n.group(1) + ".new", piece) if "ensures" in piece else piece
        out.append(piece)
        at = end
    return "".join(out)


def turn_rt(text):
    lines = text.split("\n")
    text = "\n".join(line for line in lines if not line.startswith("ghost use Rattle.places.specs.Lent."))
    code = []
    for line in text.split("\n"):
        at = line.find("//")
        code.append((line, "") if at < 0 else (line[:at], line[at:]))
    body = lent("\n".join(a + ("\0" + str(i) + "\0" if b else "") for i, (a, b) in enumerate(code)))
    body = re.sub(WORD, lambda m: NAMES.get(m.group(0), m.group(0)), body)
    return re.sub("\0(\\d+)\0", lambda m: turn_comment(code[int(m.group(1))][1]), body)


def turn_edit(text):
    file = re.search(r"^file: (.*)$", text, re.M).group(1)
    out = []
    for line in text.split("\n"):
        m = re.match(r"(old|new): ?", line)
        if not m:
            out.append(line)
        elif file.endswith(".antt"):
            out.append(m.group(0) + turn_antt(line[m.end() :]))
        else:
            out.append(m.group(0) + re.sub(WORD, lambda n: NAMES.get(n.group(0), n.group(0)), line[m.end() :]))
    return "\n".join(out)


def main():
    for path in SPECS + PROOFS:
        write(path, turn_antt(read(path)))
    for path in SOURCES:
        write(path, turn_rt(read(path)))
    for path in EDITS:
        write(path, turn_edit(read(path)))
    for path in PAPERS:
        write(path, turn_comment(read(path)))
    # `old` and `new` are the language's own now.
    if os.path.exists("crates/places/specs/Lent.antt"):
        os.remove("crates/places/specs/Lent.antt")
    lib = "crates/places/specs/Lib.antt"
    write(lib, read(lib).replace("pub mod Lent\n", ""))


if __name__ == "__main__":
    main()
