#!/usr/bin/env python3
"""Respells this repository's own definitions and lemmas: snake case for words, upper camel case for types and facts.

usage: python3 tools/respell.py          at the top of the repository; once
       python3 tools/respell.py table    writes tools/names.tsv from the names that stand in the tree

The table has a line for each name: the old spelling, a tab, the new one, and where it holds below one folder only a tab and the folder. A dash stays where it joins the names of two definitions.
Comments, strings and Rust code keep their text; so do names that Rattle makes, which follow a dot behind c, g or l, or name a goal.
"""

import glob
import os
import re
import sys

TABLE = "tools/names.tsv"
WORD = re.compile(r"[A-Za-z_◌][\w'≢≡◌-]*")
# Functions whose names a lemma's name joins by a dash: of the library, then of this repository.
JOINED = {"append", "drop", "filter", "insert", "length", "map", "replicate", "reverse", "sum", "take"}
JOINED |= {"put", "onto", "ontos", "span", "row", "past", "shape", "cells", "decimal", "gathered", "nth", "member", "weigh", "heft", "spots"}
# Names that would fall together with others, and names that are spelled one way in some folders.
APART = {
    "inOrder": "is_in_order",
    "infix-of": "infix_of_mark",
    "prefix-of": "prefix_of_mark",
    "item-of": "entry_item",
    "arm-of": "entry_arm",
    "in-range crates/operations": "in_range_lem",
    "in-range crates/writing": "in_range_lem",
}


def antt():
    return sorted(glob.glob("crates/*/specs/**/*.antt", recursive=True) + glob.glob("crates/*/proofs/**/*.antt", recursive=True))


def answers(path):
    return os.path.basename(path) in ("Answers.antt", "Invariants.antt", "Choices.antt", "Proof.antt")


DEFINED = re.compile(r"(?m)^([ \t]*)(?:abbrev |unfoldable )?(?:pub )?(?:data |record )?((?:[A-Za-z_◌][\w'≢≡◌-]*)(?: [A-Za-z_][\w'-]*)*) :(?=[ \n])")
HEADED = re.compile(r"(?m)^[ \t]*(?:pub )?(?:data|record) (\S+)")
BOUND = re.compile(r"\blet ([A-Za-z_][\w'-]*) [:=]")


def definitions(path):
    """The names that a file defines: its own, constructors, fields and local ones."""
    with open(path, encoding="utf-8") as f:
        text = strip(f.read())
    names = set(HEADED.findall(text)) | set(BOUND.findall(text))
    for line in re.findall(r"(?m)^use .*$", text):
        names |= set(re.findall(r" as ([a-z][\w'-]*)", line))
    for _, them in DEFINED.findall(text):
        names |= set(them.split())
    return names


def strip(text):
    return re.sub(r"(?m)--(?= ).*$", "", text)


def goals(text):
    """The names of goals that a file answers, which Rattle makes."""
    return set(re.findall(r"(?m)^(?:abbrev )?(?:pub )?(\S+) : (?:goal|given)\.", text)) | set(re.findall(r"\bgoal\.([\w'-]+)", text))


def snake(word):
    word = re.sub(r"([a-z0-9])([A-Z])", lambda m: m[1] + "_" + m[2].lower(), word)
    return word.replace("-", "_").replace("′", "'")


def camel(word):
    return "".join(p[0].upper() + p[1:] for p in re.split(r"[-_]", word) if p)


def spelled(word):
    if word in APART:
        return APART[word]
    if word[0].isupper():
        return camel(word)
    parts = word.split("-")
    if len(parts) == 2 and all(p in JOINED for p in parts):
        return word
    return snake(word)


def table():
    all_names = set()
    for path in antt():
        with open(path, encoding="utf-8") as f:
            made = goals(f.read())
        all_names |= definitions(path) - (made if answers(path) else set())
    for path in glob.glob("crates/*/src/*.rt"):
        with open(path, encoding="utf-8") as f:
            all_names |= {m for l in re.findall(r"ghost use [^;]*;", f.read()) for m in re.findall(r" as (\w+)", l) if not m[0].isupper()}
    with open(TABLE, "w", encoding="utf-8") as f:
        for n in sorted(all_names):
            if "-" in n or "′" in n or re.search(r"[a-z][A-Z]", n):
                new = spelled(n)
                if new != n:
                    f.write(f"{n}\t{new}\n")
        for n in sorted(APART):
            if " " in n:
                f.write(f"{n.replace(' ', chr(9) + APART[n] + chr(9))}\n")


def names(path):
    """The table, as it holds of the file at path."""
    them = {}
    for old, new, *below in LINES:
        if not below or path.startswith(below[0] + "/"):
            them[old] = new
    for old, new in list(them.items()):
        if old.startswith("◌"):
            them[old.strip("◌")] = new.strip("◌")
    return them


MADE = re.compile(r"(?:^|[^\w'.-])(?:c|g|l|goal|given|need)(?:\.[\w'-]+)*\.$")


def turned(text, them, keep=frozenset()):
    """A piece of antt with the names respelled: no comment, no string, no name that Rattle makes."""
    out = []
    for line in text.split("\n"):
        cut = re.search(r"(?:^|\s)--(?=\s|$)", line)
        code, rest = (line[: cut.start()], line[cut.start() :]) if cut else (line, "")
        done, at = [], 0
        for m in WORD.finditer(code):
            new = them.get(m[0])
            if new is None or m[0] in keep or MADE.search(code[: m.start()]) or code[: m.start()].count('"') % 2:
                continue
            done += [code[at : m.start()], new]
            at = m.end()
        out.append("".join(done) + code[at:] + rest)
    return "\n".join(out)


CLAUSES = re.compile(r"(?m)^[ \t]*(?:pub )?(?:ghost use [^;]*;|ghost [^;\n]*;|(?:requires|ensures)[^\n{]*\{(?:[^{}]|\{(?:[^{}]|\{[^{}]*\})*\})*\})")


def rust(text, them):
    """A .rt file with the names of its clauses and imports respelled."""
    out, at = [], 0
    for m in CLAUSES.finditer(text):
        out += [text[at : m.start()], turned(m[0], them)]
        at = m.end()
    return "".join(out) + text[at:]


def edit(text, them):
    """A must-fail edit: its lines, with the names of specifications respelled."""
    if re.search(r"(?m)^file: specs/", text):
        return "\n".join(l[:5] + turned(l[5:], them) if l.startswith(("old: ", "new: ")) else l for l in text.split("\n"))
    return text


LINES = []


def main(argv):
    if argv == ["table"]:
        return table()
    with open(TABLE, encoding="utf-8") as f:
        LINES.extend(l.rstrip("\n").split("\t") for l in f if l.strip())
    for path in antt() + sorted(glob.glob("crates/*/src/*.rt")) + sorted(glob.glob("crates/*/must-fail/*.edit")):
        them = names(path)
        with open(path, encoding="utf-8") as f:
            text = f.read()
        if path.endswith(".rt"):
            new = rust(text, them)
        elif path.endswith(".edit"):
            new = edit(text, them)
        else:
            new = turned(text, them, goals(text) if answers(path) else frozenset())
        if new != text:
            with open(path, "w", encoding="utf-8") as f:
                f.write(new)


if __name__ == "__main__":
    main(sys.argv[1:])
