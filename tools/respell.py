#!/usr/bin/env python3
"""Spell this repository's own definitions and lemmas as today's library does: words in snake case, types and relations in camel case.

usage: python3 tools/respell.py [--list]      at the top of the repository; --list prints the table and changes nothing

Only names that files of specs/ and proofs/ declare are turned, wherever they stand as a whole word: in .antt files, in the clauses of .rt files and
of must-fail edits, and between backticks in comments and pages. Names of goals and of functions, strings and prose stay.
"""
import glob
import os
import re
import sys

WORD = re.compile(r'[^\s(){}.;,@"«»`]+')
DECLARED = re.compile(r"^ *(?:abbrev |unfoldable |irreducible |opaque |pub )*([^\s:(){}]+(?: [^\s:(){}]+)*) :(?= |$)")
HEAD = re.compile(r"^(?:abbrev |unfoldable |pub )*(?:record|data) ([^\s:(){}]+)")
GOAL = re.compile(r"^(?:loop|invariant|decreases)-|.* : (?:goal|given|need|needs)\.")
# A name of the library's that one of ours would take, and one that ours would hide.
OTHERWISE = {"bit-and": "bit_of_and", "bit-or": "bit_of_or", "drop-replicate": "drop-replicate"}
LIBRARY = re.compile(r"^(?:ghost )?use (?!Rattle\.(?:%s)\.)(\S.*)$")
QUIET = re.compile(r'"(?:[^"\\\n]|\\.)*"|(?<![^\s(){};,])--[^\n]*|//[^\n]*')
SPAN = re.compile(r"`[^`\n]+`")


def files(*ends):
    for folder, dirs, names in os.walk("."):
        dirs[:] = sorted(d for d in dirs if d not in (".git", "out", "target", "tools"))
        for name in sorted(names):
            if name.endswith(ends):
                yield os.path.join(folder, name)


def read(path):
    with open(path, encoding="utf-8") as f:
        return f.read()


def respelled(name):
    if name in OTHERWISE:
        return OTHERWISE[name]
    parts = name.split("-")
    if name[0].isupper() and not parts[0].isupper() or (name[0].isupper() and len(parts[0]) == 1):
        return parts[0] + "".join(p[:1].upper() + p[1:] for p in parts[1:])
    return "_".join(parts)


def declared():
    """The names with a dash that the repository declares, and not at the type of a goal."""
    found = {}
    for path in files(".antt"):
        for line in read(path).split("\n"):
            head = HEAD.match(line)
            names = DECLARED.match(line)
            if head:
                names = head.group(1).split()
            elif names and not GOAL.match(re.sub(r"^ *(?:abbrev |pub )*", "", line)):
                names = [n for n in names.group(1).split()]
            else:
                continue
            if not set(names) & {"let", "in", "λ", "=", "↦", "|", "use"}:
                for name in names:
                    if "-" in name.strip("-"):
                        found.setdefault(name, set()).add(path)
    return found


def turn(text, table):
    return WORD.sub(lambda m: table.get(m.group(0), m.group(0)), text)


def turned(path, text, table):
    if path.endswith(".md"):
        return SPAN.sub(lambda m: turn(m.group(0), table), text)
    out, at = [], 0
    for quiet in QUIET.finditer(text):
        out.append(turn(text[at:quiet.start()], table))
        piece = quiet.group(0)
        out.append(piece if piece.startswith('"') else SPAN.sub(lambda m: turn(m.group(0), table), piece))
        at = quiet.end()
    out.append(turn(text[at:], table))
    return "".join(out)


def main():
    crates = "|".join(sorted(os.listdir("crates")))
    found = declared()
    table = {name: respelled(name) for name in found}
    words = set()
    library = set()
    for path in files(".antt", ".rt"):
        text = read(path)
        words |= set(WORD.findall(text))
        for line in text.split("\n"):
            use = re.match(LIBRARY.pattern % crates, line)
            if use:
                library |= set(WORD.findall(use.group(1)))
    news = {}
    for old, new in sorted(table.items()):
        news.setdefault(new, []).append(old)
    said = []
    for new, olds in sorted(news.items()):
        if len(olds) > 1:
            said.append("together: %s <- %s" % (new, ", ".join(olds)))
        if new in words and new != olds[0]:
            said.append("there already: %s <- %s" % (new, olds[0]))
    for old in sorted(table):
        if old in library:
            said.append("of the library: " + old)
    for line in said:
        print(line)
    if "--list" in sys.argv:
        for old, new in sorted(table.items()):
            print("%s\t%s\t%s" % (old, new, " ".join(sorted(found[old]))))
        return
    changed = 0
    for path in files(".antt", ".rt", ".edit", ".md"):
        text = read(path)
        new = turned(path, text, table)
        if new != text:
            changed += 1
            with open(path, "w", encoding="utf-8") as f:
                f.write(new)
    print("respelled %d names in %d files" % (len(table), changed))


main()
