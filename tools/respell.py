#!/usr/bin/env python3
"""Gives the repository's own definitions and lemmas the spelling of today's Rattle, by the rows of respell.tsv beside this file.

usage: tools/respell.py [FOLDER]     once, at the top of a checkout that port.py has just turned: crates/, must-fail edits and pages

Words in capitals and humps (`liveAt`) and with dashes (`of-sound`) become snake case. Where two names would fall together, the lemma has `_lem`
after it. Whole words alone turn: in .antt files all, in .rt files those that no Rust name can be, in pages those in code spans, and never what
stands in quotes. A word with a dash in a comment is prose and stays.
"""
import os
import re
import sys

HERE = os.path.dirname(os.path.realpath(__file__))
WORD = re.compile(r'[^\s(){}.;,@"«»\[\]`]+')
QUOTED = re.compile(r'b?"(?:[^"\\\n]|\\.)*"')
SPAN = re.compile(r"`[^`\n]+`")


def rows():
    with open(os.path.join(HERE, "respell.tsv"), encoding="utf-8") as f:
        return dict(line.rstrip("\n").split("\t") for line in f if line.strip())


TABLE = rows()


def no_rust_name(word):
    return "-" in word or re.search(r"[a-z0-9][A-Z]", word) is not None


def turned(text, keep):
    def word(m):
        w = m.group(0)
        if w not in TABLE or keep(w):
            return w
        end = m.string[m.end() : m.end() + 1]
        if not no_rust_name(w) and (end == "." or m.string[m.start() - 1 : m.start()] == "."):
            return w  # a module's or a field's name
        return TABLE[w]

    out, at = [], 0
    for q in QUOTED.finditer(text):
        out += [WORD.sub(word, text[at : q.start()]), q.group(0)]
        at = q.end()
    return "".join(out) + WORD.sub(word, text[at:])


def line_of(line, mark, keep):
    cut = re.search(rf"(^|\s){mark}", line)
    if not cut:
        return turned(line, keep)
    return turned(line[: cut.start()], keep) + turned(line[cut.start() :], lambda w: keep(w) or "-" in w)


def source(path, text):
    rust = path.endswith(".rt")
    keep = (lambda w: not no_rust_name(w)) if rust else (lambda w: False)
    return "\n".join(line_of(line, "//" if rust else "--", keep) for line in text.split("\n"))


def page(text):
    return SPAN.sub(lambda m: turned(m.group(0), lambda w: False), text)


def files(root):
    for folder, dirs, names in os.walk(root):
        dirs[:] = sorted(d for d in dirs if d not in ("out", ".git", "target"))
        for name in sorted(names):
            path = os.path.join(folder, name)
            inside = os.path.relpath(path, root).split(os.sep)
            if inside[0] == "crates" and name.endswith((".antt", ".rt")):
                yield path, lambda t, p=path: source(p, t)
            elif inside[0] == "crates" and name.endswith(".edit"):
                yield path, lambda t: "\n".join(l if l.startswith("file:") else turned(l, lambda w: not no_rust_name(w)) for l in t.split("\n"))
            elif name.endswith(".md") and inside[0] in ("README.md", "docs"):
                yield path, page


def main():
    root = sys.argv[1] if len(sys.argv) > 1 else "."
    changed = 0
    for path, turn in files(root):
        with open(path, encoding="utf-8") as f:
            text = f.read()
        new = turn(text)
        if new != text:
            changed += 1
            with open(path, "w", encoding="utf-8") as f:
                f.write(new)
    print(f"respell: {changed} files changed")


main()
