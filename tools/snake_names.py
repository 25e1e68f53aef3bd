#!/usr/bin/env python3
"""Spells the definitions and lemmas of this repository as today's Rattle spells names: in snake case (docs/PORT.md).

usage: tools/snake_names.py [FOLDER]      at the top of the repository, or of FOLDER

Run once, after port.py. tools/snake_names.tsv has a row for each name: the old spelling, a tab, the new one. Where a lemma would fall together with its
definition it ends in _lem. Names turn as whole words: in .antt files, in .rt files (clauses, ghost use and comments, which alone have such words) and in the code
spans of docs/*.md and README.md; in comments only between backquotes, or where the name has an inner capital. Names that the check makes, behind `tie.`, stay.

usage: tools/snake_names.py --table [FOLDER]      writes the table from the files as port.py left them
"""
import glob
import os
import re
import sys

HERE = os.path.dirname(os.path.realpath(__file__))
TABLE = os.path.join(HERE, "snake_names.tsv")
NAME = r"[A-Za-z_][A-Za-z0-9_']*(?:-[A-Za-z0-9_'≤≡+*∷]+)*"
WORD = re.compile(r"(?<![A-Za-z0-9_'·-])" + NAME)
MARKS = r"(?:(?:pattern|unfoldable|abbrev|pub|private|data|record)\s+)*"
DECLARED = re.compile(r"^[ \t]*" + MARKS + "(" + NAME + r")[ \t]*(?:\([^\n]*\)[ \t]*|\{[^\n]*\}[ \t]*)*:(?!:)", re.M)
SEVERAL = re.compile(r"^[ \t]*(?:pub )?((?:" + NAME + r" )+):(?!:)", re.M)


def files(root):
    found = []
    for kind in ("specs/**/*.antt", "proofs/**/*.antt", "src/**/*.rt"):
        found += glob.glob(os.path.join(root, "crates", "*", kind), recursive=True)
    return sorted(found)


def turns(name):
    return bool(re.match(r"[a-z]", name) and ("-" in name or re.search(r"[A-Z]", name)))


def snake(name):
    name = name.replace("-", "_")
    return re.sub(r"([a-z0-9'])([A-Z])", lambda m: m.group(1) + "_" + m.group(2).lower(), name).lower()


def table(root):
    declared, library = {}, set()
    own = set(os.listdir(os.path.join(root, "crates")))
    for path in files(root):
        text = open(path, encoding="utf-8").read()
        for m in re.finditer(r"use ([A-Za-z_0-9.]+)\.\{([^}]*)\}", text):
            head = m.group(1).split(".")
            if head[0] != "Rattle" or head[1] not in own:
                library |= set(re.split(r",\s*|\s+as\s+", m.group(2).strip()))
        if not path.endswith(".antt") or path.endswith("/Proof.antt"):
            continue
        text = re.sub(r"--[^\n]*", "", text)
        for m in DECLARED.finditer(text):
            declared.setdefault(m.group(1), set()).add(path)
        for m in SEVERAL.finditer(text):
            for name in m.group(1).split():
                declared.setdefault(name, set()).add(path)
    taken = {}
    for name in declared:
        taken.setdefault(snake(name) if turns(name) else name, set()).add(name)
    rows = {}
    for new, olds in taken.items():
        turning = [n for n in olds if turns(n)]
        if not turning:
            continue
        if len(olds) == 1:
            if turning[0] not in library:
                rows[turning[0]] = new
            continue
        # a definition had inner capitals, and a lemma had dashes (or has underscores from port.py)
        camel = [n for n in turning if "-" not in n]
        for n in olds:
            if n in camel:
                rows[n] = new
            elif camel or n in turning:
                rows[n] = new + "_lem"
    # a row that says nothing goes
    return {old: new for old, new in rows.items() if old != new}


def spans(text, turn_code, turn_comment, mark):
    """The text with code and comments turned, each by its own function."""
    out = []
    for line in text.split("\n"):
        at = line.find(mark)
        while at > 0 and mark == "--" and line[at - 1] not in " \t({":
            at = line.find(mark, at + 1)
        if at < 0:
            out.append(turn_code(line))
        else:
            out.append(turn_code(line[:at]) + turn_comment(line[at:]))
    return "\n".join(out)


def main(arguments):
    write = "--table" in arguments
    arguments = [a for a in arguments if a != "--table"]
    root = arguments[0] if arguments else os.path.dirname(HERE)
    if write:
        rows = table(root)
        with open(TABLE, "w", encoding="utf-8") as f:
            f.writelines(f"{old}\t{new}\n" for old, new in sorted(rows.items()))
        print(f"{len(rows)} names")
        return
    rows = dict(line.rstrip("\n").split("\t") for line in open(TABLE, encoding="utf-8"))

    def turned(text, comment=False):
        def one(m):
            word = m.group(0)
            before = text[max(0, m.start() - 4) : m.start()]
            if word not in rows or before.endswith("tie.") or (before.endswith(".") and not turns(word)):
                return word
            if comment and not re.search(r"[a-z][A-Z]", word):
                return word
            return rows[word]

        return WORD.sub(one, text)

    def turned_code_rt(text):
        parts = re.split(r'("(?:[^"\\]|\\.)*")', text)
        return "".join(p if p.startswith('"') else WORD.sub(lambda m: rows[m.group(0)] if m.group(0) in rows and turns(m.group(0)) else m.group(0), p) for p in parts)

    def in_spans(text):
        parts = re.split(r"(`[^`]*`)", text)
        return "".join(turned(p) if p.startswith("`") else turned(p, True) for p in parts)

    # a lemma that gets _lem may have today's spelling already, so a second run would turn its definition
    def has_old_names(path):
        with open(path, encoding="utf-8") as f:
            code = re.sub(r"(--|//)[^\n]*", "", f.read())
        return any(turns(word) and word in rows for word in WORD.findall(code))

    if not any(has_old_names(path) for path in files(root) if "/specs/" in path):
        sys.exit("the names are turned already")
    changed = 0
    pages = glob.glob(os.path.join(root, "docs", "*.md")) + [os.path.join(root, "README.md")]
    for path in files(root) + pages:
        if os.path.basename(path) == "PORT.md" or not os.path.isfile(path):
            continue
        text = open(path, encoding="utf-8").read()
        if path.endswith(".md"):
            new = re.sub(r"`[^`\n]+`", lambda m: turned(m.group(0)), text)
        elif path.endswith(".rt"):
            new = spans(text, turned_code_rt, in_spans, "//")
        else:
            new = spans(text, turned, in_spans, "--")
        if new != text:
            changed += 1
            with open(path, "w", encoding="utf-8") as f:
                f.write(new)
    print(f"{changed} files")


if __name__ == "__main__":
    main(sys.argv[1:])
