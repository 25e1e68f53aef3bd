#!/usr/bin/env python3
"""Checks that everything that docs/TRACE.md and docs/BELIEVE.md cite is there.

    tools/check_trace.py            from any folder; Python 3 and nothing else

A citation stands between two backticks and is one of

    crate::function, crate::module::function    `fn function` in crates/crate/src/lib.rt or main.rt, or in src/module.rt
    crate::module::Type::function               the same, where the file has an `impl Type`
    crate/specs/Path.name, crate/proofs/Path.name, and Path.Record.field for a field or a case
                                                its declaration in crates/crate/specs/Path.antt or proofs/Path.antt
    crate/must-fail/label                       crates/crate/must-fail/label.edit
    a path of the repository                    that file or folder

Backticks around anything else are no citation.  A row of TRACE.md has three cells: the sentence, which is a quote and not looked at; at most two
citations; and how it is carried, which begins with proved, computed, tested, form or open.  A row that is not open cites something.  What is
wrong is listed, with exit status 1; else one line says how many rows and citations there are.
"""
import re
import sys
from pathlib import Path

ROOT = Path(__file__).resolve().parent.parent
HOW = re.compile(r"(proved|computed|tested|form|open)\b")
TOKEN = re.compile(r"`([^`]+)`")
PATHS = ("crates/", "docs/", "tools/", "bench/", "include/", "rust/", "examples/", ".ci/")
FILES = ("NOTICE", "README.md", "crates.txt")


def is_citation(token):
    if " " in token:
        return False
    return "::" in token or token.startswith(PATHS) or token in FILES or re.search(r"/(specs|proofs|must-fail)/", token) is not None


def text_of(path):
    return path.read_text(encoding="utf-8") if path.is_file() else None


def has_function(token):
    *modules, name = token.split("::")
    if not re.fullmatch(r"\w+", name):
        return False
    type_name = modules.pop() if len(modules) > 1 and modules[-1][:1].isupper() else None
    source = ROOT / "crates" / modules[0] / "src"
    files = [source.joinpath(*modules[1:]).with_suffix(".rt")] if modules[1:] else [source / "lib.rt", source / "main.rt"]
    declared = re.compile(rf'^\s*(?:pub )?(?:extern "C" )?fn {name}\b', re.M)
    texts = [text_of(file) or "" for file in files]
    return any(declared.search(text) and (type_name is None or re.search(rf"^impl {type_name}\b", text, re.M)) for text in texts)


def has_declaration(lines, name):
    """The line that declares a name, and its place; None where there is none."""
    one = re.compile(rf"^\s*(?:abbrev |unfoldable )?(?:pub )?(?:(?:record|data) {re.escape(name)}(?= |$)|{re.escape(name)} :)")
    return next((i for i, line in enumerate(lines) if one.match(line)), None)


def has_name(token):
    crate, part, rest = token.split("/", 2)
    stem, _, names = rest.rpartition("/")[2].partition(".")
    folder = rest.rpartition("/")[0]
    text = text_of(ROOT / "crates" / crate / part / folder / f"{stem}.antt")
    if text is None or not names:
        return False
    lines = text.splitlines()
    first, _, field = names.partition(".")
    at = has_declaration(lines, first)
    if at is None or not field:
        return at is not None
    indent = len(lines[at]) - len(lines[at].lstrip())
    inside = []
    for line in lines[at + 1 :]:
        if line.strip() and len(line) - len(line.lstrip()) <= indent:
            break
        inside.append(line)
    return re.search(r"(record|data) ", lines[at]) is not None and has_declaration(inside, field) is not None


def is_there(token):
    if token.startswith(PATHS) or token in FILES:
        return (ROOT / token).exists()
    if "/must-fail/" in token:
        crate, _, label = token.partition("/must-fail/")
        return (ROOT / "crates" / crate / "must-fail" / f"{label}.edit").is_file()
    return has_name(token) if "/" in token else has_function(token)


def cells_of(line):
    return [cell.strip() for cell in re.split(r"(?<!\\)\|", line.strip())[1:-1]]


def main():
    wrong, rows, citations = [], 0, 0
    for name in ("docs/TRACE.md", "docs/BELIEVE.md"):
        for number, line in enumerate((text_of(ROOT / name) or "").splitlines(), 1):
            here = f"{name}:{number}"
            cells = cells_of(line) if name == "docs/TRACE.md" and line.startswith("|") else []
            cited = [token for token in TOKEN.findall(" ".join(cells[1:]) if cells else line) if is_citation(token)]
            citations += len(cited)
            wrong += [f"{here}: {token} is not there" for token in cited if not is_there(token)]
            if not cells or cells[0] in ("-", "sentence"):
                continue
            rows += 1
            if len(cells) != 3 or not HOW.match(cells[2]):
                wrong.append(f"{here}: not a sentence, citations, and how it is carried")
            elif len(cited) > 2 or (not cited and not cells[2].startswith("open")):
                wrong.append(f"{here}: {len(cited)} citations")
    if not rows:
        wrong.append("docs/TRACE.md: no rows")
    print("\n".join(wrong) if wrong else f"{rows} rows, {citations} citations, all there")
    return 1 if wrong else 0


if __name__ == "__main__":
    sys.exit(main())
