#!/usr/bin/env python3
"""Writes the list of the crates in docs/CRATES.md anew, a line each, from the first sentence of each crate's root file.

    tools/crate_list.py            rewrites the lines between the two marks in docs/CRATES.md
    tools/crate_list.py --check    says whether they are up to date (exit status 1 where they are not)

The list is in the order of that page's picture of the layers, which has to name every crate of crates.txt once.
"""
import re
import sys
from pathlib import Path

ROOT = Path(__file__).resolve().parent.parent
BEGIN, END = "<!-- crates: tools/crate_list.py -->", "<!-- /crates -->"


def first_sentence(crate):
    """The first sentence of the comment that begins a crate's root file."""
    for name in ("lib.rt", "main.rt"):
        path = ROOT / "crates" / crate / "src" / name
        if path.is_file():
            words = []
            for line in path.read_text(encoding="utf-8").splitlines():
                if not line.startswith("//"):
                    break
                words.append(line[2:].strip())
            return re.split(r"(?<=\.)\s+(?=[A-Z`])", " ".join(words))[0]
    sys.exit(f"{crate} has no src/lib.rt and no src/main.rt")


def main(arguments):
    lines = (ROOT / "crates.txt").read_text(encoding="utf-8").splitlines()
    # The name is the first word before the colon; a static library has another behind it.
    listed = {line.partition(":")[0].split()[0] for line in lines if line.strip() and not line.startswith("#")}
    page = ROOT / "docs" / "CRATES.md"
    text = page.read_text(encoding="utf-8")
    picture = text.partition("## The layers\n```\n")[2].partition("```")[0]
    crates = [word for row in picture.splitlines() for word in row[16:].split()]
    wrong = listed.symmetric_difference(crates) | {crate for crate in crates if crates.count(crate) > 1}
    if wrong:
        sys.exit("in the picture or in crates.txt, but not once in both: " + " ".join(sorted(wrong)))
    table = [f"- `{crate}`: {first_sentence(crate)}" for crate in crates]
    before, _, rest = text.partition(BEGIN)
    _, _, behind = rest.partition(END)
    new = "\n".join([before + BEGIN, *table, END + behind])
    if arguments == ["--check"]:
        sys.exit(0 if new == text else "docs/CRATES.md: the list of the crates is out of date")
    if arguments:
        sys.exit(__doc__)
    page.write_text(new, encoding="utf-8")


main(sys.argv[1:])
