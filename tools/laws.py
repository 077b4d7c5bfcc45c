#!/usr/bin/env python3
"""laws.py: checks the names in docs/LAWS.md against the crates, prints each that is wrong, and exits with 1 if there is one. Run it at the root of the repository.

A theorem, as in "crate, File: `name`" or "crate, Folder/File: `name`", must stand in that file; where a cell names no crate, the table's head does, as "(crate lowering)". A definition in brackets must stand in some
specs/, and one in the last table in the files of its row. Any other name of one word must stand in some crate's specs/, proofs/ or src/."""
import pathlib
import re
import sys

PAGE = pathlib.Path("docs/LAWS.md")
CRATES = pathlib.Path("crates")
# words of the language and of the check, no names of the crates
OTHER = {"requires", "Learnt", "Reads"}


def names_in(text):
    return re.findall(r"`([^\s`/.]+)`", text)


def declared(files, pattern):
    """The names that each file declares."""
    found = {}
    for path in files:
        lines = path.read_text(encoding="utf-8").splitlines()
        found[path] = {m[1] for line in lines if (m := re.match(pattern, line))}
    return found


ANTT = r"\s*(?:(?:pub|abbrev|unfoldable|record|data)\s+)*([^\s:(){}]+)(?=\s*[:({]|\s+\()"
RATTLE = r'\s*(?:pub(?:\(crate\))? )?(?:extern "C" )?(?:fn|struct|enum|const) (\w+)'
SPECS = declared(CRATES.glob("*/specs/*.antt"), ANTT)
PROOFS = declared([*CRATES.glob("*/proofs/*.antt"), *CRATES.glob("*/proofs/*/*.antt")], ANTT)
CODE = declared(CRATES.glob("*/src/*.rt"), RATTLE)
IN_SPECS = set().union(*SPECS.values())
ANYWHERE = IN_SPECS.union(OTHER, *PROOFS.values(), *CODE.values())


def wrong_in_cell(cell, crate):
    """The wrong names of one cell: of theorems, and of definitions in brackets."""
    for bracket in re.findall(r"\(([^()]*`[^()]*)\)", cell):
        yield from (f"{name}: not in specs/" for name in names_in(bracket) if name not in IN_SPECS)
    for part in re.sub(r"\([^()]*\)", "", cell).split(";"):
        # the last "crate, File: " of a part, and the names after it
        if m := re.match(r".*?(?:([a-z_]+), )?\b([A-Z][\w/]*): ([^:]*)$", part):
            path = CRATES / (m[1] or crate) / "proofs" / f"{m[2]}.antt"
            yield from (f"{name}: not in {path}" for name in names_in(m[3]) if name not in PROOFS.get(path, ()))


def wrong_in(page):
    crate, stands = "", False
    for line in page.splitlines():
        cells = [cell.strip() for cell in line.strip("|").split("|")] if line.startswith("|") else []
        if cells and (m := re.search(r"\(crate (\w+)\)", line)):
            crate = m[1]
        elif cells[:1] == ["crate"]:
            stands = True
        elif cells and stands:
            files = [CRATES / cells[0] / "specs" / f"{file}.antt" for file in cells[1].split(", ")]
            here = set().union(*(SPECS.get(path, ()) for path in files))
            yield from (f"{name}: not in {cells[0]}, specs/{cells[1]}" for name in names_in(cells[2]) if name not in here)
        else:
            for cell in cells[1:]:
                yield from wrong_in_cell(cell, crate)
        yield from (f"{name}: nowhere" for name in names_in(line) if name not in ANYWHERE)


WRONG = list(wrong_in(PAGE.read_text(encoding="utf-8")))
print(*WRONG, sep="\n", end="\n" if WRONG else "")
sys.exit(bool(WRONG))
