#!/usr/bin/env python3
"""Says which names of docs/TRACE.md do not stand where their cell says; nothing, and 0, if all do. Run it from anywhere."""
import pathlib
import re
import sys

ROOT = pathlib.Path(__file__).resolve().parent.parent
FOLDERS = {"definition": "specs", "function": "src", "law": "proofs"}
CELL = re.compile(r"`([a-z_]+)/(\w+): ([^`]+)`")
EDIT = re.compile(r"(must-fail|wrong) ((?:[a-z_]+/\w+(?:, )?)+)")


def declares(text, name):
    """Whether a name, or a field of a record, is declared in a file's text."""
    return all(re.search(r"(?m)(^|[\s(])" + re.escape(part) + r"\s*[:({\n,;]|\b(fn|struct|enum|const|record|data) " + re.escape(part) + r"\b", text) for part in name.split("."))


def files_of(column, crate, file):
    """The file that a cell means; a definition may be a type of the code."""
    found = [ROOT / "crates" / crate / "src" / (file + ".rt")] if column != "law" else []
    return [ROOT / "crates" / crate / FOLDERS[column] / (file + ".antt"), *found]


def missing_names(column, cell):
    for crate, file, names in CELL.findall(cell):
        text = "".join(path.read_text() for path in files_of(column, crate, file) if path.exists())
        for name in names.split(", "):
            if not declares(text, name.strip()):
                yield f"{column} {crate}/{file}: {name.strip()}"


def missing_edits(cell):
    for kind, edits in EDIT.findall(cell):
        for edit in edits.rstrip(", ").split(", "):
            crate, label = edit.split("/")
            path = ROOT / "wrong" / crate if kind == "wrong" else ROOT / "crates" / crate / "must-fail"
            if not (path / (label + ".edit")).exists():
                yield f"{kind} {edit}"


def main():
    missing = []
    for line in (ROOT / "docs/TRACE.md").read_text().splitlines():
        cells = [cell.strip() for cell in line.strip("|").split(" | ")]
        if len(cells) == 5 and cells[0] != "rule" and not cells[0].startswith("---"):
            for column, cell in zip(FOLDERS, cells[1:4]):
                missing += missing_names(column, cell)
            missing += missing_edits(cells[4])
    print(*missing, sep="\n", end="\n" if missing else "")
    return bool(missing)


sys.exit(main())
