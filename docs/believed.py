#!/usr/bin/env python3
"""Lists the files of crates/*/specs that a reader must believe, each with its lines of text, and says what is wrong with them.

The first line of a file there begins with `-- Believed: ` or `-- Inner: `. A promise of a public call is stated with believed files alone, so
none of them may use an inner one. A believed file may use a law of proofs/, whose statement is then believed, but no definition of proofs/.

  believed.py            prints the list as it stands in docs/PROVED.md
  believed.py --check    prints only what is wrong, and fails too if docs/PROVED.md has another list or, on its first page, other numbers

Fails if a file has neither first line, or if a believed file uses what it may not. Run it from anywhere.
"""
import pathlib
import re
import sys

ROOT = pathlib.Path(__file__).resolve().parent.parent
FIRST = re.compile(r"-- (Believed|Inner): \S")
USE = re.compile(r"(?m)^use Rattle\.(\w+)\.(specs|proofs)\.([\w.-]+?)(?:\.\{([^}]*)\})?(?: as \S+)?$")
# The library of the kit, whose words a reader takes as they are.
KIT = "std"
BEGIN, END = "<!-- believed.py -->", "<!-- end -->"
FIRST_PAGE_END = "\n## Crate by crate"


def lines_of(text):
    """The lines of a file without blank lines, comments and imports."""
    return sum(1 for line in text.splitlines() if line.strip() and not line.lstrip().startswith("--") and not line.startswith("use "))


def specs():
    """Each file of specs/, as (crate, name), with its text."""
    paths = sorted(ROOT.glob("crates/*/specs/*.antt"))
    return {(path.parts[-3], path.stem): path.read_text() for path in paths if path.name != "Lib.antt"}


def is_law(crate, module, name):
    """Whether a file of proofs/ has the name, and not as a definition."""
    text = (ROOT / "crates" / crate / "proofs" / (module + ".antt")).read_text()
    return re.search(rf"(?m)^\s*pub {re.escape(name)} :", text) is not None


def read():
    """The believed files with their lines, the code's types and the laws that they name, and what is wrong."""
    texts = specs()
    kinds = {file: match and match.group(1) for file, text in texts.items() for match in [FIRST.match(text)]}
    wrong = [f"{crate}/specs/{name}.antt: its first line says neither Believed nor Inner" for (crate, name), kind in kinds.items() if not kind]
    believed, types, laws = {}, set(), set()
    for (crate, name), text in texts.items():
        if kinds[crate, name] != "Believed":
            continue
        believed[crate, name] = lines_of(text)
        for other, folder, module, names in USE.findall(text):
            if other == KIT:
                continue
            if folder == "proofs":
                cited = [law.strip() for law in names.split(",")]
                laws |= {f"`{other}/{module}: {law}`" for law in cited}
                wrong += [f"{crate}/specs/{name}.antt is believed and uses {law} of {other}/proofs/{module}.antt, which is no law" for law in cited if not is_law(other, module, law)]
            elif module.startswith("declared."):
                types.add(f"`{other}: {module.removesuffix('.TheVariants').split('.')[-1]}`")
            elif kinds.get((other, module)) == "Inner":
                wrong.append(f"{crate}/specs/{name}.antt is believed and uses {other}/specs/{module}.antt")
    return believed, types, laws, wrong


def table(believed, types, laws):
    rows = ["| crate | believed files, with lines | lines |", "|---|---|---|"]
    for crate in dict.fromkeys(line.split(":")[0] for line in (ROOT / "crates.txt").read_text().splitlines() if line):
        its = {name: count for (other, name), count in believed.items() if other == crate}
        if its:
            rows.append(f"| {crate} | {', '.join(f'{name} {count}' for name, count in its.items())} | {sum(its.values())} |")
    rows.append(f"| all | {len(believed)} files | {sum(believed.values())} |")
    rows += ["", f"Types of the code that they name: {', '.join(sorted(types))}.", "", f"Laws that they name: {', '.join(sorted(laws))}."]
    return "\n".join(rows)


def stale(page, believed):
    """Numbers of lines on the first page of docs/PROVED.md, behind a file's name or a crate's, that are not those of now."""
    lines = {}
    for (crate, name), count in believed.items():
        lines.setdefault(name, set()).add(count)
        lines[crate] = {sum(other for (its, _), other in believed.items() if its == crate)}
    told = re.findall(r"\b(\w+)(?:/specs)? (\d+)\b", page[: page.index(FIRST_PAGE_END)])
    wrong = [f"docs/PROVED.md, first page: {name} {count}" for name, count in told if int(count) not in lines.get(name, {int(count)})]
    all_of_them = f"{sum(believed.values()):,} lines in {len(believed)} files"
    return wrong + ([] if all_of_them in page else [f"docs/PROVED.md, first page: not {all_of_them}"])


def main():
    believed, types, laws, wrong = read()
    text = table(believed, types, laws)
    if sys.argv[1:] == ["--check"]:
        page = (ROOT / "docs/PROVED.md").read_text()
        if f"{BEGIN}\n{text}\n{END}" not in page:
            wrong.append("docs/PROVED.md has another list")
        wrong += stale(page, believed)
    else:
        print(text)
    print(*wrong, sep="\n", end="\n" if wrong else "", file=sys.stderr)
    return bool(wrong)


sys.exit(main())
