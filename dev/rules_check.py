#!/usr/bin/env python3
"""Whether each rule in docs/maintain/rules.md has its definition, code, law and row, and whether these are there.

usage: dev/rules_check.py [--mend]

Without a word it prints what is wrong, a line each; the status is then 1, else 0. `--mend` writes the file in which a function of the
column 'code' or 'law' is now, where its crate has it in exactly one other file, and links each place to its file. `dev/tidy` calls
`problems`.
"""
import os
import sys

TOP = os.path.dirname(os.path.dirname(os.path.abspath(__file__)))
sys.path.insert(0, os.path.join(TOP, "tools"))
from running import run

import glob
import re

PAGE = "docs/maintain/rules.md"
COLUMNS = ["rule", "the papers' word", "source", "definition", "code", "law", "row or test"]
NEEDED = ["source", "definition", "code", "law", "row or test"]
NAMED = re.compile(r"((?:`[\w:-]+`(?:, )?)+) \(`([\w/]+)`\)")
LINK = re.compile(r"\[(`[^`]+`)\]\(\.\./\.\./crates/[^)]*\)")


def read(path):
    with open(os.path.join(TOP, path), encoding="utf-8") as it:
        return it.read()


def rules(text):
    """The rows of the tables, each with its line and its cells by column, without links."""
    for number, line in enumerate(LINK.sub(r"\1", text).splitlines(), 1):
        cells = [cell.strip() for cell in re.split(r"(?<!\\)\|", line)[1:-1]]
        if line.startswith("|") and cells != COLUMNS and not set(line) <= set("|- "):
            yield number, dict(zip(COLUMNS, cells)) if len(cells) == len(COLUMNS) else None


def named(cell):
    """Each name in a cell with the place behind it, and what of the cell is no such name."""
    found = [(name, match[2]) for match in NAMED.finditer(cell) for name in re.findall(r"`([^`]+)`", match[1])]
    return found, NAMED.sub("", cell).strip(" ,;")


def has_function(name, path):
    """Whether a file of code has this function, in an impl of its type where the name has one."""
    if not os.path.isfile(os.path.join(TOP, f"crates/{path}.rt")):
        return False
    kind, _, function = name.rpartition("::")
    text = read(f"crates/{path}.rt")
    parts = re.split(r"(?m)^(?=(?:pub )?(?:impl|trait)\b)", text) if kind else [text]
    return any((not kind or re.match(rf"(?:pub )?(?:impl|trait)\b[^{{]*\b{kind}\b", part)) and re.search(rf"\bfn {function}\b", part) for part in parts)


def has_theorem(name, path):
    return os.path.isfile(os.path.join(TOP, f"crates/{path}.antt")) and \
        re.search(rf"(?m)^ *(?:pub |abbrev |unfoldable )*(?:record |data )?{re.escape(name)} (?::|\()", read(f"crates/{path}.antt")) is not None


def is_definition(name, place):
    return has_theorem(name, place if "/" in place else f"homa_plain/specs/{place}")


def sources(crate):
    """The files of a crate's code, as places: without `crates/` and their ending."""
    files = sorted(glob.glob(os.path.join(TOP, f"crates/{crate}/src/**/*.rt"), recursive=True))
    return [os.path.relpath(f, os.path.join(TOP, "crates"))[:-3] for f in files]


def is_law(name, place):
    if "/" in place:
        return has_function(name, place)
    return any(has_function(name, path) for path in sources(place))


def is_file(name, place):
    """Whether a name is that of a file of data."""
    return os.path.isfile(os.path.join(TOP, f"crates/{place}/{name}"))


def is_row(name, place):
    return has_function(name, place) or has_theorem(name, place) or is_file(name, place)


KINDS = {"definition": is_definition, "code": has_function, "law": is_law, "row or test": is_row}


def elsewhere(name, path):
    """The other files of the crate that have this function."""
    return [p for p in sources(path.split("/")[0]) if has_function(name, p)]


def file_of(name, place, column):
    """The file below `crates/` in which a name of a column stands."""
    if column == "row or test" and is_file(name, place):
        return f"{place}/{name}"
    if "/" not in place:
        place = next((p for p in sources(place) if has_function(name, p)), place) if column == "law" else f"homa_plain/specs/{place}"
    return next((place + end for end in (".rt", ".antt") if os.path.isfile(os.path.join(TOP, f"crates/{place}{end}"))), place)


def linked(cell, column):
    """A cell in which each place is a link to its file."""
    def link(match):
        name = re.findall(r"`([^`]+)`", match[1])[0]
        return f"{match[1]} ([`{match[2]}`](../../crates/{file_of(name, match[2], column)}))"
    return NAMED.sub(link, cell)


def problems():
    text = read(PAGE)
    if text != mended(text):
        yield f"{PAGE}: a place isn't linked to its file: dev/rules_check.py --mend"
    for number, cells in rules(text):
        at = f"{PAGE}:{number}"
        if cells is None:
            yield f"{at}: a row with other columns than {', '.join(COLUMNS)}"
            continue
        for column in NEEDED:
            if not cells[column]:
                yield f"{at}: the rule '{cells['rule']}' has no {column}"
        for column, there in KINDS.items():
            found, rest = named(cells[column])
            if cells[column] and (not found or rest):
                yield f"{at}: the column '{column}' has what isn't a name with its place: {rest or cells[column]}"
            for name, place in found:
                if not there(name, place):
                    others = elsewhere(name, place) if column in ("code", "law") and "/" in place else []
                    more = f"; {others[0]} has it: dev/rules_check.py --mend" if len(others) == 1 else ""
                    yield f"{at}: no {name} in {place} ({column}){more}"


def mended(text):
    """The page with the file in which each function is now, and with links."""
    lines = LINK.sub(r"\1", text).splitlines(keepends=True)
    for number, cells in rules(text):
        if cells:
            cells |= {column: moved(cells[column]) for column in ("code", "law")}
            cells |= {column: linked(cells[column], column) for column in KINDS}
            lines[number - 1] = f"| {' | '.join(cells.values())} |\n".replace("|  |", "| |")
    return "".join(lines)


def moved(cell):
    """A cell with the file in which each function is now."""
    for match in list(NAMED.finditer(cell)):
        names, path = re.findall(r"`([^`]+)`", match[1]), match[2]
        where = {name: path if "/" not in path or has_function(name, path) else (elsewhere(name, path) or [path])[0] for name in names}
        if set(where.values()) != {path}:
            cell = cell.replace(match[0], ", ".join(f"`{name}` (`{where[name]}`)" for name in names))
    return cell


def main(words):
    if words == ["--mend"]:
        text = mended(read(PAGE))
        with open(os.path.join(TOP, PAGE), "w", encoding="utf-8") as it:
            it.write(text)
    elif words:
        print(__doc__.strip(), file=sys.stderr)
        return 2
    found = list(problems())
    print("\n".join(found) if found else "rules: each has its definition, code, law and row")
    return 1 if found else 0


if __name__ == "__main__":
    run("rules_check.py", lambda: main(sys.argv[1:]), doc=__doc__)
