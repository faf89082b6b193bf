"""The tables of promises: made from the sources (docs/understand/promises-tables.md), and compared with them (docs/understand/promises.md).

`dev/make-promises` is the tool; `dev/tidy` calls `clause_problems` and `problems`.
"""
import glob
import os
import re

TOP = os.path.dirname(os.path.dirname(os.path.realpath(__file__)))
PAGE = "docs/understand/promises-tables.md"
WORDS = "docs/understand/promises.md"
HEAD = """# Promises by crate

This page lists each public function with what its contract names. It is for readers who look a clause up; [promises](promises.md) says in words
what is promised of the whole.

`dev/make-promises` makes it from `crates/*/src`, and `dev/tidy` refuses it if it is stale. The second column is the first sentence of the function's
comment. *Clauses* are the names of its `ensures`; a dash is a clause without a name, and *inherited* one that the trait states. *Definitions* are the
files below `specs/` that these clauses cite, those of the same crate without its name.
"""
TITLE = re.compile(r"(?:pub )?(impl|trait)\b(?:<.*?>)?\s+(.*?)\s*(?:where\b.*)?\{?$")
FUNCTION = re.compile(r"( *)(pub )?(?:const |unsafe |extern \"C\" )*fn (\w+)")
CLAUSE = re.compile(r"\s*(ensures|requires|decreases)\b")
USED = re.compile(r"^ *ghost use Rattle\.(\w+)\.specs\.([\w.]+?)\.\{([^}]*)\};", re.M)


def read(path):
    with open(os.path.join(TOP, path), encoding="utf-8") as it:
        return it.read()


def sections():
    """The crates of crates.txt below the comment that heads them, without those of tests."""
    found = []
    for line in read("crates.txt").splitlines()[1:]:
        if line.startswith("#"):
            found.append((line.lstrip("# "), []))
        elif line.strip():
            found[-1][1].append(line.partition(":")[0].split()[0])
    return [it for it in found if not it[0].startswith("tests that stand")]


def first_sentence(text):
    match = re.match(r"(.*?[.?!])(?:\s+[A-Z`(\[0-9]|$)", text)
    return (match[1] if match else text).strip()


def comment_above(lines, at):
    """The doc comment that ends right above a line, attributes aside."""
    found = []
    for line in reversed(lines[:at]):
        stripped = line.strip()
        if stripped.startswith("///"):
            found.append(stripped[3:].strip())
        elif not stripped.startswith("#["):
            break
    return " ".join(reversed(found))


def head_of(lines, at, indent):
    """The lines of a function's signature and contract."""
    found = []
    for line in lines[at:]:
        found.append(line)
        bare = line.rstrip()
        if bare == indent + "{" or bare.endswith(("{}", ";")) or (bare.endswith(" {") and not CLAUSE.match(line)):
            break
    return found


def ensured(head):
    """The names of the ensures of a head (a dash for one without), and their text."""
    names, text, inside = [], [], False
    for line in head:
        match = CLAUSE.match(line)
        if match:
            inside = match[1] == "ensures"
            if inside:
                name = re.match(r"\s*ensures (\w+) \{", line)
                names.append(f"`{name[1]}`" if name else "-")
        if inside:
            text.append(line)
    return names, "\n".join(text)


def cites(name, text):
    parts = [part for part in name.split("◌") if part]
    return all(re.search(rf"(?<![\w'.]){re.escape(part)}(?![\w'])", text) if re.fullmatch(r"[\w'-]+", part) else part in text for part in parts)


def definitions(uses, text, crate):
    """The files of specs/ of which the text cites a name."""
    found = []
    for owner, path, names in uses:
        if path.startswith("declared") or owner == "std":
            continue
        if any(cites(name.split(" as ")[-1].strip(), text) for name in names.split(", ")):
            word = path.replace(".", "/") if owner == crate else f"{owner}/{path.replace('.', '/')}"
            if word not in found:
                found.append(word)
    return found


def title_of(match):
    """The type or the trait that an impl or a trait is of, and whether its functions are listed."""
    words = match[2]
    if match[1] == "impl" and " for " in words:
        return "", False
    return re.match(r"[\w:]+", words)[0] if re.match(r"[\w:]+", words) else "", True


def functions(path, crate):
    """The public functions of a file: their names, comments, clauses and definitions."""
    text = read(path)
    lines = text.splitlines()
    uses = USED.findall(text)
    title, listed, is_trait = "", True, False
    for at, line in enumerate(lines):
        opens = TITLE.match(line)
        if opens:
            (title, listed), is_trait = title_of(opens), opens[1] == "trait" and line.startswith("pub")
        elif line == "}":
            title, listed, is_trait = "", True, False
        match = FUNCTION.match(line)
        if not match or not listed or not (match[2] or (is_trait and len(match[1]) == 4)):
            continue
        names, clauses = ensured(head_of(lines, at, match[1]))
        name = f"{title}::{match[3]}" if title and match[1] else match[3]
        yield name, first_sentence(comment_above(lines, at)), names, definitions(uses, clauses, crate)


def paragraph(crate):
    """The first paragraph of the comment that heads a crate's root file."""
    for root in ("lib", "main"):
        path = f"crates/{crate}/src/{root}.rt"
        if os.path.isfile(os.path.join(TOP, path)):
            lines = [line[3:].strip() for line in read(path).splitlines() if line.startswith("//!")]
            return " ".join(lines[:lines.index("")] if "" in lines else lines)
    return ""


def cell(text):
    return re.sub(r"\[(`[^`]*`)\](?:\([^)]*\))?", r"\1", text).replace("|", "\\|")


def table(crate):
    root = os.path.join(TOP, "crates", crate, "src")
    rows = []
    for path in sorted(glob.glob(os.path.join(root, "**", "*.rt"), recursive=True)):
        where = os.path.relpath(path, root)
        for name, comment, names, specs in functions(os.path.relpath(path, TOP), crate):
            said = ", ".join(names) or "inherited"
            rows.append(f"| `{name}` (`{where}`) | {cell(comment)} | {said} | {', '.join(f'`{it}`' for it in specs)} |")
    if rows:
        rows[:0] = ["", "| function | what it does | clauses | definitions |", "|---|---|---|---|"]
    return rows


def page():
    found = [HEAD]
    for title, crates in sections():
        found.append(f"- [{title[0].upper()}{title[1:]}](#{re.sub(r'[^a-z0-9 -]', '', title.lower()).replace(' ', '-')})")
    for title, crates in sections():
        found += ["", f"## {title[0].upper()}{title[1:]}"]
        for crate in crates:
            found += ["", f"### `{crate}`", "", cell(paragraph(crate)), *table(crate)]
    return "\n".join(found) + "\n"


def problems():
    if not os.path.isfile(os.path.join(TOP, PAGE)) or read(PAGE) != page():
        yield f"{PAGE}: not what the sources give: run dev/make-promises"


def all_functions(crate):
    """The public functions of a crate by their names, each with the names of its clauses."""
    found = {}
    root = os.path.join(TOP, "crates", crate, "src")
    for path in sorted(glob.glob(os.path.join(root, "**", "*.rt"), recursive=True)):
        for name, comment, names, specs in functions(os.path.relpath(path, TOP), crate):
            found.setdefault(name, names)
    return found


def rows_of_clauses():
    """What the page in words says of clauses: line, functions with their crate, clauses. A row of a table has both in its last two
    cells. A point of a list ends with a colon and the clauses, if its section says above that it has clauses of a function."""
    above, point, at = "", "", 0
    for number, line in enumerate([*read(WORDS).splitlines(), ""], 1):
        if point and not line.startswith("  "):
            yield at, above, point.rpartition(": ")[2] if point.endswith("`.") else ""
            point = ""
        match = re.search(r"[Cc]lauses of (`\w+` \(`\w+`\))|^## ", line)
        above = (match[1] or "") if match else above
        if above and line.startswith("- "):
            point, at = line, number
        elif point:
            point += line
        cells = [it.strip() for it in line.split("|")[1:-1]]
        if len(cells) >= 3 and "`" in cells[-2]:
            yield number, cells[-2], cells[-1]


def clause_problems():
    """The functions and clauses that a table of the page in words names, and that aren't there."""
    known = {}
    for number, function, clauses in rows_of_clauses():
        match = re.fullmatch(r"((?:`[\w:]+`(?:, )?)+) \(`(\w+)`\)", function)
        if not match:
            yield f"{WORDS}:{number}: '{function}' isn't a function with its crate"
            continue
        crate = match[2]
        if crate not in known:
            known[crate] = all_functions(crate)
        for name in re.findall(r"`([\w:]+)`", match[1]):
            if name not in known[crate]:
                yield f"{WORDS}:{number}: {crate} has no public function {name}"
                continue
            for clause in re.findall(r"`\w+`", clauses) or ["-"]:
                if clause not in known[crate][name]:
                    yield f"{WORDS}:{number}: {name} of {crate} has no clause {clause.strip('`')}"
