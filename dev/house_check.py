#!/usr/bin/env python3
"""Whether signatures can be read, statements for the prover say their fact, and a type's name means one thing.

usage: dev/house_check.py

Prints what is wrong, a line each; the status is then 1, else 0. In the src/ of each crate:

- a function has at most 8 arguments and 14 clauses, unless it is in LONG;
- a line `let _name = ..` has above it a comment that begins with `// For the proof:`, unless it only ends a value: crates of tests
  and benchmarks may end values so, and the lines of ENDS do;
- two types have one name only if the name is in SHARED.

What the lists name and nothing needs any more is wrong too. `dev/tidy` calls `problems`.
"""
import os
import sys

TOP = os.path.dirname(os.path.dirname(os.path.abspath(__file__)))
sys.path.insert(0, os.path.join(TOP, "tools"))
from running import run

import re

MOST_ARGUMENTS, MOST_CLAUSES = 8, 14
FACT = "// For the proof:"

# Functions with more arguments or clauses, by file: those whose signatures are promises to callers outside, and those
# that nobody has cut yet.
LONG = {
    "driven_host/src/asking.rt": ("deliver",),
    "homa_c/src/exports.rt": ("homa_call", "homa_deliver"),
    "homa_host/src/host.rt": ("deliver",),
    "homa_in/src/arriving.rt": ("accept",),
    "homa_io/src/memory.rt": ("write",),
    "homa_node/src/calling.rt": ("starts",),
    "homa_replay/src/carrying.rt": ("begin",),
    "homa_script/src/reader.rt": ("next",),
    "homa_server/src/table.rt": ("receive",),
    "homa_top/src/running.rt": ("run",),
    "late_host/src/late.rt": ("deliver_at_once",),
    "text_lines/src/lines.rt": ("next",),
}

# Lines `let _name = ..` that only end a value.
ENDS = {
    "homa_generate/src/printing.rt": ("_sink",),
    "homa_replay/src/replays.rt": ("_sink",),
    "place_heap/src/cells.rt": ("_marks",),
}

# Names that several types have: each is the same thing of different owners, or a private word of one file.
SHARED = {
    "Arrival", "Block", "Broken", "Change", "Due", "FaultCount", "Given", "Head", "Host", "Input", "Kept", "Kind", "Last", "Lent", "Mix", "Next",
    "Packet", "Part", "Piece", "Place", "Range", "Reader", "Rec", "Row", "Setup", "Slot", "Spot", "Stage", "Waiting",
}


def sources():
    """The files of code, by their paths below crates/, with their texts."""
    for at, folders, names in os.walk(os.path.join(TOP, "crates"), followlinks=True):
        folders[:] = sorted(f for f in folders if f != "out")
        for name in sorted(names):
            path = os.path.relpath(os.path.join(at, name), os.path.join(TOP, "crates"))
            if name.endswith(".rt") and "/src/" in path:
                with open(os.path.join(at, name), encoding="utf-8") as it:
                    yield path, it.read()


def closed(text, at, pair):
    """Where the bracket at a place is closed; the sign `->` closes none."""
    depth = 0
    for place in range(at, len(text)):
        if text[place] == pair[0]:
            depth += 1
        elif text[place] == pair[1] and text[place - 1] != "-":
            depth -= 1
            if not depth:
                return place
    return len(text) - 1


def parts(text):
    """How many parts the commas make that stand in no bracket; one behind the last part makes none."""
    depth, count, part = 0, 0, ""
    for place, sign in enumerate(text):
        depth += (sign in "([{<") - (sign in ")]}" or sign == ">" and text[place - 1] != "-")
        if sign == "," and not depth:
            count, part = count + bool(part.strip()), ""
        else:
            part += sign
    return count + bool(part.strip())


def clauses(rest, indent):
    """How many clauses stand between the signature's end and the body, or the end of a trait's method."""
    lines = rest.split("\n")
    if lines[0].rstrip().endswith(("{", "{}", ";")):
        return 0
    count = 0
    for line in lines[1:]:
        if line in (f"{indent}{{", f"{indent}{{}}"):
            break
        count += re.match(r"\s*(?:requires|ensures)\b", line) is not None
        if line.rstrip().endswith("};"):
            break
    return count


def functions(text):
    """Each function's line, name, and how many arguments and clauses it has; `self` is an argument."""
    for match in re.finditer(r'^([ \t]*)(?:pub(?:\(crate\))? )?(?:final )?(?:const )?(?:unsafe )?(?:extern "C" )?fn (\w+)', text, re.M):
        at = match.end()
        if text[at] == "<":
            at = closed(text, at, "<>") + 1
        end = closed(text, at, "()")
        line = text.count("\n", 0, match.start()) + 1
        yield line, match[2], parts(text[at + 1:end]), clauses(text[end + 1:], match[1])


def long_signatures(found):
    needed = set()
    for path, text in found:
        for line, name, arguments, count in functions(text):
            if arguments <= MOST_ARGUMENTS and count <= MOST_CLAUSES:
                continue
            if name in LONG.get(path, ()):
                needed.add((path, name))
            else:
                yield f"crates/{path}:{line}: {name} has {arguments} arguments and {count} clauses"
    for path, names in LONG.items():
        for name in names:
            if (path, name) not in needed:
                yield f"dev/house_check.py: LONG needn't name {name} of {path}"


def above(lines, at):
    """The comment right above a line, joined."""
    first = at
    while first and lines[first - 1].strip().startswith("//"):
        first -= 1
    return " ".join(line.strip() for line in lines[first:at])


def silent_statements(found):
    needed = set()
    for path, text in found:
        crate = path.split("/")[0]
        if crate.endswith("_tests") or crate.startswith("bench_"):
            continue
        lines = text.split("\n")
        for at, line in enumerate(lines):
            match = re.match(r"\s*let (?:mut )?(_\w+)(?:: [^=]+)? =", line)
            if not match:
                continue
            if match[1] in ENDS.get(path, ()):
                needed.add((path, match[1]))
            elif FACT not in above(lines, at):
                yield f"crates/{path}:{at + 1}: let {match[1]} = .. without `{FACT} ..` above it"
    for path, names in ENDS.items():
        for name in names:
            if (path, name) not in needed:
                yield f"dev/house_check.py: ENDS needn't name {name} of {path}"


def types(text):
    """The types that a file declares, with their lines; a trait's own types, and those of an impl, are none."""
    for match in re.finditer(r"^( *)(?:pub(?:\(crate\))? )?(struct|enum|trait|type) (\w+)\b", text, re.M):
        if match[2] != "type" or not match[1]:
            yield text.count("\n", 0, match.start()) + 1, match[3]


def shared_names(found):
    places = {}
    for path, text in found:
        for line, name in types(text):
            places.setdefault(name, []).append(f"crates/{path}:{line}")
    for name, where in sorted(places.items()):
        if len(where) > 1 and name not in SHARED:
            yield f"{where[1]}: a type {name}, as at {where[0]}"
    for name in sorted(SHARED):
        if len(places.get(name, ())) < 2:
            yield f"dev/house_check.py: SHARED needn't name {name}"


def problems():
    found = list(sources())
    yield from long_signatures(found)
    yield from silent_statements(found)
    yield from shared_names(found)


def main(words):
    if words:
        print(f"house_check.py: it takes no words, as {words[0]}", file=sys.stderr)
        return 2
    found = list(problems())
    print("\n".join(found) if found else "house: signatures, statements for the prover and names of types are as they should be")
    return 1 if found else 0


if __name__ == "__main__":
    run("house_check.py", lambda: main(sys.argv[1:]), doc=__doc__)
