"""The commands of the pages, and what they print, as tests/pages runs them.

A block that begins with ```sh has commands, which are run in order from the top of the repository. Words may follow:
`status 2` is the status of the last one, which is 0 otherwise; `long` needs the C library. A block that begins with ```text,
and is the next one after it, has what the last command prints; `..` in it is in place of lines that are left out. After
```text steps a node prints that while its clock goes on by one tick in each loop turn.

Blocks with `$ COMMAND` are examples too. So are, in prose and cells, `./homa WORDS` prints `THIS`, and commands of the
program and the tools with a `<`, `>` or `|` and no word in capitals."""
import re

# Commands that no test runs, each with the reason.
BY_HAND = {
    ".ci/run": "it takes an hour, and runs the tests itself",
    "tests/run": "it runs tests/pages",
    "dev/compute-rows /tmp/rows": "it proves for two minutes",
}
COMMAND = re.compile(r"\./homa|tools/|dev/|tests/|bench/|examples/|\.ci/run|\(?cd |(?:rt|gcc|g\+\+|rustc|cargo|python3|git) ")


class Example:
    """Commands of a page, at its line `number`, with the status of the last one and what it prints; None isn't compared."""

    def __init__(self, number, commands, status=None, output=None, is_long=False):
        self.number, self.commands, self.status, self.output = number, commands, status, output
        self.is_long, self.has_steps = is_long, False


def fenced(page):
    """The examples in blocks of ```sh, each with the ```text after it."""
    found, last = [], None
    for number, info, lines in page.blocks:
        kind = info.split()[0] if info else ""
        if kind == "sh":
            words, commands = info.split(), [it for it in joined(lines) if it not in BY_HAND]
            status = int(words[words.index("status") + 1]) if "status" in words else 0
            last = Example(number, commands, status, is_long="long" in words)
            if last.commands:
                found.append(last)
        elif kind == "text" and last:
            last.output, last.has_steps = "".join(line + "\n" for line in lines), "steps" in info.split()
            last = None
    return found


def joined(lines):
    """Commands, each of one line or more: a line that ends with a backslash goes on in the next."""
    return [it for it in re.sub(r"\\\n\s*", "", "\n".join(lines)).split("\n") if it.strip() and not it.startswith("#")]


def dollars(page):
    """The examples in other blocks: `$ COMMAND`, and then what it prints."""
    for number, info, lines in page.blocks:
        if info is None or info.split()[:1] in ([], ["console"]):
            at = [i for i, line in enumerate(lines) if line.startswith("$ ")]
            for i, end in zip(at, [*at[1:], len(lines)]):
                yield Example(number + i, [lines[i][2:]], output="".join(line + "\n" for line in lines[i + 1:end]))


def inline(page):
    """The examples in prose and cells."""
    for text in page.prose + page.cells:
        whole = "\n".join(line for _, line in text)
        for command, output in re.findall(r"`((?:\./homa|tools/)[^`]+)`(?: prints `([^`]*)`)?", whole):
            if output or re.search("[<>|]", command) and not re.search(r"\b[A-Z]+\b", command):
                yield Example(text[0][0], [command.replace("\\|", "|")], 0, output + "\n" if output else None)


def examples(page):
    """All examples of a page, in the order of its lines."""
    return sorted([*fenced(page), *dollars(page), *inline(page)], key=lambda it: it.number)


def bare_commands(page):
    """The commands in blocks that are no example."""
    for number, info, lines in page.blocks:
        if info is None or not info.split()[:1] or info.split()[0] in ("bash", "shell"):
            for command in joined(lines):
                if COMMAND.match(command):
                    yield number, command


def commands_of(page):
    """Each command in a code block of the page."""
    for _, _, lines in page.blocks:
        yield from (it.removeprefix("$ ") for it in joined(lines))
