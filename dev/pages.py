"""What dev/tidy finds in the pages: long sentences, links that lead nowhere, words that have a plainer one, examples that
no test compares, and tables that differ from the code's. In the help of the tools it looks at sentences and words."""
import ast
import glob
import os
import re

from examples import BY_HAND, bare_commands, commands_of
from markdown import CODE, Page

TOP = os.path.dirname(os.path.dirname(os.path.abspath(__file__)))
FOLDERS = ("docs", "examples", "bindings")
PAGES = ["README.md", "CONTRIBUTING.md", "CHANGELOG.md", "SECURITY.md"]
PAGES += sorted(it for folder in FOLDERS for it in glob.glob(f"{folder}/**/*.md", root_dir=TOP, recursive=True))
# Most words of a sentence: of README, and of the other pages with their cells. Most words a sentence on average, without cells.
MOST_README, MOST, MOST_AVERAGE = 25, 40, 17
# A page that is made from the sources repeats their comments: only its links are judged.
MADE = {"docs/understand/promises-tables.md"}
# In a page about proofs, or of records, these words are as good as any.
WITH_WORDS_OF_PROOFS = {"docs/maintain/proofs.md", "docs/understand/promises.md"}
# A word in a meaning of this project's own, and what to say.
WORDS = {
    r"a front( of)?|fronts|(?<!in )front of": "prefix, or: the first part",
    r"(?<!wait )(?<!waits )(?<!waited )behind": "after",
    r"wants? of memory": "out of memory",
    r"(that|those|none) of which": "repeat the noun",
    r"(?<=[,;] )of which": "begin a sentence with the noun",
    r"strange": "foreign",
    r"owes?": "must guarantee",
    r"hand(s|ed)? over|hand(s|ed)? on|in hand": "deliver, pass, ready",
    r"the outside": "the system",
    r"dear(er|est)?": "slow to prove",
    r"as it comes": "at once",
    r"elsewhere": "in another process",
    r"plain (host|world|step)s?": "the model; the host as defined",
    r"stands? for": "represents, means",
    r"(first|earlier|later|each) (life|lives)": "incarnation",
    r"the (middle|least) of (the )?(runs|rounds)": "median, minimum",
    r"some(?= \d)": "about",
    r"no longer": "leave history to CHANGELOG.md",
    r"(?<!nothing )(?<!anything )(?<!something )(?<!whatever )else": "otherwise",
    r"tells?|told": "print, report, carry, say",
    r"feign": "fake",
}


def read(path):
    with open(os.path.join(TOP, path), encoding="utf-8") as it:
        return it.read()


def long_sentences(path, page):
    """Sentences over the most words."""
    most, texts = (MOST_README, page.prose) if path == "README.md" else (MOST, page.prose + page.cells)
    for number, count, sentence in page.sentences(texts):
        if count > most:
            yield f"{path}:{number}: a sentence of {count} words, over {most}: {sentence[:60].rstrip()} .."


def long_average(path, page):
    """More words a sentence than the most, without cells."""
    counts = [count for _, count, _ in page.sentences(page.prose)]
    if counts and sum(counts) > MOST_AVERAGE * len(counts):
        yield f"{path}: {sum(counts) / len(counts):.1f} words a sentence, over {MOST_AVERAGE}"


def without_contents(path, page):
    """A page over two screens needs three links to its own headings near its head. A glossary is in order by itself."""
    count = sum(target.startswith("#") for number, target in page.links() if number <= 40)
    if len(page.lines) > 100 and count < 3 and path not in ("README.md", "docs/glossary.md"):
        yield f"{path}: {len(page.lines)} lines without a table of contents"


def dead_links(path, page, pages):
    """`pages` has each page by its path. A link to a web page isn't followed."""
    for number, target in page.links():
        if re.match(r"[a-z]+:", target):
            continue
        name, _, anchor = target.partition("#")
        at = os.path.normpath(os.path.join(os.path.dirname(path), name)) if name else path
        if at not in pages and not os.path.exists(os.path.join(TOP, at)):
            yield f"{path}:{number}: a link to {target}, which isn't there"
        elif anchor and at in pages and anchor not in pages[at].anchors():
            yield f"{path}:{number}: a link to {target}, and that page has no such heading"


def own_words(path, page):
    """The words of WORDS in prose and cells, but for code and for words in quotes."""
    if path in WITH_WORDS_OF_PROOFS:
        return
    for text in page.prose + page.cells:
        for number, line in text:
            spoken = re.sub(r"`[^`]*`|\"[^\"]*\"|(?<!\w)'[^']*'(?!\w)|\]\([^)]*\)", CODE, line)
            for word, plainer in WORDS.items():
                for match in re.finditer(rf"(?<![\w-]){word}(?![\w-])", spoken, re.I):
                    yield f"{path}:{number}: '{match[0]}': say {plainer}"


def untried(path, page):
    """Commands in code blocks that tests/pages doesn't run, and that dev/examples.py doesn't name as tried by hand."""
    for number, command in bare_commands(page):
        if command not in BY_HAND:
            yield (f"{path}:{number}: no test runs `{command}`: give it a block of its own that begins with ```sh, "
                   "or name it in dev/examples.py")


def unused_by_hand(pages):
    """What dev/examples.py names as tried by hand and no page has."""
    found = {command for page in pages.values() for command in commands_of(page)}
    for command in BY_HAND:
        if command not in found:
            yield f"dev/examples.py: no page has `{command}`"


def help_of(text):
    """The help of a Python program: what its first string says; None for other programs."""
    return ast.get_docstring(ast.parse(text)) if text.startswith("#!/usr/bin/env python3") else None


def untold_tools(path, text, names):
    """Programs of tools/ that the page doesn't name."""
    for name in names:
        if not re.search(rf"`tools/{name}\b(?![-.])", text):
            yield f"{path}: the program tools/{name} isn't there"


def programs(folder):
    """The executable files of a folder."""
    paths = {it: os.path.join(TOP, folder, it) for it in sorted(os.listdir(os.path.join(TOP, folder)))}
    return [name for name, path in paths.items() if os.path.isfile(path) and os.access(path, os.X_OK)]


def settings_of_code(definition):
    """Each setting with its least, most and usual number, by homa_plain/specs/Settings.antt."""
    ranges = re.findall(r"between (\w+) (\d+) (\d+) s\.(\w+)", definition)
    usual = dict(re.findall(r"^  (\w+) = (\d+)", definition.partition("usual = record")[2], re.M))
    return {name: (int(least), int(most), int(usual[name])) for _, least, most, name in ranges}


def other_settings(path, text, definition):
    """Where a page's table of settings differs from the definition."""
    number = r"([\d,]+)"
    rows = re.findall(rf"^\| `(\w+)` \| {number} to {number} \| {number} \|", text, re.M)
    found = {name: tuple(int(it.replace(",", "")) for it in numbers) for name, *numbers in rows}
    for name, numbers in settings_of_code(definition).items():
        if found.get(name) != numbers:
            yield f"{path}: the setting {name} is {found.get(name, 'not there')}, and {numbers} by its definition"


def other_answers(path, text, faults, statuses, header):
    """Causes, statuses and results of the code that the page doesn't name: of fault.rt and settings.rt, of exit.rt and the
    script homa, and of homa.h."""
    for enum in ("StartFault", "WorldFault", "ScriptFault", "SettingFault"):
        body = re.search(rf"pub enum {enum} \{{(.*?)\n\}}", faults, re.S)[1]
        for cause in re.findall(r"^    (\w+)", body, re.M):
            if cause not in ("Start", "Setting", "NoMemory") and not re.search(rf"`[^`]*\b{cause}\b", text):
                yield f"{path}: the cause {cause} isn't there"
    for code in re.findall(r"=> (\d+),|^    (\d+)\) |exit (12\d)", statuses, re.M):
        code = "".join(code)
        if not re.search(rf"^\| {code} \|", text, re.M):
            yield f"{path}: the status {code} isn't there"
    for name in re.findall(r"^    (HOMA_\w+) = \d+", header, re.M):
        if f"`{name}`" not in text:
            yield f"{path}: {name} of include/homa.h isn't there"


def faults():
    """All that is found, line by line."""
    pages = {path: Page(read(path)) for path in PAGES}
    for path, page in pages.items():
        yield from dead_links(path, page, pages)
        if path not in MADE:
            for check in (long_sentences, long_average, without_contents, own_words, untried):
                yield from check(path, page)
    for name in programs("tools"):
        path = f"tools/{name}"
        if said := help_of(read(path)):
            yield from long_sentences(path, Page(said))
            yield from own_words(path, Page(said))
    yield from unused_by_hand(pages)
    yield from untold_tools("docs/use/commands.md", read("docs/use/commands.md"), programs("tools"))
    settings, statuses, plain = "docs/use/settings.md", "docs/use/statuses.md", "crates/homa_plain"
    yield from other_settings(settings, read(settings), read(f"{plain}/specs/Settings.antt"))
    yield from other_answers(statuses, read(statuses), read(f"{plain}/src/fault.rt") + read(f"{plain}/src/settings.rt"),
                             read("crates/homa_top/src/exit.rt") + read("homa"), read("include/homa.h"))
