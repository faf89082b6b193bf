"""A page as dev/tidy and tests/pages read it: its prose in sentences, its code blocks, its headings and its links."""
import re

# Code in backticks counts as one word, whatever it holds.
CODE = "\x01"
ABBREVIATIONS = {"e.g.", "i.e.", "etc.", "cf.", "vs.", "no.", "fig."}
FENCE = re.compile(r" *(?:[-*+]|\d+[.)])? *(`{3,}|~{3,})(.*)")
ITEM = re.compile(r"( *)([-*+]|\d+[.)]) +")
RULE = re.compile(r"[|:\- ]+")


class Page:
    """Texts are paragraphs, list items and cells, each as its (number, line) pairs. Blocks are (number, info, lines) of code.
    The number of a line counts from 1; `info` is what follows the fence, and None for a block that is indented."""

    def __init__(self, text):
        self.prose, self.cells, self.blocks, self.headings = [], [], [], []
        self.lines = text.splitlines()
        self.text, self.in_list, self.was_blank = [], False, True
        at = 0
        while at < len(self.lines):
            at = self.read(at)
        self.close()

    def read(self, at):
        """Reads what begins at this line, and returns where it ends."""
        line = self.lines[at]
        bare = line.strip()
        if match := FENCE.match(line):
            return self.read_fence(at, match)
        if bare.startswith("<!--"):
            self.close()
            return next((i for i in range(at, len(self.lines)) if "-->" in self.lines[i]), len(self.lines)) + 1
        if not bare:
            self.close()
            self.was_blank = True
            return at + 1
        item, indent = ITEM.match(line), len(line) - len(line.lstrip())
        if indent >= 4 and self.was_blank and not (self.in_list and (item or indent < 6)):
            return self.read_indented(at)
        self.was_blank = False
        if bare.startswith("|"):
            self.close()
            if not RULE.fullmatch(bare):
                cells = [cell.strip() for cell in re.split(r"(?<!\\)\|", bare.strip("|"))]
                self.cells += [[(at + 1, cell)] for cell in cells if cell]
        elif heading := re.match(r"#{1,6} +(.*)", bare):
            self.close()
            self.in_list = False
            self.headings.append((at + 1, heading[1]))
        else:
            if item:
                self.close()
                self.in_list = True
                line = line[item.end():]
            elif indent == 0 and not self.text:
                self.in_list = False
            self.text.append((at + 1, line.lstrip("> ")))
        return at + 1

    def read_fence(self, at, match):
        self.close()
        last = re.compile(rf" *{match[1]}{match[1][0]}* *")
        end = next((i for i in range(at + 1, len(self.lines)) if last.fullmatch(self.lines[i])), len(self.lines))
        self.blocks.append((at + 1, match[2].strip(), self.lines[at + 1:end]))
        self.was_blank = False
        return end + 1

    def read_indented(self, at):
        self.close()
        end = at
        while end < len(self.lines) and (self.lines[end].startswith("    ") or not self.lines[end].strip()):
            end += 1
        found = [line[4:] for line in self.lines[at:end]]
        while found and not found[-1].strip():
            found.pop()
        self.blocks.append((at + 1, None, found))
        self.was_blank = True
        return end

    def close(self):
        if self.text:
            self.prose.append(self.text)
        self.text = []

    def anchors(self):
        """What a link to each heading names, as GitHub makes it; of two equal ones the second ends in -1."""
        found = []
        for _, heading in self.headings:
            words = re.sub(r"\[([^\]]*)\]\([^)]*\)", r"\1", heading).lower()
            name = re.sub(r"[^\w\- ]", "", words).strip().replace(" ", "-")
            found.append(name if name not in found else f"{name}-{found.count(name)}")
        return found

    def links(self):
        """The links and pictures of prose, cells and headings: (number, target)."""
        for texts in (*self.prose, *self.cells, self.headings):
            for number, line in texts:
                for target in re.findall(r"\]\(([^)\s]+)\)", re.sub(r"`[^`]*`", "", line)):
                    yield number, target

    def sentences(self, texts):
        """The sentences of these texts: (number of the first line, words, sentence)."""
        for text in texts:
            yield from sentences_of(text)


def sentences_of(text):
    marked = " ".join(f"\x03{number}\x04 {line}" for number, line in text)
    tokens, number, now = [], 0, []
    for token in plain(marked).split():
        if match := re.fullmatch(r"\x03(\d+)\x04", token):
            number = int(match[1])
        else:
            tokens.append((token, number))
    for at, it in enumerate(tokens):
        now.append(it)
        after = tokens[at + 1][0] if at + 1 < len(tokens) else ""
        if not after or is_end(it[0], after):
            count = sum(CODE in token or any(sign.isalnum() for sign in token) for token, _ in now)
            if count:
                sentence = " ".join(token for token, _ in now).replace(CODE, "`").replace("\x02", " ")
                yield now[0][1], count, sentence
            now = []


def plain(text):
    """A text as it is read aloud: without pictures, the targets of links and the blanks within code."""
    text = re.sub(r"!\[[^\]]*\]\([^)]*\)", " ", text)
    text = re.sub(r"\[([^\]]+)\]\([^)]*\)", r"\1", text)

    def one_word(code):
        return CODE + re.sub(r"\s+", "\x02", re.sub(r"\x03\d+\x04", "", code[2])) + CODE

    return re.sub(r"(`+)(.+?)\1", one_word, text)


def is_end(token, after):
    """Whether a sentence ends with this token before that one."""
    closed = token.rstrip("\"')]*_")
    if not closed or closed[-1] not in ".?!" or closed.endswith("..") or closed.lower().lstrip("(\"'*_[") in ABBREVIATIONS:
        return False
    first = after.lstrip("\"'([*_")
    return token.endswith("**") or not first or not first[0].islower() or bool(re.search(r"\w[./]\w", first))
