"""The pages that explanations are taken from: docs/REFUSALS.md, and what others say of a rule."""

import re
from functools import lru_cache

from .program import TOP

# The statuses of the answers by their first words; all that begins otherwise was accepted.
STATUSES = {"wrong": 1, "spell": 2, "form": 2, "ill": 2, "item": 2, "usage": 3, "fault": 4, "limit": 7}


class Example:
    """A document of the page, the words that it is checked with, and its answer."""

    def __init__(self, words, source, answer):
        self.words, self.source, self.answer = words, source, answer

    def status(self):
        return STATUSES.get(self.answer.split()[0], 0)


class Entry:
    """A section of the page: its heading, its paragraphs by their labels, and its documents."""

    def __init__(self, heading, level):
        self.heading, self.level = heading, level
        self.paragraphs = []
        self.examples = []
        self.slips = []
        # The words for the next document.
        self.words = ["check"]

    def add(self, paragraph):
        """Keeps a paragraph, or the words for the next document."""
        words = re.fullmatch(r"With the words `([^`]*)`:", paragraph)
        if words:
            self.words = words[1].split(" ")
        else:
            self.paragraphs.append(paragraph)

    def title(self):
        """The answer that the entry is about, where the heading is one piece of code; else None."""
        code = re.fullmatch(r"`([^`]*)`", self.heading)
        return code[1] if code else None

    def labelled(self, label):
        """The paragraphs that begin with the label in bold, without it; those with no label for ""."""
        found = []
        for paragraph in self.paragraphs:
            mark = re.match(r"\*\*([^*]+)\.\*\* *", paragraph)
            if (mark[1] if mark else "") == label:
                found.append(paragraph[mark.end() :] if mark else paragraph)
        return found


def repeated(text):
    """The text with each `{N:TEXT}` written out: TEXT N times, with the number of the turn for `@`."""
    while True:
        turns = re.search(r"\{(\d+):([^{}]*)\}", text)
        if turns is None:
            return text
        written = "".join(turns[2].replace("@", str(it)) for it in range(int(turns[1])))
        text = text[: turns.start()] + written + text[turns.end() :]


def read_page(name):
    """The sections of a page, in order."""
    entries, paragraph, block = [Entry("", 0)], [], None
    for line in (TOP / "docs" / name).read_text(encoding="utf-8").splitlines():
        if block is not None:
            if line != "```":
                block[1].append(line)
                continue
            keep_block(entries[-1], *block)
            block = None
            continue
        heading = re.match(r"(#+) (.*)", line)
        row = line.startswith(("|", "- "))
        if (not line or heading or line.startswith("```") or row) and paragraph:
            entries[-1].add(" ".join(paragraph))
            paragraph = []
        if heading:
            entries.append(Entry(heading[2], len(heading[1])))
            if entries[-1].level == 4 and entries[-1].title() is None:
                owner = next(it for it in reversed(entries) if it.level == 3)
                owner.slips.append(entries[-1])
        elif line.startswith("```"):
            block = (line[3:], [])
        elif line:
            paragraph.append(line)
    if paragraph:
        entries[-1].add(" ".join(paragraph))
    return entries


def keep_block(entry, kind, lines):
    """Adds a fenced block to its entry: a document, or the answer to the document above it."""
    text = repeated("\n".join(lines))
    if kind == "ipdl":
        entry.examples.append(Example(entry.words, text.encode(), None))
        entry.words = ["check"]
    elif kind == "answer":
        entry.examples[-1].answer = text + "\n"


@lru_cache
def refusals():
    """The entries of docs/REFUSALS.md."""
    return read_page("REFUSALS.md")


def titles_of(answer):
    """The titles under which the page may have the answer, the most telling first."""
    words = answer.split()
    kind = words[0]
    if kind in ("spell", "form"):
        return [f"{kind} N {words[2]}"]
    if kind == "ill":
        return [f"ill ITEM PATH {cause_behind_path(answer)}"]
    if kind == "item":
        return [f"item NAME {words[2]}"]
    if kind == "limit":
        place = {"byte": "byte N", "item": "item NAME"}.get(words[4], "theorem T SIDE N")
        if words[4] == "theorem" and len(words) == 6:
            place = "theorem T"
        return [f"limit {words[1]} {words[2]} at {place}"]
    if kind == "wrong" and words[2] == "ends":
        return ["wrong T ends PATH"]
    if kind == "wrong":
        rule, cause = words[4], words[5:]
        if rule == "use":
            return [f"wrong T SIDE N use NAME {cause[1]}", f"wrong T SIDE N RULE {cause[1]}"]
        if rule == "rev":
            rule, cause = cause[0], cause[1:]
        if cause[0] == "Side":
            return [f"wrong T SIDE N {rule} Side {cause[1]}", "wrong T SIDE N RULE Side k"]
        return [f"wrong T SIDE N {rule} {cause[0]}", f"wrong T SIDE N RULE {cause[0]}"]
    return [" ".join(words)]


def placeholders(title, answer):
    """What the small words and the capitals behind the cause of the title stand for in the answer."""
    wanted = re.sub(r"PATH", "()", title).split()
    given = re.sub(r"\([^)]*\)", "()", answer, count=1 if "PATH" in title else 0).split()
    cause = next((n for n, it in enumerate(wanted) if it[:1].isupper() and not it.isupper()), len(wanted))
    behind = given[len(given) - (len(wanted) - cause - 1) :] if cause + 1 < len(wanted) else []
    pairs = list(zip(wanted[cause + 1 :], behind))
    return [(it, value) for it, value in pairs if it.isalpha() and it not in ("at", "bit", "CAUSE")]


def cause_behind_path(text):
    """The word behind the first path in the text: the cause of what is ill typed."""
    return text[text.index(")") + 1 :].split()[0]


def entry_for(answer):
    """The entry of the page that the answer belongs to, or None."""
    for title in titles_of(answer):
        for entry in refusals():
            words = (entry.title() or "").split()
            if words[: len(title.split())] == title.split():
                return entry
    return None


def rows_of(page, start):
    """The rows of tables of a page whose first cell is or begins with the code, each as its cells."""
    rows = []
    for line in (TOP / "docs" / page).read_text(encoding="utf-8").splitlines():
        if line.startswith("| `"):
            cells = [it.strip().replace("\\|", "|") for it in re.split(r"(?<!\\)\|", line)[1:-1]]
            if re.search(rf"`{start}(?: [^`]*)?`", cells[0]):
                rows.append(cells)
    return rows


def rule_in_words(rule):
    """The left side, the right side and the side conditions of a rule, from the page of the language."""
    for cells in rows_of("LANGUAGE.md", re.escape(rule)):
        if len(cells) == 4:
            return cells[1:]
    return None


def advice_on(rule, cause):
    """What the page of rules says of the cause at this rule, or None."""
    inside = False
    for line in (TOP / "docs" / "RULES.md").read_text(encoding="utf-8").splitlines():
        if line.startswith("## "):
            inside = line == f"## `{rule}`" or (rule == "table" and line == "## The rule of truth")
        elif inside and line.startswith("| `"):
            cells = [it.strip().replace("\\|", "|") for it in re.split(r"(?<!\\)\|", line)[1:-1]]
            if re.search(rf"`{cause}(?: [^`]*)?`", cells[0]) and len(cells) == 2:
                return cells[1]
    return None


def plain(markdown):
    """The text without its links."""
    return re.sub(r"\[([^\]]*)\]\([^)]*\)", r"\1", markdown)
