"""Lines of a source with a caret, and paragraphs."""

import re
import textwrap
import unicodedata

WIDTH = 92


def line_and_column(source, offset):
    """The line and the column of a byte, both counted from 1; the column counts characters."""
    start = source.rfind(b"\n", 0, offset) + 1
    column = len(source[start:offset].decode("utf-8", "replace")) + 1
    return source.count(b"\n", 0, offset) + 1, column


def blank(text):
    """As many blanks as the text is wide."""
    return "".join(
        it if it == "\t" else " " * (1 + (unicodedata.east_asian_width(it) in "WF"))
        for it in text
        if not unicodedata.combining(it)
    )


def pointed(source, start, end=None):
    """The source line of a byte, with carets under the bytes from start to end in that line."""
    first = source.rfind(b"\n", 0, start) + 1
    last = source.find(b"\n", start)
    last = len(source) if last < 0 else last
    end = min(end or start + 1, last)
    before = source[first:start].decode("utf-8", "replace")
    marked = source[start:end].decode("utf-8", "replace")
    behind = source[max(start, end) : last].decode("utf-8", "replace")
    room = WIDTH - 12
    if len(marked) > room:
        marked, behind = marked[: room - 3], "..."
    if len(before) + len(marked) > room:
        before = "..." + before[len(before) + len(marked) + 3 - room :]
    if len(before) + len(marked) + len(behind) > room:
        behind = behind[: max(room - len(before) - len(marked) - 3, 0)] + "..."
    carets = "^" * max(len(blank(marked)), 1)
    return [f"    {(before + marked + behind).rstrip()}", f"    {blank(before)}{carets}"]


# How many lines of a part of the source are shown.
MOST_LINES = 12


def where(name, source, start, end=None):
    """The place in the file, and its lines, with carets under what is meant in the first one."""
    start = min(start, len(source.rstrip()))
    line, column = line_and_column(source, start)
    lines = [f"{name}, line {line}, column {column}:", *pointed(source, start, end)]
    if end is not None and b"\n" in source[start:end]:
        rest = source[: end + len(source[end:].split(b"\n")[0])][source.index(b"\n", start) + 1 :]
        further = rest.decode("utf-8", "replace").split("\n")
        lines += block(it.rstrip() for it in further[:MOST_LINES])
        lines += ["    ..."] * (len(further) > MOST_LINES)
    return lines


def paragraph(text, label=None):
    """The text in lines of at most the width, with a label in front. Code stays on one line."""
    text = f"{label}: {text}" if label else text
    text = re.sub(r"`[^`]*`", lambda code: code[0].replace(" ", "\0"), text)
    lines = textwrap.wrap(text, WIDTH, break_long_words=False, break_on_hyphens=False)
    return [it.replace("\0", " ") for it in lines]


def block(lines):
    """The lines, set in."""
    return ["    " + it for it in lines]
