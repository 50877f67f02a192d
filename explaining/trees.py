"""Trees: the tokens and lists of a document or of a printed term, with their byte offsets."""

import re

BLANKS = b" \t\n\r"
PIECE = re.compile(rb";[^\n]*|[()]|[^ \t\n\r();]+")


class Tree:
    """A token, which has a text, or a list, which has parts."""

    __slots__ = ("text", "parts", "start", "end")

    def __init__(self, text=None, parts=None, start=None, end=None):
        self.text, self.parts, self.start, self.end = text, parts, start, end

    def is_list(self):
        return self.parts is not None

    def head(self):
        """The word in front of a list, or None."""
        if self.parts and not self.parts[0].is_list():
            return self.parts[0].text
        return None

    def __str__(self):
        if self.parts is None:
            return self.text
        return "(" + " ".join(map(str, self.parts)) + ")"


def listed(*parts):
    """A list of trees and of texts of tokens."""
    return Tree(parts=[it if isinstance(it, Tree) else Tree(it) for it in parts])


def read(source, cut_off=False):
    """The tree that the bytes spell, or None. What tokens may be made of is left to the program.

    Where the source may be cut off, the lists that are open end where it does.
    """
    open_lists, roots = [], []
    for piece in PIECE.finditer(source):
        text = piece.group().decode("utf-8", "replace")
        row = open_lists[-1].parts if open_lists else roots
        if text.startswith(";"):
            continue
        if text == "(":
            tree = Tree(parts=[], start=piece.start())
            row.append(tree)
            open_lists.append(tree)
        elif text == ")":
            if not open_lists:
                return None
            open_lists.pop().end = piece.end()
        else:
            row.append(Tree(text, None, piece.start(), piece.end()))
    if len(roots) != 1 or (open_lists and not cut_off):
        return None
    for it in open_lists:
        it.end = len(source)
    return roots[0]


def still_open(source):
    """The offsets of the parentheses that nothing closes."""
    offsets = []
    for piece in PIECE.finditer(source):
        if piece.group() == b"(":
            offsets.append(piece.start())
        elif piece.group() == b")" and offsets:
            offsets.pop()
    return offsets


def closing(source):
    """The offset of the token that ends the first tree."""
    depth = 0
    for piece in PIECE.finditer(source):
        depth += {b"(": 1, b")": -1}.get(piece.group(), 0)
        if depth == 0 and not piece.group().startswith(b";"):
            return piece.start()
    return len(source)


def way_to(tree, offset):
    """The trees from the root to the innermost one that begins at or spans the offset."""
    way = [tree]
    while True:
        inner = [
            it for it in way[-1].parts or [] if it.start <= offset < max(it.end, it.start + 1)
        ]
        if not inner:
            return way
        way.append(inner[0])


def token_kind(text):
    """Which kind of token the text is: a word, a number or a literal."""
    if text.startswith("#"):
        return "literal"
    return "number" if text[:1].isdigit() else "word"
