"""The forms of the language: what may stand where, and what stands at an offset in its place."""

from .trees import read, token_kind, way_to

# A form: its text, the kinds of its parts behind the word, and the kind of any further parts.
FORMS = {
    "document": {"ipdl": ("(ipdl 1 ITEM ..)", ["version"], "item")},
    "item": {
        "fun": ("(fun NAME V W)", ["name", "width", "width"], None),
        "table": ("(table NAME V W (LITERAL ..))", ["name", "width", "width", "values"], None),
        "protocol": (
            "(protocol NAME (inputs PORT ..) (outputs PORT ..) PROTOCOL)",
            ["name", "inputs", "outputs", "protocol"],
            None,
        ),
        "assume": ("(assume NAME LEFT RIGHT)", ["name", "protocol name", "protocol name"], None),
        "theorem": (
            "(theorem NAME LEFT RIGHT (left STEP ..) (right STEP ..))",
            ["name", "protocol name", "protocol name", "left script", "right script"],
            None,
        ),
    },
    "inputs": {"inputs": ("(inputs PORT ..)", [], "port")},
    "outputs": {"outputs": ("(outputs PORT ..)", [], "port")},
    "left script": {"left": ("(left STEP ..)", [], "step")},
    "right script": {"right": ("(right STEP ..)", [], "step")},
    "protocol": {
        "nil": ("(nil)", [], None),
        "out": ("(out c R)", ["channel", "reaction"], None),
        "par": ("(par P P ..)", ["protocol", "protocol"], "protocol"),
        "new": ("(new (PORT ..) P)", ["ports", "protocol"], None),
    },
    "reaction": {
        "ret": ("(ret e)", ["expression"], None),
        "flip": ("(flip w)", ["width"], None),
        "read": ("(read c)", ["channel"], None),
        "if": ("(if e R S)", ["expression", "reaction", "reaction"], None),
        "bind": ("(bind x w R S)", ["variable", "width", "reaction", "reaction"], None),
    },
    "expression": {
        "xor": ("(xor a b)", ["expression", "expression"], None),
        "and": ("(and a b)", ["expression", "expression"], None),
        "not": ("(not a)", ["expression"], None),
        "cat": ("(cat a b)", ["expression", "expression"], None),
        "cut": ("(cut i n a)", ["number", "number", "expression"], None),
        "eq": ("(eq a b)", ["expression", "expression"], None),
        "mux": ("(mux c a b)", ["expression", "expression", "expression"], None),
    },
}

# The arguments of the rules that have some, as they are written behind the path.
ARGUMENTS = {
    "mask": (["expression"], "EXPRESSION"),
    "perm": (["symbol"], "SYMBOL"),
    "table": (["number", "expression"], "NUMBER EXPRESSION"),
    "lin": (["expression"], "EXPRESSION"),
    "rename": (["channel"], "CHANNEL"),
    "fold": (["path"], "PATH"),
    "subst": (["path"], "PATH"),
    "subsume": (["channel", "width"], "CHANNEL WIDTH"),
}

# The rules by the kind of their terms.
RULES = {
    "reaction": (
        "beta eta assoc swap dropr again iftrue iffalse ifsame ifbind mask perm join flip0 tidy"
    ).split(),
    "expression": ["table", "lin"],
    "protocol": (
        "comm assocl assocr unit newswap scope rename absorb fold subst drop subsume diverge shape"
    ).split(),
}

# Lists without a word in front, with the kind of their parts.
ROWS = {"ports": "port", "values": "literal", "path": "number", "pairs": "pair"}

SPOKEN = {
    "document": "a document, `(ipdl 1 ITEM ..)`",
    "version": "the number 1, the version of the language",
    "item": "an item: `(fun ..)`, `(table ..)`, `(protocol ..)`, `(assume ..)` or `(theorem ..)`",
    "name": "a name",
    "protocol name": "the name of an earlier protocol",
    "item name": "the name of an earlier assumption or theorem",
    "symbol": "the name of an earlier symbol",
    "channel": "the name of a channel",
    "variable": "the name of a variable",
    "width": "a width, a number from 0 to 128",
    "number": "a number",
    "literal": "a literal, as `#01`",
    "port": "a port: a channel and its width, as `(c 8)`",
    "ports": "the ports: one or more channels with their widths, as `((c 8) (d 1))`",
    "values": "the values of the table, as `(#0 #1)`",
    "inputs": "the inputs, `(inputs PORT ..)`",
    "outputs": "the outputs, `(outputs PORT ..)`",
    "left script": "the left script, `(left STEP ..)`",
    "right script": "the right script, `(right STEP ..)`",
    "protocol": "a protocol: `(nil)`, `(out ..)`, `(par ..)` or `(new ..)`",
    "reaction": "a reaction: `(ret ..)`, `(flip ..)`, `(read ..)`, `(if ..)` or `(bind ..)`",
    "expression": (
        "an expression: a literal, a variable, an operator as `(xor a b)`, or `(f a)` with a symbol f"
    ),
    "step": "a step: `(RULE PATH ARGUMENT ..)`, `(rev (..) TERM)` or `(use ..)`",
    "path": "a path, as `()` or `(0 1)`",
    "direction": "`lr` or `rl`",
    "pairs": "the pairs of channels, as `()` or `((c d))`",
    "pair": "a pair of channels, as `(c d)`",
}


def kind_of_rule(word):
    """The kind of terms that the rule of this word works at, or None."""
    return next((kind for kind, words in RULES.items() if word in words), None)


def form_of(kind, tree):
    """The form of the kind that the list's word names, or None."""
    head = tree.head()
    if kind == "step":
        if head == "rev":
            return ("(rev (RULE PATH ARGUMENT ..) TERM)", ["inner step", "term"], None)
        if head == "use":
            kinds = ["item name", "path", "direction", "pairs"]
            return ("(use NAME PATH DIR (PAIR ..))", kinds, None)
    if kind in ("step", "inner step"):
        if kind_of_rule(head) is None:
            return None
        kinds, text = ARGUMENTS.get(head, ([], ""))
        return (" ".join(["(" + head, "PATH", *text.split()]) + ")", ["path", *kinds], None)
    if kind == "port":
        return ("(CHANNEL W)", ["width"], None)
    if kind == "pair":
        return ("(CHANNEL CHANNEL)", ["channel"], None)
    return FORMS.get(kind, {}).get(head)


def kind_of_part(kind, tree, number):
    """The kind that the list's part of this number is to have; `word` is the word in front."""
    if kind in ROWS:
        return ROWS[kind]
    if number == 0:
        return "channel" if kind in ("port", "pair") else "word"
    form = form_of(kind, tree)
    if form is None:
        return "expression" if kind == "expression" else None
    _, kinds, further = form
    if number > len(kinds):
        return further
    wanted = kinds[number - 1]
    if wanted == "term":
        return kind_of_rule(tree.parts[1].head() if tree.parts[1].is_list() else None)
    return wanted


def taken_in(tree, kind="document"):
    """The first list that has one part too many of its own kind, and that part; or None.

    Then a `)` is mostly missing before the part.
    """
    if not tree.is_list() or not tree.parts:
        return None
    form = form_of(kind, tree)
    if form and form[2] is None:
        for extra in tree.parts[len(form[1]) + 1 :]:
            if extra.is_list() and form_of(kind, extra) and kind != "port":
                return tree, extra
    for number, part in enumerate(tree.parts[1:], 1):
        part_kind = kind_of_part(kind, tree, number)
        found = taken_in(part, part_kind) if part_kind else None
        if found:
            return found
    return None


class Finding:
    """What is to stand at an offset of a document, and the tree that stands there."""

    def __init__(self, source, offset):
        tree = self.root = read(source)
        self.way = [it for it in way_to(tree, offset)] if tree else []
        self.kind = "document"
        self.tree = tree
        for outer, inner in zip(self.way, self.way[1:]):
            number = next(n for n, it in enumerate(outer.parts) if it is inner)
            kind = kind_of_part(self.kind, outer, number)
            if kind == "word":
                break  # the word in front belongs to its list
            self.kind, self.tree = kind, inner

    def wrong_count(self):
        """`few` or `many` where the list has a known word and another number of parts than its form."""
        if self.tree is None or not self.tree.is_list() or self.kind in ROWS:
            return None
        form = form_of(self.kind, self.tree)
        if form is None:
            symbol = self.kind == "expression" and self.tree.head()
            return "many" if symbol and len(self.tree.parts) > 2 else None
        given = len(self.tree.parts) - 1
        if given < len(form[1]):
            return "few"
        return "many" if given > len(form[1]) and form[2] is None else None

    def found(self):
        """What stands there, in one word: a kind of token, or of which kind the list looks."""
        if self.tree is None:
            return None
        if not self.tree.is_list():
            return token_kind(self.tree.text)
        head = self.tree.head()
        for kind in ("protocol", "reaction", "expression", "item"):
            if head in FORMS[kind]:
                return kind
        if kind_of_rule(head) or head in ("rev", "use"):
            return "step"
        return "list" if head is None else "list of another word"

    def likeness(self):
        """What two slips have in common where one remedy serves both."""
        taken = taken_in(self.root) if self.root else None
        if taken and self.tree.start <= taken[0].start < self.tree.end:
            return "a part stands within another one"
        count = self.wrong_count()
        form = form_of(self.kind, self.tree) if count and self.tree.is_list() else None
        return (self.kind, self.found(), count, tuple(form[1]) if form else None)

    def sentences(self):
        """Says what is wrong there, as far as the forms tell."""
        if self.tree is None or self.kind is None:
            return []
        count, found = self.wrong_count(), self.found()
        if count:
            form = form_of(self.kind, self.tree)
            head = self.tree.head()
            text = form[0] if form else f"({head} a)"
            given = len(self.tree.parts) - 1
            behind = "1 part" if given == 1 else f"{given} parts"
            if self.kind in ("port", "pair"):
                behind = f"{given + 1} part{'s' if given else ''}"
                return [f"The form is `{text}`; here the list has {behind}."]
            return [f"The form is `{text}`; here {behind} stand{'s' * (given == 1)} behind `{head}`."]
        spoken = SPOKEN.get(self.kind, "a step without `rev` and `use`")
        here = f"`{self.tree}`"
        if len(here) > 60:
            here = f"a list that begins `({self.tree.head() or ''}`"
        said = f"Here stands {here}. What is to stand here is {spoken}."
        if found in FORMS and found != self.kind:
            article = "an" if found[0] in "aeiou" else "a"
            said += f" `({self.tree.head()} ..)` is {article} {found}."
        return [said]

    def earlier_items(self, *heads):
        """The names of the items before that of the offset that begin with one of these words."""
        before = [it for it in self.root.parts[2:] if it.start < self.way[1].start]
        return [it.parts[1].text for it in before if it.head() in heads]

    def known_names(self):
        """What the names are that would be known there, of the kind that is wanted."""
        if self.kind == "expression":
            around = [
                outer.parts[1].text
                for outer, inner in zip(self.way, self.way[1:])
                if outer.head() == "bind" and len(outer.parts) == 5 and inner is outer.parts[4]
            ]
            symbols = [("symbols before it", self.earlier_items("fun", "table"))]
            return symbols if self.tree.is_list() else [("variables around it", around)] + symbols
        if self.kind == "symbol":
            return [("symbols before it", self.earlier_items("fun", "table"))]
        if self.kind == "protocol name":
            return [("protocols before it", self.earlier_items("protocol"))]
        if self.kind == "item name":
            return [("assumptions and theorems before it", self.earlier_items("assume", "theorem"))]
        return []

    def earlier_one(self):
        """The offset of an earlier item, port or pair of the name of the tree, or None."""
        text = self.tree.text
        if self.kind == "name":
            rows = [it.parts[1] for it in self.root.parts[2:] if it.is_list() and len(it.parts) > 1]
        elif self.kind == "channel" and self.way[1].head() == "protocol":
            rows = [it.parts[0] for side in self.way[1].parts[2:4] for it in side.parts[1:] if it.is_list()]
        elif self.kind == "channel":
            rows = [it.parts[0] for it in self.way[-3].parts if it.is_list()]
        else:
            return None
        return next((it.start for it in rows if it.text == text and it.start < self.tree.start), None)
