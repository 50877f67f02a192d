"""What is wrong with a step of a script, and with two ends that differ."""

import re

from . import pages
from .chains import marked, near_changes, term_lines
from .program import values
from .showing import block, paragraph, where
from .terms import (
    binders_at,
    children,
    laid_out,
    listed_places,
    part_at,
    printed,
    replaced,
    root,
    tests_at,
    walk,
    whole_tree,
)
from .trees import read


def path_in(text):
    """The first path of the text, as numbers."""
    inside = text[text.index("(") + 1 : text.index(")")]
    return [int(it) for it in inside.split()]


def path_text(path):
    return "(" + " ".join(map(str, path)) + ")"


def shown(tree):
    """The lines of a term."""
    return block(laid_out(tree, width=88))


def brief(tree):
    """The text of a tree, with its last parts left out where it is long."""
    text = str(tree)
    if len(text) <= 56:
        return text
    kept = ""
    for part in tree.parts:
        if len(kept) + len(str(part)) > 48:
            break
        kept += f"{part} "
    return f"({kept}..)"


def channel_at(term, path):
    """Says in which channel's reaction the place is, if it is in one."""
    inside = [it[0] for it in walk(root(term), path)[:-1] if it[0].head() == "out"]
    return f", in the reaction of {inside[0].parts[1]}" if inside else ""


def binder_lines(binders):
    """Says of each binder what it is bound to."""
    if not binders:
        return ["No binder is around the place."]
    said = ["The binders around the place, each with its width and what it is bound to:"]
    for depth, it in enumerate(binders):
        said.append(f"    x{depth}  {it.parts[2]}  {it.parts[3]}")
    return said


class Step:
    """A step of a script, and the term before it: None where the program does not tell that."""

    def __init__(self, document, theorem, side, number):
        self.document, self.theorem, self.side, self.number = document, theorem, side, number
        self.tree = document.steps(theorem, side)[number - 1]
        self.before = document.term_after(theorem, side, number - 1)
        # The step of a rule within a `rev`, and TERM.
        backwards = self.tree.head() == "rev"
        self.inner = self.tree.parts[1] if backwards else self.tree
        self.term = self.tree.parts[2] if backwards else None
        self.rule = self.inner.head()
        place = self.inner.parts[2 if self.rule == "use" else 1]
        self.path = [int(it.text) for it in place.parts]

    def pieces(self, name):
        """The step in the source, and the whole term before it."""
        told = [where(name, self.document.source, self.tree.start, self.tree.end)]
        ordinal = f"step {self.number} of the {self.side} script of {self.theorem}"
        if self.before is None:
            return told + [[f"The term before {ordinal} cannot be shown."]]
        return told + [[f"The term before {ordinal}:", *shown(self.before)]]

    def part(self):
        """The node at the place in the term before the step, or None."""
        return part_at(root(self.before), self.path)

    def cause_pieces(self, cause, answer):
        """What can be told of the cause, in pieces; of a wrong step that the answer is about."""
        told = []
        if self.before is not None and cause == "NoPlace":
            told += [self.no_place(), self.places()]
        elif self.before is not None:
            told += [self.part_lines(), self.term_lines()]
            if self.rule == "use":
                told.append(self.use_lines())
            if cause == "NoMatch" and self.term is None:
                told += [self.places(), self.reads()]
            if cause == "NoVariable":
                told.append(binder_lines(self.binders()))
            if self.rule in ("table", "lin") and cause not in ("NoVariable", "NoMatch", "IllTyped"):
                told += [self.new_lines(), self.conditions()]
            if self.rule == "table" and cause == "NotSame":
                told.append(self.both_values(answer))
            if cause == "NotResult":
                told.append(self.result_lines())
            if cause == "IllTyped":
                told += self.ill_pieces(path_in(answer[answer.index("IllTyped") :]))
        return told + [self.rule_lines()]

    def no_place(self):
        """How far the path leads."""
        nodes = walk(root(self.before), self.path)
        count, below = len(nodes) - 1, len(children(nodes[-1]))
        numbers = f"the children 0 to {below - 1}"
        if below < 2:
            numbers = ("no children", "child 0 alone")[below]
        if count == 0:
            return [f"The path begins with {self.path[0]}, and the whole term has {numbers}."]
        led = f"The path leads to {path_text(self.path[:count])}, and not on to {self.path[count]}."
        return [f"{led} There stands, with {numbers}:", *shown(whole_tree(nodes[-1]))]

    def places(self):
        """Places to count by, where they are not too many to read."""
        found = listed_places(root(self.before), self.path)
        if not 1 < len(found) <= 24:
            return []
        wide = max(len(path_text(place)) for _, place in found)
        said = [f"    {path_text(place):{wide}}  {brief(tree)}" for tree, place in found]
        return ["Places in it:", *said]

    def reads(self):
        """The reads that the second path of `fold` and `subst` may lead to, counted as that path is."""
        reader = {"fold": [0, 0], "subst": [1]}.get(self.rule)
        node = part_at(self.part(), reader) if reader and self.part() else None
        if node is None or node[0].head() != "out":
            return []
        found = listed_places(node, [])
        said = [f"    {path_text(place[1:])}  {it}" for it, place in found if it.head() == "read"]
        return [f"The reads in the reaction of {node[0].parts[1]}, by their paths from it:", *said]

    def part_lines(self):
        """The part at the place, where it is not the whole term."""
        if self.part() is None or not self.path:
            return []
        return [f"At the place {path_text(self.path)} stands:", *shown(whole_tree(self.part()))]

    def term_lines(self):
        """The TERM of a `rev`."""
        if self.term is None:
            return []
        return ["TERM, which must have the form that the rule goes from:", *shown(self.term)]

    def use_lines(self):
        """What a `use` would exchange for what, in the names of its item."""
        item = self.document.items[self.inner.parts[1].text]
        sides = [item.parts[2].text, item.parts[3].text]
        gone, come = sides if self.inner.parts[3].text == "lr" else reversed(sides)
        protocol = self.document.items[gone]
        return [
            f"The step wants {gone} there, and puts {come} in its place. {gone} in its own names:",
            *shown(printed(protocol.parts[4])),
            f"    its ports: {protocol.parts[2]} {protocol.parts[3]}",
            f"    the new names, each behind the own one: {self.inner.parts[4]}",
        ]

    def binders(self):
        """The binders that an argument of the step may name."""
        around = binders_at(root(self.before), self.path)
        part = self.part()
        if self.rule == "mask" and part and part[0].head() == "bind":
            around = around + [part[0]]
        return around

    def new_lines(self):
        """The expression of a step."""
        return ["The expression of the step:", *shown(self.inner.parts[-1])]

    def conditions(self):
        """The conditions of the place."""
        tests = tests_at(root(self.before), self.path)
        said = [f"    {test} is {arm}" for test, arm in reversed(tests)]
        return ["The conditions of the place, the innermost first:", *said] if tests else []

    def both_values(self, answer):
        """What the two expressions of `table` are at the values of the answer."""
        valuation = re.findall(r"\((\w+) (#[01]*)\)", answer)
        expressions = [str(self.part()[0]), str(self.inner.parts[-1])]
        items = [it for it in self.document.tree.parts[2:] if it.head() in ("fun", "table")]
        symbols = [self.document.text_of(it) for it in items]
        both = values(symbols, expressions, valuation)
        if both is None:
            return []
        return [f"There the expression at the place is {both[0]}, and that of the step {both[1]}."]

    def result_lines(self):
        """What the rule makes of TERM, as the program tells it, beside what stands at the place."""
        body = printed(self.with_part(self.term))
        start = self.document.items[self.document.start(self.theorem, self.side)]
        text = self.document.term_of(self.theorem, start, str(body), [self.inner])
        made = part_at(root(read(text.encode())), self.path) if text else None
        if made is None:
            return []
        both = marked(*(term_lines(str(whole_tree(it))) for it in (self.part(), made)))
        title = "What stands at the place (-), and what the rule makes of TERM (+):"
        return [title, *near_changes(both)]

    def with_part(self, new):
        """The whole term with another part at the place."""
        depth = len(binders_at(root(self.before), self.path))
        return replaced(root(self.before), self.path, printed(new, depth))

    def ill_pieces(self, at):
        """The part of the new term that is not well typed, where the step itself says what comes in."""
        new = self.inner.parts[-1] if self.rule in ("table", "lin") else self.term
        if new is None:
            return [self.new_lines(), binder_lines(self.binders())] if self.rule == "mask" else []
        part = part_at(root(printed(self.with_part(new))), at)
        if part is None:
            return []
        return [[f"In the term after the step there is at {path_text(at)}:", *shown(whole_tree(part))]]

    def rule_lines(self):
        """The rule in a picture."""
        row = pages.rule_in_words(self.rule)
        if row is None:
            return []
        left, right, sides = (it.replace("`", "") for it in row)
        how = "" if self.term is None else ", which `rev` takes backwards"
        said = [f"The rule {self.rule}{how}:", f"    from  {left}", f"    to    {right}"]
        return said + (block(paragraph(f"where {sides}")) if sides else [])


def ends_pieces(name, document, theorem, path):
    """Both ends of a theorem, and their parts at the place."""
    item = document.items[theorem]
    told = [where(name, document.source, item.start, item.parts[1].end)]
    ends, said = [], []
    for side, sign in (("left", "-"), ("right", "+")):
        count = len(document.steps(theorem, side))
        ends.append((side, document.term_after(theorem, side, count)))
        steps = {0: "no steps", 1: "1 step"}.get(count, f"{count} steps")
        said.append(f"    {sign} the {side} end, from {document.start(theorem, side)} by {steps}")
    if any(end is None for _, end in ends):
        return told + [["The two ends cannot be shown."]]
    both = marked(*(term_lines(str(end)) for _, end in ends))
    told.append(["The two ends:", *said, *near_changes(both)])
    parts = [f"They differ first at {path_text(path)}{channel_at(ends[0][1], path)}:"]
    for side, end in ends:
        part = part_at(root(end), path)
        parts += [f"  {side}", *(shown(whole_tree(part)) if part else ["    nothing"])]
    return told + [parts]
