"""Explains the line with which the program refuses a document."""

from . import pages
from .scripts import Step, binder_lines, channel_at, ends_pieces, path_in, path_text, shown
from .showing import paragraph, where
from .sources import byte_pieces, like_slip
from .terms import binders_at, part_at, printed, root, whole_tree


def explanation(name, document, answer):
    """The lines that explain an answer to a document, which has the name."""
    words = answer.split()
    entry = pages.entry_for(answer)
    slip = nested = None
    advice = []
    if words[0] in ("spell", "form"):
        offset = int(words[1])
        pieces = byte_pieces(name, document, offset, entry.title() if entry else "")
        slip = like_slip(document.source, entry, offset) if entry else None
    elif words[0] == "limit":
        pieces = limit_pieces(name, document, words)
    elif words[0] == "ill":
        pieces = ill_pieces(name, document, answer)
    elif words[0] == "wrong" and words[2] == "ends":
        pieces = ends_pieces(name, document, words[1], path_in(answer))
    elif words[0] == "wrong":
        step = Step(document, words[1], words[2], int(words[3]))
        cause = words[6 if words[4] in ("rev", "use") else 5]
        pieces = step.pieces(name) + step.cause_pieces(cause, answer)
        advice = advice_of_rule(entry, step.rule, cause)
        if cause == "IllTyped":
            nested = f"ill {words[1]} {answer[answer.index('IllTyped') + 9:]}"
    else:
        pieces = []
    pieces += entry_pieces(entry, slip, advice, [answer] + [nested] * (nested is not None))
    lines = [answer]
    for piece in filter(None, pieces):
        lines += ["", *piece]
    return lines


def entry_pieces(entry, slip, advice, answers):
    """The words of the page: on the slip, if one is like this; else on the answer, and on one within it."""
    if entry is None:
        return [["docs/REFUSALS.md has no entry for this line."]]
    if slip is not None:
        said = " ".join(pages.plain(it) for it in slip.labelled(""))
        return [paragraph(f"{slip.heading}. {said}"), [f"See docs/REFUSALS.md, {slip.heading}"]]
    told = [paragraph(it) for answer in answers for it in meaning(answer)]
    told += [paragraph(pages.plain(it), "The usual slip") for it in entry.labelled("The usual slip")]
    told.append(advice)
    told += [paragraph(pages.plain(it), "What to do") for it in entry.labelled("What to do")]
    return told + [[f"See docs/REFUSALS.md, {entry.heading}"]]


def meaning(answer):
    """What the page says that the answer means, and what its small words stand for here."""
    entry = pages.entry_for(answer)
    if entry is None:
        return []
    said = [pages.plain(it) for it in entry.labelled("")]
    stands = pages.placeholders(entry.title(), answer)
    if stands and answer.split()[0] in ("ill", "wrong", "item"):
        said[0] = "Here " + ", ".join(f"{it} is {value}" for it, value in stands) + ". " + said[0]
    return said


def advice_of_rule(entry, rule, cause):
    """What the page of rules says of the cause, where the other page has no entry for just this rule."""
    advice = pages.advice_on(rule, cause)
    if advice is None or (entry and f" {rule} " in entry.title()):
        return []
    return paragraph(pages.plain(advice), f"At {rule} (docs/RULES.md)")


def limit_pieces(name, document, words):
    """The place of a limit: a byte, an item or a step."""
    if words[4] == "byte":
        return [where(name, document.source, int(words[5]))]
    if words[4] == "item" or len(words) == 6:
        item = document.items[words[5]]
        return [where(name, document.source, item.start, item.parts[1].end)]
    return Step(document, words[5], words[6], int(words[7])).pieces(name)


def ill_pieces(name, document, answer):
    """The part of an item that is not well typed, as it is written and as a term; or the ports of two."""
    source, item = document.source, document.items[answer.split()[1]]
    if answer.split()[-2] == "Interface":
        protocols = [document.items[it.text] for it in item.parts[2:4]]
        ports = [f"{it.parts[1]} has {it.parts[2]} {it.parts[3]}" for it in protocols]
        return [where(name, source, item.start, item.end), ports]
    path, body = path_in(answer), item.parts[4]
    part = part_at(root(body), path)
    tree, left_out = part
    start, end = tree.start, tree.end
    if not path:
        start, end = item.start, item.parts[1].end
    elif left_out and tree.head() == "par":
        start = tree.parts[1 + left_out].start
    around = binders_at(root(body), path)
    names = {it.parts[1].text: f"x{depth}" for depth, it in enumerate(around)}
    title = f"The part at {path_text(path)}{channel_at(body, path)}, as the program prints it:"
    told = [where(name, source, start, end)]
    told.append([title, *shown(printed(whole_tree(part), len(around), names))])
    if around and " Width " in answer:
        told.append(binder_lines(binders_at(root(printed(body)), path)))
    return told
