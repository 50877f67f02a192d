"""What is wrong at a byte of a document that spells no tree or is no document."""

from .forms import Finding, taken_in
from .showing import line_and_column, paragraph, where
from .trees import BLANKS, closing, read, still_open


def byte_pieces(name, document, offset, title):
    """Pieces of text on the byte: its line, and what can be told of it. The title is that of its entry."""
    source = document.source
    finding = Finding(source, offset)
    token = finding.tree if finding.tree and not finding.tree.is_list() else None
    end = token.end if token and token.start == offset else None
    pieces = [where(name, source, offset, end)]
    if title.endswith("Unclosed"):
        pieces.append(open_lists(source))
    if title.endswith("Extra"):
        line = line_and_column(source, closing(source))[0]
        pieces.append([f"The document ends with a parenthesis of line {line}."])
    if title.endswith(("Unclosed", "NotAForm")):
        pieces.append(missing_close(source))
    # The forms tell most where no form fits; else the name, the width or the values are wrong.
    if title.endswith("NotAForm") or finding.found() in ("reaction", "protocol"):
        pieces += [paragraph(it) for it in finding.sentences()]
    elif title.endswith("UnknownName"):
        known = [f"The {what}: {', '.join(names) or 'none'}." for what, names in finding.known_names()]
        pieces.append(paragraph(" ".join(known + later_item(document, finding))))
    elif title.endswith("Repeated"):
        pieces.append(earlier_name(name, source, finding))
    elif title.endswith("TableLength"):
        pieces.append(counted_values(finding))
    return pieces


def later_item(document, finding):
    """Says where the unknown name is declared too late, in a list of at most one sentence."""
    name = finding.tree.head() if finding.tree.is_list() else finding.tree.text
    item = document.items.get(name)
    if item is None or item.start < finding.tree.start:
        return []
    line = line_and_column(document.source, item.start)[0]
    return [f"`{name}` is declared behind it, in line {line}."]


def earlier_name(name, source, finding):
    """Where the name of the finding stands already."""
    earlier = finding.earlier_one()
    if earlier is None:
        return []
    end = earlier + len(finding.tree.text.encode())
    return ["The name stands already in", *where(name, source, earlier, end)]


def counted_values(finding):
    """How many values a table has, and how many it is to have."""
    count, width = len(finding.tree.parts), int(finding.way[1].parts[2].text)
    some = "1 value" if count == 1 else f"{count} values"
    return [f"The list has {some}, and 2^{width} = {2**width} are wanted."]


def missing_close(source):
    """Says before which part a parenthesis seems to be missing."""
    tree = read(source, cut_off=True)
    found = taken_in(tree) if tree else None
    if found is None:
        return []
    outer, inner = (f"`({it.head()} {str(it.parts[1])[:30]} ..)`" for it in found)
    lines = [line_and_column(source, it.start)[0] for it in found]
    said = f"{inner} of line {lines[1]} stands within {outer} of line {lines[0]}"
    return paragraph(f"{said}: a `)` seems to be missing before it.")


def open_lists(source):
    """The lists that are open at the end, the outermost first."""
    said = []
    for it in still_open(source):
        text = source[it:].split(b"\n")[0].decode("utf-8", "replace").strip()
        said.append(f"    line {line_and_column(source, it)[0]}: {text[:70]}")
    if len(said) > 6:
        said[3:-3] = ["    ..."]
    return ["The lists that are open at the end, the outermost first:", *said]


def spelled(source, offset):
    """The kind of the token that is open before the byte, and the character of the byte."""
    start = offset
    while start > 0 and source[start - 1] not in BLANKS + b"()":
        start -= 1
    token = source[start:offset].decode("utf-8", "replace")
    here = source[offset : offset + 1].decode("utf-8", "replace")
    return ("word" if token[:1].isidentifier() else token[:1], "digit" if here.isdigit() else here)


def like_slip(source, entry, offset):
    """The slip of the entry whose document is refused for the same as this one at the byte, or None."""

    def likeness(text, place):
        if entry.title().startswith("spell"):
            return spelled(text, place)
        return Finding(text, place).likeness()

    mine = likeness(source, offset)
    for slip in entry.slips:
        for it in slip.examples:
            if likeness(it.source, int(it.answer.split()[1])) == mine:
                return slip
    return None
