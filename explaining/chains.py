"""The chain of a theorem, term by term, with what each step changes marked."""

import difflib

from .program import chains
from .showing import WIDTH
from .terms import laid_out
from .trees import read

# Of a term of more lines than this only the lines near a change are shown again.
SHORT = 24
NEAR = 3


def term_lines(text):
    """The lines of a printed term."""
    return laid_out(read(text.encode()), WIDTH - 6)


def keys(lines):
    """What is compared of each line: not the parentheses at its end, which close what stands around it."""
    return [it.rstrip(")") for it in lines]


def marked(old, new):
    """The lines of the new term, with `+` where the old one has them not; and the old one's own, with `-`."""
    matcher = difflib.SequenceMatcher(None, keys(old), keys(new), autojunk=False)
    lines = []
    for kind, from_old, to_old, from_new, to_new in matcher.get_opcodes():
        if kind == "equal":
            lines += ["      " + it for it in new[from_new:to_new]]
        else:
            lines += ["  -   " + it for it in old[from_old:to_old]]
            lines += ["  +   " + it for it in new[from_new:to_new]]
    return lines


def near_changes(lines):
    """The lines, without those of a long term that are far from each change."""
    if len(lines) <= SHORT:
        return lines
    changed = [number for number, it in enumerate(lines) if it[2] != " "]
    kept, last = [], -1
    for number, it in enumerate(lines):
        if any(abs(number - other) <= NEAR for other in changed):
            if number != last + 1:
                kept.append("      ...")
            kept.append(it)
            last = number
    if last + 1 != len(lines):
        kept.append("      ...")
    return kept


def chain_lines(answer):
    """The chains of an accepted document, and the program's last line."""
    lines = []
    for chain in chains(answer):
        _, name, left, right = chain.title.split(" ")
        steps = "1 step" if len(chain.marks) == 1 else f"{len(chain.marks)} steps"
        lines += [f"theorem {name}: from {left} to {right} in {steps}", "", f"0: {left}"]
        old = term_lines(chain.terms[0])
        lines += ["      " + it for it in old]
        for number, (mark, text) in enumerate(zip(chain.marks, chain.terms[1:]), 1):
            new = term_lines(text)
            last = f": {right}" if number == len(chain.marks) else ":"
            lines += ["", mark, f"{number}{last}", *near_changes(marked(old, new))]
            old = new
        lines += ["", *chain.counts, ""]
    return lines + answer.splitlines()[-1:]
