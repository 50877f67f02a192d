"""The program: its answers to documents, and to documents made to have it print a term."""

import os
import re
import subprocess
from pathlib import Path

from .trees import read

TOP = Path(__file__).resolve().parent.parent

# How many steps of a script are replayed in one document; a theorem has both of its sides replay them.
STEPS_AT_ONCE = 1000


class ProgramMissing(Exception):
    """The program cannot be started."""


def answer_to(words, source, silent=False):
    """What the program writes to the source, and its status. IPDL_PROGRAM names another than ./ipdl."""
    program = os.environ.get("IPDL_PROGRAM") or str(TOP / "ipdl")
    errors = subprocess.DEVNULL if silent else None
    how = {"input": source, "stdout": subprocess.PIPE, "stderr": errors, "check": False}
    try:
        run = subprocess.run([program, *words], **how)
    except OSError as error:
        raise ProgramMissing(f"{program} cannot be started: {error.strerror}") from error
    return run.stdout.decode("utf-8", "replace"), run.returncode


class Document:
    """A document that spells a tree: its source and its items by name."""

    def __init__(self, source):
        self.source = source
        self.tree = read(source)
        self.items = {}
        for item in (self.tree.parts or [])[2:] if self.tree else []:
            if item.is_list() and len(item.parts) > 1 and not item.parts[1].is_list():
                self.items.setdefault(item.parts[1].text, item)

    def text_of(self, tree):
        """The bytes of a tree of the source, as they are written."""
        return self.source[tree.start : tree.end].decode("utf-8", "replace")

    def steps(self, theorem, side):
        """The steps of a side of a theorem."""
        return self.items[theorem].parts[4 if side == "left" else 5].parts[1:]

    def start(self, theorem, side):
        """The name of the protocol that a side of a theorem starts at."""
        return self.items[theorem].parts[2 if side == "left" else 3].text

    def used_theorems(self, steps):
        """The names of the theorems that the steps use, and of those that these use, and so on."""
        names, open_steps = set(), list(steps)
        while open_steps:
            step = open_steps.pop()
            name = step.parts[1].text if step.head() == "use" else None
            if name and name not in names and self.items[name].head() == "theorem":
                names.add(name)
                open_steps += self.steps(name, "left") + self.steps(name, "right")
        return names

    def fresh_name(self, start):
        """A name that no item has, which begins as asked."""
        while start in self.items:
            start += "_"
        return start

    def term_after(self, theorem, side, count):
        """The term after the first steps of a side, as the program prints it, or None.

        A theorem of one protocol on both sides, with these steps on both, has equal ends. So the
        program accepts it and prints its chain, and the term is in the middle of it.
        """
        start = self.items[self.start(theorem, side)]
        body = self.text_of(start.parts[4])
        for first in range(0, max(count, 1), STEPS_AT_ONCE):
            steps = self.steps(theorem, side)[first : min(first + STEPS_AT_ONCE, count)]
            body = self.term_of(theorem, start, body, steps)
            if body is None:
                return None
        return read(body.encode())

    def term_of(self, theorem, start, body, steps):
        """The text of the term that the steps lead to from the body, at the ports of the protocol."""
        needed = self.used_theorems(steps)
        protocol, replay = self.fresh_name("replayed"), self.fresh_name("replay")
        script = " ".join(map(self.text_of, steps))
        lines = ["(ipdl 1"]
        for item in self.tree.parts[2:]:
            if item is self.items[theorem]:
                break
            if item.head() != "theorem" or item.parts[1].text in needed:
                lines.append(self.text_of(item))
        ports = f"{self.text_of(start.parts[2])} {self.text_of(start.parts[3])}"
        lines.append(f"(protocol {protocol} {ports} {body})")
        lines.append(f"(theorem {replay} {protocol} {protocol} (left {script}) (right {script})))")
        answer, status = answer_to(["check"], "\n".join(lines).encode(), silent=True)
        if status != 0:
            return None
        terms = chains(answer)[-1].terms
        return terms[len(terms) // 2]


def values(symbols, expressions, valuation):
    """The values of two expressions at the values of their variables, or None.

    A closed protocol binds the values and writes the two to two channels, and the program runs it.
    The widths of the channels are what the type check tells of the expressions.
    """
    binders = "".join(f"(bind {name} {len(value) - 1} (ret {value}) " for name, value in valuation)
    bodies = [f"{binders}(ret {it}){')' * len(valuation)}" for it in expressions]
    widths = [1, 1]
    for _ in range(3):
        ports = f"(outputs (a {widths[0]}) (b {widths[1]}))"
        body = f"(par (out a {bodies[0]}) (out b {bodies[1]}))"
        source = f"(ipdl 1 {' '.join(symbols)} (protocol evaluated (inputs) {ports} {body}))"
        answer, status = answer_to(["run", "evaluated", "", "0"], source.encode(), silent=True)
        if status == 0:
            return [it.split()[2] for it in answer.splitlines() if it.startswith("output ")]
        wrong = re.match(r"ill evaluated \((\d)[ \d]*\) Width \d+ (\d+)", answer)
        if wrong is None:
            return None
        widths[int(wrong[1])] = int(wrong[2])
    return None


class Chain:
    """A printed chain: the line of its theorem, its terms, the marks between them, and the lines that count."""

    def __init__(self, title):
        self.title, self.terms, self.marks, self.counts = title, [], [], []


def chains(answer):
    """The chains of an accepted document."""
    found = []
    for line in answer.splitlines():
        if line.startswith("theorem "):
            found.append(Chain(line))
        elif line[:1].isdigit():
            found[-1].terms.append(line.partition(" ")[2])
        elif line.startswith("by "):
            found[-1].marks.append(line)
        elif found and not line.startswith("accepted "):
            found[-1].counts.append(line)
    return found
