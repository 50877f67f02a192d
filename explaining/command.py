"""The words of ./explain, and what each of them does."""

import os
import sys
from pathlib import Path

from .answers import explanation
from .chains import chain_lines
from .pages import STATUSES
from .pictures import picture
from .program import Document, ProgramMissing, answer_to


def main(usage, words):
    """Does what the words ask, and gives the status."""
    if words[:1] == ["--picture"] and len(words) == 3:
        return with_document(words[2], lambda source: show_picture(words[1], words[2], source))
    commands = (["check"], ["types"])
    if words and not words[0].startswith("-"):
        command = words[1:] or ["check"]
        if command in commands or (command[0] == "run" and len(command) == 4):
            return with_document(words[0], lambda source: explain(words[0], source, command))
    print("usage: ./explain DOCUMENT [types | run NAME TAPE ORDER]", file=sys.stderr)
    print("       ./explain --picture NAME DOCUMENT", file=sys.stderr)
    return 3


def with_document(name, work):
    """Reads the file and does the work on its bytes; a file that cannot be read is a fault of the source."""
    try:
        source = Path(name).read_bytes()
    except OSError as error:
        print(f"explain: {name} cannot be read: {error.strerror}", file=sys.stderr)
        return 4
    try:
        return work(source)
    except ProgramMissing as error:
        print(f"explain: {error}", file=sys.stderr)
        return 127


def explain(name, source, command):
    """Explains the program's answer to the command."""
    answer, status = answer_to(command, source)
    first = answer.split(" ")[0].strip()
    if status == 0 and command == ["check"]:
        tell("\n".join(chain_lines(answer)) + "\n")
    elif STATUSES.get(first) == status:
        tell("\n".join(explanation(name, Document(source), answer.rstrip("\n"))) + "\n")
    else:
        tell(answer)
    return status


def tell(text):
    """Writes the text; a reader that has read enough is no fault."""
    try:
        print(text, end="", flush=True)
    except BrokenPipeError:
        os.dup2(os.open(os.devnull, os.O_WRONLY), sys.stdout.fileno())


def show_picture(name, file, source):
    """Writes the picture of the protocol of this name."""
    answer, status = answer_to(["types"], source)
    if status != 0:
        return explain(file, source, ["types"])
    item = Document(source).items.get(name)
    if item is None or item.head() != "protocol":
        print(f"explain: {file} has no protocol {name}", file=sys.stderr)
        return 2
    tell(picture(item))
    return 0
