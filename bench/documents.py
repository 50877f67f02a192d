#!/usr/bin/env python3
"""Makes large documents, runs the built program on each, and tells the time and the memory that it takes.

    bench/documents.py NAME          writes the document of that name to standard output
    bench/documents.py measure [N]   runs the program N times on each (9 where N is not given) and prints a table

The documents are the same at each call. The program is crates/ipdl_cli/out/ipdl_cli, which the gate builds.
"""
import os
import statistics
import subprocess
import sys
import time

TOP = os.path.dirname(os.path.dirname(os.path.abspath(__file__)))
PROGRAM = os.path.join(TOP, "crates", "ipdl_cli", "out", "ipdl_cli")


def document(items):
    return "(ipdl 1\n" + "\n".join(items) + ")\n"


def ports(names, width=1):
    return " ".join(f"({name} {width})" for name in names)


def one_time_pad(number, channels):
    """A protocol that encrypts so many inputs, each with a hidden key of its own."""
    inputs = [f"m{number}_{i}" for i in range(channels)]
    keys = [f"key{number}_{i}" for i in range(channels)]
    outputs = [f"cipher{number}_{i}" for i in range(channels)]
    parts = [f"(out {key} (flip 8))" for key in keys] + [
        f"(out {out} (bind x 8 (read {message}) (bind k 8 (read {key}) (ret (xor x k)))))"
        for out, message, key in zip(outputs, inputs, keys)
    ]
    body = f"(new ({ports(keys, 8)}) (par {' '.join(parts)}))"
    return f"(protocol Pad{number} (inputs {ports(inputs, 8)}) (outputs {ports(outputs, 8)}) {body})"


def protocols():
    """Some 765 KB of protocols: 61 one-time pads of 85 channels each."""
    return document(one_time_pad(number, 85) for number in range(61))


def chains():
    """Some 11 MB of chains: 250 theorems on one pair of protocols of 500 channels."""
    count = 250
    names = [f"channel_{i}" for i in range(2 * count)]
    left = " ".join(f"(out {name} (bind x 8 (flip 8) (ret (not x))))" for name in names[:count])
    right = " ".join(f"(out {name} (bind x 8 (flip 8) (ret (not x))))" for name in names[count:])
    interface = f"(inputs) (outputs {ports(names, 8)})"
    items = [
        f"(protocol A {interface} (par (par {left}) (par {right})))",
        f"(protocol B {interface} (par (par {right}) (par {left})))",
    ]
    items += [f"(theorem t{i} A B (left (comm ())) (right))" for i in range(250)]
    return document(items)


def tables():
    """Some 393 KB of tables: 32 with 4,096 values of one bit."""
    return document(
        f"(table f{number} 12 1 (" + " ".join("#1" if value % (number + 2) else "#0" for value in range(4096)) + "))"
        for number in range(32)
    )


def reads():
    """1,980 reads in a protocol with 125,000 inputs."""
    letters = "abcdefghijklmnopqrstuvwxyzABCDEFGHIJKLMNOPQRSTUVWXYZ"
    names = [a + b + c for a in letters for b in letters for c in letters][:125_000]
    inputs = "".join(f"({name} 1)" for name in names)
    outputs = [f"out{i}" for i in range(30)]
    parts = []
    for number, output in enumerate(outputs):
        reaction = "(ret #1)"
        for read in range(66):
            reaction = f"(bind x 1 (read {names[(number * 66 + read) * 63 % 125_000]}) {reaction})"
        parts.append(f"(out {output} {reaction})")
    return document([f"(protocol P (inputs {inputs}) (outputs {ports(outputs)}) (par {' '.join(parts)}))"])


def exchanges(channels, term):
    """A theorem whose left script exchanges the last two of so many parts of a `par` 700 times."""
    names = [f"channel_{i}" for i in range(channels)]
    parts = " ".join(f"(out {name} {term})" for name in names)
    place = " ".join(["1"] * (channels - 2))
    steps = " ".join([f"(comm ({place}))"] * 700)
    return document([
        f"(protocol A (inputs) (outputs {ports(names, 8)}) (par {parts}))",
        f"(theorem t A A (left {steps}) (right))",
    ])


def deep():
    """700 exchanges deep in a `par` of 512 channels."""
    return exchanges(512, "(flip 8)")


def end():
    """700 exchanges at the end of 300 channels: some 15 MB of text."""
    return exchanges(300, "(bind x 8 (flip 8) (ret (not (not (not x)))))")


DOCUMENTS = {
    "protocols": (protocols, "types"),
    "chains": (chains, "check"),
    "tables": (tables, "types"),
    "reads": (reads, "types"),
    "deep": (deep, "check"),
    "end": (end, "check"),
}


def measured(text, word, runs):
    """The median of the seconds of so many runs, the most kilobytes of one, what is written, and the status."""
    times, written, status = [], 0, None
    for _ in range(runs):
        begun = time.perf_counter()
        process = subprocess.Popen([PROGRAM, word], stdin=subprocess.PIPE, stdout=subprocess.PIPE)
        answer, _ = process.communicate(text)
        times.append(time.perf_counter() - begun)
        written, status = len(answer), process.returncode
    told = subprocess.run(["/usr/bin/time", "-f", "%M", PROGRAM, word], input=text, capture_output=True)
    return statistics.median(times), int(told.stderr.split()[-1]), written, status


def main():
    if len(sys.argv) > 1 and sys.argv[1] in DOCUMENTS:
        sys.stdout.write(DOCUMENTS[sys.argv[1]][0]())
        return
    runs = int(sys.argv[2]) if len(sys.argv) > 2 else 9
    print("| Document | Command | Bytes read | Bytes written | Status | Median ms | Most MB |")
    print("|---|---|---|---|---|---|---|")
    for name, (make, word) in DOCUMENTS.items():
        text = make().encode()
        median, memory, written, status = measured(text, word, runs)
        print(f"| {name} | {word} | {len(text):,} | {written:,} | {status} | {median * 1000:.0f} | {memory / 1024:.0f} |")


main()
