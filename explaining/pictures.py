"""A picture of the network of a protocol: its channels, what writes each, and who reads whom."""

import html
import shutil
import subprocess
import sys

from .terms import laid_out

# How wide the lines of a reaction are in its box.
ROOM = 48


class Network:
    """The channels of a protocol. A hidden one has a number behind its name, since names may repeat."""

    def __init__(self, item):
        self.inputs = self.ports(item.parts[2].parts[1:])
        self.outputs = self.ports(item.parts[3].parts[1:])
        self.hidden = []
        self.writers = []
        scope = {name: name for name, _ in self.inputs + self.outputs}
        self.collect(item.parts[4], scope)

    @staticmethod
    def ports(trees):
        return [(it.parts[0].text, it.parts[1].text) for it in trees]

    def collect(self, tree, scope):
        """Adds the hidden channels and the assignments of a protocol; the scope says what its names mean."""
        head = tree.head()
        if head == "par":
            for it in tree.parts[1:]:
                self.collect(it, scope)
        elif head == "new":
            scope = dict(scope)
            for name, width in self.ports(tree.parts[1].parts):
                channel = f"{name} {len(self.hidden)}"
                self.hidden.append((channel, width))
                scope[name] = channel
            self.collect(tree.parts[2], scope)
        elif head == "out":
            reaction = tree.parts[2]
            sources = [scope.get(it, it) for it in reads(reaction)]
            self.writers.append((scope[tree.parts[1].text], reaction, sources))


def reads(reaction):
    """The channels that a reaction may read, each once, in the order of the text."""
    found, open_trees = [], [reaction]
    while open_trees:
        tree = open_trees.pop()
        if tree.head() == "read":
            if tree.parts[1].text not in found:
                found.append(tree.parts[1].text)
        elif tree.is_list():
            open_trees += reversed(tree.parts)
    return found


def bits(width):
    return "1 bit" if width == "1" else f"{width} bits"


def text_lines(lines):
    """Lines of code in a label, with their blanks kept."""
    escaped = [html.escape(it).replace(" ", "&#160;") for it in lines]
    return "".join(f'{it}<br align="left"/>' for it in escaped)


def box(name, width, kind, reaction):
    """The label of an assignment: the channel above, and the reaction below."""
    style = 'style="dashed" color="#666666"' if kind == "hidden" else ""
    fill = "#f4f4f4" if kind == "hidden" else "#e8f0fb"
    head = f'<b>{html.escape(name)}</b> &#160;<font point-size="9">{kind}, {bits(width)}</font>'
    return (
        f'<table border="1" cellborder="0" cellspacing="0" cellpadding="5" {style} bgcolor="white">'
        f'<tr><td align="left" bgcolor="{fill}">{head}</td></tr>'
        f'<tr><td align="left" balign="left">{text_lines(laid_out(reaction, ROOM))}</td></tr></table>'
    )


def dot_text(item):
    """The network as a graph for `dot`: inputs above, outputs below, and the assignments between."""
    network = Network(item)
    widths = dict(network.outputs + network.hidden)
    hidden = {channel for channel, _ in network.hidden}
    numbers = {channel: f"w{number}" for number, (channel, _, _) in enumerate(network.writers)}
    numbers |= {name: f"i{number}" for number, (name, _) in enumerate(network.inputs)}
    lines = [
        f'digraph "{item.parts[1].text}" {{',
        f'  graph [label="protocol {item.parts[1].text}" labelloc=t fontname="Helvetica" fontsize=14];',
        "  graph [pad=0.3 nodesep=0.45 ranksep=0.55];",
        '  node [fontname="Courier" fontsize=11 shape=plain];',
        '  edge [color="#444444" arrowsize=0.7];',
    ]
    ends = {"input": (network.inputs, "i", "source"), "output": (network.outputs, "o", "sink")}
    for kind, (ports, letter, rank) in ends.items():
        lines.append(f"  {{ rank={rank};")
        for number, (name, width) in enumerate(ports):
            small = f'<font point-size="9">{kind}, {bits(width)}</font>'
            style = 'shape=box style="rounded,filled" fillcolor="#fdf3dc"'
            label = f"<b>{html.escape(name)}</b><br/>{small}"
            lines.append(f"    {letter}{number} [{style} label=<{label}>];")
        lines.append("  }")
    for channel, reaction, _ in network.writers:
        kind = "hidden" if channel in hidden else "output"
        label = box(channel.split(" ")[0], widths[channel], kind, reaction)
        lines.append(f"  {numbers[channel]} [label=<{label}>];")
    for channel, _, sources in network.writers:
        for it in sources:
            if it in numbers:
                lines.append(f"  {numbers[it]} -> {numbers[channel]};")
    for number, (name, _) in enumerate(network.outputs):
        if name in numbers:
            lines.append(f"  {numbers[name]} -> o{number};")
    return "\n".join([*lines, "}"]) + "\n"


def picture(item):
    """The picture as SVG where `dot` is installed, and else as the text that it reads."""
    text = dot_text(item)
    if shutil.which("dot") is None:
        print("explain: Graphviz's dot is not installed; this is the text that it reads", file=sys.stderr)
        return text
    run = subprocess.run(["dot", "-Tsvg"], input=text.encode(), stdout=subprocess.PIPE, check=True)
    return run.stdout.decode()
