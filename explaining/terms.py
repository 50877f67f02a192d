"""Terms: what stands at a place, the text as the program prints it, and a layout of many lines.

A *node* is a tree and a number: how many parts of a `par`, or channels of a `new`, are left out in
front. So the group of the later parts of `(par P Q R)` is a node although it has no tree.
"""

from .trees import Tree, listed

# Which parts of a form are its children, in order. Operators have all their operands.
CHILDREN = {
    "nil": (),
    "out": (2,),
    "ret": (1,),
    "flip": (),
    "read": (),
    "if": (1, 2, 3),
    "bind": (3, 4),
    "cut": (3,),
}


def root(tree):
    return (tree, 0)


def children(node):
    """The children of a node, in the order of their numbers."""
    tree, left_out = node
    if not tree.is_list():
        return []
    head = tree.head()
    if head == "par":
        rest = tree.parts[1 + left_out :]
        later = (rest[1], 0) if len(rest) == 2 else (tree, left_out + 1)
        return [(rest[0], 0), later]
    if head == "new":
        if left_out + 1 < len(tree.parts[1].parts):
            return [(tree, left_out + 1)]
        return [(tree.parts[2], 0)]
    numbers = CHILDREN.get(head, range(1, len(tree.parts)))
    return [(tree.parts[it], 0) for it in numbers]


def walk(node, path):
    """The nodes from the given one along the path, as far as it leads."""
    nodes = [node]
    for number in path:
        below = children(nodes[-1])
        if number >= len(below):
            break
        nodes.append(below[number])
    return nodes


def part_at(node, path):
    """The node at the place, or None."""
    nodes = walk(node, path)
    return nodes[-1] if len(nodes) == len(path) + 1 else None


def whole_tree(node):
    """A tree of just this node."""
    tree, left_out = node
    if left_out == 0:
        return tree
    if tree.head() == "par":
        return Tree(parts=[tree.parts[0], *tree.parts[1 + left_out :]])
    ports = Tree(parts=tree.parts[1].parts[left_out:])
    return Tree(parts=[tree.parts[0], ports, tree.parts[2]])


def binders_at(node, path):
    """The `bind` trees whose variable is known at the place, the outermost first."""
    nodes = walk(node, path)
    return [
        it[0]
        for it, number in zip(nodes, path)
        if it[0].head() == "bind" and number == 1
    ]


def tests_at(node, path):
    """The conditions of the place: the test of each `if` that the path leaves by an arm, and the arm."""
    nodes = walk(node, path)
    return [
        (it[0].parts[1], "#1" if number == 1 else "#0")
        for it, number in zip(nodes, path)
        if it[0].head() == "if" and number in (1, 2)
    ]


def listed_places(node, path):
    """Places that help to count a path, each with its tree.

    They are those of the reactions of the `out` on its way, or else of each `out`.
    """
    nodes = walk(node, path)
    depth = next((it for it, (tree, _) in enumerate(nodes) if tree.head() == "out"), None)
    entered = ("out", "if", "bind")
    if depth is None:
        depth, entered = 0, ("par", "new")
    found, open_nodes = [], [(nodes[depth], list(path[:depth]))]
    while open_nodes:
        inner, place = open_nodes.pop()
        head = inner[0].head()
        if head in ("out", "ret", "flip", "read", "if", "bind"):
            found.append((inner[0], place))
        if head in entered:
            open_nodes += reversed([(it, place + [number]) for number, it in enumerate(children(inner))])
    return found


def replaced(node, path, new):
    """The tree of the node with another tree at the place."""
    if not path:
        return new
    tree, left_out = node
    below = replaced(children(node)[path[0]], path[1:], new)
    head = tree.head()
    if head == "par":
        first, later = (whole_tree(it) for it in children(node))
        return listed("par", below, later) if path[0] == 0 else listed("par", first, below)
    if head == "new":
        return listed("new", listed(tree.parts[1].parts[left_out]), below)
    parts = list(tree.parts)
    parts[CHILDREN.get(head, range(1, len(parts)))[path[0]]] = below
    return Tree(parts=parts)


def printed(tree, depth=0, names=None):
    """The tree as the program prints it: each binder is x and its depth, and `par` and `new` are gathered."""
    names = names or {}
    if not tree.is_list():
        return Tree(names.get(tree.text, tree.text))
    head = tree.head()
    if head == "par":
        parts = tree.parts[1:]
        while parts[-1].head() == "par":
            parts = parts[:-1] + parts[-1].parts[1:]
        return listed("par", *(printed(it, depth, names) for it in parts))
    if head == "new":
        ports, body = list(tree.parts[1].parts), tree.parts[2]
        while body.head() == "new":
            ports, body = ports + body.parts[1].parts, body.parts[2]
        return listed("new", Tree(parts=ports), printed(body, depth, names))
    if head == "bind":
        name = f"x{depth}"
        first = printed(tree.parts[3], depth, names)
        second = printed(tree.parts[4], depth + 1, {**names, tree.parts[1].text: name})
        return listed("bind", name, tree.parts[2], first, second)
    numbers = CHILDREN.get(head, range(1, len(tree.parts)))
    parts = list(tree.parts)
    for it in numbers:
        parts[it] = printed(parts[it], depth, names)
    return Tree(parts=parts)


# How many parts of a form stay on its first line, besides its word. Of an operator it is the first operand.
KEPT = {"par": 0, "bind": 3, "cut": 2}


def laid_out(tree, width=92, indent=0, closing=0):
    """The lines of the tree, indented, none wider than asked where that can be. A `par` has a line for each part."""
    text = " " * indent + str(tree)
    fits = len(text) + closing <= width and "(par " not in text
    if not tree.parts or len(tree.parts) == 1 or fits:
        return [text]
    kept = KEPT.get(tree.head(), 1)
    first = " " * indent + "(" + " ".join(map(str, tree.parts[: 1 + kept]))
    while kept and (len(first) > width or "(par " in first or 1 + kept >= len(tree.parts)):
        kept -= 1
        first = " " * indent + "(" + " ".join(map(str, tree.parts[: 1 + kept]))
    lines = [first]
    rest = tree.parts[1 + kept :]
    for number, part in enumerate(rest):
        last = number + 1 == len(rest)
        # The first reaction of a `bind` that has no room is set further in than the second.
        further = 4 if tree.head() == "bind" and not last else 2
        lines += laid_out(part, width, indent + further, (closing + 1) * last)
    lines[-1] += ")"
    return lines
