#!/usr/bin/env python3
"""A slow, plain model of the whole road from a drawing's text to its cell list.

It follows the rules of docs/ and shares nothing with the program, so that the answers of the two can be
held against each other. It prefers the definition to speed: use it on small drawings.

    tools/reference.py < examples/and3.aag              the cell list, as lutmap prints it
    tools/reference.py --explain < examples/and3.aag    lists, cuts taken and arrivals, to follow by hand
"""
import argparse
import itertools
import sys

MOST_NODES, MOST_OUTPUTS, MOST_CUTS, MOST_LEAVES, MOST_BYTES, MOST = 256, 64, 32, 5, 8192, 65535

CONSTANT, INPUT = "constant", "input"  # a gate is the pair of its literals


class Refused(Exception):
    """A refusal: its number and, where it has one, its place (a byte, a gate, an index) and its line."""

    def __init__(self, number, at=None, line=None):
        super().__init__(number, at, line)
        self.number, self.at, self.line = number, at, line


# ---- the drawing ----

class Drawing:
    def __init__(self, nodes=None, outputs=None):
        self.nodes = [CONSTANT] if nodes is None else nodes
        self.outputs = [] if outputs is None else outputs

    def is_gate(self, v):
        return isinstance(self.nodes[v], tuple)

    def fanins(self, v):
        return [literal // 2 for literal in self.nodes[v]] if self.is_gate(v) else []

    def inputs(self):
        return [v for v, node in enumerate(self.nodes) if node == INPUT]

    def gates(self):
        return [v for v in range(len(self.nodes)) if self.is_gate(v)]


def depends(drawing, v):
    """The nodes reached from v downwards through literals, in one step or more."""
    found, todo = set(), drawing.fanins(v)
    while todo:
        u = todo.pop()
        if u not in found:
            found.add(u)
            todo += drawing.fanins(u)
    return found


def needed(drawing):
    """The gates on which some output depends, rising."""
    reached = set()
    for literal in drawing.outputs:
        reached |= {literal // 2} | depends(drawing, literal // 2)
    return [v for v in drawing.gates() if v in reached]


def value_of(values, literal):
    return values[literal // 2] ^ (literal & 1)


def node_values(drawing, given):
    """The value of every node. `given` maps nodes to values that hide whatever is below them."""
    values = []
    for v, node in enumerate(drawing.nodes):
        if v in given:
            values.append(given[v])
        elif isinstance(node, tuple):
            values.append(value_of(values, node[0]) & value_of(values, node[1]))
        else:
            values.append(0)
    return values


def output_values(drawing, row):
    values = node_values(drawing, dict(zip(drawing.inputs(), row)))
    return [value_of(values, literal) for literal in drawing.outputs]


# ---- cuts ----

def closes(drawing, leaves, n):
    """n is 0, or in the set, or a gate and the set closes the nodes of both its literals."""
    closed = []
    for u in range(n + 1):
        closed.append(u == 0 or u in leaves or (drawing.is_gate(u) and all(closed[f] for f in drawing.fanins(u))))
    return closed[n]


def is_cut(drawing, v, leaves):
    return all(1 <= u < v for u in leaves) and all(closes(drawing, leaves, f) for f in drawing.fanins(v))


def is_least(drawing, v, leaves):
    smaller = (set(s) for n in range(len(leaves)) for s in itertools.combinations(sorted(leaves), n))
    return is_cut(drawing, v, leaves) and not any(is_cut(drawing, v, s) for s in smaller)


def list_by_definition(drawing, width, v):
    """The least cuts of v with at most `width` leaves, by trying every set of nodes below v."""
    sets = (s for n in range(width + 1) for s in itertools.combinations(range(1, v), n))
    return [s for s in sets if is_least(drawing, v, set(s))]


def lists_by_unions(drawing, width, wanted):
    """The same lists, by rising number: one choice for each fanin, joined; what holds another set goes."""
    lists = {}

    def choices(f):
        if f == 0:
            return [frozenset()]
        return [frozenset([f])] + [frozenset(s) for s in lists.get(f, [])]

    for v in wanted:
        left, right = drawing.fanins(v)
        sets = {a | b for a in choices(left) for b in choices(right) if len(a | b) <= width}
        least = [s for s in sets if not any(t < s for t in sets)]
        lists[v] = sorted((tuple(sorted(s)) for s in least), key=lambda s: (len(s), s))
        if len(least) > MOST_CUTS:
            raise Refused(10, v)
    return lists


# ---- part families ----

class Levels:
    start = 0

    def __init__(self, width):
        self.width = width

    def not_later(self, r, s):
        return r <= s

    def result(self, latest, leaves):
        return min(latest + 1, MOST)


class Pins:
    start = (0, 0)

    def __init__(self, width):
        self.width = width

    def not_later(self, r, s):
        return r[0] < s[0] or (r[0] == s[0] and r[1] <= s[1])

    def result(self, latest, leaves):
        levels, pins = latest
        return (levels + 1, min(pins + leaves, MOST)) if levels < MOST else (MOST, MOST)


def cell_arrival(family, arrivals, leaves):
    """The family's result for the latest arrival among the leaves, the lowest-numbered where several are latest."""
    latest = family.start
    for place, leaf in enumerate(leaves):
        if place == 0 or not family.not_later(arrivals[leaf], latest):
            latest = arrivals[leaf]
    return family.result(latest, len(leaves))


def rather(family, arrivals, t, s):
    """t is taken rather than s: earlier, else fewer leaves, else the smaller leaf at the first difference."""
    a, b = cell_arrival(family, arrivals, t), cell_arrival(family, arrivals, s)
    if not family.not_later(b, a):
        return True
    return family.not_later(a, b) and (len(t), t) < (len(s), s)


# ---- the cover ----

class Cover:
    def __init__(self, inputs=(), cells=(), outputs=()):
        self.inputs, self.cells, self.outputs = list(inputs), list(cells), list(outputs)


def table(drawing, leaves, root):
    """Bit m is the root's value when leaf j has bit j of m."""
    bits = 0
    for m in range(2 ** len(leaves)):
        given = {leaf: m >> j & 1 for j, leaf in enumerate(leaves)}
        bits |= node_values(drawing, given)[root] << m
    return bits


def evaluate(cover, row, room):
    """One byte for each output, at the front of `room`."""
    if len(row) != len(cover.inputs) or len(room) < len(cover.outputs):
        raise Refused(9)
    for index, byte in enumerate(row):
        if byte > 1:
            raise Refused(11, index)
    values = {0: 0, **dict(zip(cover.inputs, row))}
    for root, leaves, bits in cover.cells:
        values[root] = bits >> sum(values[leaf] << j for j, leaf in enumerate(leaves)) & 1
    answer = [value_of(values, literal) for literal in cover.outputs]
    return answer + list(room[len(answer):])


# ---- the job ----

class Job:
    def __init__(self):
        self.drawing, self.k, self.kept = Drawing(), 4, {}

    def input(self):
        return self._node(INPUT)

    def gate(self, left, right):
        return self._node((left, right))

    def _node(self, node):
        nodes = self.drawing.nodes
        if len(nodes) == MOST_NODES:
            raise Refused(1)
        if node != INPUT and any(literal // 2 >= len(nodes) for literal in node):
            raise Refused(3)
        nodes.append(node)
        return len(nodes) - 1

    def output(self, literal):
        if len(self.drawing.outputs) == MOST_OUTPUTS:
            raise Refused(2)
        if literal // 2 >= len(self.drawing.nodes):
            raise Refused(3)
        self.drawing.outputs.append(literal)
        return len(self.drawing.outputs) - 1

    def retie(self, gate, left, right):
        if gate >= len(self.drawing.nodes) or not self.drawing.is_gate(gate):
            raise Refused(4)
        if left // 2 >= gate or right // 2 >= gate:
            raise Refused(3)
        self.drawing.nodes[gate] = (left, right)
        self.kept = {v: cuts for v, cuts in self.kept.items() if v != gate and gate not in depends(self.drawing, v)}

    def width(self, k):
        if k not in (2, 3, 4, 5):
            raise Refused(5)
        if k != self.k:
            self.k, self.kept = k, {}

    def load(self, text):
        self.drawing, self.kept = read(text), {}

    def map(self, family, entries=None):
        """The cover, its number of cells, the lists made, and the arrival table (one entry for each node)."""
        drawing = self.drawing
        if family.width != self.k:
            raise Refused(5)
        if entries is not None and entries < len(drawing.nodes):
            raise Refused(9)
        wanted = needed(drawing)
        missing = [v for v in wanted if v not in self.kept]
        try:
            lists = lists_by_unions(drawing, self.k, wanted)
        except Refused as refused:
            lower = [v for v in wanted if v < refused.at]
            self.kept.update(lists_by_unions(drawing, self.k, lower))
            raise
        self.kept.update(lists)
        arrivals, taken = [family.start] * len(drawing.nodes), {}
        for v in wanted:
            best, *others = lists[v]
            for other in others:
                if rather(family, arrivals, other, best):
                    best = other
            taken[v], arrivals[v] = best, cell_arrival(family, arrivals, best)
        reached = {literal // 2 for literal in drawing.outputs}
        for v in reversed(wanted):
            if v in reached:
                reached |= set(taken[v])
        cells = [(v, taken[v], table(drawing, taken[v], v)) for v in wanted if v in reached]
        cover = Cover(drawing.inputs(), cells, drawing.outputs)
        return cover, len(cells), len(missing), arrivals


# ---- the drawing as text ----

def _fields(text, at, line, count):
    """`count` numbers with one space between two, and byte 10."""
    numbers = []
    for field in range(count):
        begin = at
        most = begin + (1 if text[at:at + 1] == b"0" else 3)
        while at < most and text[at:at + 1].isdigit():
            at += 1
        if at == begin or text[at:at + 1] != (b"\n" if field == count - 1 else b" "):
            raise Refused(6, at, line)
        numbers.append(int(text[begin:at]))
        at += 1
    return numbers, at


def read(text):
    """The drawing of a text. A fault has its number, its byte and its line."""
    for at, byte in enumerate(b"aag "):
        if text[at:at + 1] != bytes([byte]):
            raise Refused(6, at, 0)
    (most, inputs, latches, outputs, gates), at = _fields(text, 4, 0, 5)
    if latches != 0 or most != inputs + gates or most > 255 or outputs > 64:
        raise Refused(7, 0, 0)
    nodes, found = [CONSTANT] * (most + 1), []
    last_input = last_gate = 0
    for line, part in enumerate(["input"] * inputs + ["output"] * outputs + ["gate"] * gates, 1):
        begin = at
        numbers, at = _fields(text, at, line, 3 if part == "gate" else 1)
        node, odd = divmod(numbers[0], 2)
        if part == "output":
            good = node <= most
            found.append(numbers[0])
        elif part == "input":
            good = not odd and last_input < node <= most
            if good:
                nodes[node], last_input = INPUT, node
        else:
            good = not odd and last_gate < node <= most and nodes[node] != INPUT
            good = good and numbers[1] // 2 < node and numbers[2] // 2 < node
            if good:
                nodes[node], last_gate = (numbers[1], numbers[2]), node
        if not good:
            raise Refused(8, begin, line)
    if at != len(text):
        raise Refused(6, at, 1 + inputs + outputs + gates)
    return Drawing(nodes, found)


def write(drawing):
    inputs, gates = drawing.inputs(), drawing.gates()
    lines = ["aag %d %d 0 %d %d" % (len(drawing.nodes) - 1, len(inputs), len(drawing.outputs), len(gates))]
    lines += ["%d" % (2 * v) for v in inputs]
    lines += ["%d" % literal for literal in drawing.outputs]
    lines += ["%d %d %d" % ((2 * v,) + drawing.nodes[v]) for v in gates]
    return "".join(line + "\n" for line in lines).encode()


# ---- the cell list ----

def sections(cover):
    head = [".model lutmap"]
    head += [" ".join([".inputs"] + ["n%d" % n for n in cover.inputs])]
    head += [" ".join([".outputs"] + ["o%d" % place for place in range(len(cover.outputs))])]
    parts = [head]
    for root, leaves, bits in cover.cells:
        lines = [" ".join([".names"] + ["n%d" % leaf for leaf in leaves] + ["n%d" % root])]
        for m in range(2 ** len(leaves)):
            if bits >> m & 1:
                values = "".join(str(m >> j & 1) for j in range(len(leaves)))
                lines.append(values + " 1" if leaves else "1")
        parts.append(lines)
    for place, literal in enumerate(cover.outputs):
        if literal < 2:
            parts.append([".names o%d" % place] + ["1"] * literal)
        else:
            parts.append([".names n%d o%d" % (literal // 2, place), "0 1" if literal & 1 else "1 1"])
    parts.append([".end"])
    return ["".join(line + "\n" for line in lines).encode() for lines in parts]


def answer(text, width=4, family=Levels):
    """What lutmap prints for this input, and the status that it ends with."""
    try:
        if len(text) > MOST_BYTES:
            raise Refused(9, MOST_BYTES)
        job = Job()
        job.width(width)
        job.load(text)
        cover = job.map(family(width))[0]
        return b"".join(sections(cover)), 0
    except Refused as refused:
        return b"refused %d at %d\n" % (refused.number, refused.at), 1


def explain(text, width, family):
    job = Job()
    job.width(width)
    job.load(text)
    cover, cells, made, arrivals = job.map(family(width))
    roots = {root: (leaves, bits) for root, leaves, bits in cover.cells}
    for v in needed(job.drawing):
        cuts = " ".join("{" + ", ".join(map(str, s)) + "}" for s in job.kept[v])
        print("gate %d from %d and %d: arrival %s, list %s" % ((v,) + job.drawing.nodes[v] + (arrivals[v], cuts)))
        if v in roots:
            print("    cell: leaves {%s}, table %d" % (", ".join(map(str, roots[v][0])), roots[v][1]))
    print("%d cells, %d lists made" % (cells, made))


def main():
    parser = argparse.ArgumentParser(description="A plain model of the mapper; it reads a drawing from standard input.")
    parser.add_argument("--width", type=int, default=4, choices=(2, 3, 4, 5))
    parser.add_argument("--family", default="levels", choices=("levels", "pins"))
    parser.add_argument("--explain", action="store_true", help="print lists, cuts taken and arrivals")
    options = parser.parse_args()
    family = Levels if options.family == "levels" else Pins
    text = sys.stdin.buffer.read()
    if options.explain:
        try:
            explain(text, options.width, family)
        except Refused as refused:
            sys.exit("refused %d at %s" % (refused.number, refused.at))
        return 0
    printed, status = answer(text, options.width, family)
    sys.stdout.buffer.write(printed)
    return status


if __name__ == "__main__":
    sys.exit(main())
