#!/usr/bin/env python3
"""Writes examples/*.aag from Boolean descriptions, and examples/*.blif from the plain model.

examples/refused/ gets texts that are refused, each with the line that is printed for it.

    tools/make_examples.py          write the files
    tools/make_examples.py --check  only say whether they would stay as they are

Each description is checked here, row by row, against a plain statement of what the circuit does.
"""
import os
import sys

sys.dont_write_bytecode = True
from reference import Job, answer, output_values, write

FOLDER = os.path.join(os.path.dirname(os.path.dirname(os.path.abspath(__file__))), "examples")


class Maker:
    """Builds a drawing. A signal is a literal; its inverse costs nothing. An equal gate is made once."""

    def __init__(self):
        self.job, self.made = Job(), {}

    def inputs(self, count):
        return [2 * self.job.input() for _ in range(count)]

    def both(self, a, b):
        pair = frozenset((a, b))
        if pair not in self.made:
            self.made[pair] = 2 * self.job.gate(a, b)
        return self.made[pair]

    def all(self, *signals):
        first, *rest = signals
        for signal in rest:
            first = self.both(first, signal)
        return first

    def any(self, *signals):
        return self.all(*(s ^ 1 for s in signals)) ^ 1

    def differ(self, a, b):
        """Exclusive or, with a AND b as one of its gates."""
        return self.both(self.both(a, b) ^ 1, self.both(a ^ 1, b ^ 1) ^ 1)

    def choose(self, select, one, zero):
        """`one` where select is 1, else `zero`."""
        return self.any(self.both(select, one), self.both(select ^ 1, zero))

    def add(self, a, b, carry):
        """The sum and the carry of three bits."""
        half = self.differ(a, b)
        return self.differ(half, carry), self.any(self.both(a, b), self.both(half, carry))

    def outputs(self, *signals):
        for signal in signals:
            self.job.output(signal)


def number(bits):
    """The number of some bits, the lowest first."""
    return sum(bit << place for place, bit in enumerate(bits))


def and3(make):
    a, b, c = make.inputs(3)
    make.outputs(make.all(a, b, c) ^ 1)
    return lambda row: [1 - (row[0] & row[1] & row[2])]


def full_adder(make):
    make.outputs(*make.add(*make.inputs(3)))
    return lambda row: [sum(row) & 1, sum(row) >> 1]


def c17(make):
    g1, g2, g3, g6, g7 = make.inputs(5)
    g10 = make.both(g1, g3) ^ 1
    g11 = make.both(g3, g6) ^ 1
    g16 = make.both(g2, g11) ^ 1
    g19 = make.both(g11, g7) ^ 1
    make.outputs(make.both(g10, g16) ^ 1, make.both(g16, g19) ^ 1)

    def rule(row):
        x1, x2, x3, x6, x7 = row
        x11 = 1 - (x3 & x6)
        return [(x1 & x3) | (x2 & x11), x11 & (x2 | x7)]

    return rule


def mux4(make):
    d0, d1, d2, d3, s0, s1 = make.inputs(6)
    make.outputs(make.choose(s1, make.choose(s0, d3, d2), make.choose(s0, d1, d0)))
    return lambda row: [row[number(row[4:])]]


def cmp4(make):
    signals = make.inputs(8)
    less = greater = 0
    for a, b in zip(signals[:4], signals[4:]):  # from the lowest bit up: a higher bit that differs decides
        below, above = make.both(a ^ 1, b), make.both(a, b ^ 1)
        if less == 0:
            less, greater = below, above
        else:
            less = make.any(below, make.both(less, above ^ 1))
            greater = make.any(above, make.both(greater, below ^ 1))
    make.outputs(less, make.both(less ^ 1, greater ^ 1), greater)

    def rule(row):
        a, b = number(row[:4]), number(row[4:])
        return [int(a < b), int(a == b), int(a > b)]

    return rule


SEGMENTS = ["abcdef", "bc", "abdeg", "abcdg", "bcfg", "acdfg", "acdefg", "abc", "abcdefg", "abcdfg"]


def seg7(make):
    d0, d1, d2, d3 = make.inputs(4)
    n0, n1, n2 = d0 ^ 1, d1 ^ 1, d2 ^ 1
    digit = make.both(d3, make.any(d1, d2)) ^ 1
    low_even, one_even = make.both(n2, n0), make.both(d1, n0)
    four_five, two_three = make.both(d2, n1), make.both(n2, d1)
    a = make.any(d3, d1, make.both(d2, d0), low_even)
    b = make.any(n2, make.differ(d1, d0) ^ 1)
    c = make.any(d2, n1, d0)
    d = make.any(d3, low_even, two_three, one_even, make.both(four_five, d0))
    e = make.any(low_even, one_even)
    f = make.any(d3, make.both(n1, n0), four_five, make.both(d2, n0))
    g = make.any(d3, four_five, two_three, one_even)
    make.outputs(*(make.both(digit, segment) for segment in (a, b, c, d, e, f, g)))

    def rule(row):
        value = number(row)
        return [int(value < 10 and name in SEGMENTS[value]) for name in "abcdefg"]

    return rule


def alu1(make):
    a, b, carry, op0, op1 = make.inputs(5)
    total, out = make.add(a, b, carry)
    logic = make.choose(op0, make.any(a, b), make.both(a, b))
    arithmetic = make.choose(op0, make.differ(a, b), total)
    make.outputs(make.choose(op1, logic, arithmetic), make.all(out, op0 ^ 1, op1 ^ 1))

    def rule(row):
        x, y, z, low, high = row
        results = [(x + y + z) & 1, x ^ y, x & y, x | y]
        return [results[low + 2 * high], (x + y + z) >> 1 if low + high == 0 else 0]

    return rule


def add8(make):
    signals = make.inputs(17)
    carry, sums = signals[16], []
    for a, b in zip(signals[:8], signals[8:16]):
        total, carry = make.add(a, b, carry)
        sums.append(total)
    make.outputs(*sums, carry)

    def rule(row):
        total = number(row[:8]) + number(row[8:16]) + row[16]
        return [total >> place & 1 for place in range(9)]

    return rule


def wires(make):
    a, b = make.inputs(2)
    never = make.both(a, a ^ 1)
    make.outputs(0, 1, a, b ^ 1, never)
    return lambda row: [0, 1, row[0], 1 - row[1], 0]


EXAMPLES = [and3, full_adder, c17, mux4, cmp4, seg7, alu1, add8, wires]


def crowded():
    """Pairs of gates, each over the pair before it: gate 2i + 1 has i least cuts, so gate 67 has 33."""
    job = Job()
    job.input(), job.input()
    for i in range(1, 34):
        job.gate(4 * i - 2, 4 * i)
        job.gate(4 * i - 2, 4 * i + 1)
    job.output(130)
    job.output(134)
    return write(job.drawing)


REFUSED = {
    "pattern": b"aag 1 1 0 0 0\n2",  # the last line does not end
    "figures": b"aag 4 3 0 1 2\n2\n4\n6\n8\n8 2 4\n10 8 6\n",  # M is not I + A
    "literal": b"aag 5 3 0 1 2\n2\n4\n6\n11\n8 2 4\n10 8 10\n",  # a gate over itself
    "crowded": crowded(),
}


def rows(count):
    """All rows of up to 10 inputs; of more, every 127th."""
    step = 1 if count <= 10 else 127
    return ([m >> j & 1 for j in range(count)] for m in range(0, 2 ** count, step))


def made(example):
    """The drawing of an example, held to its rule, and what is printed for it."""
    make = Maker()
    rule = example(make)
    drawing = make.job.drawing
    for row in rows(len(drawing.inputs())):
        assert output_values(drawing, row) == rule(row), (example.__name__, row)
    printed, status = answer(write(drawing))
    assert status == 0, (example.__name__, printed)
    return drawing, printed


def main():
    check, files = "--check" in sys.argv[1:], {}
    for example in EXAMPLES:
        drawing, printed = made(example)
        files[example.__name__ + ".aag"], files[example.__name__ + ".blif"] = write(drawing), printed
        cells = printed.count(b".names") - len(drawing.outputs)
        counts = (len(drawing.inputs()), len(drawing.gates()), len(drawing.outputs), cells)
        print("%-10s  inputs %d, gates %d, outputs %d, cells %d" % ((example.__name__,) + counts))
    for name, text in REFUSED.items():
        printed, status = answer(text)
        assert status == 1, (name, printed)
        files["refused/" + name + ".aag"], files["refused/" + name + ".txt"] = text, printed
    os.makedirs(os.path.join(FOLDER, "refused"), exist_ok=True)
    changed = 0
    for name, data in files.items():
        path = os.path.join(FOLDER, name)
        if not os.path.exists(path) or open(path, "rb").read() != data:
            changed += 1
            print("%s: %s" % (name, "would change" if check else "written"))
            if not check:
                open(path, "wb").write(data)
    return 1 if check and changed else 0


if __name__ == "__main__":
    sys.exit(main())
