#!/usr/bin/env python3
"""What the program crosscheck has to print, by the plain model (tools/reference.py): the same generated drawings and rows.

    tools/crosscheck.py | diff crates/crosscheck/stdout -       some ten seconds
"""
import sys

sys.dont_write_bytecode = True
from reference import Job, Levels, Refused, evaluate, needed, output_values

DRAWINGS = 200


class Random:
    def __init__(self, seed):
        self.state = seed

    def below(self, bound):
        self.state = (self.state * 1664525 + 1013904223) % 2 ** 32
        return (self.state >> 16) % bound if bound else 0


def turned(random, node):
    return 2 * node + random.below(2)


def literal(random, v, near):
    back = random.below(min(near, v))
    return turned(random, v - 1 - back)


def add_outputs(job, random, total):
    for _ in range(1 + random.below(6)):
        job.output(literal(random, total + 1, 8))
    return job


def woven(random):
    job, total, first = Job(), 1 + random.below(255), 1 + random.below(10)
    near = (4, 8, 20, 255)[random.below(4)]
    for v in range(1, total + 1):
        if v <= first or random.below(24) == 0:
            job.input()
        else:
            left = literal(random, v, near)
            job.gate(left, literal(random, v, near))
    return add_outputs(job, random, total)


def grown(random):
    job, total, first, keep = Job(), 1 + random.below(255), 1 + random.below(90), 3 + random.below(30)
    pool = []

    def taken():
        place = random.below(len(pool))
        node = pool[place]
        if random.below(keep) != 1:
            last = pool.pop()
            if place < len(pool):
                pool[place] = last
        return turned(random, node)

    for v in range(1, total + 1):
        if v <= first or len(pool) < 2:
            job.input()
        else:
            left = taken()
            job.gate(left, taken())
        pool.append(v)
    return add_outputs(job, random, total)


class Tally:
    def __init__(self, width):
        self.width = width
        self.crowded = self.gates = self.levels = self.cells = self.lists = self.rows = self.ones = self.differences = 0

    def compare(self, job, random):
        job.width(self.width)
        try:
            cover, cells, lists, arrivals = job.map(Levels(self.width))
        except Refused:
            self.crowded += 1
            return
        self.cells += cells
        self.lists += lists
        self.gates += len(needed(job.drawing))
        self.levels += sum(arrivals)
        inputs = len(job.drawing.inputs())
        for m in range(2 ** inputs if inputs < 6 else 64):
            row = [m >> i & 1 if i < 6 else random.below(2) for i in range(inputs)]
            values = output_values(job.drawing, row)
            self.differences += values != evaluate(cover, row, [2] * len(cover.outputs))
            self.rows += 1
            self.ones += sum(values)


def main():
    random, tallies = Random(1), [Tally(width) for width in (2, 3, 4, 5)]
    for _ in range(DRAWINGS):
        job = woven(random) if random.below(2) == 0 else grown(random)
        for tally in tallies:
            tally.compare(job, random)
    print("%d drawings" % DRAWINGS)
    for t in tallies:
        print("width %d: crowded %d, gates %d, levels %d, cells %d, lists %d, rows %d, ones %d, differences %d" % (
            t.width, t.crowded, t.gates, t.levels, t.cells, t.lists, t.rows, t.ones, t.differences))


if __name__ == "__main__":
    main()
