#!/usr/bin/env python3
"""A separate reader of the texts that crates/aiger reads, written from the rules of the format by other means:
it matches each line with a regular expression, and finds where a broken line breaks by trying its beginnings.

    aiger_oracle.py            check its own table of texts against the table in crates/aiger_tests/src/texts.rt
    aiger_oracle.py FILE..     say of each file: "ok I O A", or "fault NUMBER BYTE LINE"
"""
import re
import sys

NUMBER = r"(?:0|[1-9][0-9]{0,2})"
HEADER, PLAIN, GATE = "aag" + (" " + NUMBER) * 5 + "\n", NUMBER + "\n", " ".join([NUMBER] * 3) + "\n"


def beginnings(pattern):
    """A pattern of all beginnings of what `pattern` matches, for patterns of letters, spaces and numbers."""
    parts = re.findall(re.escape(NUMBER) + r"|\n|.", pattern)
    whole = ""
    for part in reversed(parts):
        if part == NUMBER:
            # a number that may still grow, or that is followed by the rest
            whole = "(?:" + NUMBER + "$|" + NUMBER + whole + "|$)"
        else:
            whole = "(?:" + part + whole + "|$)"
    return whole


BEGINS = {p: re.compile(beginnings(p)) for p in (HEADER, PLAIN, GATE)}


def broken(pattern, text, start):
    """Where the line at `start` breaks its pattern: the end of its longest beginning that is one of the pattern's."""
    end = start
    while end < len(text) and BEGINS[pattern].fullmatch(text[start : end + 1]):
        end += 1
    return end


def read(text):
    """('ok', nodes, outputs) or ('fault', number, byte, line), of a text of latin-1 characters."""
    pos, line = 0, 0

    def numbers(pattern):
        nonlocal pos
        match = re.compile(pattern).match(text, pos)
        if not match:
            return None
        start, pos = pos, match.end()
        return [int(n) for n in re.findall(r"[0-9]+", text[start:pos])]

    figures = numbers(HEADER)
    if figures is None:
        return ("fault", 6, broken(HEADER, text, 0), 0)
    m, i, l, o, a = figures
    if l != 0 or m != i + a or m > 255 or o > 64:
        return ("fault", 7, 0, 0)
    kinds, gates, outputs = {}, {}, []
    for part in ["input"] * i + ["output"] * o + ["gate"] * a:
        line += 1
        start = pos
        pattern = GATE if part == "gate" else PLAIN
        found = numbers(pattern)
        if found is None:
            return ("fault", 6, broken(pattern, text, start), line)
        top = found[0] // 2
        good = top <= m
        if part == "output":
            outputs.append(found[0])
        else:
            named = [n for n, kind in kinds.items() if kind == part]
            good = good and found[0] % 2 == 0 and top > max([0] + named) and top not in kinds
            if part == "gate":
                good = good and all(f // 2 < top for f in found[1:])
                gates[top] = found[1:]
            kinds[top] = part
        if not good:
            return ("fault", 8, start, line)
    if pos < len(text):
        return ("fault", 6, pos, line + 1)
    nodes = ["constant"] + [gates.get(n, "input") for n in range(1, m + 1)]
    return ("ok", nodes, outputs)


def shown(result):
    if result[0] == "fault":
        return "fault %d %d %d" % result[1:]
    nodes, outputs = result[1], result[2]
    return "ok %d %d %d" % (nodes.count("input"), len(outputs), len(nodes) - 1 - nodes.count("input"))


RULES = {"Pattern": 6, "Figures": 7, "Literal": 8}


def table():
    """The rows of the tests' tables: texts that are accepted, and texts with their faults."""
    source = open("crates/aiger_tests/src/texts.rt", encoding="utf-8").read()
    row = r'^    (?:"((?:[^"\\]|\\.)*)",|\("((?:[^"\\]|\\.)*)", Rule::(\w+), (\d+), (\d+)\),)$'
    for good, faulty, rule, byte, line in re.findall(row, source, re.MULTILINE):
        text = (good or faulty).encode("latin-1").decode("unicode_escape")
        yield ("refused", text, (RULES[rule], int(byte), int(line))) if rule else ("accepted", text, ())


def main():
    if len(sys.argv) > 1:
        for name in sys.argv[1:]:
            print(name, shown(read(open(name, encoding="latin-1", newline="").read())))
        return 0
    rows = list(table())
    wrong = 0
    for kind, text, numbers in rows:
        result = read(text)
        right = result[0] == "ok" if kind == "accepted" else result == ("fault", *numbers)
        if not right:
            wrong += 1
            print("%s %r %s: %s" % (kind, text, numbers, shown(result)))
    print("%d rows, %d wrong" % (len(rows), wrong))
    return 1 if wrong or not rows else 0


if __name__ == "__main__":
    sys.exit(main())
