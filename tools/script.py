#!/usr/bin/env python3
"""A plain model of lutjob: answers a script by the plain model of the mapper (tools/reference.py).

    tools/script.py < crates/lutjob/stdin       prints what lutjob has to print
"""
import re
import sys

sys.dont_write_bytecode = True
from reference import Job, Levels, Pins, Refused, evaluate, sections, write

NUMBER = rb"(0|[1-9][0-9]*)"
FORMS = {
    "input": rb"input",
    "gate": rb"gate %s %s" % (NUMBER, NUMBER),
    "output": rb"output %s" % NUMBER,
    "retie": rb"retie %s %s %s" % (NUMBER, NUMBER, NUMBER),
    "width": rb"width %s" % NUMBER,
    "load": rb"load %s" % NUMBER,
    "map": rb"map (levels|pins) %s" % NUMBER,
    "arrivals": rb"arrivals",
    "cover": rb"cover",
    "evaluate": rb"evaluate(?: ([0-9]+))?",
    "write": rb"write",
    "kept": rb"kept",
    "list": rb"list %s" % NUMBER,
}
BYTE, LITERAL = 255, 65535
MOST = {"gate": (LITERAL, LITERAL), "output": (LITERAL,), "retie": (BYTE, LITERAL, LITERAL), "width": (BYTE,),
        "load": (65536,), "map": (None, BYTE), "list": (BYTE,)}


def parsed(line):
    """The command and its fields, or None."""
    for name, form in FORMS.items():
        match = re.fullmatch(form, line)
        if match and name == "evaluate":
            return name, [[byte - 48 for byte in match[1] or b""]]
        if match:
            fields = [field if most is None else int(field) for field, most in zip(match.groups(), MOST.get(name, ()))]
            if any(most is not None and field > most for field, most in zip(fields, MOST.get(name, ()))):
                return None
            return name, fields
    return None


class Desk:
    def __init__(self):
        self.job, self.last = Job(), None

    def load(self, text):
        self.job.load(text)
        return b"ok %d %d" % (len(self.job.drawing.nodes), len(self.job.drawing.outputs))

    def map(self, kind, width):
        if not 2 <= width <= 5:
            raise Refused(5)
        cover, cells, lists, arrivals = self.job.map({b"levels": Levels, b"pins": Pins}[kind](width))
        self.last = cover, [b"%d,%d" % a if isinstance(a, tuple) else b"%d" % a for a in arrivals]
        return b"ok %d %d" % (cells, lists)

    def obey(self, name, fields):
        job = self.job
        if name in ("input", "gate", "output"):
            return b"ok %d" % getattr(job, name)(*fields)
        if name in ("retie", "width"):
            getattr(job, name)(*fields)
            return b"ok"
        if name == "map":
            return self.map(*fields)
        if name == "write":
            return write(job.drawing)[:-1]
        if name == "kept":
            return b" ".join(b"%d" % v for v in sorted(job.kept))
        if name == "list":
            if fields[0] not in job.kept:
                return b"none"
            cuts = sorted((tuple(sorted(cut)) for cut in job.kept[fields[0]]), key=lambda cut: (len(cut), cut))
            return b" ".join(b"{" + b",".join(b"%d" % leaf for leaf in cut) + b"}" for cut in cuts)
        if self.last is None:
            return b"nothing"
        cover, arrivals = self.last
        if name == "arrivals":
            return b" ".join(arrivals)
        if name == "cover":
            return b"".join(sections(cover))[:-1]
        return b"".join(b"%d" % bit for bit in evaluate(cover, fields[0], [0] * len(cover.outputs)))


def answers(script):
    """What lutjob prints for this script."""
    desk, at, printed = Desk(), 0, []

    def line_at(at):
        end = script.find(b"\n", at)
        return (script[at:], len(script)) if end < 0 else (script[at:end], end + 1)

    while at < len(script):
        line, at = line_at(at)
        if line.startswith(b"#"):
            continue
        command = parsed(line)
        try:
            if command is None:
                printed.append(b"unknown")
            elif command[0] == "load":
                size = command[1][0]
                text = script[at:at + size]
                rest, at = line_at(min(at + size, len(script)))
                printed.append(desk.load(text) if len(text) == size and not rest else b"unknown")
            else:
                printed.append(desk.obey(*command))
        except Refused as refused:
            place = b"" if refused.at is None else b" at %d" % refused.at
            line = b"" if refused.line is None else b" line %d" % refused.line
            printed.append(b"refused %d%s%s" % (refused.number, place, line))
    return b"".join(answer + b"\n" for answer in printed)


if __name__ == "__main__":
    sys.stdout.buffer.write(answers(sys.stdin.buffer.read()))
