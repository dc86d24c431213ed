"""Drawings in binary AIGER, for tools that do not read the text."""


def binary(drawing):
    """The drawing, inputs first and then gates, with the names that the cell list uses."""
    inputs, gates = drawing.inputs(), drawing.gates()
    place = {v: at for at, v in enumerate([0] + inputs + gates)}

    def moved(literal):
        return 2 * place[literal // 2] + (literal & 1)

    data = bytearray(b"aig %d %d 0 %d %d\n" % (len(place) - 1, len(inputs), len(drawing.outputs), len(gates)))
    data += b"".join(b"%d\n" % moved(literal) for literal in drawing.outputs)
    for v in gates:
        high, low = sorted(map(moved, drawing.nodes[v]), reverse=True)
        for delta in (2 * place[v] - high, high - low):
            while delta > 127:
                data.append(delta & 127 | 128)
                delta >>= 7
            data.append(delta)
    data += b"".join(b"i%d n%d\n" % (at, v) for at, v in enumerate(inputs))
    data += b"".join(b"o%d o%d\n" % (at, at) for at in range(len(drawing.outputs)))
    return bytes(data)
