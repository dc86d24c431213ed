"""Generated drawings and faulty texts, the same for the same seed."""
from reference import CONSTANT, INPUT, Drawing, answer, write


def drawing_of(rng, inputs, gates, outputs=None):
    """A drawing whose inputs and gates stand in any order; some outputs are constants or inputs."""
    kinds = [True] * inputs + [False] * gates
    if rng.random() < 0.5:
        rng.shuffle(kinds)
    nodes = [CONSTANT]
    for is_input in kinds:
        near = rng.choice((3, 6, 12, 300))

        def literal():
            low = max(0, len(nodes) - near)
            return 2 * rng.randrange(low, len(nodes)) + rng.randrange(2)

        nodes.append(INPUT if is_input else (literal(), literal()))
    count = rng.randint(1, 6) if outputs is None else outputs
    late = [rng.randrange(max(0, len(nodes) - 8), len(nodes)) for _ in range(count)]
    return Drawing(nodes, [2 * (v if rng.random() < 0.9 else rng.randrange(len(nodes))) + rng.randrange(2) for v in late])


def grown(rng, inputs, gates, stays):
    """A drawing in which each gate has two nodes out of a pool, where each of them stays with this chance. At first the pool holds the inputs;
    each gate comes into it, and what it holds at the end are the outputs. So every gate is needed."""
    nodes, pool = [CONSTANT] + [INPUT] * inputs, list(range(1, inputs + 1))
    for _ in range(gates):
        picked = rng.sample(pool, 2)
        nodes.append(tuple(2 * v + rng.randrange(2) for v in picked))
        pool = [v for v in pool if v not in picked or len(pool) == 2 or rng.random() < stays]
        pool.append(len(nodes) - 1)
    return Drawing(nodes, [2 * v + rng.randrange(2) for v in pool])


def accepted_texts(rng, count, most_gates=60):
    """Texts of drawings that map without a refusal."""
    while count:
        text = write(drawing_of(rng, rng.randint(0, 10), rng.randint(0, most_gates)))
        if answer(text)[1] == 0:
            count -= 1
            yield text


def turned(rng, text):
    """The text with one to three small changes, most of which make it faulty."""
    data = bytearray(text)
    for _ in range(rng.randint(1, 3)):
        at = rng.randrange(len(data) + 1)
        change = rng.randrange(4)
        if change == 0:
            data[at:at + 1] = bytes([rng.choice(b"0123456789 \nag")])
        elif change == 1:
            data[at:at] = bytes([rng.choice(b"0123456789 \nag\x00\xff")])
        elif change == 2:
            del data[at:at + 1]
        else:
            del data[at:]
    return bytes(data)
