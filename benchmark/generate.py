"""Writes recordings of machines with 60 states: M_l = H A^l B over a ring, from a fixed seed."""

import pathlib
import random
import sys

STATES = 60
MATRICES = 128
RINGS = {"binary": 2, "mod101": 101}


def product(a, b, q):
    columns = list(zip(*b))
    return [[sum(x * y for x, y in zip(row, column)) % q for column in columns] for row in a]


def recording(q, size):
    """The codes of the matrices, one behind the other, each row by row."""
    draw = random.Random(f"{q} {size}")
    random_matrix = lambda rows, columns: [[draw.randrange(q) for _ in range(columns)] for _ in range(rows)]
    a = random_matrix(STATES, STATES)
    h = random_matrix(size, STATES)
    state = random_matrix(STATES, size)
    codes = []
    for _ in range(MATRICES):
        for row in product(h, state, q):
            codes.extend(row)
        state = product(a, state, q)
    return codes


def main(folder):
    for name, q in RINGS.items():
        for size in range(1, 5):
            text = " ".join(map(str, recording(q, size)))
            pathlib.Path(folder, f"{name}-{size}").write_text(text + "\n")


main(sys.argv[1])
