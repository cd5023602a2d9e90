"""Inputs of the program `dossier` for bench/run, 60,000 bytes at most each: NAME.in, and NAME.name that says what it is.

    python3 bench/inputs.py FOLDER
"""

import pathlib
import sys

LONGEST = 60_000
GRID = bytes([7, 2, 1])  # two columns and one row: the cells are 4 and 6
VALUE = bytes([5, 0, 4]) + bytes.fromhex("3ff8000000000000")
CYCLE = bytes([1, 0, 4]) + b"".join(bytes([2, 0, kid]) for kid in (10, 11, 12, 13)) + bytes([3, 0, 4])


def repeated(requests):
    return GRID + requests * ((LONGEST - len(GRID)) // len(requests))


INPUTS = {
    "nothing": ("nothing: start-up alone", b""),
    "refused": ("a grid, and a first request of an unknown kind: start-up, reading and a build", GRID + bytes([9]) * (LONGEST - len(GRID))),
    "values": ("5,454 times a value", repeated(VALUE)),
    "cycles": ("3,333 times refine, four sentences, remove", repeated(CYCLE)),
}

folder = pathlib.Path(sys.argv[1])
for name, (says, data) in INPUTS.items():
    (folder / f"{name}.in").write_bytes(data)
    (folder / f"{name}.name").write_text(says)
