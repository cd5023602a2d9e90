"""Cases for the program `vectors`: inputs of the program `dossier`, and what it must print for each.

    python3 pack_vectors.py                           crates/vectors/stdin and stdout
    python3 pack_vectors.py SEED COUNT STDIN STDOUT   COUNT random inputs of another seed alone

The first file is a list of cases: four bytes, the length of an input, high byte
first, and the input.  The second has what is printed for each, end to end.

The cases are those of vectors/, with the answers stored there; inputs at the
bounds of their length; and random ones.  The answers of the last two are the
reference's.  A random input of more than MOST_BYTES is left out, so that the
file stays small.
"""

import pathlib
import random
import sys

import generate as g
import reference as r

HERE = pathlib.Path(__file__).parent
VECTORS = HERE / "vectors"
PROGRAM = HERE.parent / "crates" / "vectors"
SEED, COUNT = 1, 340
MOST_BYTES = 4000


def stored():
    """The stored vectors, each with its stored answer."""
    for given in sorted(VECTORS.glob("*.in")):
        yield given.read_bytes(), given.with_suffix(".out").read_bytes()


def bounds():
    """Inputs as long as they may be, one byte longer, and each head that is too short."""
    head, change = b"\x07\x01\x01", b"\x05\x00\x02" + bytes(8)
    longest = head + change * ((r.PROGRAM_INPUT - len(head)) // len(change))
    for data in (
        b"",
        b"\x07",
        b"\x07\x00",
        longest,
        longest.ljust(r.PROGRAM_INPUT, b"\x09"),
        longest.ljust(r.PROGRAM_INPUT + 1, b"\x09"),
        b"\x08" * (r.PROGRAM_INPUT + 1),
    ):
        yield data, r.program(data)


def randoms(seed, count):
    """So many random inputs; each has its own seed, so that one can be made alone."""
    place = 0
    while count:
        data = g.program_case(random.Random(f"programs {seed} {place}"))
        place += 1
        if len(data) <= MOST_BYTES:
            count -= 1
            yield data, r.program(data)


def pack(cases, given, wanted):
    given.write_bytes(b"".join(len(data).to_bytes(4, "big") + data for data, _ in cases))
    wanted.write_bytes(b"".join(text for _, text in cases))
    print(len(cases), "cases")


def main():
    if len(sys.argv) == 1:
        cases = [*stored(), *bounds(), *randoms(SEED, COUNT)]
        pack(cases, PROGRAM / "stdin", PROGRAM / "stdout")
    else:
        seed, count, given, wanted = sys.argv[1:]
        pack([*randoms(seed, int(count))], pathlib.Path(given), pathlib.Path(wanted))


if __name__ == "__main__":
    main()
