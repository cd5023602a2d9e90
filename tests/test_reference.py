"""Tests of the reference: P1 to P11 of 01, its refusals, No. 1, 2, 4 and 5 of 02, and the vectors.

    python3 test_reference.py [folder of vectors]

Prints `N passed, M failed` and ends with 1 if anything failed.
"""

import collections
import copy
import itertools
import pathlib
import random
import struct
import sys
import tempfile

import calls
import generate
import reference as r

VECTORS = pathlib.Path(__file__).parent / "vectors"
OUTCOMES = {"passed": 0, "failed": 0}


def expect(name, got, wanted):
    good = got == wanted
    OUTCOMES["passed" if good else "failed"] += 1
    if not good:
        print(f"FAILED {name}: got {str(got)[:200]}, wanted {str(wanted)[:200]}")


# ------------------------------------------------------------ a lent grid


class Lent:
    """Capacity, header, table, values and counts, as one caller holds them."""

    def __init__(self, columns, rows, capacity=100, mode=r.OPEN):
        self.capacity = capacity
        self.header = r.Header(0, 0, 0, 0)
        self.table = [-1] * (r.WORDS * (capacity + 1))
        self.values = [7] * (capacity + 1)
        self.counts = [9] * r.PLACES
        self.answer = self.call(r.build, columns, rows, mode)

    def call(self, function, *arguments):
        """Call and keep what comes back; scan, lookup and page are not lent the counts."""
        if function in (r.scan, r.lookup, r.page):
            answer, self.header, self.table, self.values = function(*self.lists()[:4], *arguments)
        else:
            answer, self.header, self.table, self.values, self.counts = function(*self.lists(), *arguments)
        return answer

    def lists(self):
        return self.capacity, self.header, self.table, self.values, self.counts

    def row(self, number):
        return self.table[r.WORDS * number : r.WORDS * (number + 1)]

    def place(self, number):
        return tuple(self.row(number)[r.I : r.J + 1])

    def words(self, number, *words):
        return [self.row(number)[word] for word in words]

    def flags(self, *numbers):
        return [self.row(number)[r.FLAGS] for number in numbers]

    def in_use(self):
        used = range(1, self.capacity + 1)
        return sum(self.row(number)[r.FLAGS] != r.DEAD for number in used)

    def check(self):
        return r.check(*self.lists())


def bits(value):
    return int.from_bytes(struct.pack(">d", value), "big")


def short(kind, number):
    return bytes([kind]) + number.to_bytes(2, "big")


def value(number, pattern):
    return bytes([r.SET_VALUE]) + number.to_bytes(2, "big") + pattern.to_bytes(8, "big")


def refine(number):
    return short(r.REFINE, number)


def sentence(*numbers):
    return b"".join(short(r.SENTENCE, number) for number in numbers)


def remove(number):
    return short(r.REMOVE, number)


def kill(number):
    return short(r.KILL, number)


# ------------------------------------------------------------ P1 to P11


def test_p1_to_p5():
    grid = Lent(1, 1)
    built = grid.lists()
    expect("P1 count", grid.answer, (0, 5))
    expect("P1 places", [grid.place(n) for n in (2, 3, 4, 5)], [(0, 0), (0, 1), (1, 0), (1, 1)])
    expect("P2", grid.flags(2, 3, 4, 5), [127, 26, 44, 8])
    expect("P3 refine", grid.call(r.refine, 2), 0)
    new = [(0, 0), (1, 0), (0, 1), (1, 1), (0, 2), (1, 2), (2, 1), (2, 0), (2, 2)]
    expect("P3 places", [grid.place(n) for n in range(6, 15)], new)
    expect("P3 levels", {grid.row(n)[r.LEVEL] for n in range(6, 15)}, {1})
    expect("P3 capacity 14", Lent(1, 1, 14).call(r.refine, 2), 0)
    expect("P3 capacity 13", Lent(1, 1, 13).call(r.refine, 2), 11)
    expect("P4", grid.flags(6, 7, 8, 9), [127, 95, 111, 71])
    for number in (6, 7, 8, 9):
        expect("P5 sentence", grid.call(r.sentence, number), 0)
    expect("P5 remove", grid.call(r.remove, 2), 0)
    expect("P5 rows", (grid.table, grid.values, grid.counts), built[2:])
    expect("P5 mark", grid.header, (1, 1, r.OPEN, 6))
    one = Lent(1, 1)
    answer = one.call(r.tape, refine(2) + sentence(6, 7, 8, 9) + remove(2))
    expect("P5 as one tape", answer, (6, 0, 18))
    expect("P5 as one tape, rows", one.lists(), grid.lists())


def test_p6_to_p8():
    grid = Lent(2, 1)
    expect("P6 count", grid.answer, (0, 9))
    cells = [n for n in range(1, 101) if grid.row(n)[r.FLAGS] & r.COMPLETE]
    expect("P6 cells", cells, [4, 6])
    grid.call(r.refine, 4)
    expect("P6 in use", grid.in_use(), 18)
    expect("P6 flags", grid.flags(17, 16, 11, 18), [652, 644, 1119, 136])
    expect("P7 kill", grid.call(r.kill, 6), 0)
    expect("P7 freed", [grid.row(n) for n in (3, 8, 9)], [list(r.FREE_ROW)] * 3)
    expect("P7 in use", grid.in_use(), 15)
    expect("P7 flags", grid.flags(17, 16, 11, 18), [44, 44, 95, 8])
    expect("P8 refine", grid.call(r.refine, 10), 0)
    kids = [grid.row(10)[wind] for wind in (r.SW, r.SE, r.NW, r.NE)]
    expect("P8 kids", kids, [3, 8, 9, 19])


def test_p9_to_p11():
    grid = Lent(3, 1)
    expect("P9 kill", grid.call(r.kill, 6), 0)
    expect("P9 in use", grid.in_use(), 11)
    expect("P9 linked", (grid.row(6)[r.E], grid.row(8)[r.W]), (8, 6))
    grid = Lent(1, 1)
    expect("P10", grid.call(r.tape, bytes([1, 0, 2, 1, 0, 2])), (1, 8, 3))
    grid = Lent(1, 1)
    expect("P11 inside", grid.call(r.lookup, 4095, 4095), (0, 2, 0, 0))
    expect("P11 edge", grid.call(r.lookup, 4096, 0), (0, 2, 0, 0))
    expect("P11 outside", grid.call(r.lookup, 4097, 0), (19, 0, 0, 0))


# ------------------------------------------------------------ rules of 01


def test_root_level():
    levels = {1: -1, 2: -2, 3: -2, 4: -3, 7: -3, 8: -4, 31: -5, 32: -6}
    for size, level in levels.items():
        expect(f"root of {size}", Lent(size, 1, 200).row(1)[r.LEVEL], level)
        expect(f"root of {size}", Lent(1, size, 200).row(1)[r.LEVEL], level)


def test_build():
    expect("build 2", Lent(0, 1).answer, (2, 0))
    expect("build 2", Lent(1, 33).answer, (2, 0))
    expect("build 11", Lent(1, 2, 8).answer, (11, 0))
    expect("build full", Lent(1, 2, 9).answer, (0, 9))
    expect("build 11 leaves all", Lent(1, 2, 8).table, [-1] * 14 * 9)
    for capacity in (4, 4096):
        expect("build 1", Lent(1, 1, capacity).answer, (1, 0))
    for name, lengths, wanted in (("table", (83, 6, 39), (1, 0)), ("values", (84, 5, 39), (1, 0)), ("none", (84, 6, 39), (0, 5))):
        answer = r.build(5, (3, 3, 3, 3), *([0] * length for length in lengths), 1, 1, r.OPEN)[0]
        expect(f"build, length of {name} is wrong", answer, wanted)


def test_refusals_of_a_tape():
    nan, infinite = 0x7FF8000000000001, 0xFFF0000000000000
    deep = b"".join(refine(n) for n in [2, 6] + [15 + 9 * k for k in range(10)])
    last = 15 + 9 * 10
    cases = [
        ("4", (1, 1), b"\x01\x00", (0, 4, 0)),
        ("4 before 6", (1, 1), b"\x05\x00\x00\x00", (0, 4, 0)),
        ("5", (1, 1), b"\x06", (0, 5, 0)),
        ("5 after one", (1, 1), refine(2) + b"\x00", (1, 5, 3)),
        ("6 zero", (1, 1), refine(0), (0, 6, 0)),
        ("6 above", (1, 1), refine(201), (0, 6, 0)),
        ("6 free", (1, 1), refine(6), (0, 6, 0)),
        ("7 thin", (1, 1), refine(3), (0, 7, 0)),
        ("7 ghost", (1, 1), value(1, nan), (0, 7, 0)),
        ("8 sentence", (1, 1), refine(2) + sentence(2), (1, 8, 3)),
        ("8 before 16", (1, 1), refine(2) + value(2, nan), (1, 8, 3)),
        ("8 before 15", (1, 1), refine(2) + kill(2), (1, 8, 3)),
        ("9", (1, 1), deep + refine(last), (12, 9, 36)),
        ("9 before 10", (1, 1), deep + sentence(last) + refine(last), (13, 9, 39)),
        ("9 before 21", (1, 1), deep + refine(last + 1), (12, 9, 36)),
        ("10", (1, 1), refine(2) + sentence(6) + refine(6), (2, 10, 6)),
        ("12 sentence", (1, 1), sentence(2), (0, 12, 0)),
        ("12 kill", (1, 1), refine(2) + kill(6), (1, 12, 3)),
        ("12 before 8", (1, 1), refine(2) + refine(6) + kill(6), (2, 12, 6)),
        ("13", (1, 1), remove(2), (0, 13, 0)),
        ("14", (1, 1), refine(2) + sentence(6, 7, 8) + remove(2), (4, 14, 12)),
        ("15", (1, 1), kill(2), (0, 15, 0)),
        ("16 infinite", (1, 1), value(2, infinite), (0, 16, 0)),
        ("16 NaN", (1, 1), value(2, nan), (0, 16, 0)),
        ("empty", (1, 1), b"", (0, 0, 0)),
        ("twice", (1, 1), refine(2) + sentence(6, 6), (3, 0, 9)),
    ]
    for name, size, requests, wanted in cases:
        grid = Lent(*size, 200)
        expect(f"tape {name}", grid.call(r.tape, requests), wanted)
        expect(f"tape {name}, mark", grid.header.mark, wanted[0])
        expect(f"tape {name}, sound", grid.check(), 0)


def test_thin_kids_do_not_count():
    grid = Lent(2, 1)
    grid.call(r.refine, 4)
    expect("thin kids of 6", [grid.row(6)[w] for w in (r.NE, r.SE, r.SW, r.NW)], [0, 0, 17, 16])
    expect("13 with thin kids", grid.call(r.remove, 6), 13)
    expect("kill with thin kids", grid.call(r.kill, 6), 0)


def test_values():
    grid = Lent(1, 1)
    minus_zero, tiny = bits(-0.0), 1
    grid.call(r.set_value, 2, minus_zero)
    expect("-0 is a value", (grid.row(2)[r.STATUS], grid.values[2]), (1, minus_zero))
    grid.call(r.refine, 2)
    carried = [(grid.row(n)[r.STATUS], grid.values[n]) for n in (6, 7, 8, 9)]
    expect("carried", carried, [(2, minus_zero)] * 4)
    grid.call(r.refine, 6)
    expect("carried again", grid.call(r.lookup, 0, 0), (0, 15, 2, minus_zero))
    grid.call(r.set_value, 7, tiny)
    grid.call(r.sentence, 7)
    expect("set a sentenced leaf", grid.call(r.set_value, 7, 2), 0)
    expect("Sentenced stays", grid.flags(7)[0] & r.SENTENCED, r.SENTENCED)
    expect("measured", grid.call(r.lookup, 2048, 0), (0, 7, 1, 2))
    expect("sound", grid.check(), 0)


def test_mark():
    grid = Lent(1, 1)
    grid.header = grid.header._replace(mark=65534)
    grid.call(r.tape, value(2, 1) * 3)
    expect("65,535 is followed by 0", grid.header, (1, 1, r.OPEN, 1))


def test_soundness():
    grid = Lent(3, 2)
    grid.call(r.tape, value(6, 5) + refine(6) + sentence(18) + kill(8))
    expect("sound", grid.check(), 0)
    capacity, header, table, values, counts = grid.lists()
    expect("same bit length", r.check(capacity, (3, 3, r.OPEN, 9), table, values, counts), 0)
    expect("other bit length", r.check(capacity, (4, 2, r.OPEN, 9), table, values, counts), 3)
    expect("outside", r.check(capacity, (2, 2, r.OPEN, 9), table, values, counts), 3)
    expect("no columns", r.check(capacity, (0, 2, r.OPEN, 9), table, values, counts), 2)
    expect("33 rows", r.check(capacity, (3, 33, r.OPEN, 9), table, values, counts), 2)
    expect("other capacity", r.check(capacity + 1, header, table, values, counts), 1)
    for place in range(len(table)):
        spoilt = [capacity, header, table[:place] + [table[place] ^ 1] + table[place + 1 :], values, counts]
        if r.check(*spoilt) != 3:
            expect(f"word {place} spoilt", 0, 3)
        wanted = 0 if may_flip(grid, place) else 3
        if r.check(*generate.recount(spoilt)) != wanted:
            expect(f"word {place} spoilt, with its counts", 3 - wanted, wanted)
    for place in range(len(values)):
        spoilt = values[:place] + [values[place] ^ 1] + values[place + 1 :]
        expect(f"value {place} spoilt", r.check(capacity, header, table, spoilt, counts), 3)
    swapped = values[:]
    swapped[0] = bits(-0.0)
    expect("row 0 with -0", r.check(capacity, header, table, swapped, counts), 3)


def may_flip(grid, place):
    """No flip of a lowest bit is sound here: status 2 to 3, 1 to 0, 0 to 1 among
    them, except a blank leaf with a blank parent, which becomes measured +0, and is
    then counted as such."""
    number, word = divmod(place, r.WORDS)
    row = grid.row(number)
    leaf = row[r.FLAGS] & r.COMPLETE and row[r.STATUS] == 0
    return bool(word == r.STATUS and leaf)


def test_scan():
    grid = Lent(1, 1)
    grid.call(r.refine, 2)
    order = [r.SW, r.NW, r.SE, r.NE]
    every = [1, 2, 6, 8, 7, 9, 3, 10, 11, 4, 13, 12, 5, 14]
    cases = [
        ("patches", (1, order, 1, -1, 12), every),
        ("reversed", (1, order[::-1], 1, -1, 0), [1, 5, 4, 3, 2]),
        ("cells", (1, order, 2, -1, 99), [2, 6, 8, 7, 9]),
        ("leaves", (1, order, 3, -1, 1), [6, 8, 7, 9]),
        ("H-walls", (1, order, 4, 1, 1), [6, 8, 7, 9, 10, 11]),
        ("V-walls", (1, order, 5, 1, 1), [6, 8, 7, 9, 13, 12]),
        ("points", (1, order, 6, -1, 0), [2, 3, 4, 5]),
        ("ghost levels", (1, order, 6, -1, -1), []),
        ("from below", (2, order, 1, 1, 1), [6, 8, 7, 9]),
        ("level 13", (1, order, 1, 13, 2**31 - 1), []),
    ]
    for name, arguments, wanted in cases:
        answer = grid.call(r.scan, *arguments, [77] * 20)
        filled = wanted + [77] * (20 - len(wanted))
        expect(f"scan {name}", answer, (0, len(wanted), filled))
        answer = grid.call(r.scan, *arguments, [77] * len(wanted))
        expect(f"scan {name}, exact", answer, (0, len(wanted), wanted))
    refused = [
        ("6", (0, order, 1, -1, 0), 6),
        ("6 before 17", (15, [0] * 4, 9, 0, -1), 6),
        ("17 order", (1, [1, 2, 3, 3], 1, -1, 0), 17),
        ("17 kind 0", (1, order, 0, -1, 0), 17),
        ("17 kind 7", (1, order, 7, -1, 0), 17),
        ("17 from-level", (2, order, 1, -1, 0), 17),
        ("17 to-level", (1, order, 1, 1, 0), 17),
        ("18", (1, order, 1, -1, 12), 18),
    ]
    for name, arguments, refusal in refused:
        answer = grid.call(r.scan, *arguments, [77] * 13)
        expect(f"scan {name}", answer, (refusal, 0, [77] * 13))


def test_page():
    grid = Lent(1, 1)
    text = b"map 1 1 0 open\n2 0 0 0 n 0000000000000000\ncells 1 sum 2278\n"
    expect("page", grid.call(r.page, text.upper() + b"xyz"), (0, len(text), text + b"xyz"))
    expect("page 18", grid.call(r.page, text[1:]), (18, 0, text[1:]))


def test_program():
    text = b"map 1 1 0 open\n2 0 0 0 n 0000000000000000\ncells 1 sum 2278\n"
    long_tape = value(2, 0) * 5451
    exact = b"\x07\x01\x01" + long_tape + refine(2) * 12
    cases = [
        (b"\x07\x01\x01", text),
        (b"", b"refused 4 at 0\n"),
        (b"\x08", b"refused 5 at 0\n"),
        (b"\x07", b"refused 4 at 0\n"),
        (b"\x07\x00", b"refused 4 at 0\n"),
        (b"\x07\x00\x01\x09", b"refused 2 at 0\n"),
        (b"\x07\x20\x20", b"refused 11 at 0\n"),
        (b"\x07\x01\x01\x09", b"refused 5 at 3\n"),
        (b"\x07\x01\x01" + refine(2) + b"\x01", b"refused 4 at 6\n"),
        (b"\x08" * 60001, b"refused 20 at 0\n"),
        (b"\x08" * 60000, b"refused 5 at 0\n"),
    ]
    for data, wanted in cases:
        expect(f"program {data[:8]}", r.program(data), wanted)
    offset = 3 + len(long_tape) + 3
    expect("its length", len(exact), 60000)
    expect("program of 60,000 bytes", r.program(exact), f"refused 8 at {offset}\n".encode())


# ------------------------------------------------------------ No. 1 of 02


def ask(grid, kind, *cells):
    """What a grid of sets answers to requests of one kind, one after the other."""
    return [r.step(grid, kind, grid.numbers[cell]) for cell in cells]


def ask_alone(grid, kind, cell):
    """What one request is answered; the grid stays."""
    return ask(copy.deepcopy(grid), kind, cell)[0]


def refined(columns, rows, *cells, capacity=400, mode=r.OPEN):
    """A rectangle with some cells refined, in their order."""
    grid = r.built(capacity, columns, rows, mode)
    expect(f"refined {cells}", ask(grid, r.REFINE, *cells), [0] * len(cells))
    return grid


MIDDLE = (0, 1, 1)  # of 3 by 3
ALL = sorted(r.rectangle(3, 3))
SIDES = {  # each level-0 cell beside the middle, and the two kids of the middle there
    (0, 1, 2): [(1, 2, 3), (1, 3, 3)],
    (0, 2, 1): [(1, 3, 2), (1, 3, 3)],
    (0, 1, 0): [(1, 2, 2), (1, 3, 2)],
    (0, 0, 1): [(1, 2, 2), (1, 2, 3)],
}


def turned(place, by, rows=3):
    """A place of a ring, so many level-0 rows further round."""
    level, i, j = place
    return (level, i, (j + (by << level)) % (rows << level))


# 3 by 3: the open grid, and the ring with its seam above the middle, below it, and beside neither
VIEWS = [(r.OPEN, 0), (r.RING, 0), (r.RING, 1), (r.RING, 2)]


def test_21_on_each_side():
    for (mode, by), (side, there) in itertools.product(VIEWS, SIDES.items()):
        seen = [turned(cell, by) for cell in (MIDDLE, *(one for one in SIDES if one != side))]
        grid = refined(3, 3, *seen, mode=mode)
        for kid in r.kids(MIDDLE):
            wanted = 21 if kid in there else 0
            answer = ask_alone(grid, r.REFINE, turned(kid, by))
            expect(f"21 of {kid} at {side}, {mode} turned by {by}", answer, wanted)
        answers = ask(grid, r.REFINE, *(turned(cell, by) for cell in (side, *there)))
        expect(f"{side} refined, {mode} turned by {by}", answers, [0, 0, 0])


def test_21_in_the_area_only():
    grid = refined(2, 1, (0, 0, 0))
    outward, inward = (1, 0, 0), (1, 1, 0)
    expect("21 not at the rectangle's edge", ask_alone(grid, r.REFINE, outward), 0)
    expect("21 in the area", ask(grid, r.REFINE, inward), [21])
    expect("killed", ask(grid, r.KILL, (0, 1, 0)), [0])
    expect("21 not at a killed cell's edge", ask(grid, r.REFINE, inward), [0])
    grid = refined(1, 3, (0, 0, 1), (0, 0, 2), mode=r.RING)
    at_seam = (1, 0, 5)
    expect("21 over the seam", ask(grid, r.REFINE, at_seam), [21])
    expect("killed over the seam", ask(grid, r.KILL, (0, 0, 0)), [0])
    expect("21 not at a killed cell's edge over the seam", ask(grid, r.REFINE, at_seam), [0])


def test_21_never_on_level_0():
    for mode, by in VIEWS:
        middle, sides = turned(MIDDLE, by), [turned(side, by) for side in SIDES]
        for beside in sides:
            grid = refined(3, 3, beside, mode=mode)
            expect("level 0 beside a refined cell", ask_alone(grid, r.REFINE, middle), 0)
            grid = r.built(400, 3, 3, mode)
            ask(grid, r.KILL, beside)
            expect("level 0 beside a killed cell", ask_alone(grid, r.REFINE, middle), 0)
        grid = refined(3, 3, middle, mode=mode)
        for side in sides:
            expect("level 0 beside the finer", ask_alone(grid, r.REFINE, side), 0)


def test_21_in_its_turn():
    """After 10 and before 11; 9 before both stands among the refusals of a tape."""
    grid = refined(2, 1, (0, 0, 0), capacity=18)
    expect("none free", grid.free_numbers(), [])
    outward, inward = (1, 0, 0), (1, 1, 0)
    expect("11", ask(grid, r.REFINE, outward), [11])
    expect("21 before 11", ask(grid, r.REFINE, inward), [21])
    ask(grid, r.SENTENCE, inward)
    expect("10 before 21", ask(grid, r.REFINE, inward), [10])


def test_22_on_each_side():
    """Exactly the eight cells beside the four, and none that meets them in a corner."""
    north = [(1, 2, 4), (1, 3, 4)]
    east = [(1, 4, 2), (1, 4, 3)]
    south = [(1, 2, 1), (1, 3, 1)]
    west = [(1, 1, 2), (1, 1, 3)]
    outside = [kid for cell in ALL if cell != MIDDLE for kid in r.kids(cell)]
    for mode, by in VIEWS:
        middle, found = turned(MIDDLE, by), []
        four = r.kids(middle)
        for finer in outside:
            grid = refined(3, 3, *ALL, turned(finer, by), mode=mode)
            ask(grid, r.SENTENCE, *four)
            answer = ask(grid, r.REMOVE, middle)
            expect(f"remove beside {finer}", answer in ([0], [22]), True)
            found += [finer] if answer == [22] else []
            gone = not any(kid in grid.cells for kid in four)
            expect(f"removed beside {finer}", gone, answer == [0])
        expect(f"22, {mode} turned by {by}", sorted(found), sorted(north + east + south + west))


def test_22_in_its_turn():
    """After 14, and not once the finer four are gone; 13 before it needs an older table."""
    left, right, finer = (0, 0, 0), (0, 1, 0), (1, 1, 0)
    grid = refined(2, 1, left, right, finer)
    ask(grid, r.SENTENCE, *r.kids(right)[1:])
    expect("14 before 22", ask(grid, r.REMOVE, right), [14])
    ask(grid, r.SENTENCE, *r.kids(right))
    expect("22", ask(grid, r.REMOVE, right), [22])
    ask(grid, r.SENTENCE, *r.kids(finer))
    expect("after the finer four", ask(grid, r.REMOVE, finer, right), [0, 0])


def square(leaf):
    """Left, lower, right and upper edge of a leaf in 1/4096 of a level-0 cell."""
    level, i, j = leaf
    size = 4096 >> level
    return i * size, j * size, (i + 1) * size, (j + 1) * size


def share_an_edge(one, other):
    """Whether two squares without common area have a stretch of an edge in common."""
    wide = min(one[2], other[2]) - max(one[0], other[0])
    high = min(one[3], other[3]) - max(one[1], other[1])
    return min(wide, high) == 0 < max(wide, high)


def round_about(header, edges):
    """A square; in a ring also once round above and below."""
    left, lower, right, upper = edges
    laps = (0, header.rows * 4096, -header.rows * 4096) if header.mode == r.RING else (0,)
    return [(left, lower + lap, right, upper + lap) for lap in laps]


def jumps(grid):
    """The pairs of leaves that share part of an edge and differ by two levels or more."""
    leaves = [(cell, square(cell)) for cell in sorted(grid.cells) if grid.is_leaf(cell)]
    return [
        (one, other)
        for one, here in leaves
        for other, there in leaves
        if other[0] - one[0] > 1
        and any(share_an_edge(here, edges) for edges in round_about(grid.header, there))
    ]


def test_squares():
    middle = square((1, 1, 1))
    expect("square", middle, (2048, 2048, 4096, 4096))
    for other, wanted in [
        ((1, 0, 1), True),
        ((1, 1, 2), True),
        ((0, 1, 0), True),
        ((3, 8, 4), True),
        ((12, 4096, 4095), True),
        ((12, 4096, 4096), False),
        ((0, 1, 1), False),
        ((1, 3, 1), False),
        ((12, 4097, 4000), False),
    ]:
        for one, two in ((middle, square(other)), (square(other), middle)):
            expect(f"an edge of {other}", share_an_edge(one, two), wanted)


SIZES = [(1, 1, r.OPEN), (2, 1, r.OPEN), (3, 2, r.OPEN), (4, 4, r.OPEN)]
RINGS = [(1, 3, r.RING), (2, 3, r.RING), (1, 4, r.RING), (3, 5, r.RING)]


def history(rng, checks, sizes):
    """A build and requests, under these checks; how often each was refused."""
    grid = r.built(300, *rng.choice(sizes))
    answers = collections.Counter()
    for _ in range(rng.choice((60, 200))):
        kind = rng.choice((1, 1, 1, 1, 2, 3, 4))
        cells = sorted(cell for cell in grid.cells if grid.has_kids(cell) == (kind == r.REMOVE))
        if not cells:
            continue
        cell = rng.choice(cells)
        if kind == r.REMOVE:
            ask(grid, r.SENTENCE, *(one for one in r.kids(cell) if grid.is_leaf(one)))
        answers[r.step(grid, kind, grid.numbers[cell], 0, checks)] += 1
    return grid, answers


def test_no_jump_of_two_levels():
    """From a fresh build; under 01 alone the same histories have jumps, so this can fail."""
    for sizes in (SIZES, RINGS):
        answers, deepest, without = collections.Counter(), 0, 0
        for seed in range(80):
            grid, told = history(random.Random(seed), r.CHECKS, sizes)
            answers += told
            deepest = max(deepest, *(cell[0] for cell in grid.cells))
            expect(f"no jump, {seed}", jumps(grid), [])
            without += bool(jumps(history(random.Random(seed), generate.CHECKS_OF_01, sizes)[0]))
        expect("21 and 22 are given", min(answers[21], answers[22]) > 50, True)
        expect("deep", deepest > 4, True)
        expect("jumps under 01 alone", without > 40, True)


def test_older_tables():
    """02, No. 1: "Older tables stay sound, without that promise"; a tape on them runs."""
    left, right, finer = (0, 0, 0), (0, 1, 0), (1, 1, 0)
    grid = generate.pictured(2, 1, {left, right, *r.kids(left), *r.kids(finer)}, 100)
    expect("a jump", sorted(jumps(grid)), [(right, (2, 3, 0)), (right, (2, 3, 1))])
    expect("sound", r.check(grid.capacity, *r.drawn(grid)), 0)
    number = grid.numbers
    outward, inward = (2, 2, 0), (2, 3, 0)
    accepted = refine(number[right]) + sentence(*(number[kid] for kid in r.kids(finer)))
    for name, requests, wanted in [
        ("8 before 21", refine(number[finer]), (0, 8, 0)),
        ("13 before 22", remove(number[right]), (0, 13, 0)),
        ("21", refine(number[inward]), (0, 21, 0)),
        ("21 at another side", refine(number[outward]), (0, 21, 0)),
        ("21 after one", sentence(number[outward]) + refine(number[inward]), (1, 21, 3)),
        ("accepted", accepted + remove(number[finer]), (6, 0, 18)),
    ]:
        answer, *left_behind = r.tape(grid.capacity, *r.drawn(grid), requests)
        expect(f"older table, {name}", answer, wanted)
        expect(f"older table, {name}, sound", r.check(grid.capacity, *left_behind), 0)
    refined_twice = {*r.kids(finer), *r.kids(inward)}
    cells = {left, right, *r.kids(left), *r.kids(right), *refined_twice}
    grid = generate.pictured(2, 1, cells, 100)
    grid.sentenced = dict.fromkeys(r.kids(right), True)
    expect("a jump", bool(jumps(grid)), True)
    answer, *left_behind = r.tape(grid.capacity, *r.drawn(grid), remove(grid.numbers[right]))
    expect("older table, 22", answer, (0, 22, 0))
    expect("older table, 22, sound", r.check(grid.capacity, *left_behind), 0)


def test_older_grids():
    for seed, some in itertools.product(range(30), (generate.some_size, generate.ring_size)):
        grid = generate.older_grid(random.Random(seed), some)
        expect(f"older grid {seed}", bool(jumps(grid)), True)
        expect(f"older grid {seed}, sound", r.check(grid.capacity, *r.drawn(grid)), 0)


def test_21_is_a_green_wall():
    """A place beside a cell in the area and no cell is a green wall, on older tables too."""
    for seed, sizes in itertools.product(range(40), (SIZES, RINGS)):
        grid, _ = history(random.Random(seed), generate.CHECKS_OF_01, sizes)
        kinds = r.walls(grid.header, grid.cells)
        for cell in grid.cells:
            green = r.flags(grid.header, cell, grid.cells, kinds, {}) & r.GRN_CELL != 0
            if green != r.too_coarse_beside(grid, cell):
                expect(f"green wall of {cell}", green, not green)


# ------------------------------------------------------------ No. 2: rated speed is on the map


def test_tries():
    both = [(4, 9), (3, 9), (4, 8), (3, 8)]
    for point, wanted in (((4, 9), both), ((4, 0), [(4, 0), (3, 0)]), ((0, 9), [(0, 9), (0, 8)]), ((0, 0), [(0, 0)])):
        expect(f"tries of {point}", r.tries(*point), wanted)


def leaf_by_squares(grid, speed, load):
    """The leaf that holds the point; or that ends there to the right, or at the top, or with both.
    In a ring no point from the seam on is looked for, and none below 0."""
    if grid.header.mode == r.RING and load >= 4096 * grid.header.rows:
        return None
    inside, at_end = (lambda low, high, x: low <= x < high), (lambda low, high, x: x == high)
    for along, up in (inside, inside), (at_end, inside), (inside, at_end), (at_end, at_end):
        for leaf in filter(grid.is_leaf, grid.cells):
            left, lower, right, upper = square(leaf)
            if along(left, right, speed) and up(lower, upper, load):
                return leaf
    return None


def test_found_by_squares():
    for seed, some in itertools.product(range(40), (generate.some_size, generate.ring_size)):
        rng = random.Random(seed)
        grid = generate.some_grid(rng, some)
        for _ in range(60):
            point = generate.some_point(rng, grid)
            expect(f"leaf at {point} of {seed}", r.found_leaf(grid, *point), leaf_by_squares(grid, *point))


def test_killed_corner():
    grid = Lent(2, 2)
    expect("kill", grid.call(r.kill, 9), 0)
    for point, wanted in (((4096, 4096), 7), ((4096, 8191), 7), ((8191, 4096), 8), ((8192, 4096), 8), ((8192, 4095), 8), ((0, 8192), 7), ((4096, 8192), 7)):
        expect(f"edge at {point}", grid.call(r.lookup, *point), (0, wanted, 0, 0))
    for point in ((4097, 4097), (8193, 0), (0, 8193), (8192, 8192), (2**32 - 1, 0), (0, 2**32 - 1), (2**32 - 1, 2**32 - 1)):
        expect(f"none at {point}", grid.call(r.lookup, *point), (19, 0, 0, 0))
    grid = Lent(2, 2)
    expect("kill", grid.call(r.kill, 7), 0)
    expect("no try below 0", grid.call(r.lookup, 0, 4096), (0, 6, 0, 0))


# ------------------------------------------------------------ No. 4: crank-angle maps


LINKS = (r.N, r.E, r.S, r.W)
KIDS = (r.SW, r.SE, r.NW, r.NE)


def test_ring_of_three():
    """A ring of 1 by 3: every place, every link over the seam and every flag, by hand."""
    grid = Lent(1, 3, mode=r.RING)
    expect("in use", grid.answer, (0, 9))
    expect("header", grid.header, (1, 3, r.RING, 0))
    levels = [grid.row(number)[r.LEVEL] for number in range(1, 10)]
    expect("levels", levels, [-2, -1, -1, 0, 0, 0, 0, 0, 0])
    places = [(0, 0), (0, 0), (0, 1), (0, 0), (0, 1), (1, 0), (1, 1), (0, 2), (1, 2)]
    expect("places", [grid.place(number) for number in range(1, 10)], places)
    for number, links in {
        2: [3, 0, 0, 0],  # ghosts do not go round
        3: [0, 0, 2, 0],
        4: [5, 6, 8, 0],  # the lowest row: south is the highest
        5: [8, 7, 4, 0],
        6: [7, 0, 9, 4],
        7: [9, 0, 6, 5],
        8: [4, 9, 5, 0],  # the highest row: north is the lowest
        9: [6, 0, 7, 8],
    }.items():
        expect(f"links of {number}", grid.words(number, *LINKS), links)
    expect("flags", grid.flags(4, 5, 8, 6, 7, 9), [111, 111, 111, 44, 44, 44])
    expect("ghosts", grid.flags(1, 2, 3), [0, 0, 0])
    expect("kids of the upper ghost", grid.words(3, *KIDS), [8, 9, 0, 0])
    expect("sound", grid.check(), 0)
    expect("capacity 8", Lent(1, 3, 8, r.RING).answer, (11, 0))
    text = "map 1 3 0 ring\n" + "".join(f"{n} 0 0 {j} n {0:016x}\n" for n, j in ((4, 0), (5, 1), (8, 2)))
    text += f"cells 3 sum {sum(text.encode())}\n"
    page = grid.call(r.page, bytes(200))
    expect("page", page.output[: page.count].decode(), text)


def test_refined_below_the_seam():
    """The highest cell refined: its north points are of the lowest row."""
    grid = Lent(1, 3, mode=r.RING)
    expect("refine 8", grid.call(r.refine, 8), 0)
    new = [(0, 4), (1, 4), (0, 5), (1, 5), (0, 0), (1, 0), (2, 5), (2, 4), (2, 0)]
    expect("new places", [grid.place(number) for number in range(10, 19)], new)
    expect("in use", grid.in_use(), 18)
    expect("kids of 8", grid.words(8, *KIDS), [10, 11, 12, 13])
    expect("kids of 4, to the north", grid.words(4, *KIDS), [14, 15, 0, 0])
    expect("kids of 9, to the east", grid.words(9, *KIDS), [17, 0, 16, 0])
    expect("kids of 6, to the north-east", grid.words(6, *KIDS), [18, 0, 0, 0])
    for number, links in {
        12: [14, 13, 10, 0],
        13: [15, 16, 11, 12],
        16: [18, 0, 17, 13],
        14: [0, 15, 12, 0],
        15: [0, 18, 13, 14],
        18: [0, 0, 16, 15],
        10: [12, 11, 0, 0],
    }.items():
        expect(f"links of {number}", grid.words(number, *LINKS), links)
    wanted = [1519, 1479, 1135, 1095, 394, 386, 44, 172, 136]
    expect("flags", grid.flags(*range(10, 19)), wanted)
    expect("remove", grid.call(r.tape, sentence(10, 11, 12, 13) + remove(8)), (5, 0, 15))
    expect("as built", grid.table, Lent(1, 3, mode=r.RING).table)


def test_refined_above_the_seam():
    """The lowest cell refined, and then the highest: three of its points are there."""
    grid = Lent(1, 3, mode=r.RING)
    expect("refine 4", grid.call(r.refine, 4), 0)
    new = [(0, 0), (1, 0), (0, 1), (1, 1), (0, 2), (1, 2), (2, 1), (2, 0), (2, 2)]
    expect("new places", [grid.place(number) for number in range(10, 19)], new)
    expect("no patch south", [grid.row(number)[r.S] for number in (10, 11, 17)], [0, 0, 0])
    expect("flags", grid.flags(10, 11, 12, 13, 17), [1519, 1479, 1135, 1095, 172])
    expect("refine 8", grid.call(r.refine, 8), 0)
    expect("in use", grid.in_use(), 24)
    expect("kids of 8", grid.words(8, *KIDS), [19, 20, 21, 22])
    expect("south", [grid.row(number)[r.S] for number in (10, 11, 17)], [21, 22, 23])
    expect("north", [grid.row(number)[r.N] for number in (21, 22, 23)], [10, 11, 17])
    expect("no wall is green at the seam", grid.flags(10, 11, 21, 22, 17), [111, 71, 111, 71, 44])
    expect("22 over the seam", grid.call(r.tape, refine(5) + refine(10) + sentence(19, 20, 21, 22) + remove(8)), (6, 22, 18))
    four = grid.words(10, *KIDS)
    expect("21 over the seam", grid.call(r.refine, four[0]), 21)
    expect("the finer four", grid.call(r.tape, sentence(*four) + remove(10) + remove(8)), (6, 0, 18))


def test_killed_at_the_seam():
    """A cell killed at the seam has boundary walls over it, on every level."""
    grid = Lent(1, 3, mode=r.RING)
    expect("kill 4", grid.call(r.kill, 4), 0)
    expect("all stay", grid.in_use(), 9)
    expect("flags", grid.flags(4, 5, 8, 6, 7, 9), [26, 127, 111, 8, 44, 44])
    expect("still linked", grid.words(4, *LINKS) + grid.words(8, *LINKS), [5, 6, 8, 0, 4, 9, 5, 0])
    expect("kill 5", grid.call(r.kill, 5), 0)
    expect("freed", grid.flags(5, 7), [r.DEAD, r.DEAD])
    expect("flags", grid.flags(4, 8, 6, 9), [26, 127, 8, 44])
    expect("sound", grid.check(), 0)
    grid = Lent(1, 3, mode=r.RING)
    expect("refine 8, kill 4", grid.call(r.tape, refine(8) + kill(4)), (2, 0, 6))
    wanted = [1519, 1479, 111, 71, 26, 26, 44, 172, 8]
    expect("no wall is green at the seam", grid.flags(*range(10, 19)), wanted)
    expect("kill 8 is refused", grid.call(r.kill, 8), 8)
    grid = Lent(1, 3, mode=r.RING)
    expect("refine 4, kill 8", grid.call(r.tape, refine(4) + kill(8)), (2, 0, 6))
    expect("boundary at the seam", grid.flags(10, 11, 17, 8, 9), [127, 95, 44, 26, 8])
    expect("all stay", grid.in_use(), 18)


def test_lookups_at_the_seam():
    last = 3 * 4096
    grid = Lent(1, 3, mode=r.RING)
    nothing = (19, 0, 0, 0)
    for point, number in (((0, last - 1), 8), ((4095, last - 1), 8), ((4096, last - 1), 8), ((0, 0), 4), ((4096, 0), 4), ((0, 8192), 8)):
        expect(f"ring at {point}", grid.call(r.lookup, *point), (0, number, 0, 0))
    for point in ((0, last), (4095, last), (4096, last), (0, last + 1), (0, 2**32 - 1), (4097, 0), (4097, last - 1)):
        expect(f"ring at {point}", grid.call(r.lookup, *point), nothing)
    expect("open at the top", Lent(1, 3).call(r.lookup, 0, last).refusal, 0)
    grid.call(r.kill, 4)
    for point in ((0, 0), (4096, 0), (0, 4095), (0, last)):
        expect(f"no try over the seam at {point}", grid.call(r.lookup, *point), nothing)
    grid = Lent(1, 3, mode=r.RING)
    grid.call(r.kill, 8)
    expect("the lower one's upper edge", grid.call(r.lookup, 0, 8192), (0, 5, 0, 0))
    for point in ((0, 8193), (0, last - 1), (0, last)):
        expect(f"killed at the top, {point}", grid.call(r.lookup, *point), nothing)


def test_refusal_2_of_modes():
    """02, No. 4: "2 also for a mode that is neither, or a ring with fewer than 3 rows"."""
    for mode in generate.WRONG_MODES:
        expect(f"build of mode {mode}", Lent(1, 3, mode=mode).answer, (2, 0))
    for rows, wanted in ((0, 2), (1, 2), (2, 2), (3, 0), (32, 0), (33, 2)):
        expect(f"ring of {rows} rows", Lent(1, rows, mode=r.RING).answer.refusal, wanted)
    expect("2 before 11", Lent(1, 2, 5, r.RING).answer, (2, 0))
    expect("1 before 2", Lent(1, 2, 4, r.RING).answer, (1, 0))
    expect("2 leaves all", Lent(1, 2, 5, r.RING).table, [-1] * 14 * 6)
    for size, mode in (((1, 3), 2), ((1, 3), 2**32 - 1), ((1, 2), r.RING), ((1, 1), r.RING)):
        grid = Lent(*size)
        grid.header = grid.header._replace(mode=mode)
        before = grid.lists()
        expect("check", grid.check(), 2)
        expect("tape", grid.call(r.tape, refine(2)), (0, 2, 0))
        expect("scan", grid.call(r.scan, 1, [3, 4, 2, 1], 1, -2, 12, [7] * 9), (2, 0, [7] * 9))
        expect("lookup", grid.call(r.lookup, 0, 0), (2, 0, 0, 0))
        expect("page", grid.call(r.page, b"x" * 9), (2, 0, b"x" * 9))
        expect("nothing changed", grid.lists(), before)
        grid.table = [5] * len(grid.table)
        expect("2 before 3", grid.check(), 2)
        grid.values = grid.values[1:]
        expect("1 before 2", grid.check(), 1)


def sound_as(lists):
    """What the checker says of a table lent as an open grid and as a ring."""
    capacity, header, *rest = lists
    return [r.check(capacity, header._replace(mode=mode), *rest) for mode in (r.OPEN, r.RING)]


def lies_at_seam(grid):
    """Whether patches of level 0 lie on both sides of the seam, or in the row that a ring has not."""
    rows, ground = grid.header.rows, {patch for patch in grid.numbers if patch[0] == 0}
    return any(j == rows or j == 0 and (0, i, rows - 1) in ground for _, i, j in ground)


def test_sound_in_one_mode():
    """A ring is no open grid, nor an open grid a ring, unless nothing lies at the seam."""
    expect("a ring", sound_as(Lent(2, 3, mode=r.RING).lists()), [3, 0])
    expect("an open grid", sound_as(Lent(2, 3).lists()), [0, 3])
    expect("an open grid of two rows", sound_as(Lent(2, 2).lists()), [0, 2])
    for mode in (r.OPEN, r.RING):
        grid = Lent(1, 3, mode=mode)
        alone = [0, 3] if mode == r.OPEN else [3, 0]
        low, middle, high = (grid.call(r.lookup, 0, 4096 * row).number for row in range(3))
        expect("the highest killed", (grid.call(r.kill, high), sound_as(grid.lists())), (0, alone))
        expect("the lowest too", (grid.call(r.kill, low), sound_as(grid.lists())), (0, [0, 0]))
        expect("the middle refined", (grid.call(r.refine, middle), sound_as(grid.lists())), (0, [0, 0]))
    for seed, some in itertools.product(range(60), (generate.some_size, generate.ring_size)):
        grid = generate.some_grid(random.Random(seed), some)
        other = 3 if lies_at_seam(grid) else 0
        wanted = [other, 0] if grid.header.mode == r.RING else [0, 2 if grid.header.rows < 3 else other]
        expect(f"sound as, {seed}", sound_as([grid.capacity, *r.drawn(grid)]), wanted)


def test_links_over_the_seam():
    """Each of them dropped, turned to its own row, and given what another one names."""
    grid = refined(2, 3, (0, 0, 2), mode=r.RING)
    capacity, header, table, *rest = generate.lend(grid)
    links = generate.over_seam(grid)
    expect("three columns of level 0, three of level 1, both ways", len(links), 12)
    named = {table[r.WORDS * number + wind] for number, wind in links}
    for number, wind in links:
        place = r.WORDS * number + wind
        for word in {0, number, *named} - {table[place]}:
            spoilt = table[:place] + [word] + table[place + 1 :]
            if r.check(capacity, header, spoilt, *rest) != 3:
                expect(f"word {wind} of row {number} is {word}", 0, 3)


def test_row_above_the_seam():
    """A ring with the points that an open grid has above its highest cells; each of its rows agrees with those it names."""
    lists = generate.row_above(r.built(20, 1, 3, r.RING))
    rows = [lists[2][r.WORDS * number : r.WORDS * (number + 1)] for number in range(12)]
    expect("the ghost names them", rows[3][r.NE : r.NW + 1], [11, 9, 8, 10])
    expect("their links", [rows[number][r.N : r.W + 1] for number in (10, 11)], [[0, 11, 8, 0], [0, 0, 9, 10]])
    expect("no link back", [rows[number][r.N] for number in (8, 9)], [4, 6])
    expect("their flags", [rows[number][r.FLAGS] for number in (10, 11)], [26, 8])
    expect("not sound", sound_as(lists), [3, 3])


def test_turned_rings():
    """A ring looks the same from each of its rows: cells turned round have the same flags and links."""
    for seed in range(30):
        grid, _ = history(random.Random(seed), r.CHECKS, RINGS)
        header, rows = grid.header, grid.header.rows
        kinds = r.walls(header, grid.cells)
        for by in range(1, rows):
            cells = {turned(cell, by, rows) for cell in grid.cells}
            its_kinds = r.walls(header, cells)
            points = r.points(header, grid.cells)
            expect(f"points, {seed} by {by}", {turned(point, by, rows) for point in points}, r.points(header, cells))
            for point in points:
                one = r.flags(header, point, grid.cells, kinds, {})
                other = r.flags(header, turned(point, by, rows), cells, its_kinds, {})
                if one != other:
                    expect(f"flags of {point} turned by {by}", other, one)


# ------------------------------------------------------------ No. 5: how many cells still lack a measurement


def counted(levels):
    """Counts by hand: those of some levels, blank, measured and carried."""
    return [number for level in range(13) for number in levels.get(level, (0, 0, 0))]


def test_counts_of_requests():
    """Every request that changes a leaf, by hand: two cells, of which 4 is refined and 6 killed."""
    grid = Lent(2, 1)
    for name, requests, wanted in [
        ("built", b"", {0: (2, 0, 0)}),
        ("a blank cell refined", refine(4), {0: (1, 0, 0), 1: (4, 0, 0)}),
        ("a kid measured", value(10, 1), {0: (1, 0, 0), 1: (3, 1, 0)}),
        ("measured again", value(10, 2), {0: (1, 0, 0), 1: (3, 1, 0)}),
        ("6 measured", value(6, 0), {0: (0, 1, 0), 1: (3, 1, 0)}),
        ("a measured cell refined", refine(6), {1: (3, 1, 4)}),
        ("a carried one measured", value(16, 5), {1: (3, 2, 3)}),
        ("a carried one refined", refine(17), {1: (3, 2, 2), 2: (0, 0, 4)}),
        ("sentenced", sentence(*range(25, 29)), {1: (3, 2, 2), 2: (0, 0, 4)}),
        ("a sentenced one measured", value(25, 7), {1: (3, 2, 2), 2: (0, 1, 3)}),
        ("removed: a carried cell again", remove(17), {1: (3, 2, 3)}),
        ("removed: a measured cell again", sentence(16, 17, 19, 20) + remove(6), {0: (0, 1, 0), 1: (3, 1, 0)}),
        ("killed", kill(6), {1: (3, 1, 0)}),
        ("removed: a blank cell again", sentence(10, 11, 12, 13) + remove(4), {0: (1, 0, 0)}),
    ]:
        answer = grid.call(r.tape, requests)
        expect(f"{name}, done", (answer.refusal, answer.offset), (0, len(requests)))
        expect(name, grid.counts, counted(wanted))
        expect(f"{name}, sound", grid.check(), 0)


def test_counts_of_a_build():
    for (columns, rows, mode), cells in {(1, 1, r.OPEN): 1, (3, 2, r.OPEN): 6, (1, 3, r.RING): 3, (32, 32, r.OPEN): 1024}.items():
        expect(f"{columns} by {rows}", Lent(columns, rows, 2000, mode).counts, counted({0: (cells, 0, 0)}))
    expect("a refused build leaves them", Lent(1, 2, 8).counts, [9] * 39)


def test_counts_on_the_last_level():
    grid = Lent(1, 1, 200)
    deep = b"".join(refine(n) for n in [2, 6] + [15 + 9 * k for k in range(10)])
    expect("refined", grid.call(r.tape, value(2, 3) + deep).refusal, 0)
    expect("levels 1 to 12", grid.counts, counted({**{level: (0, 0, 3) for level in range(1, 12)}, 12: (0, 0, 4)}))
    expect("asked", r.count(grid.counts, 12, r.CARRIED), (0, 4))


def test_counts_of_a_refused_tape():
    """What was done before the refused request is counted, and nothing of it or behind it."""
    grid = Lent(2, 1)
    expect("8 after two", grid.call(r.tape, refine(4) + value(6, 1) + refine(4) + value(10, 1)), (2, 8, 14))
    expect("counts of two", grid.counts, counted({0: (0, 1, 0), 1: (4, 0, 0)}))
    before = grid.lists()
    accepted = value(10, 1)
    refused = (b"\x06", value(9, 1), value(10, 0x7FF << 52), kill(10), remove(4), refine(11))
    for requests in (accepted[:10], *(one + accepted for one in refused)):
        expect("refused at once", grid.call(r.tape, requests).done, 0)
        expect("nothing changed", grid.lists(), before)


def with_counts(lists, counts):
    return [*lists[:4], counts]


def test_refusals_of_counts():
    """1 for another length, before 2; 3 for other numbers, after 2; a build asks for the length alone."""
    grid = Lent(2, 1)
    grid.call(r.tape, value(4, 5) + refine(4) + value(10, 6))
    lists = grid.lists()
    right = lists[4]
    expect("counts", right, counted({0: (1, 0, 0), 1: (0, 1, 3)}))
    wrong = [right[:place] + [number] + right[place + 1 :] for place, old in enumerate(right) for number in (old + 1, 2**32 - 1)]
    wrong += [counted({0: (0, 0, 0), 1: (0, 2, 3)}), counted({0: (1, 0, 0), 1: (0, 3, 1)}), counted({1: (1, 1, 3)}), right[::-1], [0] * 39]
    for counts in wrong:
        lent = with_counts(lists, counts)
        expect("check", r.check(*lent), 3)
        expect("tape", r.tape(*lent, value(6, 1)), ((0, 3, 0), *lent[1:]))
        expect("a tape of nothing", r.tape(*lent, b""), ((0, 3, 0), *lent[1:]))
    for length in (0, 1, 38, 40, 78):
        lent = with_counts(lists, (right * 2)[:length])
        expect("check 1", r.check(*lent), 1)
        expect("tape 1", r.tape(*lent, b"\x09"), ((0, 1, 0), *lent[1:]))
        expect("build 1", r.build(*lent, 1, 1, r.OPEN), ((1, 0), *lent[1:]))
        expect("build 1 before 2", r.build(*lent, 0, 1, r.OPEN)[0], (1, 0))
        lent[1] = r.Header(0, 1, r.OPEN, 0)
        expect("check 1 before 2", r.check(*lent), 1)
    small = with_counts(lists, [0] * 39)
    small[1] = r.Header(1, 1, 2, 0)
    expect("2 before 3", r.check(*small), 2)
    expect("build on any numbers", r.build(*with_counts(lists, [2**32 - 1] * 39), 1, 1, r.OPEN)[4], counted({0: (1, 0, 0)}))


def test_calls_that_are_not_lent_counts():
    grid = Lent(1, 1)
    for counts in ([], [5] * 39, [0] * 40):
        grid.counts = counts
        expect("scan", grid.call(r.scan, 1, [3, 4, 2, 1], 3, -1, 12, [7] * 2), (0, 1, [2, 7]))
        expect("lookup", grid.call(r.lookup, 0, 0), (0, 2, 0, 0))
        expect("page", grid.call(r.page, bytes(100)).refusal, 0)
        expect("counts stay", grid.counts, counts)


def test_the_question():
    """The number at a place of whatever list; 1, then 23."""
    some = [7 * place + 2**32 - 300 for place in range(39)]
    for level, status in itertools.product(range(13), range(3)):
        expect(f"level {level}, status {status}", r.count(some, level, status), (0, some[3 * level + status]))
    for level, status in ((13, 0), (0, 3), (12, 3), (13, 3), (2**32 - 1, 0), (0, 2**32 - 1), (2**31, 2**31)):
        expect(f"23 of {level}, {status}", r.count(some, level, status), (23, 0))
        for length in (0, 38, 40):
            expect("1 before 23", r.count((some * 2)[:length], level, status), (1, 0))
    for length in (0, 1, 38, 40, 78):
        expect(f"1 of {length}", r.count((some * 2)[:length], 0, 0), (1, 0))
    grid = Lent(2, 1)
    grid.call(r.tape, value(4, 5) + refine(4))
    expect("two blank at first, one now", r.count(grid.counts, 0, r.BLANK), (0, 1))
    expect("four carried", r.count(grid.counts, 1, r.CARRIED), (0, 4))


def counts_by_page(grid):
    """The counts of a page's lines."""
    lines = [line.split() for line in r.page_text(grid).decode().splitlines()[1:-1]]
    found = collections.Counter((int(level), "nmc".index(letter)) for _, level, _, _, letter, _ in lines)
    return [found[level, status] for level in range(13) for status in range(3)]


def test_counts_by_page():
    for seed, some in itertools.product(range(40), (generate.some_size, generate.ring_size)):
        grid = generate.some_grid(random.Random(seed), some)
        expect(f"counts of {seed}", r.leaf_counts(grid), counts_by_page(grid))


def test_damaged_counts():
    """Damage that changes the counts is refused 3, and damage to their length 1."""
    told = collections.Counter()
    for seed in range(120):
        rng = random.Random(seed)
        grid = generate.some_grid(rng)
        lists, right = generate.lend(grid), r.leaf_counts(grid)
        generate.damage_counts(rng, grid, lists)
        answer = r.check(*lists)
        told[answer] += 1
        expect(f"damaged counts {seed}", answer, 0 if lists[4] == right else 3)
        expect(f"damaged counts {seed}, numbers", all(0 <= number < 2**32 for number in lists[4]), True)
    expect("mostly refused", told[3] > 90, True)


# ------------------------------------------------------------ random grids


def random_step(rng, grid):
    """One request on a grid of sets, with a number that often suits it."""
    kind = rng.choice((1, 1, 1, 2, 2, 2, 3, 3, 4, 5))
    number = rng.randint(1, max(grid.numbers.values()))
    pattern = rng.choice((0, 1 << 63, bits(rng.random()), 1))
    return r.step(grid, kind, number, pattern)


def edge_by_geometry(wall, cells):
    """Whether a wall lies on the edge of the union, by two points beside it."""
    letter, level, i, j = wall
    x, y = (4 * i + 2, 4 * j) if letter == "H" else (4 * i, 4 * j + 2)
    east, north = (0, 1) if letter == "H" else (1, 0)
    size = 4 << level
    one = (0, (x + east) // size, (y + north) // size) in cells
    other = (0, (x - east) // size, (y - north) // size) in cells
    return one != other


def flags_by_geometry(patch, cells):
    """Flags without Sentenced, straight from 01's sentences."""
    level, i, j = patch
    if level < 0:
        return 0

    def cell(a, b):
        return (level, a, b) in cells

    def wall(letter, a, b):
        sides = (cell(a, b), cell(a, b - 1) if letter == "H" else cell(a - 1, b))
        edge = edge_by_geometry((letter, level, a, b), cells)
        one = sides[0] != sides[1]
        return any(sides), one and edge, one and not edge

    h, v = wall("H", i, j), wall("V", i, j)
    ends = [h, v, wall("H", i - 1, j), wall("V", i, j - 1)]
    around = [h, v, wall("H", i, j + 1), wall("V", i + 1, j)]
    bdy = [any(w[1] for w in ends), h[1], v[1], cell(i, j) and any(w[1] for w in around)]
    grn = [any(w[2] for w in ends), h[2], v[2], cell(i, j) and any(w[2] for w in around)]
    word = [cell(i, j), h[0], v[0]] + bdy + grn
    return sum(int(bit) << place for place, bit in enumerate(word))


def leaves_tile(grid):
    """Every 1/4096 square of the level-0 cells lies in one leaf, by area."""
    area = sum(4 ** (12 - cell[0]) for cell in grid.cells if grid.is_leaf(cell))
    return area == 4**12 * sum(cell[0] == 0 for cell in grid.cells)


def unrolled(grid):
    """The cells; of a ring three times, one above the other: whatever is near a place of the ring is
    near it there, with no row counted round."""
    rows, mode = grid.header.rows, grid.header.mode
    laps = (0, rows, -rows) if mode == r.RING else (0,)
    return {(level, i, j + (lap << level)) for level, i, j in grid.cells for lap in laps}


def links_by_geometry(grid, patch):
    """The numbers to the north, east, south and west; a ring's rows from level 0 up go round."""
    level, i, j = patch
    places = [(level, i, j + 1), (level, i + 1, j), (level, i, j - 1), (level, i - 1, j)]
    if grid.header.mode == r.RING and level >= 0:
        top = (grid.header.rows << level) - 1
        places[0] = (level, i, 0) if j == top else places[0]
        places[2] = (level, i, top) if j == 0 else places[2]
    return [grid.numbers.get(place, 0) for place in places]


def patches_by_geometry(grid):
    """The corners of the unrolled cells in the rectangle's rows, and what lies over them."""
    rows, mode = grid.header.rows, grid.header.mode
    corners = r.points(grid.header._replace(mode=r.OPEN), unrolled(grid))
    if mode == r.RING:
        corners = {place for place in corners if 0 <= place[2] < rows << place[0]}
    found, level = set(corners), {place for place in corners if place[0] == 0}
    for _ in range(max(grid.header.columns, rows).bit_length()):
        level = {(place[0] - 1, place[1] >> 1, place[2] >> 1) for place in level}
        found |= level
    return found


def test_random_grids():
    for mode in (r.OPEN, r.RING):
        random_grids(random.Random(1), mode)


def random_grids(rng, mode):
    for _ in range(40):
        grid = r.built(200, rng.randint(1, 6), rng.randint(3 if mode == r.RING else 1, 6), mode)
        accepted = 0
        for _ in range(60):
            before = r.drawn(grid)
            refusal = random_step(rng, grid)
            after = r.drawn(grid)
            accepted += refusal == 0
            if refusal and before != after:
                expect(f"refusal {refusal} changes nothing", before, after)
        expect("mark counts", grid.header.mark, accepted)
        expect("sound", r.check(grid.capacity, *after), 0)
        expect("tiled", leaves_tile(grid), True)
        expect("no jump", jumps(grid), [])
        expect("patches", set(grid.numbers), patches_by_geometry(grid))
        cells = unrolled(grid)
        for patch, number in grid.numbers.items():
            row = after[1][14 * number : 14 * (number + 1)]
            word = row[r.FLAGS] & ~r.SENTENCED
            if word != flags_by_geometry(patch, cells):
                expect(f"flags of {patch}", word, flags_by_geometry(patch, cells))
            if row[r.N : r.W + 1] != links_by_geometry(grid, patch):
                expect(f"links of {patch}", row[r.N : r.W + 1], links_by_geometry(grid, patch))


# ------------------------------------------------------------ generated cases


def generated(kind, count):
    with tempfile.TemporaryDirectory() as name:
        folder = pathlib.Path(name)
        for place in range(count):
            generate.write_case(kind, 1, place, folder)
        return {file.name: file.read_bytes() for file in sorted(folder.iterdir())}


def replay(lines):
    """Whether the reference gives the answer of a check, a tape or questions again."""
    numbers = [[int(word) for word in line.split()] for line in lines]
    (call,), (capacity,), header, table, values, counts, told, answer = numbers[:8]
    lists = capacity, r.Header(*header), table[1:], values[1:], counts[1:]
    if call == generate.CHECK:
        return [r.check(*lists)] == answer
    if call == generate.TAPE:
        taped, *after = r.tape(*lists, bytes(told[1:]))
        after = [list(after[0])] + [[len(one), *one] for one in after[1:]]
        return [list(taped), *after] == numbers[7:]
    if call == generate.COUNT:
        answers = [r.count(lists[4], *question) for question in zip(told[1::2], told[2::2])]
        return [len(answers), *itertools.chain(*answers)] == answer
    return True


def test_generated():
    for kind in [*generate.CASES, "programs"]:
        files = generated(kind, 12)
        expect(f"{kind} again", generated(kind, 12), files)
        if kind != "programs":
            lines = [content.decode().splitlines() for content in files.values()]
            expect(f"{kind} replayed", all(map(replay, lines)), True)


# ------------------------------------------------------------ vectors


def vectors(folder):
    inputs = sorted(folder.glob("*.in"))
    expect("vectors found", bool(inputs), True)
    for given in inputs:
        wanted = given.with_suffix(".out").read_bytes()
        expect(f"vector {given.name}", r.program(given.read_bytes()), wanted)


def stored_calls(folder):
    for place, one in enumerate(calls.stored(folder)):
        columns, rows, mode = one.size
        grid = Lent(columns, rows, one.capacity, mode)
        expect(f"call {place}, tape", grid.call(r.tape, one.requests), one.taped)
        expect(f"call {place}, left", grid.lists()[1:], one.left)
        page = grid.call(r.page, bytes(20000))
        expect(f"call {place}, page", page.output[: page.count], one.page)
        for point, found in one.lookups:
            expect(f"call {place}, lookup {point}", grid.call(r.lookup, *point), found)


def main():
    for test in [test for name, test in globals().items() if name.startswith("test_")]:
        test()
    folder = pathlib.Path(sys.argv[1]) if len(sys.argv) > 1 else VECTORS
    vectors(folder)
    stored_calls(folder)
    print(f"{OUTCOMES['passed']} passed, {OUTCOMES['failed']} failed")
    return 1 if OUTCOMES["failed"] else 0


if __name__ == "__main__":
    sys.exit(main())
