"""Calls of the library for the program `trials`, and what the reference answers and leaves.

    python3 trials.py                                crates/trials/stdin and stdout
    python3 trials.py KIND SEED COUNT STDIN STDOUT   COUNT cases of one kind, of another seed

KIND is damaged, tapes, scans, lookups, pages, older, rings or counts.
crates/trials/src/main.rt says what the program reads: it keeps the words, the values,
the counts and fourteen numbers from call to call, so that a case is given by what
differs from the case before.  It writes a line for each call: the answer, then the
header that the call left and the sums by place of all words, of all values and of all
counts.  The calls of vectors/calls.jsonl have the answers stored there; only of their
builds the reference tells the answer.
"""

import copy
import itertools
import pathlib
import random
import sys

import calls
import generate as g
import reference as r

WORDS, VALUES, NUMBERS = 1, 2, 3
CHECK, BUILD, TAPE, SCAN, LOOKUP, PAGE, SWEEP, COUNTS, COUNT = range(4, 13)
ROOM = {WORDS: 2844, VALUES: 231, COUNTS: 69, NUMBERS: 14}  # the places that the program has
SCAN_ROOM, PAGE_ROOM = 256, 16384
SWEPT = 64
MOST_BYTES = 4096
HEAD = 8
HERE = pathlib.Path(__file__).parent

MINUS_ZERO, NAN, INFINITE = 1 << 63, 0x7FF8000000000000, 0x7FF0000000000000

# ------------------------------------------------------------ runs


def code(word):
    return word if word >= 0 else 2**31 - word - 1


def decode(number):
    return number if number < 2**31 else 2**31 - number - 1


def bytes_of(number):
    """The bytes of an item that can hold the number."""
    return max(1, (number.bit_length() + 7) // 8)


def run_of_bytes(kind, start, body, size):
    return b"".join(n.to_bytes(2, "big") for n in (kind, start, len(body), size)) + body


def run(kind, start, items, size):
    return run_of_bytes(kind, start, b"".join(item.to_bytes(size, "big") for item in items), size)


def gathered(places, new):
    """The places to be changed, gathered to runs: (first, last, bytes of an item)."""
    runs = []
    for at, place in enumerate(places):
        size = bytes_of(new[place])
        if runs:
            first, last, old = runs[-1]
            most = max(size, *(bytes_of(new[k]) for k in range(last + 1, place + 1)), old)
            longer = (place - first + 1) * most
            grown = longer - (last - first + 1) * old
            following = places[at : at + 8]
            narrow = len(following) == 8 and all(2 * bytes_of(new[k]) <= old for k in following)
            if grown <= HEAD + size and longer <= MOST_BYTES and not narrow:
                runs[-1] = (first, place, most)
                continue
        runs.append((place, place, size))
    return runs


def changes(kind, old, new):
    """The runs that make the first places of `old` be `new`; `old` is changed too."""
    places = [k for k in range(len(new)) if old[k] != new[k]]
    result = b""
    for first, last, size in gathered(places, new):
        result += run(kind, first, new[first : last + 1], size)
    old[: len(new)] = new
    return result


# ------------------------------------------------------------ sums


def mix(total, items):
    for item in items:
        total = (total * 65599 + item) % 4294967291
    return total


def halves(bits):
    """The two halves of a value's bits. There is one NaN."""
    known = NAN if bits & ~MINUS_ZERO > INFINITE else bits
    return known >> 32, known & 0xFFFFFFFF


# ------------------------------------------------------------ what the program keeps


class Desk:
    """What is lent, what the program reads, and what it must write."""

    def __init__(self):
        self.words, self.values, self.counts, self.numbers = ([0] * ROOM[k] for k in (WORDS, VALUES, COUNTS, NUMBERS))
        self.data, self.lines = [], []

    def lend(self, lists, *arguments):
        """Header, table, values and counts; without counts those of the calls before stay."""
        capacity, header, table, values, *counts = lists
        told = [*header, capacity, len(table), len(values)]
        self.data.append(changes(WORDS, self.words, [code(word) for word in table]))
        self.data.append(changes(VALUES, self.values, values))
        self.lend_counts(told, *counts or [self.counts[: self.numbers[7]]], *arguments)

    def lend_counts(self, told, counts, *arguments):
        self.data.append(changes(COUNTS, self.counts, counts))
        self.data.append(changes(NUMBERS, self.numbers, [*told, len(counts), *arguments]))

    def kept(self, capacity):
        """What was lent last and left, lent again with another capacity, and as many counts as are right."""
        header, rows = r.Header(*self.numbers[:4]), capacity + 1
        table = [decode(word) for word in self.words[: r.WORDS * rows]]
        return [capacity, header, table, self.values[:rows], self.counts[: r.PLACES]]

    def leave(self, kind, items, answer, left=()):
        """The call itself, and its line: the answer, and what the call left."""
        self.data.append(run_of_bytes(kind, 0, bytes(items), 1))
        if left:
            header, table, values, *counts = left
            self.words[: len(table)] = [code(word) for word in table]
            self.values[: len(values)] = values
            for counted in counts:
                self.counts[: len(counted)] = counted
            self.numbers[:4] = header
        sums = mix(1, self.words), mix(1, (x for bits in self.values for x in halves(bits))), mix(1, self.counts)
        self.lines.append(" ".join(map(str, [*answer, *self.numbers[:4], *sums])) + " \n")

    def check(self, lists):
        self.lend(lists)
        self.leave(CHECK, b"", [r.check(*lists)])

    def build(self, lists, *size):
        self.lend(lists, *size)
        answer, *left = r.build(*lists, *size)
        self.leave(BUILD, b"", answer, left)
        return [lists[0], *left]

    def tape(self, lists, requests):
        return self.taped(lists, requests, *r.tape(*lists, requests))

    def taped(self, lists, requests, answer, *left):
        self.lend(lists)
        self.leave(TAPE, requests, answer, left)
        return [lists[0], *left]

    def scan(self, lists, arguments, length, filler):
        start, order, kind, first, last = arguments
        self.lend(lists[:4], start, kind, code(first), code(last), length, filler)
        answer, *left = r.scan(*lists[:4], *arguments, [filler] * length)
        out = list(answer.output) + [filler] * (SCAN_ROOM - length)
        self.leave(SCAN, order, [*answer[:2], mix(1, out)], left)

    def page(self, lists, length, filler):
        self.paged(lists, length, filler, r.page(*lists[:4], bytes([filler]) * length)[0])

    def paged(self, lists, length, filler, answer):
        self.lend(lists[:4], 0, 0, 0, 0, length, filler)
        out = bytes(answer.output) + bytes([filler]) * (PAGE_ROOM - length)
        self.leave(PAGE, b"", [*answer[:2], mix(1, out)])

    def lookup(self, lists, speed, load):
        self.looked(lists, speed, load, r.lookup(*lists[:4], speed, load)[0])

    def looked(self, lists, speed, load, answer):
        self.lend(lists[:4], speed, load)
        refusal, number, status, bits = answer
        shown = [f"{bits:016x}"] if status else []
        self.leave(LOOKUP, b"", [refusal, number, status, *shown])

    def count(self, counts, level, status):
        """The counts alone are lent; what else was lent before stays."""
        self.lend_counts(self.numbers[:7], counts, level, status)
        self.leave(COUNT, b"", r.count(counts, level, status))

    def sweep(self, lists, speed, load, step):
        """Lookups of 64 times 64 points; the checks 1, 2 and 3 are the same for all."""
        self.lend(lists[:4], speed, load, step)
        refusal, grid = r.admit(*lists[:4])
        total = 1
        for up, east in itertools.product(range(SWEPT), range(SWEPT)):
            x, y = (speed + east * step) % 2**32, (load + up * step) % 2**32
            leaf = None if refusal else r.found_leaf(grid, x, y)
            if leaf is None:
                total = mix(total, (refusal or 19, 0, 0))
                continue
            status, bits = grid.value(leaf)
            total = mix(total, (0, grid.numbers[leaf], status, *(halves(bits) if status else ())))
        self.leave(SWEEP, b"", [total])


# ------------------------------------------------------------ damaged tables


def small_grid():
    """01's P3 with a value, a sentenced cell and a free row."""
    grid = r.built(15, 1, 1, r.OPEN)
    for kind, number, bits in ((r.SET_VALUE, 2, 0x4045000000000000), (r.REFINE, 2, 0), (r.SENTENCE, 9, 0)):
        if r.step(grid, kind, number, bits):
            raise ValueError("a request of the small grid is refused")
    return grid


def each_word():
    """Every word of a small table in turn, one more and far off; where the table then claims other counts, with those too."""
    lists = g.lend(small_grid())
    for place, old in enumerate(lists[2]):
        for word in (old + 1, g.signed(old ^ 1 << 31)):
            table = list(lists[2])
            table[place] = word
            yield [lists[0], lists[1], table, *lists[3:]]
            claimed = g.recount([lists[0], lists[1], table, *lists[3:]])
            if claimed[4] != lists[4]:
                yield claimed


def each_flag():
    """Every flag of every row of a small table in turn."""
    lists = g.lend(small_grid())
    for number in range(lists[0] + 1):
        for bit in range(14):
            table = list(lists[2])
            table[r.WORDS * number + r.FLAGS] ^= 1 << bit
            yield g.recount([lists[0], lists[1], table, *lists[3:]])


def each_value():
    """Every value of a small table in turn: -0, a NaN, infinite, and with a flipped bit."""
    lists = g.lend(small_grid())
    for place, old in enumerate(lists[3]):
        for bits in (MINUS_ZERO, NAN, INFINITE, old ^ 1, old ^ MINUS_ZERO):
            yield [*lists[:3], lists[3][:place] + [bits] + lists[3][place + 1 :], lists[4]]


def each_length():
    """A small table at every length of the table, of the values and of the counts, and every small capacity."""
    capacity, header, table, values, counts = g.lend(r.built(5, 1, 1, r.OPEN))
    for length in range(len(table) + 16):
        yield [capacity, header, (table + [0] * 16)[:length], values, counts]
    for length in range(len(values) + 4):
        yield [capacity, header, table, (values + [0] * 4)[:length], counts]
    for length in range(len(counts) + 4):
        yield [capacity, header, table, values, (counts + [0] * 4)[:length]]
    for other in range(12):
        room = r.WORDS * (other + 1)
        yield [other, header, (table + list(r.FREE_ROW) * 7)[:room], (values + [0] * 7)[: other + 1], counts]


def each_size():
    """A sound table under every number of columns and of rows, and under many modes; of both modes."""
    for size in ((2, 2, r.OPEN), (2, 4, r.RING)):
        capacity, header, *lists = g.lend(r.built(20, *size))
        for size in (*range(36), 64, 2**16, 2**31, 2**32 - 1):
            yield [capacity, header._replace(columns=size), *lists]
            yield [capacity, header._replace(rows=size), *lists]
        for mode in (r.OPEN, r.RING, *g.WRONG_MODES):
            yield [capacity, header._replace(mode=mode), *lists]


PLAIN = (g.damage_word, g.damage_used_word, g.damage_flag, g.damage_value, g.damage_status)


def damaged_lists(rng, sound, count):
    """Damaged and sound lists of one grid."""
    for _ in range(count):
        grid = copy.deepcopy(sound)
        lists = g.lend(grid)
        if not g.chance(rng, 16):
            g.damage(rng, grid, lists)
        if g.chance(rng, 8) and lists[0] == sound.capacity and not r.refuses_lengths(lists[0], *lists[2:]):
            rng.choice(PLAIN)(rng, sound, lists)
            if g.chance(rng, 2):
                g.recount(lists)
        yield lists


def fixed_damage(desk):
    for lists in (*each_word(), *each_flag(), *each_value(), *each_length(), *each_size()):
        desk.check(lists)


def damaged(desk, rng, count, of_one=3):
    for first in range(0, count, of_one):
        for lists in damaged_lists(rng, g.some_grid(rng), min(of_one, count - first)):
            desk.check(lists)


# ------------------------------------------------------------ the other calls


def some_start(desk, rng):
    """A build in whatever was lent before, its lists, and the grid."""
    columns, rows, mode = g.some_size(rng)
    need = len(r.built(5, columns, rows, mode).numbers)
    capacity = g.some_capacity(rng, need)
    if g.chance(rng, 8):
        columns, rows = rng.choice(((0, 1), (1, 0), (33, 1), (columns, 2**32 - 1), (8, 8)))
    words, room = r.WORDS * (capacity + 1), capacity + 1
    if g.chance(rng, 12):
        words, room = words + rng.randint(-1, 1), room + rng.randint(-1, 1)
    garbage = [g.some_word(rng) for _ in range(rng.choice((0, 20)))]
    table = (garbage + [0] * words)[:words]
    counts = g.some_counts(rng) if g.chance(rng, 12) else [0] * r.PLACES
    return desk.build([capacity, r.Header(5, 6, 7, 8), table, [0] * room, counts], columns, rows, mode)


def grid_of(lists):
    return r.admit(*lists)[1]


def tapes_on(desk, rng, lists, count):
    """Tapes one after the other on what the ones before left, refused requests among them."""
    for _ in range(count):
        grid = grid_of(lists)
        lists = desk.tape(lists, g.some_tape(rng, grid, rng.choice((1, 6, 20, 60)))[:MOST_BYTES])


def tapes(desk, rng, count):
    """Tapes on builds and on sound grids."""
    done = 0
    while done < count:
        lists = some_start(desk, rng)
        if g.chance(rng, 2):
            lists = g.lend(g.some_grid(rng))
        some = rng.randint(1, 12) if grid_of(lists) else 0
        tapes_on(desk, rng, lists, some)
        done += some


ORDERS = list(itertools.permutations((r.NE, r.SE, r.SW, r.NW)))


def scans(desk, rng, count):
    """Of each grid: every kind in every order, every pair of levels, and wild ones."""
    done = 0
    while done < count:
        grid = g.some_grid(rng)
        lists, top = g.lend(grid), r.root(grid.header)[0]
        deepest = max(cell[0] for cell in grid.cells)
        plain = [(1, order, kind, top, 12) for kind in range(1, 7) for order in rng.sample(ORDERS, 4)]
        levels = itertools.combinations_with_replacement(range(top, deepest + 2), 2)
        plain += [(1, rng.choice(ORDERS), rng.randint(1, 6), *pair) for pair in levels]
        for arguments in rng.sample(plain, min(len(plain), 40)):
            desk.scan(lists, arguments, SCAN_ROOM, 7)
        for _ in range(20):
            start = g.some_number(rng, grid)
            level = grid.places().get(start, (0, 0, 0))[0]
            kind = rng.choice((0, 7, 255)) if g.chance(rng, 20) else rng.randint(1, 6)
            arguments = (start, g.some_order(rng), kind, *g.some_levels(rng, level))
            found = r.scan(*lists[:4], *arguments, [0] * 250)[0].count
            length = max(0, rng.choice((found, found - 1, found + 1, 250, 0)))
            desk.scan(lists, arguments, length, rng.choice((0, 65535)))
        done += 60


def corners_and_extremes(cells):
    """Of one coordinate: at, before and after the edges of so many level-0 cells, and the last of 32 bits."""
    near = [edge + by for edge in range(0, 4096 * cells + 1, 4096) for by in (-1, 0, 1) if edge + by >= 0]
    return [*near, 2**31, 2**32 - 2, 2**32 - 1]


def one_killed(capacity, size, cells):
    """A grid with each of some level-0 cells killed in turn."""
    for number in cells:
        grid = r.built(capacity, *size)
        if r.step(grid, r.KILL, number, 0):
            raise ValueError("a level-0 cell is not killed")
        yield grid


def fixed_lookups(desk):
    """On one cell, and on two by two with each of the four killed in turn, every pair of these."""
    for grid in (r.built(5, 1, 1, r.OPEN), *one_killed(14, (2, 2, r.OPEN), (6, 7, 8, 9))):
        lists = g.lend(grid)
        for speed, load in itertools.product(corners_and_extremes(2), repeat=2):
            desk.lookup(lists, speed, load)


def stored_calls(desk):
    """Build, tape, page and lookups of each line of vectors/calls.jsonl, as they are stored there."""
    for one in calls.stored(HERE / "vectors"):
        rows = one.capacity + 1
        blank = [one.capacity, r.Header(5, 6, 7, 8), [0] * (r.WORDS * rows), [0] * rows, [0] * r.PLACES]
        lists = desk.build(blank, *one.size)
        lists = desk.taped(lists, one.requests, one.taped, *one.left)
        desk.paged(lists, PAGE_ROOM, 46, r.Written(0, len(one.page), one.page.ljust(PAGE_ROOM, b".")))
        for point, found in one.lookups:
            desk.looked(lists, *point, found)


def lookups(desk, rng, count):
    """Points of interest one by one, and every 64th of a unit cell or a finer square."""
    done = 0
    while done < count:
        grid = g.some_grid(rng)
        lists = g.lend(grid)
        for _ in range(20):
            desk.lookup(lists, *g.some_point(rng, grid))
        level, i, j = rng.choice(sorted(grid.cells))
        size = 4096 >> level
        desk.sweep(lists, 0, 0, 64 * max(grid.header[:2]))
        desk.sweep(lists, max(0, i * size - 8), max(0, j * size - 8), max(1, size // 48))
        done += 22


def pages(desk, rng, count):
    """Two of each grid, with room enough or too little."""
    for place in range(count):
        if place % 2 == 0:
            grid = g.some_grid(rng)
        length = len(r.page_text(grid))
        room = max(0, rng.choice((length, length, length - 1, length + 1, PAGE_ROOM, 0)))
        desk.page(g.lend(grid), min(PAGE_ROOM, room), rng.choice((0, 46, 255)))


def small_older():
    """Beside a leaf of level 0 leaves of level 2, with numbers free; and beside four sentenced
    kids a cell refined twice, with none."""
    left, right, finer, finest = (0, 0, 0), (0, 1, 0), (1, 1, 0), (2, 3, 0)
    cells = {left, right, *r.kids(left), *r.kids(finer)}
    more = cells | {*r.kids(right), *r.kids(finest)}
    full = g.pictured(2, 1, more, len(r.patches(r.Header(2, 1, r.OPEN, 0), more)))
    full.sentenced = dict.fromkeys(r.kids(right), True)
    return g.pictured(2, 1, cells, 40), full


def fixed_older(desk):
    """Of small grids with jumps every refinement and every removal, each as one tape."""
    for grid in small_older():
        lists = g.lend(grid)
        desk.check(lists)
        desk.page(lists, PAGE_ROOM, 46)
        for kind, number in itertools.product((r.REFINE, r.REMOVE), range(grid.capacity + 2)):
            desk.tape(lists, g.encode(kind, number))


def older(desk, rng, count):
    """Every call on sound grids that 02's No. 1 does not allow; of each, tapes last."""
    done = 0
    while done < count:
        grid = g.older_grid(rng)
        lists = g.lend(grid)
        desk.check(lists)
        desk.page(lists, PAGE_ROOM, 46)
        desk.scan(lists, (1, rng.choice(ORDERS), rng.randint(1, 6), r.root(grid.header)[0], 12), SCAN_ROOM, 7)
        desk.lookup(lists, *g.some_point(rng, grid))
        desk.sweep(lists, 0, 0, 64 * max(grid.header[:2]))
        some = rng.randint(1, 12)
        tapes_on(desk, rng, lists, some)
        done += 5 + some


# ------------------------------------------------------------ rings


def ring_builds(desk):
    """Rings of many sizes with just room enough and with one number too few, each in what was left before; and what
    is no ring: too few rows, and modes that are none."""
    sizes = [(1, rows) for rows in range(33)] + [(columns, 3) for columns in range(34)]
    sizes += [(2, 4), (3, 5), (5, 7), (7, 5), (8, 8), (9, 9), (15, 6), (16, 7), (4, 17), (3, 31), (2, 32)]
    for columns, rows in sizes:
        right = not r.refuses_size(columns, rows, r.RING)
        need = len(r.built(5, columns, rows, r.RING).numbers) if right else 9
        if need <= 202:
            for capacity in (need - 1, need) if right else (need,):
                desk.build(desk.kept(capacity), columns, rows, r.RING)
    for mode, capacity in itertools.product(g.WRONG_MODES, (4, 5, 9)):
        desk.build(desk.kept(capacity), 1, 3, mode)
    for rows, mode in itertools.product(range(5), (r.OPEN, r.RING)):
        desk.build(desk.kept(30), 2, rows, mode)


def wrong_modes(desk):
    """Every call that is lent a header, with one whose mode is none or whose ring is too short."""
    whole, tall = g.lend(r.built(14, 1, 2, r.OPEN)), g.lend(r.built(9, 1, 3, r.RING))
    for lists, modes in ((whole, (r.RING, 2)), (tall, (2, 2**32 - 1))):
        for mode in modes:
            lent = [lists[0], lists[1]._replace(mode=mode), *lists[2:]]
            desk.check(lent)
            desk.tape(lent, g.encode(r.REFINE, 4))
            desk.tape(lent, b"")
            desk.scan(lent, (1, ORDERS[0], 1, -2, 12), 20, 7)
            desk.scan(lent, (0, (0, 0, 0, 0), 9, 3, -3), 0, 7)
            desk.lookup(lent, 0, 0)
            desk.lookup(lent, 0, 3 * 4096)
            desk.page(lent, 300, 46)
            desk.page(lent, 0, 46)
            desk.check([lent[0], lent[1], lent[2][1:], *lent[3:]])
            desk.check([lent[0], lent[1], [5] + lent[2][1:], *lent[3:]])


def ring_of(capacity, *requests, size=(1, 3), checks=r.CHECKS):
    """A ring after requests, each a kind and a cell, and a value's bits."""
    grid = r.built(capacity, *size, r.RING)
    for kind, cell, *bits in requests:
        if r.step(grid, kind, grid.numbers[cell], *(bits or [0]), checks):
            raise ValueError(f"a request of a small ring is refused: {kind} {cell}")
    return grid


def small_rings():
    """Rings of 1 by 3: as built; with the cell below the seam refined and its kids sentenced; with that above it not yet
    refined, and that below it; all refined, and one above the seam once more, or one below it, with the four across
    sentenced; the level jumping over the seam; without the lowest cell.  And one of 2 by 3."""
    low, middle, high = (0, 0, 0), (0, 0, 1), (0, 0, 2)
    value = 0x4045000000000000

    def refine(*cells):
        return [(r.REFINE, cell) for cell in cells]

    def sentence(cell):
        return [(r.SENTENCE, kid) for kid in r.kids(cell)]

    return (
        ring_of(18),
        ring_of(19, (r.SET_VALUE, high, value), *refine(high), *sentence(high)),
        ring_of(40, *refine(middle, high)),
        ring_of(40, *refine(low, middle)),
        ring_of(40, *refine(low, middle, high, (1, 0, 0)), *sentence(high)),
        ring_of(40, *refine(low, middle, high, (1, 1, 5)), *sentence(low)),
        ring_of(40, *refine(high, (1, 0, 5)), (r.SET_VALUE, low, value), checks=g.CHECKS_OF_01),
        ring_of(18, (r.KILL, low)),
        ring_of(30, *refine(high), (r.KILL, low), size=(2, 3)),
    )


def fixed_rings(desk):
    """Of small rings every request of every number, each as one tape; pages, scans, and the checker in both modes."""
    for grid in small_rings():
        lists = g.lend(grid)
        in_both_modes(desk, lists)
        desk.page(lists, PAGE_ROOM, 46)
        for kind in range(1, 7):
            desk.scan(lists, (1, ORDERS[kind], kind, -2, 12), SCAN_ROOM, 7)
        most = max(grid.numbers.values()) + 1
        for kind, number in itertools.product((r.REFINE, r.SENTENCE, r.REMOVE, r.KILL), range(most + 1)):
            desk.tape(lists, g.encode(kind, number))


def ring_lookups(desk):
    """On a ring of 1 by 3, and with each of the three killed in turn, points at every edge and past the seam."""
    for grid in (r.built(9, 1, 3, r.RING), *one_killed(9, (1, 3, r.RING), (4, 5, 8))):
        lists = g.lend(grid)
        for speed, load in itertools.product(corners_and_extremes(1), corners_and_extremes(3)):
            desk.lookup(lists, speed, load)


def in_both_modes(desk, lists):
    """The checker on a table as it is and with the other mode in its header."""
    desk.check(lists)
    desk.check([lists[0], lists[1]._replace(mode=r.OPEN + r.RING - lists[1].mode), *lists[2:]])


def each_word_of_a_ring():
    """Every word of a small ring in turn, one more; and each link over the seam with every other number in it."""
    grid = small_rings()[1]
    lists = g.lend(grid)
    seam = [(r.WORDS * number + wind, word) for number, wind in g.over_seam(grid) for word in range(grid.capacity + 2)]
    for place, word in [(place, old + 1) for place, old in enumerate(lists[2])] + seam:
        if word != lists[2][place]:
            yield g.recount([lists[0], lists[1], lists[2][:place] + [word] + lists[2][place + 1 :], *lists[3:]])


def fixed_ring_damage(desk):
    """A ring's damaged words; rings with an open grid's highest row of points besides; and open grids and rings of one size,
    each in both modes."""
    for lists in each_word_of_a_ring():
        desk.check(lists)
    for size in ((1, 3), (2, 3), (1, 4), (3, 5), (1, 7), (2, 8)):
        in_both_modes(desk, g.row_above(ring_of(70, size=size)))
        in_both_modes(desk, g.row_above(ring_of(70, (r.REFINE, (0, 0, size[1] - 1)), size=size)))
    for columns, rows in ((1, 3), (2, 4), (3, 5), (1, 8), (4, 3)):
        for mode in (r.OPEN, r.RING):
            in_both_modes(desk, g.lend(r.built(60, columns, rows, mode)))
    for rows, mode in itertools.product((3, 4), (r.OPEN, r.RING)):
        middle = g.pictured(1, rows, {(0, 0, 1)}, 17, mode)  # nothing at the seam
        in_both_modes(desk, g.lend(middle))
        in_both_modes(desk, desk.tape(g.lend(middle), g.encode(r.REFINE, middle.numbers[0, 0, 1])))


def rings(desk, rng, count):
    """Every call on rings, the checker in both modes; of each, tapes last."""
    done = 0
    while done < count:
        grid = g.ring_grid(rng)
        lists = g.lend(grid)
        in_both_modes(desk, lists)
        desk.page(lists, PAGE_ROOM, 46)
        for _ in range(4):
            desk.scan(lists, (1, rng.choice(ORDERS), rng.randint(1, 6), r.root(grid.header)[0], 12), SCAN_ROOM, 7)
            desk.lookup(lists, *g.some_point(rng, grid))
        if grid.capacity < 50:
            desk.sweep(lists, 0, 64 * rng.randint(0, 8), 64 * max(grid.header[:2]))
        refused = list(itertools.chain(*g.refused_by_no_1(rng, grid)))
        for requests in rng.sample(refused, min(3, len(refused))):
            desk.tape(lists, b"".join(g.encode(kind, grid.numbers[cell]) for kind, cell in requests))
        some = rng.randint(4, 12)
        for lent in damaged_lists(rng, grid, some):
            desk.check(lent)
        tapes_on(desk, rng, lists, some)
        done += 13 + 2 * some


# ------------------------------------------------------------ counts

MOST = 2**32 - 1
SOME = 0x4045000000000000


def counted_grid():
    """Two by one, with leaves of every status on two levels, one of them sentenced."""
    grid = r.built(30, 2, 1, r.OPEN)
    requests = (r.SET_VALUE, (0, 0, 0)), (r.REFINE, (0, 0, 0)), (r.SET_VALUE, (1, 0, 0)), (r.SENTENCE, (1, 0, 1))
    for kind, cell in requests:
        if r.step(grid, kind, grid.numbers[cell], SOME):
            raise ValueError(f"a request of the counted grid is refused: {kind} {cell}")
    return grid


def with_counts(lists, changed):
    """The lists with other numbers at some places of the counts."""
    return [*lists[:4], [changed.get(place, number) for place, number in enumerate(lists[4])]]


def each_count(lists):
    """Every place of the counts in turn: one more, one less, and far off."""
    for place, old in enumerate(lists[4]):
        for number in sorted({old + 1, abs(old - 1), old ^ 1 << 31, MOST}):
            yield with_counts(lists, {place: number})


def moved_counts(lists):
    """The right sum with wrong numbers, and the right numbers in wrong places."""
    counts = lists[4]
    for one, other in itertools.permutations([place for place, number in enumerate(counts) if number], 2):
        yield with_counts(lists, {one: counts[one] + 1, other: counts[other] - 1})
        yield with_counts(lists, {one: counts[other], other: counts[one]})
    for turn in (1, 2, 3, -1, -3):
        yield [*lists[:4], counts[turn:] + counts[:turn]]
    yield [*lists[:4], counts[::-1]]
    yield [*lists[:4], [counts[3 * level + status] for status in r.STATUSES for level in range(13)]]
    for statuses in ((0, 2, 1), (1, 0, 2), (2, 1, 0)):
        yield [*lists[:4], [counts[3 * level + status] for level in range(13) for status in statuses]]
    yield [*lists[:4], [0] * r.PLACES]


LENGTHS = (0, 1, 38, 40, 42, ROOM[COUNTS])


def of_lengths(counts):
    return [(counts + [0] * ROOM[COUNTS])[:length] for length in LENGTHS]


def counts_by_check(desk):
    """The checker with counts that disagree, on a grid and on a ring; and what is told before: 1, then 2, then 3."""
    lists = g.lend(counted_grid())
    ring = g.lend(small_rings()[1])
    for lent in (lists, *each_count(lists), *moved_counts(lists), ring, *moved_counts(ring)):
        desk.check(lent)
    sizes = (lists[1], lists[1]._replace(columns=0), lists[1]._replace(mode=2), lists[1]._replace(columns=1))
    for header, counts in itertools.product(sizes, (lists[4], lists[4][1:] + [0], *of_lengths(lists[4]))):
        desk.check([lists[0], header, *lists[2:4], counts])
        desk.check([lists[0], header, [1, *lists[2][1:]], lists[3], counts])
    for counts in of_lengths(lists[4]):
        desk.check([4, lists[1], *lists[2:4], counts])
        desk.check([lists[0], lists[1], lists[2], lists[3][1:], counts])


def counts_by_tape(desk):
    """Tapes with counts that disagree or are too few or too many, and then with the right ones; and a longer tape cut off before each of its
    requests, with one behind it that is refused: what was done before it is counted."""
    lists = g.lend(counted_grid())
    first = g.encode(r.SET_VALUE, 6, SOME)
    for lent in (*moved_counts(lists), *([*lists[:4], counts] for counts in of_lengths(lists[4]))):
        desk.tape(lent, first)
    for requests in (b"", first[:5], g.encode(9, 0)):
        desk.tape(with_counts(lists, {0: 7}), requests)
        desk.tape([*lists[:4], lists[4][:38]], requests)
        desk.tape(lists, requests)
    left, right, fine, finest = (0, 0, 0), (0, 1, 0), (1, 0, 0), (2, 1, 1)

    def removal(cell):
        return [*((r.SENTENCE, kid) for kid in r.kids(cell)), (r.REMOVE, cell)]

    plan = [(r.SET_VALUE, left), (r.REFINE, left), (r.REFINE, right), (r.SET_VALUE, fine), (r.REFINE, fine)]
    plan += [(r.SET_VALUE, finest), (r.SET_VALUE, finest), *removal(fine), *removal(right), (r.KILL, right), *removal(left)]
    start, grid = g.lend(r.built(40, 2, 1, r.OPEN)), r.built(40, 2, 1, r.OPEN)
    done, refused = b"", (g.encode(r.REFINE, 0), g.encode(r.SET_VALUE, 4, INFINITE), g.encode(r.KILL, 1), b"\x09", b"\x01\x00")
    for place, (kind, cell) in enumerate(plan):
        desk.tape(start, done)
        desk.tape(start, done + refused[place % len(refused)] + g.encode(kind, grid.numbers[cell], SOME))
        done += g.encode(kind, grid.numbers[cell], SOME)
        if r.step(grid, kind, grid.numbers[cell], SOME):
            raise ValueError(f"a request of the long tape is refused: {kind} {cell}")
    desk.tape(start, done)


def counts_by_build(desk):
    """Builds on counts of every kind of contents, and on too few or too many: 1 is told before 2 and 11."""
    full = [MOST - place for place in range(ROOM[COUNTS])]
    for columns, rows, mode in ((2, 1, r.OPEN), (1, 3, r.RING), (0, 1, r.OPEN), (3, 3, r.OPEN), (1, 2, r.RING)):
        for length in (39, *LENGTHS):
            desk.build([*desk.kept(10)[:4], full[:length]], columns, rows, mode)
    for size in ((1, 1, r.OPEN), (8, 8, r.OPEN), (1, 32, r.OPEN), (32, 1, r.OPEN), (3, 8, r.RING), (1, 32, r.RING)):
        desk.build([*desk.kept(200)[:4], full[: r.PLACES]], *size)


def counts_asked(desk):
    """Every place of numbers that count nothing, levels and statuses that are none, and lists of other lengths; and of a grid after requests."""
    far = (255, 256, 2**16, 2**31, 2**31 + 1, 2**32 - 3, MOST)
    full = [MOST - 1000003 * place for place in range(ROOM[COUNTS])]
    counts = full[: r.PLACES]
    for level, status in itertools.product((*range(15), *far), (0, 1, 2, 3)):
        desk.count(counts, level, status)
    for level, status in itertools.product((0, 5, 12, 13), far):
        desk.count(counts, level, status)
    for length, level, status in itertools.product(LENGTHS, (0, 12, 13), (0, 2, 3)):
        desk.count(full[:length], level, status)
    lists = g.lend(r.built(40, 2, 1, r.OPEN))
    for requests in ((5, 4), (1, 4), (1, 6), (5, 10), (2, 10), (4, 6)):
        lists = desk.tape(lists, g.encode(*requests, SOME))
        for level, status in itertools.product((0, 1, 2), r.STATUSES):
            desk.count(lists[4], level, status)


def fixed_counts(desk):
    counts_by_check(desk)
    counts_by_tape(desk)
    counts_by_build(desk)
    counts_asked(desk)


def counts(desk, rng, count):
    """Of each grid: checks and tapes with counts that disagree, questions, and tapes, each with questions behind it."""
    done = 0
    while done < count:
        grid = rng.choice((g.some_grid, g.some_grid, g.ring_grid, g.older_grid))(rng)
        sound = g.lend(grid)
        for _ in range(6):
            lists = copy.deepcopy(sound)
            g.damage_counts(rng, grid, lists)
            desk.check(lists)
            desk.tape(lists, g.some_tape(rng, copy.deepcopy(grid), 3)[:MOST_BYTES])
        lists = sound
        for _ in range(rng.randint(1, 4)):
            lists = desk.tape(lists, g.some_tape(rng, grid_of(lists), rng.choice((1, 6, 20)))[:MOST_BYTES])
            for _ in range(6):
                desk.count(lists[4] if g.chance(rng, 2) else g.some_counts(rng), *g.some_question(rng))
            done += 7
        done += 12


KINDS = {
    "damaged": damaged,
    "tapes": tapes,
    "scans": scans,
    "lookups": lookups,
    "pages": pages,
    "older": older,
    "rings": rings,
    "counts": counts,
}


def of_the_gate():
    desk = Desk()
    fixed_damage(desk)
    damaged(desk, random.Random(1), 2000 - len(desk.lines), 50)
    tapes(desk, random.Random(2), 400)
    scans(desk, random.Random(3), 600)
    fixed_lookups(desk)
    lookups(desk, random.Random(4), 220)
    pages(desk, random.Random(5), 60)
    fixed_older(desk)
    older(desk, random.Random(6), 160)
    ring_builds(desk)
    wrong_modes(desk)
    fixed_rings(desk)
    ring_lookups(desk)
    fixed_ring_damage(desk)
    rings(desk, random.Random(7), 600)
    fixed_counts(desk)
    counts(desk, random.Random(8), 200)
    stored_calls(desk)
    return desk


def main():
    if len(sys.argv) == 1:
        folder = HERE.parent / "crates" / "trials"
        files, desk = (folder / "stdin", folder / "stdout"), of_the_gate()
    else:
        kind, seed, count, *names = sys.argv[1:]
        files, desk = tuple(map(pathlib.Path, names)), Desk()
        KINDS[kind](desk, random.Random(f"{kind} {seed}"), int(count))
    files[0].write_bytes(b"".join(desk.data))
    files[1].write_text("".join(desk.lines), encoding="ascii")


if __name__ == "__main__":
    main()
