"""Seeded random cases with the answers of the reference.

    python3 generate.py KIND SEED COUNT FOLDER

KIND is builds, tapes, damaged, scans, lookups, pages, older, rings, counts or
programs.  The same kind, seed and count give the same files.

Kind programs writes NNNN.in and NNNN.out, an input of the program and what it
prints.  Every other kind writes one file KIND-SEED-NNNN.case for each case: one
call on lent lists, and what it must answer.  All its tokens are decimal
numbers separated by single blanks, a minus sign only before table words and
levels.  A list is its length, then its items, on one line.

    line 1   call: 1 build, 2 tape, 3 check, 4 scan, 5 lookup, 6 page, 7 count
    line 2   capacity
    line 3   header: columns rows mode mark
    line 4   table: a list of words, signed 32-bit
    line 5   values: a list of 64-bit patterns, unsigned
    line 6   counts: a list of numbers, unsigned 32-bit
    line 7   arguments
    line 8   answer
    line 9+  what was changed

    call     arguments                           answer
    build    columns rows mode                   refusal count
    tape     list of bytes                       done refusal offset
    check    0                                   refusal
    scan     start order(4) kind from to         refusal count
             output-length filler
    lookup   count, then count times             count, then count times
             speed load                          refusal number status bits
    page     output-length filler                refusal count
    count    count, then count times             count, then count times
             level status                        refusal count

A refusal of 0 is none.  For build and tape lines 9 to 12 are header, table,
values and counts after the call.  For scan and page line 9 is the output after
the call, a list of numbers or of bytes; before it every place holds the filler.
A lookup has status 0 blank, 1 measured, 2 carried.  The calls check, scan,
lookup, page and count leave all that they are lent as it was.  Scan, lookup and
page are not lent the counts, and count is lent nothing else.
"""

import argparse
import copy
import pathlib
import random
import struct

import reference as r

BUILD, TAPE, CHECK, SCAN, LOOKUP, PAGE, COUNT = range(1, 8)
INT_MIN, INT_MAX = -(2**31), 2**31 - 1
EXTREMES = (INT_MIN, -65536, -1, 0, 1, 2, 12, 13, 4095, 8192, 65535, 65536, INT_MAX)

PLAIN_VALUES = (0, 1 << 63, 1, 0x000FFFFFFFFFFFFF, 0x8000000000000001, 0x7FEFFFFFFFFFFFFF)
WRONG_VALUES = (
    0x7FF0000000000000,
    0xFFF0000000000000,
    0x7FF0000000000001,
    0x7FF8000000000000,
    0xFFF8000000000000,
    0x7FFFFFFFFFFFFFFF,
    0xFFFFFFFFFFFFFFFF,
)


def chance(rng, one_in):
    return rng.randrange(one_in) == 0


def finite_value(rng):
    if chance(rng, 3):
        return rng.choice(PLAIN_VALUES)
    return int.from_bytes(struct.pack(">d", rng.uniform(-1000, 1000)), "big")


def some_bits(rng):
    return rng.choice(WRONG_VALUES) if chance(rng, 2) else finite_value(rng)


def some_mark(rng):
    return rng.choice((0, 1, 65535, rng.randint(65500, 65535), rng.randint(0, 65535)))


# ------------------------------------------------------------ requests

# What a request was refused for under 01 alone: by these, older tables came about.
CHECKS_OF_01 = {kind: tuple(no for no in checks if no < 21) for kind, checks in r.CHECKS.items()}


def encode(kind, number, bits=0):
    end = bits.to_bytes(8, "big") if kind == r.SET_VALUE else b""
    return bytes([kind]) + number.to_bytes(2, "big") + end


def leaves(grid):
    return sorted(cell for cell in grid.cells if grid.is_leaf(cell))


def families(grid):
    """The cells whose four kids are leaves."""
    above = {r.parent(leaf) for leaf in leaves(grid) if leaf[0] > 0}
    return sorted(cell for cell in above if all(map(grid.is_leaf, r.kids(cell))))


def refinable(grid):
    """The leaves that are refused 21 or 11 at most, the deepest last."""
    return [leaf for leaf in leaves(grid) if leaf not in grid.sentenced and leaf[0] < 12]


def leaf_over(grid, place):
    """The leaf that a place in the area lies in, or the cell at the place."""
    while place not in grid.cells:
        place = r.parent(place)
    return place


def way(grid, cell):
    """The refinements that 21 wants before a cell's own, and the cell itself last."""
    if not r.too_coarse_beside(grid, cell):
        return [cell]
    around = sorted(place for place in r.beside(grid.header, [cell]) if r.in_union(place, grid.cells))
    coarse = [leaf_over(grid, place) for place in around if place not in grid.cells]
    return list(dict.fromkeys([one for leaf in coarse for one in way(grid, leaf)] + [cell]))


def choose_refine(rng, grid, deep):
    """Refine a leaf, and before it what is too coarse beside it; if deep, of some of the
    deepest the one that wants the fewest others."""
    found = refinable(grid)
    if not found:
        return []
    if deep:
        found = [leaf for leaf in found if leaf[0] == found[-1][0]]
    some = [rng.choice(found) for _ in range(rng.choice((1, 4, 16)) if deep else 1)]
    return [(r.REFINE, one) for one in min((way(grid, leaf) for leaf in some), key=len)]


def removal(rng, grid, cell):
    """Sentence the four kids of a cell in some order, and remove them."""
    four = [one for one in r.kids(cell) if one not in grid.sentenced]
    rng.shuffle(four)
    return [(r.SENTENCE, one) for one in four] + [(r.REMOVE, cell)]


def choose_removal(rng, grid):
    """Sentence four kids that mostly have nothing finer beside them, then mostly remove them."""
    found = families(grid)
    plain = [cell for cell in found if not r.too_fine_beside(grid, cell)]
    if plain and not chance(rng, 8):
        found = plain
    chosen = removal(rng, grid, rng.choice(found)) if found else []
    return chosen[:-1] if chance(rng, 6) else chosen


def choose_kill(rng, grid):
    found = [leaf for leaf in leaves(grid) if leaf[0] == 0]
    several = sum(cell[0] == 0 for cell in grid.cells) > 1
    return [(r.KILL, rng.choice(found))] if found and several else []


def choose_sentence(rng, grid):
    found = [leaf for leaf in leaves(grid) if leaf[0] > 0]
    return [(r.SENTENCE, rng.choice(found))] if found else []


def choose(rng, grid, deep):
    """A few requests that suit the grid, as (kind, cell)."""
    roll = rng.randrange(20)
    if roll < 8:
        return choose_refine(rng, grid, deep)
    if roll < (9 if deep else 13):
        return choose_removal(rng, grid)
    if roll < 14:
        return choose_kill(rng, grid)
    if roll < 16:
        return choose_sentence(rng, grid)
    return [(r.SET_VALUE, rng.choice(leaves(grid)))]


def suitable(rng, grid, count, deep=False):
    """Carry out about `count` accepted requests on a grid; their bytes."""
    requests = []
    for _ in range(3 * count):
        for kind, cell in choose(rng, grid, deep):
            number, bits = grid.numbers[cell], finite_value(rng)
            if r.step(grid, kind, number, bits) == 0:
                requests.append(encode(kind, number, bits))
        if len(requests) >= count:
            break
    return b"".join(requests)


def some_number(rng, grid):
    used = sorted(grid.numbers.values())
    wild = (0, grid.capacity, grid.capacity + 1, 65535, rng.randint(0, grid.capacity + 9))
    cells = sorted(grid.numbers[cell] for cell in grid.cells)
    return rng.choice((rng.choice(used), rng.choice(cells), rng.choice(cells), rng.choice(wild)))


def across(header, place):
    """The neighbour places over a ring's seam."""
    near = [r.neighbour(header, place, wind) for wind in (r.N, r.S)]
    return [one for one in near if abs(one[2] - place[2]) > 1]


def refused_by_no_1(rng, grid):
    """Refinements that 21 refuses; and removals that 22 does, after what 14 asks for.  In a ring often those at its seam."""
    coarse = [leaf for leaf in refinable(grid) if r.too_coarse_beside(grid, leaf)]
    fine = [cell for cell in families(grid) if r.too_fine_beside(grid, cell)]
    if grid.header.mode == r.RING and chance(rng, 2):
        coarse, fine = ([cell for cell in some if across(grid.header, cell)] or some for some in (coarse, fine))
    return [[(r.REFINE, leaf)] for leaf in coarse], [removal(rng, grid, cell) for cell in fine]


def nearly(rng, grid):
    """Whole requests, the last mostly refused late in its list: 8 to 16, 21 or 22."""
    refined = sorted(cell for cell in grid.cells if grid.has_kids(cell))
    free = len(grid.free_numbers())
    found = [
        [[(rng.choice((1, 2, 4, 5)), cell)] for cell in refined],
        [[(rng.choice((2, 3, 4, 5)), cell)] for cell in leaves(grid)],
        [[(r.REMOVE, cell)] for cell in refined],
        [[(r.REFINE, cell)] for cell in leaves(grid) if cell in grid.sentenced],
        *refused_by_no_1(rng, grid),
        [[(r.REFINE, cell)] for cell in refinable(grid) if free < len(r.missing(grid, cell))],
        [[(r.REFINE, cell)] for cell in leaves(grid) if cell[0] == 12],
    ]
    some = [requests for requests in found if requests]
    place = max(rng.randrange(len(some)), rng.randrange(len(some)))  # the rarer stand last
    chosen = rng.choice(some[place])
    return b"".join(encode(kind, grid.numbers[cell], some_bits(rng)) for kind, cell in chosen)


def wild_request(rng, grid):
    """A request that is often refused, for whatever reason, sometimes after others."""
    if chance(rng, 2):
        return nearly(rng, grid)
    roll = rng.randrange(10)
    kind, number = rng.randint(1, 5), some_number(rng, grid)
    whole = encode(kind, number, some_bits(rng))
    if roll == 0:
        return bytes([rng.choice((0, 6, 7, 255, rng.randint(6, 255)))])
    if roll == 1:
        return whole[: rng.randint(1, len(whole) - 1)]
    return whole


def some_tape(rng, grid, most):
    """Accepted requests, and often refused or wild ones behind them."""
    result = suitable(rng, grid, rng.randint(0, most), chance(rng, 4))
    for _ in range(rng.choice((0, 1, 2, 5))):
        wild = wild_request(rng, grid)
        done = r.run(grid, wild).offset
        result += wild if chance(rng, 2) else wild[:done]
    if chance(rng, 4):
        result += suitable(rng, grid, 3)
    if chance(rng, 8):
        result = result[: rng.randint(0, len(result))]
    return result


# ------------------------------------------------------------ grids


def renumber(rng, grid):
    """Another numbering of the same mesh; the root stays 1."""
    top = r.root(grid.header)
    others = sorted(patch for patch in grid.numbers if patch != top)
    numbers = rng.sample(range(2, grid.capacity + 1), len(others))
    grid.numbers = {top: 1, **dict(zip(others, numbers))}


def some_capacity(rng, need):
    tight = need + rng.randint(0, 30)
    return max(5, min(200, rng.choice((need, need + 9, tight, rng.randint(need, 200), 200))))


def some_size(rng):
    most = rng.choice((1, 2, 3, 8))
    return rng.randint(1, most), rng.randint(1, most), r.OPEN


def ring_size(rng):
    """Mostly few rows, so that most of a ring lies at its seam."""
    return rng.choice((1, 1, 2, 3, 5)), rng.choice((3, 3, 3, 4, 5, 7, 8)), r.RING


def go_down(rng, grid, straight):
    """Refine a leaf, then one of its kids, and so on to level 12 if numbers last: straight
    into a corner, where 21 wants the fewest others refined before, or anywhere."""

    def chosen(cells):
        some = rng.sample(cells, len(cells))
        return min(some, key=lambda cell: len(way(grid, cell))) if straight else some[0]

    cell = r.parent(chosen([kid for leaf in leaves(grid) for kid in r.kids(leaf)]))
    while all(r.step(grid, r.REFINE, grid.numbers[one]) == 0 for one in way(grid, cell)):
        cell = chosen(r.kids(cell))


def some_grid(rng, some=some_size):
    """A grid from a fresh build, with any mark, often renumbered."""
    size = some(rng)
    need = len(r.built(5, *size).numbers)
    down = chance(rng, 4)
    grid = r.built(200 if down else some_capacity(rng, need), *size)
    suitable(rng, grid, rng.choice((0, 5, 20, 60)), chance(rng, 4))
    if down:
        go_down(rng, grid, not chance(rng, 3))
    if chance(rng, 3):
        renumber(rng, grid)
    grid.header = grid.header._replace(mark=some_mark(rng))
    return grid


def older_grid(rng, some=some_size):
    """A sound grid that No. 1 does not allow: some requests that it refuses are done."""
    jumps = 0
    while not jumps:
        grid = some_grid(rng, some)
        for _ in range(rng.choice((1, 3, 10))):
            found = [one for one in refused_by_no_1(rng, grid) if one]
            chosen = rng.choice(rng.choice(found)) if found else []
            for kind, cell in chosen:
                done = r.step(grid, kind, grid.numbers[cell], 0, CHECKS_OF_01) == 0
                jumps += done and kind != r.SENTENCE
    return grid


def ring_grid(rng):
    """A ring, now and then one that No. 1 does not allow."""
    return older_grid(rng, ring_size) if chance(rng, 8) else some_grid(rng, ring_size)


def lend(grid):
    """Capacity, header, table, values and counts of a grid, as a list to be damaged."""
    return [grid.capacity, *r.drawn(grid)]


def recount(lists):
    """The counts of what a table's own words claim, in the place of those that are lent."""
    if not r.refuses_lengths(*lists[:1], *lists[2:]):
        claimed = r.decode(*lists[:4])
        lists[4] = lists[4] if claimed is None else r.leaf_counts(claimed)
    return lists


# ------------------------------------------------------------ damage


def some_word(rng):
    return rng.choice((rng.choice(EXTREMES), rng.randint(-3, 210), rng.randint(INT_MIN, INT_MAX)))


def signed(word):
    return (word + 2**31) % 2**32 - 2**31


def damage_word(rng, grid, lists):
    table = lists[2]
    place = rng.randrange(len(table))
    old = table[place]
    change = (some_word(rng), old ^ 1 << rng.randrange(14), old + 1, old - 1, old ^ 1 << 31)
    table[place] = signed(rng.choice(change))


def damage_used_word(rng, grid, lists):
    """A word in use, exchanged for another number that is in use."""
    number = rng.choice(sorted(grid.numbers.values()))
    other = rng.choice(sorted(grid.numbers.values()))
    place = r.WORDS * number + rng.randrange(r.WORDS)
    lists[2][place] = rng.choice((0, other, lists[2][place] ^ 1))


def damage_flag(rng, grid, lists):
    number = rng.choice(sorted(grid.numbers.values()))
    lists[2][r.WORDS * number + r.FLAGS] ^= 1 << rng.randrange(14)


def set_row(table, number, words):
    table[r.WORDS * number : r.WORDS * (number + 1)] = words


def get_row(table, number):
    return table[r.WORDS * number : r.WORDS * (number + 1)]


def damage_row(rng, grid, lists):
    table, capacity = lists[2], grid.capacity
    wild = [some_word(rng) for _ in range(r.WORDS)]
    another = get_row(table, rng.randint(0, capacity))
    words = rng.choice((list(r.NIL_ROW), list(r.FREE_ROW), wild, another))
    set_row(table, rng.randint(0, capacity), words)


def damage_by_swapped_rows(rng, grid, lists):
    table = lists[2]
    one, other = rng.randint(0, grid.capacity), rng.choice(sorted(grid.numbers.values()))
    first, second = get_row(table, one), get_row(table, other)
    set_row(table, one, second)
    set_row(table, other, first)


def damage_by_swapped_links(rng, grid, lists):
    """Two numbers exchanged in the links alone."""
    table = lists[2]
    one, other = rng.sample(sorted(grid.numbers.values()), 2)
    exchange = {one: other, other: one}
    for place in range(len(table)):
        if place % r.WORDS < r.LEVEL:
            table[place] = exchange.get(table[place], table[place])


def damage_by_swapped_numbers(rng, grid, lists):
    """Two numbers exchanged everywhere: sound, unless one is the root's."""
    one, other = rng.sample(range(1, grid.capacity + 1), 2)
    one = 1 if chance(rng, 4) else one
    exchange = {one: other, other: one}
    grid.numbers = {patch: exchange.get(n, n) for patch, n in grid.numbers.items()}
    lists[:] = lend(grid)


def damage_value(rng, grid, lists):
    values = lists[3]
    used = rng.choice(sorted(grid.numbers.values()))
    place = rng.choice((0, rng.randrange(len(values)), used, used))
    flipped = values[place] ^ 1 << rng.randrange(64)
    plain = (0, 1 << 63, finite_value(rng))
    values[place] = rng.choice((flipped, flipped, rng.choice(WRONG_VALUES), rng.choice(plain)))


def damage_status(rng, grid, lists):
    number = rng.choice(sorted(grid.numbers.values()))
    lists[2][r.WORDS * number + r.STATUS] = rng.choice((0, 1, 2, 3, -1))


def damage_header(rng, grid, lists):
    """Columns and rows; within the same bit length a grid may stay sound."""
    columns, rows, mode, _ = lists[1]
    wild = (0, 1, 32, 33, 2**32 - 1, rng.randint(1, 9))
    if chance(rng, 2):
        columns = rng.choice((columns + 1, max(0, columns - 1), rows, rng.choice(wild)))
    else:
        rows = rng.choice((rows + 1, max(0, rows - 1), columns, rng.choice(wild)))
    lists[1] = r.Header(columns, rows, mode, some_mark(rng))


WRONG_MODES = (2, 3, 255, 256, 65536, 65537, 2**31, 2**31 + 1, 2**32 - 1)


def damage_mode(rng, grid, lists):
    """The other mode, or none; a table without a patch at the seam is sound in both."""
    mode = r.OPEN + r.RING - lists[1].mode if chance(rng, 2) else rng.choice(WRONG_MODES)
    lists[1] = lists[1]._replace(mode=mode)


def over_seam(grid):
    """The links over a ring's seam, each as the number of a row and a word of it."""
    return [
        (number, wind)
        for patch, number in sorted(grid.numbers.items())
        for wind in (r.N, r.S)
        for over in [r.neighbour(grid.header, patch, wind)]
        if over in grid.numbers and over in across(grid.header, patch)
    ]


def damage_seam(rng, grid, lists):
    """A link over the seam dropped, doubled, or swapped with another, there or at its other end."""
    found, table = over_seam(grid), lists[2]
    if not found:
        return
    (number, wind), (other, its) = rng.choice(found), rng.choice(found)
    place, another = r.WORDS * number + wind, r.WORDS * other + its
    roll = rng.randrange(4)
    if roll == 0:
        table[place] = 0
    elif roll == 1:
        table[place] = table[another]
    elif roll == 2:
        table[place], table[another] = table[another], table[place]
    else:
        table[r.WORDS * table[place] + r.N + r.S - wind] = rng.choice((0, other, table[place]))


def some_count(rng):
    return rng.choice((0, 1, 2, rng.randint(0, 60), 2**31, 2**32 - 1, rng.getrandbits(32)))


def damage_counts(rng, grid, lists):
    """A count changed; one more here and one less there; or the right numbers in another order."""
    counts, roll = lists[4], rng.randrange(5)
    filled = [place for place, number in enumerate(counts) if number]
    place, other = rng.choice((rng.choice(filled), rng.randrange(r.PLACES))), rng.choice(filled)
    if roll == 0:
        counts[place] = abs(counts[place] + rng.choice((-1, 1)))
    elif roll == 1:
        counts[place], counts[other] = counts[place] + 1, counts[other] - (place != other)
    elif roll == 2:
        counts[place], counts[other] = counts[other], counts[place]
    elif roll == 3:
        turn = rng.choice((1, 2, 3, r.PLACES - 1))
        lists[4] = counts[turn:] + counts[:turn]
    else:
        counts[place] = some_count(rng)


def damage_length(rng, grid, lists):
    which = rng.choice((2, 3, 4))
    if chance(rng, 2):
        lists[which] = lists[which][: rng.randint(0, len(lists[which]))]
    else:
        lists[which] = lists[which] + [0] * rng.randint(1, 30)


def damage_capacity(rng, grid, lists):
    lists[0] = rng.choice((0, 4, 5, grid.capacity - 1, grid.capacity + 1, 4095, 4096, 2**32 - 1))


def garbage(rng, grid, lists):
    """Random words of every length."""
    capacity = rng.choice((0, 4, 5, 5, 6, 7, 20))
    right = r.WORDS * (capacity + 1)
    length = rng.choice((right, right, right + rng.randint(-3, 3), rng.randint(0, 300)))
    count = rng.choice((capacity + 1, capacity + 1, rng.randint(0, 22)))
    lists[0] = capacity
    mode = rng.choice(WRONG_MODES) if chance(rng, 8) else rng.choice((r.OPEN, r.RING))
    lists[1] = r.Header(rng.randint(0, 34), rng.randint(0, 34), mode, some_mark(rng))
    lists[2] = [some_word(rng) for _ in range(max(0, length))]
    lists[3] = [rng.getrandbits(64) * rng.randrange(2) for _ in range(count)]
    lists[4] = [some_count(rng) for _ in range(rng.choice((r.PLACES, r.PLACES, rng.randint(0, 48))))]


def row_above(grid):
    """A ring's lists with the points that an open grid has above its highest cells, each row of them as it is there: they
    name the ring's rows, and of those none but ghosts names them.  None if there are not numbers enough."""
    open_grid = copy.copy(grid)
    open_grid.header = grid.header._replace(mode=r.OPEN)
    top = {cell for cell in grid.cells if cell[0] == 0 and cell[2] == grid.header.rows - 1}
    new = sorted(r.patches(open_grid.header, top) - set(grid.numbers))
    free = grid.free_numbers()
    if not new or len(new) > len(free):
        return None
    more = copy.copy(grid)
    more.numbers = open_grid.numbers = {**grid.numbers, **dict(zip(new, free))}
    lists = lend(more)
    kinds = r.walls(open_grid.header, grid.cells)
    for patch in new:
        set_row(lists[2], more.numbers[patch], r.row(open_grid, patch, kinds))
    return lists


def damage_by_a_row_above(rng, grid, lists):
    lists[:] = row_above(grid) or lists


def fit(grid):
    """Number exactly the patches of the cells again, as far as numbers last."""
    present = r.patches(grid.header, grid.cells)
    grid.numbers = {patch: n for patch, n in grid.numbers.items() if patch in present}
    new = sorted(present - set(grid.numbers))
    grid.numbers.update(zip(new, grid.free_numbers()))


def pictured(columns, rows, cells, capacity, mode=r.OPEN):
    """A grid of any cells."""
    grid = r.Grid(capacity, r.Header(columns, rows, mode, 0), set(cells), {})
    fit(grid)
    return grid


def spoil_cells(rng, grid):
    """Cells that are no mesh: a lost cell, or one outside, too deep or orphaned."""
    cells = sorted(grid.cells)
    level, i, j = rng.choice(cells)
    columns, rows, *_ = grid.header
    outside = [(0, columns, 0), (0, 0, rows), (0, -1, 0), (0, 64, 64), (0, columns + 3, rows)]
    orphan = [(level + 2, 4 * i, 4 * j), (level + 1, 2 * i + 1, 2 * j), (13, i, j), (1, 200, 3)]
    roll = rng.randrange(5)
    if roll == 0:
        grid.cells.discard((level, i, j))
    elif roll == 1:
        grid.cells -= {cell for cell in cells if cell[0] == 0}
    elif roll == 2:
        grid.cells.add(rng.choice(outside))
    else:
        grid.cells.add(rng.choice(orphan))
    if not chance(rng, 4):
        fit(grid)


def too_deep(grid):
    """A column of refinements down to level 13."""
    cell = (0, 0, 0)
    for _ in range(13):
        grid.cells.update(r.kids(cell))
        cell = r.kid(cell, r.SW)
    fit(grid)


def spoil_marks(rng, grid):
    """Sentenced or valued where 01 forbids it, or rightly."""
    patch = rng.choice(sorted(grid.numbers if chance(rng, 3) else grid.cells))
    bits = rng.choice((finite_value(rng), rng.choice(WRONG_VALUES), 0))
    roll = rng.randrange(4)
    if roll == 0:
        grid.sentenced[patch] = True
    elif roll == 1:
        grid.values.pop(patch, None)
    else:
        grid.values[patch] = (rng.choice((0, 1, 2, 2)), bits)


def spoil_patches(rng, grid):
    """A patch too many or too few: a ghost that was kept, a thin patch lost."""
    free = grid.free_numbers()
    level, i, j = rng.choice(sorted(grid.numbers))
    near = [(level, i + 1, j), (level, i, j + 1), (level + 1, 2 * i, 2 * j), (level - 1, i, j)]
    if free and chance(rng, 2):
        grid.numbers.setdefault(rng.choice(near), rng.choice(free))
    else:
        del grid.numbers[(level, i, j)]


def damage_picture(rng, grid, lists):
    """The faithful picture of something that is no mesh, or nearly so."""
    roll = rng.randrange(8)
    if roll < 3:
        spoil_cells(rng, grid)
    elif roll < 5:
        spoil_marks(rng, grid)
    elif roll < 7:
        spoil_patches(rng, grid)
    else:
        too_deep(grid)
    lists[:] = lend(grid)


DAMAGES = (
    damage_word,
    damage_used_word,
    damage_flag,
    damage_row,
    damage_by_swapped_rows,
    damage_by_swapped_links,
    damage_by_swapped_numbers,
    damage_value,
    damage_status,
    damage_header,
    damage_mode,
    damage_counts,
    damage_length,
    damage_capacity,
    garbage,
    damage_picture,
    damage_picture,
)


def damage(rng, grid, lists):
    """One of all damages; to a ring often one at its seam.  The counts are mostly those that a damaged table claims."""
    seam = (*[damage_seam] * 4, damage_by_a_row_above) if grid.header.mode == r.RING else ()
    chosen = rng.choice(DAMAGES + seam)
    chosen(rng, grid, lists)
    if chosen is not damage_counts and not chance(rng, 4):
        recount(lists)


# ------------------------------------------------------------ cases


def listing(items):
    return [len(items), *items]


def lines_of(call, lists, arguments, answer, *changed):
    capacity, header, *kept = lists
    lines = [[call], [capacity], header, *map(listing, kept), arguments, answer]
    return "".join(" ".join(map(str, line)) + "\n" for line in [*lines, *changed])


def build_case(rng, some=some_size):
    columns, rows, mode = some(rng)
    if chance(rng, 8):
        columns = rng.choice((0, 1, 32, 33, 255, 2**32 - 1))
    if chance(rng, 8):
        rows = rng.choice((0, 1, 2, 32, 33, 255, 2**32 - 1))
    if chance(rng, 12):
        mode = rng.choice(WRONG_MODES)
    right = not r.refuses_size(columns, rows, mode)
    need = len(r.built(5, columns, rows, mode).numbers) if right else 5
    least = max(5, need)
    wild = 4096 if chance(rng, 10) else rng.choice((0, 4, 5))
    capacity = rng.choice((least, least, least - 1, least + rng.randint(0, 20), wild))
    words = r.WORDS * (capacity + 1) + (rng.randint(-1, 1) if chance(rng, 10) else 0)
    count = capacity + 1 + (rng.randint(-1, 1) if chance(rng, 10) else 0)
    places = rng.choice((0, 38, 40, 48)) if chance(rng, 10) else r.PLACES
    table = [some_word(rng) for _ in range(words)]
    values, counts = [rng.getrandbits(64) for _ in range(count)], [some_count(rng) for _ in range(places)]
    lists = [capacity, r.Header(5, 6, 7, 8), table, values, counts]
    answer, header, *left = r.build(*lists, columns, rows, mode)
    return lines_of(BUILD, lists, [columns, rows, mode], answer, header, *map(listing, left))


def tape_lines(lists, requests):
    answer, header, *left = r.tape(*lists, requests)
    return lines_of(TAPE, lists, listing(requests), answer, header, *map(listing, left))


def tape_case(rng, some=some_grid):
    grid = some(rng)
    lists = lend(grid)
    return tape_lines(lists, some_tape(rng, grid, rng.choice((3, 20, 80))))


def check_lines(lists):
    return lines_of(CHECK, lists, [0], [r.check(*lists)])


def damaged_case(rng, some=some_grid):
    """Mostly the checker, sometimes another call on the same lists."""
    grid = some(rng)
    lists = lend(grid)
    if not chance(rng, 20):
        damage(rng, grid, lists)
    if not chance(rng, 4):
        return check_lines(lists)
    return other_lines(rng, lists)


def other_lines(rng, lists):
    """Another call than the checker on lists that may be damaged."""
    roll = rng.randrange(4)
    if roll == 0:
        return tape_lines(lists, encode(rng.randint(1, 5), rng.randint(0, 12)) * 2)
    if roll == 1:
        return scan_lines(lists, (1, (3, 4, 2, 1), rng.randint(1, 6), -1, 12), 300)
    if roll == 2:
        return lookup_lines(lists, [(rng.randint(0, 8192), rng.randint(0, 8192))])
    return page_lines(lists, 12000)


def scan_lines(lists, arguments, length, filler=65535):
    start, order, kind, from_level, to_level = arguments
    answer = r.scan(*lists[:4], *arguments, [filler] * length)[0]
    told = [start, *order, kind, from_level, to_level, length, filler]
    return lines_of(SCAN, lists, told, answer[:2], listing(answer.output))


def some_order(rng):
    order = rng.sample((r.NE, r.SE, r.SW, r.NW), 4)
    if chance(rng, 12):
        order[rng.randrange(4)] = rng.choice((0, 1, 2, 3, 4, 5, 255))
    return order


def some_levels(rng, level):
    """From-level and to-level, mostly in order and not below the start's level."""
    first = rng.choice((level, rng.randint(level, 13), rng.randint(level, level + 3)))
    last = rng.choice((first, max(first, 12), first + rng.randint(0, 4), INT_MAX))
    if chance(rng, 20):
        first = rng.choice((INT_MIN, INT_MAX, level - 1, rng.randint(-7, 14)))
    if chance(rng, 20):
        last = rng.choice((INT_MIN, INT_MAX, first - 1 if first > INT_MIN else INT_MAX))
    return first, last


def scan_case(rng, some=some_grid):
    grid = some(rng)
    top = chance(rng, 2)
    start = 1 if top else some_number(rng, grid)
    kind = rng.choice((0, 7, 255)) if chance(rng, 20) else rng.randint(1, 6)
    level = grid.places().get(start, (0, 0, 0))[0]
    arguments = (start, some_order(rng), kind, *some_levels(rng, level))
    lists = lend(grid)
    count = r.scan(*lists[:4], *arguments, [0] * 250)[0].count
    length = max(0, rng.choice((count, count, count - 1, count + 1, count + 7, 250, 0)))
    return scan_lines(lists, arguments, length, rng.choice((0, 65535, 7)))


def lookup_lines(lists, points):
    answers = [word for point in points for word in r.lookup(*lists[:4], *point)[0]]
    told = [word for point in points for word in point]
    return lines_of(LOOKUP, lists, [len(points), *told], [len(points), *answers])


def some_point(rng, grid):
    """Inside, on a corner or edge of a cell, just beside it, or far out."""
    roll = rng.randrange(10)
    columns, rows, mode, _ = grid.header
    if roll == 0:
        far = (0, 4095, 4096, 32 * 4096, 2**31, 2**32 - 1)
        return rng.choice(far), rng.choice(far)
    if roll < 4:
        return rng.randrange(4096 * (columns + 1)), rng.randrange(4096 * (rows + 1))
    if roll < 6 and mode == r.RING:
        return rng.randrange(4096 * columns + 2), rng.choice((0, 1, 4096 * rows - 1, 4096 * rows, 4096 * rows + 1))
    level, i, j = rng.choice(sorted(grid.cells))
    size = 4096 >> level
    shift = (0, -1, 1, size // 2, size - 1, size, size + 1)
    speed, load = i * size + rng.choice(shift), j * size + rng.choice(shift)
    return max(0, speed), max(0, load)


def lookup_case(rng, some=some_grid):
    grid = some(rng)
    return lookup_lines(lend(grid), [some_point(rng, grid) for _ in range(20)])


def page_lines(lists, length, filler=46):
    answer = r.page(*lists[:4], bytes([filler]) * length)[0]
    return lines_of(PAGE, lists, [length, filler], answer[:2], listing(answer.output))


def page_case(rng, some=some_grid):
    grid = some(rng)
    count = len(r.page_text(grid))
    length = rng.choice((count, count, count - 1, count + 1, count + 50, 0))
    return page_lines(lend(grid), length, rng.choice((0, 46, 255)))


def older_case(rng):
    """Tapes above all, and every other call, on grids that No. 1 does not allow."""
    if chance(rng, 4):
        return check_lines(lend(older_grid(rng)))
    return rng.choice((tape_case, tape_case, scan_case, lookup_case, page_case))(rng, older_grid)


def ring_case(rng):
    """Builds of rings, and every other call on them."""
    if chance(rng, 8):
        return build_case(rng, ring_size)
    kinds = (tape_case, tape_case, tape_case, damaged_case, damaged_case, scan_case, lookup_case, page_case)
    return rng.choice(kinds)(rng, ring_grid)


def count_lines(lists, questions):
    answers = [word for question in questions for word in r.count(lists[4], *question)]
    told = [word for question in questions for word in question]
    return lines_of(COUNT, lists, [len(questions), *told], [len(questions), *answers])


def some_question(rng):
    """A level and a status, mostly in range."""
    wild = (13, 14, 255, 256, 2**16, 2**31, 2**32 - 1)
    level = rng.choice(wild) if chance(rng, 8) else rng.choice((rng.randint(0, 3), rng.randint(0, r.LAST_LEVEL)))
    return level, rng.choice((3, *wild)) if chance(rng, 8) else rng.choice(r.STATUSES)


def some_counts(rng):
    """Numbers that count nothing, now and then too few or too many of them."""
    return [some_count(rng) for _ in range(rng.choice((0, 38, 40, rng.randint(0, 48))) if chance(rng, 4) else r.PLACES)]


def count_case(rng):
    """Questions, mostly of a grid's counts; and every other call with counts that are damaged."""
    lists = lend(rng.choice((some_grid, some_grid, ring_grid, older_grid))(rng))
    if chance(rng, 2):
        lists[4] = some_counts(rng) if chance(rng, 3) else lists[4]
        return count_lines(lists, [some_question(rng) for _ in range(20)])
    damage_counts(rng, None, lists)
    return check_lines(lists) if chance(rng, 2) else other_lines(rng, lists)


def program_case(rng):
    """An input of the program."""
    columns, rows, _ = some_size(rng)
    head = bytes([7, columns, rows])
    if chance(rng, 10):
        wild = (b"", b"\x07", b"\x07\x01", b"\x06\x01\x01", b"\x07\x00\x01", b"\x07\x01\x21")
        head = rng.choice(wild + (b"\x07\x20\x20", b"\x07\x1a\x1f"))
        return head + rng.randbytes(rng.choice((0, 5))) * (len(head) == 3)
    if chance(rng, 40):
        return head + encode(r.SET_VALUE, 1) * 6000
    if chance(rng, 40):
        columns, rows = rng.choice(((25, 25), (26, 26), (31, 20)))  # numbers run out soon
        head = bytes([7, columns, rows])
    grid = r.built(r.PROGRAM_CAPACITY, columns, rows, r.OPEN)
    return head + some_tape(rng, grid, rng.choice((10, 60, 200)))


CASES = {
    "builds": build_case,
    "tapes": tape_case,
    "damaged": damaged_case,
    "scans": scan_case,
    "lookups": lookup_case,
    "pages": page_case,
    "older": older_case,
    "rings": ring_case,
    "counts": count_case,
}


def write_case(kind, seed, place, folder):
    """Each case has its own seed, so that one can be made alone."""
    rng = random.Random(f"{kind} {seed} {place}")
    if kind == "programs":
        data = program_case(rng)
        (folder / f"{place:04}.in").write_bytes(data)
        (folder / f"{place:04}.out").write_bytes(r.program(data))
    else:
        name = f"{kind}-{seed}-{place:04}.case"
        (folder / name).write_text(CASES[kind](rng), encoding="ascii")


def main():
    parser = argparse.ArgumentParser(description="Seeded random cases of 01.")
    parser.add_argument("kind", choices=[*CASES, "programs"])
    parser.add_argument("seed", type=int)
    parser.add_argument("count", type=int)
    parser.add_argument("folder", type=pathlib.Path)
    told = parser.parse_args()
    told.folder.mkdir(parents=True, exist_ok=True)
    for place in range(told.count):
        write_case(told.kind, told.seed, place, told.folder)


if __name__ == "__main__":
    main()
