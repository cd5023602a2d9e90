"""A reference of the rules of 01, with 02's No. 1, 2, 4 and 5, written for reading and comparing.

The grid is held as sets: the cells are a set of (level, i, j), the numbers a
dict from patch (level, i, j) to number.  The table is a picture of these and
is never edited: every call decodes it, works on the sets and draws it anew.

Build, tape and the checker take (capacity, header, table, values, counts, their
own arguments) and return (answer, header, table, values, counts); scan, lookup
and page are lent no counts, and take and return the same without them.  `check`
returns its answer only, and so does `count`, which takes the counts, a level and
a status alone.  The lists that were lent are not changed.  A refusal is its
number in 01 or 02, 0 stands for none.  Values are 64-bit patterns, never floats.

02's No. 4 closes the load direction.  The rules are the same in both modes:
whatever goes a step north or south goes by `moved`, which alone counts rows
round a ring; besides it only the refusals, a lookup's first check and the
page's first line ask for the mode.

02's No. 5 keeps counts of the leaves beside the table.  They are never kept up
to date here: whoever leaves them counts all leaves of the sets.
"""

from collections import Counter, namedtuple

Header = namedtuple("Header", "columns rows mode mark")

# Answers.  A blank lookup has status 0 and bits 0.
Built = namedtuple("Built", "refusal count")
Taped = namedtuple("Taped", "done refusal offset")
Written = namedtuple("Written", "refusal count output")
Found = namedtuple("Found", "refusal number status bits")
Count = namedtuple("Count", "refusal count")

# 01, "Rows and header".
WORDS = 14
PARENT, NE, SE, SW, NW, N, E, S, W, LEVEL, I, J, FLAGS, STATUS = range(WORDS)
KID_WINDS = {NE: (1, 1), SE: (1, 0), SW: (0, 0), NW: (0, 1)}
NEIGHBOUR_WINDS = {N: (0, 1), E: (1, 0), S: (0, -1), W: (-1, 0)}
PAGE_ORDER = (SW, NW, SE, NE)  # also the order of a build's kids

COMPLETE, WALL_H, WALL_V = 1 << 0, 1 << 1, 1 << 2
BDY_POINT, BDY_WALL_H, BDY_WALL_V, BDY_CELL = 1 << 3, 1 << 4, 1 << 5, 1 << 6
GRN_POINT, GRN_WALL_H, GRN_WALL_V, GRN_CELL = 1 << 7, 1 << 8, 1 << 9, 1 << 10
PREGNANT, SENTENCED, DEAD = 1 << 11, 1 << 12, 1 << 13
NIL_ROW = (0,) * WORDS
FREE_ROW = (0,) * FLAGS + (DEAD, 0)

BLANK, MEASURED, CARRIED = STATUSES = range(3)
NO_VALUE = (BLANK, 0)

# 01, bounds.
LAST_LEVEL = 12
LEAST_CAPACITY, MOST_CAPACITY = 5, 4095
MOST_SIZE = 32

# 02, No. 4: the modes, with the words that end the page's first line.
OPEN, RING = 0, 1
MODES = ("open", "ring")
LEAST_RING = 3  # rows
UNITS = 1 << LAST_LEVEL  # lookup counts in 1/4096 of a level-0 cell

# 02, No. 5: the places of the counts.
PLACES = len(STATUSES) * (LAST_LEVEL + 1)
PROGRAM_CAPACITY = 1000
PROGRAM_INPUT = 60000


class Grid:
    """A mesh with its numbering, its values and its sentenced marks."""

    def __init__(self, capacity, header, cells, numbers, values=None, sentenced=None):
        self.capacity = capacity
        self.header = header
        self.cells = cells  # set of (level, i, j)
        self.numbers = numbers  # patch -> number
        self.values = values or {}  # cell -> (status, bits); absent is blank
        self.sentenced = sentenced or {}  # leaf -> True; absent is not sentenced

    def value(self, patch):
        return self.values.get(patch, NO_VALUE)

    def places(self):
        return {number: patch for patch, number in self.numbers.items()}

    def has_kids(self, cell):
        """01: a cell's kids are cells."""
        return kid(cell, SW) in self.cells

    def is_leaf(self, patch):
        return patch in self.cells and not self.has_kids(patch)

    def free_numbers(self):
        used = set(self.numbers.values())
        return [n for n in range(1, self.capacity + 1) if n not in used]


# ---------------------------------------------------------------- the mesh


def bit_length(columns, rows):
    """d of 01: the root level is minus d."""
    return max(columns, rows).bit_length()


def root(header):
    return (-bit_length(header.columns, header.rows), 0, 0)


def parent(place):
    level, i, j = place
    return (level - 1, i // 2, j // 2)


def kid(place, wind):
    level, i, j = place
    east, north = KID_WINDS[wind]
    return (level + 1, 2 * i + east, 2 * j + north)


def kids(place):
    return [kid(place, wind) for wind in KID_WINDS]


def moved(header, place, east, north):
    """The place so many steps east and north.  02, No. 4: in a ring the "row index on level k
    counts modulo rows × 2^k", and "ghosts link only as they do in the open mode"."""
    level, i, j = place
    if header.mode == RING and level >= 0:
        return (level, i + east, (j + north) % (header.rows << level))
    return (level, i + east, j + north)


def neighbour(header, patch, wind):
    return moved(header, patch, *NEIGHBOUR_WINDS[wind])


def rectangle(columns, rows):
    return {(0, i, j) for i in range(columns) for j in range(rows)}


def points(header, cells):
    """The patches of levels 0 up: the corners of the cells."""
    return {moved(header, cell, east, north) for cell in cells for east in (0, 1) for north in (0, 1)}


def ghosts(header, corners):
    """The patches below level 0, halved from the level-0 patches, up to the root's level."""
    found = set()
    level = {patch for patch in corners if patch[0] == 0}
    for _ in range(-root(header)[0]):
        level = {parent(patch) for patch in level}
        found |= level
    return found


def patches(header, cells):
    corners = points(header, cells)
    return corners | ghosts(header, corners)


# ---------------------------------------------------------------- the walls

INTERNAL, BOUNDARY, GREEN = "internal", "boundary", "green"


def cell_walls(header, cell):
    """The south, north, west and east wall of a cell."""
    return (
        ("H", *cell),
        ("H", *moved(header, cell, 0, 1)),
        ("V", *cell),
        ("V", *moved(header, cell, 1, 0)),
    )


def point_walls(header, point):
    """The places of the walls that may end at a point: east, west, north, south."""
    return (
        ("H", *point),
        ("H", *moved(header, point, -1, 0)),
        ("V", *point),
        ("V", *moved(header, point, 0, -1)),
    )


def wall_sides(header, wall):
    """The two places that a wall lies between."""
    letter, *place = wall
    return tuple(place), moved(header, place, *((0, -1) if letter == "H" else (-1, 0)))


def in_union(place, cells):
    """Whether a place of level 0 up lies in the union of the level-0 cells."""
    level, i, j = place
    return (0, i >> level, j >> level) in cells


def wall_kind(header, wall, cells):
    """01: with one cell, boundary on the edge of the union, otherwise green."""
    one, other = wall_sides(header, wall)
    if one in cells and other in cells:
        return INTERNAL
    edge = in_union(one, cells) != in_union(other, cells)
    return BOUNDARY if edge else GREEN


def walls(header, cells):
    """All walls of levels 0 up, each with its kind."""
    places = {wall for cell in cells for wall in cell_walls(header, cell)}
    return {wall: wall_kind(header, wall, cells) for wall in places}


# ---------------------------------------------------------------- the picture


def flags(header, patch, cells, kinds, sentenced):
    """The word of flags; a ghost has 0, Pregnant and Dead stay 0.

    `kinds` are the walls with their kinds.
    """
    if patch[0] < 0:
        return 0
    word = 0
    h = kinds.get(("H", *patch))
    v = kinds.get(("V", *patch))
    at_point = [kinds.get(wall) for wall in point_walls(header, patch)]
    word |= WALL_H if h else 0
    word |= WALL_V if v else 0
    word |= BDY_WALL_H if h == BOUNDARY else 0
    word |= BDY_WALL_V if v == BOUNDARY else 0
    word |= GRN_WALL_H if h == GREEN else 0
    word |= GRN_WALL_V if v == GREEN else 0
    word |= BDY_POINT if BOUNDARY in at_point else 0
    word |= GRN_POINT if GREEN in at_point else 0
    if patch in cells:
        around = [kinds[wall] for wall in cell_walls(header, patch)]
        word |= COMPLETE
        word |= BDY_CELL if BOUNDARY in around else 0
        word |= GRN_CELL if GREEN in around else 0
        word |= SENTENCED if sentenced.get(patch) else 0
    return word


def row(grid, patch, kinds):
    """The 14 words of a patch."""
    number = grid.numbers.get
    words = [number(parent(patch), 0)]
    words += [number(kid(patch, wind), 0) for wind in KID_WINDS]
    words += [number(neighbour(grid.header, patch, wind), 0) for wind in NEIGHBOUR_WINDS]
    words += patch
    words.append(flags(grid.header, patch, grid.cells, kinds, grid.sentenced))
    words.append(grid.value(patch)[0])
    return words


def picture(grid):
    """The table and the values of a grid: row 0, then rows 1 to capacity."""
    rows = [FREE_ROW] * (grid.capacity + 1)
    rows[0] = NIL_ROW
    values = [0] * (grid.capacity + 1)
    kinds = walls(grid.header, grid.cells)
    for patch, number in grid.numbers.items():
        rows[number] = row(grid, patch, kinds)
        values[number] = grid.value(patch)[1]
    return [word for words in rows for word in words], values


def leaf_counts(grid):
    """02, No. 5: "a list of 39 leaf counts, level l and status s at place 3l + s"."""
    leaves = Counter((cell[0], grid.value(cell)[0]) for cell in grid.cells if grid.is_leaf(cell))
    return [leaves[level, status] for level in range(LAST_LEVEL + 1) for status in STATUSES]


# ---------------------------------------------------------------- soundness


def is_finite(bits):
    return bits >> 52 & 0x7FF != 0x7FF


def is_mesh(cells, columns, rows):
    """01, "What a mesh is", first point."""
    level_0 = {cell for cell in cells if cell[0] == 0}
    if not level_0 or not level_0 <= rectangle(columns, rows):
        return False
    return all(is_in_place(cell, cells) for cell in cells)


def is_in_place(cell, cells):
    level = cell[0]
    if not 0 <= level <= LAST_LEVEL:
        return False
    if level > 0 and parent(cell) not in cells:
        return False
    count = sum(one in cells for one in kids(cell))
    return count == 0 or count == 4 and level < LAST_LEVEL


def is_valued(grid, cell):
    """01, status: measured, carried and blank cells."""
    status, bits = grid.value(cell)
    above = grid.value(parent(cell)) if cell[0] > 0 else NO_VALUE
    if status == BLANK:
        return bits == 0 and above[0] == BLANK
    if status == MEASURED:
        return is_finite(bits)
    if status == CARRIED:
        return is_finite(bits) and above[0] != BLANK and bits == above[1]
    return False


def is_sound(grid):
    """Whether the sets are a mesh under one numbering, with 01's rules."""
    if not is_mesh(grid.cells, grid.header.columns, grid.header.rows):
        return False
    if set(grid.numbers) != patches(grid.header, grid.cells):
        return False
    if grid.numbers[root(grid.header)] != 1:
        return False
    if not set(grid.values) <= grid.cells:
        return False
    if not all(is_valued(grid, cell) for cell in grid.cells):
        return False
    return all(cell[0] > 0 and grid.is_leaf(cell) for cell in grid.sentenced)


def decode(capacity, header, table, values):
    """The grid that the table's own words claim, or None if two rows claim one place.

    Believed are level, i, j, Complete, Sentenced, status and value; the
    picture decides about all the rest.
    """
    grid = Grid(capacity, header, set(), {})
    for number in range(1, capacity + 1):
        words = table[WORDS * number : WORDS * (number + 1)]
        if words[FLAGS] == DEAD:
            continue
        patch = tuple(words[LEVEL : J + 1])
        if patch in grid.numbers:
            return None
        grid.numbers[patch] = number
        if words[FLAGS] & COMPLETE:
            grid.cells.add(patch)
        if words[FLAGS] & SENTENCED:
            grid.sentenced[patch] = True
        if (words[STATUS], values[number]) != NO_VALUE:
            grid.values[patch] = (words[STATUS], values[number])
    return grid


def admit(capacity, header, table, values, counts=None):
    """Checks 1, 2, 3: a refusal and no grid, or 0 and the grid.  Counts that are not lent are not asked about."""
    header = Header(*header)
    if refuses_lengths(capacity, table, values, counts):
        return 1, None
    if refuses_size(header.columns, header.rows, header.mode):
        return 2, None
    table, values = list(table), list(values)
    grid = decode(capacity, header, table, values)
    if grid is None or not is_sound(grid) or picture(grid) != (table, values):
        return 3, None
    if counts is not None and list(counts) != leaf_counts(grid):
        return 3, None
    return 0, grid


def refuses_places(counts):
    """02, No. 5: "1 also if the list has not 39 places"."""
    return len(counts) != PLACES


def refuses_lengths(capacity, table, values, counts=None):
    if not LEAST_CAPACITY <= capacity <= MOST_CAPACITY:
        return True
    if counts is not None and refuses_places(counts):
        return True
    return len(table) != WORDS * (capacity + 1) or len(values) != capacity + 1


def refuses_size(columns, rows, mode):
    """02, No. 4: "2 also for a mode that is neither, or a ring with fewer than 3 rows"."""
    if mode not in (OPEN, RING) or mode == RING and rows < LEAST_RING:
        return True
    return not (1 <= columns <= MOST_SIZE and 1 <= rows <= MOST_SIZE)


def check(capacity, header, table, values, counts):
    """The checker: 0 for yes, or refusal 1, 2 or 3."""
    return admit(capacity, header, table, values, counts)[0]


def lent(header, *lists):
    """The header and the lists as they were lent."""
    return (Header(*header), *map(list, lists))


def drawn(grid):
    """Header, table, values and counts of a grid."""
    return (grid.header, *picture(grid), leaf_counts(grid))


# ---------------------------------------------------------------- build


def level_order(present, top):
    """01: level by level, by parents in their own order, kids SW, NW, SE, NE."""
    order, level = [], [top]
    while level:
        order += level
        below = [kid(patch, wind) for patch in level for wind in PAGE_ORDER]
        level = [patch for patch in below if patch in present]
    return order


def built(capacity, columns, rows, mode):
    """The blank grid of a rectangle, with mark 0."""
    header = Header(columns, rows, mode, 0)
    cells = rectangle(columns, rows)
    order = level_order(patches(header, cells), root(header))
    numbers = {patch: number for number, patch in enumerate(order, 1)}
    return Grid(capacity, header, cells, numbers)


def build(capacity, header, table, values, counts, columns, rows, mode):
    """Checks 1, 2, 11; the answer is the number in use."""
    before = lent(header, table, values, counts)
    if refuses_lengths(capacity, table, values, counts):
        return (Built(1, 0), *before)
    if refuses_size(columns, rows, mode):
        return (Built(2, 0), *before)
    grid = built(capacity, columns, rows, mode)
    if len(grid.numbers) > capacity:
        return (Built(11, 0), *before)
    return (Built(0, len(grid.numbers)), *drawn(grid))


# ---------------------------------------------------------------- requests

REFINE, SENTENCE, REMOVE, KILL, SET_VALUE = 1, 2, 3, 4, 5

# 01, the table of requests: the checks of each kind, in order.  02, No. 1: "21 for
# refine, after 10 and before 11; 22 for remove, after 14".
CHECKS = {
    REFINE: (6, 7, 8, 9, 10, 21, 11),
    SENTENCE: (6, 7, 8, 12),
    REMOVE: (6, 7, 13, 14, 22),
    KILL: (6, 7, 12, 8, 15),
    SET_VALUE: (6, 7, 8, 16),
}
BODY = {REFINE: 2, SENTENCE: 2, REMOVE: 2, KILL: 2, SET_VALUE: 10}


def refine_order(header, cell):
    """01: kids SW, SE, NW, NE; of north SW, SE; of east NW, SW; of north-east SW."""
    north, east, north_east = (moved(header, cell, *by) for by in ((0, 1), (1, 0), (1, 1)))
    own = [kid(cell, wind) for wind in (SW, SE, NW, NE)]
    own += [kid(north, SW), kid(north, SE), kid(east, NW), kid(east, SW)]
    return own + [kid(north_east, SW)]


def missing(grid, cell):
    """The new patches of a refinement, in order."""
    return [patch for patch in refine_order(grid.header, cell) if patch not in grid.numbers]


def beside(header, places):
    """The places of the same level outside some that share an edge with one of them."""
    around = {neighbour(header, place, wind) for place in places for wind in NEIGHBOUR_WINDS}
    return around - set(places)


def too_coarse_beside(grid, cell):
    """02, No. 1: "a cell above level 0 if one of its four same-level neighbour places
    lies inside the remaining area and is not a cell"."""
    inside = {place for place in beside(grid.header, [cell]) if in_union(place, grid.cells)}
    return cell[0] > 0 and not inside <= grid.cells


def too_fine_beside(grid, cell):
    """02, No. 1: "a same-level cell outside the four that shares an edge with one of
    them has kids"."""
    return any(grid.has_kids(one) for one in beside(grid.header, kids(cell)) & grid.cells)


def given(refusal, grid, kind, patch, bits):
    """Whether a refusal of a request applies; those before it in the list did not."""
    if refusal == 6:
        return patch is None
    if refusal == 7:
        return patch not in grid.cells
    if refusal == 8:
        return grid.has_kids(patch)
    if refusal == 9:
        return patch[0] == LAST_LEVEL
    if refusal == 10:
        return patch in grid.sentenced
    if refusal == 11:
        return len(grid.free_numbers()) < len(missing(grid, patch))
    if refusal == 12:
        return (patch[0] == 0) == (kind == SENTENCE)
    if refusal == 13:
        return not grid.has_kids(patch)
    if refusal == 14:
        return not all(one in grid.sentenced for one in kids(patch))
    if refusal == 15:
        return sum(cell[0] == 0 for cell in grid.cells) == 1
    if refusal == 16:
        return not is_finite(bits)
    if refusal == 21:
        return too_coarse_beside(grid, patch)
    if refusal == 22:
        return too_fine_beside(grid, patch)
    raise ValueError(refusal)


def refine_cell(grid, cell):
    free = grid.free_numbers()
    for patch, number in zip(missing(grid, cell), free):
        grid.numbers[patch] = number
    status, bits = grid.value(cell)
    for one in kids(cell):
        grid.cells.add(one)
        if status != BLANK:
            grid.values[one] = (CARRIED, bits)


def take_away(grid, cells):
    """Take cells away and free every patch that no longer exists."""
    for cell in cells:
        grid.cells.discard(cell)
        grid.values.pop(cell, None)
        grid.sentenced.pop(cell, None)
    left = patches(grid.header, grid.cells)
    grid.numbers = {patch: n for patch, n in grid.numbers.items() if patch in left}


def carry_out(grid, kind, cell, bits):
    if kind == REFINE:
        refine_cell(grid, cell)
    elif kind == SENTENCE:
        grid.sentenced[cell] = True
    elif kind == REMOVE:
        take_away(grid, kids(cell))
    elif kind == KILL:
        take_away(grid, [cell])
    else:
        grid.values[cell] = (MEASURED, bits)


def raise_mark(grid):
    """01: 65,535 is followed by 0."""
    grid.header = grid.header._replace(mark=(grid.header.mark + 1) % 65536)


def step(grid, kind, number, bits=0, checks=CHECKS):
    """One request on a grid: a refusal and no change, or 0 and its effect."""
    patch = grid.places().get(number)
    for refusal in checks[kind]:
        if given(refusal, grid, kind, patch, bits):
            return refusal
    carry_out(grid, kind, patch, bits)
    raise_mark(grid)
    return 0


def request(capacity, header, table, values, counts, kind, number, bits=0):
    """One request as a call of its own; the answer is the refusal."""
    refusal, grid = admit(capacity, header, table, values, counts)
    if not refusal:
        refusal = step(grid, kind, number, bits)
    if refusal:
        return (refusal, *lent(header, table, values, counts))
    return (0, *drawn(grid))


def refine(capacity, header, table, values, counts, number):
    return request(capacity, header, table, values, counts, REFINE, number)


def sentence(capacity, header, table, values, counts, number):
    return request(capacity, header, table, values, counts, SENTENCE, number)


def remove(capacity, header, table, values, counts, number):
    return request(capacity, header, table, values, counts, REMOVE, number)


def kill(capacity, header, table, values, counts, number):
    return request(capacity, header, table, values, counts, KILL, number)


def set_value(capacity, header, table, values, counts, number, bits):
    return request(capacity, header, table, values, counts, SET_VALUE, number, bits)


# ---------------------------------------------------------------- tape


def body(kind, content):
    """The number and the value bits of a request's body, high byte first."""
    number = int.from_bytes(content[:2], "big")
    return number, int.from_bytes(content[2:], "big") if kind == SET_VALUE else 0


def run(grid, requests):
    """Carry out a tape on a grid, up to its first refusal."""
    done = offset = 0
    while offset < len(requests):
        kind = requests[offset]
        if kind not in BODY:
            return Taped(done, 5, offset)
        end = offset + 1 + BODY[kind]
        if end > len(requests):
            return Taped(done, 4, offset)
        refusal = step(grid, kind, *body(kind, requests[offset + 1 : end]))
        if refusal:
            return Taped(done, refusal, offset)
        done, offset = done + 1, end
    return Taped(done, 0, offset)


def tape(capacity, header, table, values, counts, requests):
    """Requests end to end; what was done before a refusal stays."""
    refusal, grid = admit(capacity, header, table, values, counts)
    if refusal:
        return (Taped(0, refusal, 0), *lent(header, table, values, counts))
    return (run(grid, requests), *drawn(grid))


# ---------------------------------------------------------------- count


def count(counts, level, status):
    """02, No. 5: the question, "lent the list alone": 1, then "23 for a level or status out of
    range", or the number at the place.  The list is held against nothing."""
    if refuses_places(counts):
        return Count(1, 0)
    if level > LAST_LEVEL or status not in STATUSES:
        return Count(23, 0)
    return Count(0, counts[len(STATUSES) * level + status])


# ---------------------------------------------------------------- scan


def walk(grid, patch, order, levels):
    """Tree order, a patch before its kids, going down at most `levels` levels."""
    yield patch
    if levels > 0:
        for wind in order:
            one = kid(patch, wind)
            if one in grid.numbers:
                yield from walk(grid, one, order, levels - 1)


def counted(grid, kind, patch, kinds):
    """Whether a scan of this kind writes the patch."""
    if kind == 1:
        return True
    if kind == 2:
        return patch in grid.cells
    if kind == 3:
        return grid.is_leaf(patch)
    if kind == 4:
        return ("H", *patch) in kinds
    if kind == 5:
        return ("V", *patch) in kinds
    return patch[0] >= 0


def scanned(grid, start, order, kind, from_level, to_level):
    """The patches that a scan writes, in order."""
    levels = min(to_level, LAST_LEVEL) - start[0]
    kinds = walls(grid.header, grid.cells)
    return [
        patch
        for patch in walk(grid, start, order, levels)
        if from_level <= patch[0] <= to_level and counted(grid, kind, patch, kinds)
    ]


def refuses_scan(start, order, kind, from_level, to_level):
    """Refusal 17."""
    if sorted(order) != sorted(KID_WINDS) or not 1 <= kind <= 6:
        return True
    return from_level < start[0] or to_level < from_level


def written(content, output):
    """Refusal 18, or the output with its first places filled."""
    if len(content) > len(output):
        return Written(18, 0, output)
    return Written(0, len(content), content + output[len(content) :])


def scan(capacity, header, table, values, start, order, kind, from_level, to_level, output):
    """Checks 6, 17, 18; numbers into `output`, places past the count stay."""
    return (
        scan_answer(
            *admit(capacity, header, table, values),
            start, list(order), kind, from_level, to_level, list(output),
        ),
        *lent(header, table, values),
    )


def scan_answer(refusal, grid, start, order, kind, from_level, to_level, output):
    if refusal:
        return Written(refusal, 0, output)
    patch = grid.places().get(start)
    if patch is None:
        return Written(6, 0, output)
    if refuses_scan(patch, order, kind, from_level, to_level):
        return Written(17, 0, output)
    found = scanned(grid, patch, order, kind, from_level, to_level)
    return written([grid.numbers[one] for one in found], output)


# ---------------------------------------------------------------- lookup


def leaf_at(grid, speed, load):
    """The leaf that holds a point, its lower and left edges counted, or None."""
    for level in range(LAST_LEVEL + 1):
        size = UNITS >> level
        cell = (level, speed // size, load // size)
        if grid.is_leaf(cell):
            return cell
    return None


def tries(speed, load):
    """02, No. 2: the point, then "one unit to the left, one unit down, then both, skipping a try
    below 0"."""
    points = (speed, load), (speed - 1, load), (speed, load - 1), (speed - 1, load - 1)
    return [point for point in points if min(point) >= 0]


def found_leaf(grid, speed, load):
    """02, No. 2: "the first leaf found", or None.  No. 4: in a ring none "at once for a load of
    rows × 4096 or more"."""
    if grid.header.mode == RING and load >= grid.header.rows * UNITS:
        return None
    leaves = (leaf_at(grid, *point) for point in tries(speed, load))
    return next((leaf for leaf in leaves if leaf is not None), None)


def lookup(capacity, header, table, values, speed, load):
    """Refusal 19, or the leaf's number, status and value bits."""
    refusal, grid = admit(capacity, header, table, values)
    leaf = None if refusal else found_leaf(grid, speed, load)
    if leaf is None:
        answer = Found(refusal or 19, 0, *NO_VALUE)
    else:
        answer = Found(0, grid.numbers[leaf], *grid.value(leaf))
    return (answer, *lent(header, table, values))


# ---------------------------------------------------------------- page


def page_line(grid, leaf):
    status, bits = grid.value(leaf)
    level, i, j = leaf
    return f"{grid.numbers[leaf]} {level} {i} {j} {'nmc'[status]} {bits:016x}\n"


def page_text(grid):
    """The dossier page of a grid, as bytes."""
    tree = walk(grid, root(grid.header), PAGE_ORDER, LAST_LEVEL - root(grid.header)[0])
    leaves = [patch for patch in tree if grid.is_leaf(patch)]
    columns, rows, mode, mark = grid.header
    lines = [f"map {columns} {rows} {mark} {MODES[mode]}\n"] + [page_line(grid, leaf) for leaf in leaves]
    text = "".join(lines).encode("ascii")
    return text + f"cells {len(leaves)} sum {sum(text) % 2**32}\n".encode("ascii")


def page(capacity, header, table, values, output):
    """Checks 1, 2, 3, 18; bytes into `output`, places past the count stay."""
    output = bytes(output)
    refusal, grid = admit(capacity, header, table, values)
    answer = Written(refusal, 0, output) if refusal else written(page_text(grid), output)
    return (answer, *lent(header, table, values))


# ---------------------------------------------------------------- program


def refused(refusal, offset):
    return f"refused {refusal} at {offset}\n".encode("ascii")


def refuses_head(data):
    """01: 20, then 4 for empty input, 5, 4 for a missing byte, then the build.  02, No. 4: "The
    program `dossier` builds open grids"."""
    if len(data) > PROGRAM_INPUT:
        return 20
    if not data:
        return 4
    if data[0] != 7:
        return 5
    if len(data) < 3:
        return 4
    if refuses_size(data[1], data[2], OPEN):
        return 2
    if len(built(PROGRAM_CAPACITY, data[1], data[2], OPEN).numbers) > PROGRAM_CAPACITY:
        return 11
    return 0


def program(data):
    """What `dossier` prints for an input."""
    refusal = refuses_head(data)
    if refusal:
        return refused(refusal, 0)
    grid = built(PROGRAM_CAPACITY, data[1], data[2], OPEN)
    answer = run(grid, data[3:])
    if answer.refusal:
        return refused(answer.refusal, answer.offset + 3)
    return page_text(grid)


if __name__ == "__main__":
    import sys

    sys.stdout.buffer.write(program(sys.stdin.buffer.read()))
