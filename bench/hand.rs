//! The seven calls written by hand in safe Rust, for the comparison of speed: from the scope paper alone, with no proof. A table that a caller lends
//! is tested row by row by its links, and its leaves are counted on the way; a request touches the rows near its cell and a few counts alone; along a
//! tape the lowest number that may be free is remembered. Only the build and the checker know of a ring's seam: requests go by the links.

#[repr(C)]
#[derive(Clone, Copy, Debug, PartialEq, Eq)]
pub struct Header {
    pub columns: u32,
    pub rows: u32,
    pub mode: u32,
    pub mark: u16,
}

pub const OPEN: u32 = 0;
pub const RING: u32 = 1;

pub type Row = [i32; 14];
pub const ROW: usize = 14;
const PARENT: usize = 0;
pub const NE: usize = 1;
pub const SE: usize = 2;
pub const SW: usize = 3;
pub const NW: usize = 4;
pub const N: usize = 5;
pub const E: usize = 6;
pub const S: usize = 7;
pub const W: usize = 8;
pub const LEVEL: usize = 9;
pub const I: usize = 10;
pub const J: usize = 11;
pub const FLAGS: usize = 12;
const STATUS: usize = 13;

pub const COMPLETE: i32 = 1 << 0;
const BDY_POINT: i32 = 1 << 3;
const BDY_CELL: i32 = 1 << 6;
const GRN_POINT: i32 = 1 << 7;
pub const GRN_CELL: i32 = 1 << 10;
pub const SENTENCED: i32 = 1 << 12;
const DEAD: i32 = 1 << 13;

/// The kid of a row in the western or eastern half, southern or northern.
const KIDS: [[usize; 2]; 2] = [[SW, NW], [SE, NE]];

const FREE: Row = [0, 0, 0, 0, 0, 0, 0, 0, 0, 0, 0, 0, DEAD, 0];
const LAST_LEVEL: i32 = 12;
const MOST: usize = 4095;
const STATUSES: usize = 3;
pub const PLACES: usize = STATUSES * (LAST_LEVEL as usize + 1);
const EXPONENT: u64 = 0x7ff << 52;

pub fn row(t: &[i32], n: usize) -> &Row {
    t[n * ROW..n * ROW + ROW].try_into().unwrap()
}

fn row_mut(t: &mut [i32], n: usize) -> &mut Row {
    (&mut t[n * ROW..n * ROW + ROW]).try_into().unwrap()
}

/// The row that a word of an untested table names.
fn linked(t: &[i32], word: i32) -> Option<&Row> {
    let at = word as u32 as usize * ROW;
    t.get(at..at + ROW)?.try_into().ok()
}

/// Where the leaves of a level and a status are counted.
fn place(level: i32, status: i32) -> usize {
    STATUSES * level as usize + status as usize
}

/// The levels below level 0.
fn ground_depth(columns: u32, rows: u32) -> u32 {
    32 - columns.max(rows).leading_zeros()
}

// ---- flags

/// The bits of the two walls of a patch, by five bits: whether it, its west and its south neighbour are cells, and whether a wall that has one cell
/// is boundary, for the H-wall and for the V-wall.
const WALLS: [i32; 32] = {
    let mut table = [0; 32];
    let mut at = 0;
    while at < 32 {
        let (c, w, s) = (at & 1, at >> 1 & 1, at >> 2 & 1);
        let bdy_h = (c ^ s) & at >> 3;
        let bdy_v = (c ^ w) & at >> 4;
        let present = (c | s) << 1 | (c | w) << 2;
        table[at as usize] = present | bdy_h << 4 | bdy_v << 5 | (c ^ s ^ bdy_h) << 8 | (c ^ w ^ bdy_v) << 9;
        at += 1;
    }
    table
};

/// The bits of the walls of a row: on level 0 a wall with one cell is boundary, above it if it lies on a boundary wall of the parent.
fn walls(r: &Row, west: i32, south: i32, above: i32) -> i32 {
    let edges = if r[LEVEL] == 0 { 3 } else { above >> 4 & !(r[J] & 1 | (r[I] & 1) << 1) & 3 };
    WALLS[(r[FLAGS] & 1 | (west & 1) << 1 | (south & 1) << 2 | edges << 3) as usize & 31]
}

/// Of some walls that two words have, H-walls in the first and V-walls in the second: bit 0, whether one is boundary; bit 4, whether one is green.
fn outer(h: i32, v: i32) -> i32 {
    (h >> 4 | v >> 5) & 0x11
}

/// The bits of the point, from the walls that end there.
fn point(own: i32, west: i32, south: i32) -> i32 {
    outer(own | west, own | south) << 3
}

/// The bits of the cell, from its four walls.
fn cell(own: i32, north: i32, east: i32) -> i32 {
    outer(own | north, own | east) << 6
}

// ---- the checker

/// What a tape wants to know of a sound table, and how many leaves of each level and status it has.
struct Facts {
    free: usize,
    low: usize,
    ground_cells: usize,
    counts: [u32; PLACES],
}

fn refuse_lengths(t: &[i32], v: &[f64], capacity: u32) -> bool {
    let most = capacity as usize;
    !(5..=MOST).contains(&most) || t.len() != ROW * (most + 1) || v.len() != most + 1
}

fn refuse_size(columns: u32, rows: u32, mode: u32) -> bool {
    mode > RING || !(1..=32).contains(&columns) || !(1..=32).contains(&rows) || mode == RING && rows < 3
}

fn admit(h: &Header, t: &[i32], v: &[f64], capacity: u32) -> Result<Facts, u32> {
    if refuse_lengths(t, v, capacity) {
        return Err(1);
    }
    if refuse_size(h.columns, h.rows, h.mode) {
        return Err(2);
    }
    sound(h, t, v).ok_or(3)
}

/// The same with the counts of the leaves.
fn admit_counted(h: &Header, t: &[i32], v: &[f64], c: &[u32], capacity: u32) -> Result<Facts, u32> {
    if c.len() != PLACES {
        return Err(1);
    }
    let facts = admit(h, t, v, capacity)?;
    if facts.counts != *c {
        return Err(3);
    }
    Ok(facts)
}

/// Every row names its parent, and the parent names the row; so there is a kid word for each row but the root, and if there are no more, none names
/// anything else.
fn sound(h: &Header, t: &[i32], v: &[f64]) -> Option<Facts> {
    let root_level = -(ground_depth(h.columns, h.rows) as i32);
    let mut facts = Facts { free: 0, low: v.len(), ground_cells: 0, counts: [0; PLACES] };
    let mut kids = 0;
    if *row(t, 0) != [0; ROW] || v[0].to_bits() != 0 || !is_root(row(t, 1), root_level) {
        return None;
    }
    for (n, (r, value)) in t.chunks_exact(ROW).zip(v).enumerate().skip(1) {
        let r: &Row = r.try_into().unwrap();
        let bits = value.to_bits();
        if r[FLAGS] == DEAD {
            if r[..FLAGS].iter().fold(r[STATUS], |any, word| any | word) != 0 || bits != 0 {
                return None;
            }
            facts.free += 1;
            facts.low = facts.low.min(n);
            continue;
        }
        let p = linked(t, r[PARENT])?;
        if n != 1 {
            in_tree(h, t, n, r, p, root_level)?;
        }
        let count = r[NE..=NW].iter().filter(|&&kid| kid != 0).count();
        kids += count;
        if r[LEVEL] < 0 {
            if count == 0 || r[FLAGS] | r[STATUS] != 0 || bits != 0 {
                return None;
            }
        } else if r[FLAGS] & COMPLETE == 0 {
            point_agrees(t, r, p)?;
            if r[STATUS] != 0 || bits != 0 {
                return None;
            }
        } else {
            let above = v.get(r[PARENT] as usize)?.to_bits();
            cell_agrees(h, t, r, p, count)?;
            value_agrees(r[STATUS], bits, p[STATUS], above)?;
            facts.ground_cells += (r[LEVEL] == 0) as usize;
            if r[NE] == 0 {
                *facts.counts.get_mut(place(r[LEVEL], r[STATUS]))? += 1;
            }
        }
    }
    (kids + facts.free + 2 == v.len()).then_some(facts)
}

fn is_root(r: &Row, level: i32) -> bool {
    r[FLAGS] != DEAD && r[PARENT] == 0 && r[N..=W] == [0; 4] && r[LEVEL] == level && r[I] == 0 && r[J] == 0
}

/// The parent is one level up at the halved place and names the row, and the neighbours are its kids or its neighbours' kids, or lie over the seam.
/// By induction on the level no two rows have one place.
fn in_tree(h: &Header, t: &[i32], n: usize, r: &Row, p: &Row, root_level: i32) -> Option<()> {
    let (level, i, j) = (r[LEVEL], r[I], r[J]);
    if level <= root_level || level > LAST_LEVEL || p[LEVEL] != level - 1 || p[I] != i >> 1 || p[J] != j >> 1 {
        return None;
    }
    let (own, mut around) = match (i & 1, j & 1) {
        (0, 0) => (p[SW], [p[NW], p[SE], linked(t, p[S])?[NW], linked(t, p[W])?[SE]]),
        (0, _) => (p[NW], [linked(t, p[N])?[SW], p[NE], p[SW], linked(t, p[W])?[NE]]),
        (_, 0) => (p[SE], [p[NE], linked(t, p[E])?[SW], linked(t, p[S])?[NE], p[SW]]),
        _ => (p[NE], [linked(t, p[N])?[SE], linked(t, p[E])?[NW], p[SE], p[NW]]),
    };
    if level == 0 && h.mode == RING {
        close(h, t, i, j, root_level, &mut around)?;
    }
    (own == n as i32 && r[N..=W] == around).then_some(())
}

/// The lowest and the highest row of a ring's level 0 are neighbours. The ghosts above them are not, so that the row over the seam is found from the
/// root down. Level 0 has no other rows; above it the parents are linked over the seam.
fn close(h: &Header, t: &[i32], i: i32, j: i32, root_level: i32, around: &mut [i32; 4]) -> Option<()> {
    let highest = h.rows as i32 - 1;
    if j > highest {
        return None;
    }
    if j == highest {
        around[N - N] = ground_row(t, i, 0, root_level)?;
    }
    if j == 0 {
        around[S - N] = ground_row(t, i, highest, root_level)?;
    }
    Some(())
}

/// The number at a place of level 0 by the kid words, or 0.
fn ground_row(t: &[i32], i: i32, j: i32, root_level: i32) -> Option<i32> {
    let mut n = 1;
    for bit in (0..-root_level).rev() {
        n = linked(t, n)?[KIDS[(i >> bit & 1) as usize][(j >> bit & 1) as usize]];
    }
    Some(n)
}

/// A patch without a cell is touched by one, is no kid of a cell with kids, and has the flags that the cells around it make.
fn point_agrees(t: &[i32], r: &Row, p: &Row) -> Option<()> {
    let west = linked(t, r[W])?;
    let south = linked(t, r[S])?;
    let untouched = (west[FLAGS] | south[FLAGS]) & COMPLETE == 0 && linked(t, west[S])?[FLAGS] & COMPLETE == 0;
    if untouched || p[FLAGS] & COMPLETE != 0 && p[NE] != 0 {
        return None;
    }
    let own = walls(r, west[FLAGS], south[FLAGS], p[FLAGS]);
    (r[FLAGS] == own | point(own, west[FLAGS], south[FLAGS])).then_some(())
}

/// A cell lies in the rectangle or in a cell, has all four kids if it has any, its patches north, east and north-east, and its flags.
fn cell_agrees(h: &Header, t: &[i32], r: &Row, p: &Row, kids: usize) -> Option<()> {
    let (west, south) = (linked(t, r[W])?[FLAGS], linked(t, r[S])?[FLAGS]);
    let (north, east) = (linked(t, r[N])?[FLAGS], linked(t, r[E])?);
    let placed = if r[LEVEL] == 0 { r[I] < h.columns as i32 && r[J] < h.rows as i32 } else { p[FLAGS] & COMPLETE != 0 };
    if !placed || r[N] == 0 || east[N] == 0 || r[NE] != 0 && kids != 4 {
        return None;
    }
    let own = walls(r, west, south, p[FLAGS]);
    let marks = COMPLETE | own | point(own, west, south) | cell(own, north, east[FLAGS]);
    let sentenced = if r[NE] == 0 && r[LEVEL] > 0 { SENTENCED } else { 0 };
    (r[FLAGS] & !sentenced == marks).then_some(())
}

fn value_agrees(status: i32, bits: u64, status_above: i32, above: u64) -> Option<()> {
    let good = match status {
        0 => bits == 0 && status_above == 0,
        1 => bits & EXPONENT != EXPONENT,
        2 => bits == above && status_above != 0,
        _ => false,
    };
    good.then_some(())
}

pub fn check(h: &Header, t: &[i32], v: &[f64], c: &[u32], capacity: u32) -> u32 {
    admit_counted(h, t, v, c, capacity).err().unwrap_or(0)
}

// ---- the question

/// The refusal, and the count.
pub fn count(c: &[u32], level: u32, status: u32) -> (u32, u32) {
    if c.len() != PLACES {
        return (1, 0);
    }
    if level > LAST_LEVEL as u32 || status >= STATUSES as u32 {
        return (23, 0);
    }
    (0, c[place(level as i32, status as i32)])
}

// ---- build

/// The refusal, and the number in use.
pub fn build(h: &mut Header, t: &mut [i32], v: &mut [f64], c: &mut [u32], capacity: u32, columns: u32, rows: u32, mode: u32) -> (u32, u32) {
    if refuse_lengths(t, v, capacity) || c.len() != PLACES {
        return (1, 0);
    }
    if refuse_size(columns, rows, mode) {
        return (2, 0);
    }
    let d = ground_depth(columns, rows);
    let highest = rows - mode;
    let used: u32 = (0..=d).map(|e| ((columns >> e) + 1) * ((highest >> e) + 1)).sum();
    if used > capacity {
        return (11, 0);
    }
    *h = Header { columns, rows, mode, mark: 0 };
    v.fill(0.0);
    c.fill(0);
    c[place(0, 0)] = columns * rows;
    *row_mut(t, 0) = [0; ROW];
    for n in used as usize + 1..v.len() {
        *row_mut(t, n) = FREE;
    }
    *row_mut(t, 1) = [0, 0, 0, 0, 0, 0, 0, 0, 0, -(d as i32), 0, 0, 0, 0];
    number_levels(t, d, columns as i32, rows as i32, mode);
    if mode == RING {
        link_seam(t, d, columns as i32, rows as i32);
    }
    (0, used)
}

/// Level by level, by parents in their own order: a patch comes after its west and its south neighbour, so that it can be linked to them at once.
/// The highest row of points is a ring's lowest.
fn number_levels(t: &mut [i32], d: u32, columns: i32, rows: i32, mode: u32) {
    let mut next = 2;
    let mut parents = 1..2;
    for e in (0..d).rev() {
        let (last_i, last_j) = (columns >> e, (rows - mode as i32) >> e);
        let first = next;
        for p in parents {
            let above = *row(t, p);
            let (i, j) = (2 * above[I], 2 * above[J]);
            for (wind, i, j) in [(SW, i, j), (NW, i, j + 1), (SE, i + 1, j), (NE, i + 1, j + 1)] {
                if i > last_i || j > last_j {
                    t[p * ROW + wind] = 0;
                    continue;
                }
                t[p * ROW + wind] = next as i32;
                let flags = if e == 0 { ground_flags(i, j, columns, rows, mode) } else { 0 };
                *row_mut(t, next) = [p as i32, 0, 0, 0, 0, 0, 0, 0, 0, -(e as i32), i, j, flags, 0];
                let (west, south) = match wind {
                    SW => (t[above[W] as usize * ROW + SE], t[above[S] as usize * ROW + NW]),
                    NW => (t[above[W] as usize * ROW + NE], t[p * ROW + SW]),
                    SE => (t[p * ROW + SW], t[above[S] as usize * ROW + NE]),
                    _ => (t[p * ROW + NW], t[p * ROW + SE]),
                };
                if west != 0 {
                    t[next * ROW + W] = west;
                    t[west as usize * ROW + E] = next as i32;
                }
                if south != 0 {
                    t[next * ROW + S] = south;
                    t[south as usize * ROW + N] = next as i32;
                }
                next += 1;
            }
        }
        parents = first..next;
    }
}

/// Each patch of a ring's highest row is south of the one in the lowest row.
fn link_seam(t: &mut [i32], d: u32, columns: i32, rows: i32) {
    for i in 0..=columns {
        let [low, high] = [0, rows - 1].map(|j| ground_row(t, i, j, -(d as i32)).unwrap());
        t[low as usize * ROW + S] = high;
        t[high as usize * ROW + N] = low;
    }
}

/// The flags of a patch of a full rectangle. A ring has no lower and no upper edge.
fn ground_flags(i: i32, j: i32, columns: i32, rows: i32, mode: u32) -> i32 {
    let is_cell = |i: i32, j: i32| (i >= 0 && i < columns && (mode == RING || j >= 0 && j < rows)) as i32;
    let ends = |last: i32| mode != RING && (j == 0 || j == last);
    let c = is_cell(i, j);
    let own = WALLS[(c | is_cell(i - 1, j) << 1 | is_cell(i, j - 1) << 2 | 24) as usize];
    let point = if i == 0 || i == columns || ends(rows) { BDY_POINT } else { 0 };
    let edge = c != 0 && (i == 0 || i == columns - 1 || ends(rows - 1));
    c | own | point | if edge { BDY_CELL } else { 0 }
}

// ---- requests

/// A sound table under a tape. No number below `low` is free.
pub struct Desk<'a> {
    pub t: &'a mut [i32],
    v: &'a mut [f64],
    counts: &'a mut [u32; PLACES],
    pub free: usize,
    low: usize,
    ground_cells: usize,
}

/// The requests done, the refusal, and the offset.
pub fn tape(h: &mut Header, t: &mut [i32], v: &mut [f64], c: &mut [u32], capacity: u32, tape: &[u8]) -> (usize, u32, usize) {
    let mut desk = match Desk::new(h, t, v, c, capacity) {
        Ok(desk) => desk,
        Err(refusal) => return (0, refusal, 0),
    };
    let (mut done, mut at) = (0, 0);
    while at < tape.len() {
        let length = match tape[at] {
            1..=4 => 3,
            5 => 11,
            _ => return (done, 5, at),
        };
        let request = match tape.get(at..at + length) {
            Some(request) => request,
            None => return (done, 4, at),
        };
        let refusal = desk.step(request);
        if refusal != 0 {
            return (done, refusal, at);
        }
        h.mark = h.mark.wrapping_add(1);
        done += 1;
        at += length;
    }
    (done, 0, at)
}

impl<'a> Desk<'a> {
    pub fn new(h: &Header, t: &'a mut [i32], v: &'a mut [f64], c: &'a mut [u32], capacity: u32) -> Result<Self, u32> {
        let facts = admit_counted(h, t, v, c, capacity)?;
        let counts = c.try_into().unwrap();
        Ok(Desk { t, v, counts, free: facts.free, low: facts.low, ground_cells: facts.ground_cells })
    }

    /// One whole request: its refusal, or 0.
    pub fn step(&mut self, request: &[u8]) -> u32 {
        let n = u16::from_be_bytes([request[1], request[2]]) as usize;
        if n == 0 || n >= self.v.len() || self.t[n * ROW + FLAGS] == DEAD {
            return 6;
        }
        let r = row(self.t, n);
        if r[FLAGS] & COMPLETE == 0 {
            return 7;
        }
        let (leaf, level) = (r[NE] == 0, r[LEVEL]);
        match request[0] {
            1 if !leaf => 8,
            1 if level == LAST_LEVEL => 9,
            1 if r[FLAGS] & SENTENCED != 0 => 10,
            // where a place beside the cell lies in the area and is no cell, the wall between them is green; on level 0 none is
            1 if r[FLAGS] & GRN_CELL != 0 => 21,
            1 => self.refine(n),
            2 if !leaf => 8,
            2 if level == 0 => 12,
            2 => {
                self.t[n * ROW + FLAGS] |= SENTENCED;
                0
            }
            3 if leaf => 13,
            3 => self.remove(n),
            4 if level != 0 => 12,
            4 if !leaf => 8,
            4 if self.ground_cells == 1 => 15,
            4 => self.kill(n),
            _ if !leaf => 8,
            _ => {
                let bits = u64::from_be_bytes(request[3..11].try_into().unwrap());
                if bits & EXPONENT == EXPONENT {
                    return 16;
                }
                self.v[n] = f64::from_bits(bits);
                *self.count(n) -= 1;
                self.t[n * ROW + STATUS] = 1;
                *self.count(n) += 1;
                0
            }
        }
    }

    fn word(&self, n: usize, wind: usize) -> usize {
        self.t[n * ROW + wind] as usize
    }

    /// How many leaves have the level and the status of a cell.
    fn count(&mut self, n: usize) -> &mut u32 {
        let r = row(self.t, n);
        &mut self.counts[place(r[LEVEL], r[STATUS])]
    }

    fn flags(&self, n: usize) -> i32 {
        self.t[n * ROW + FLAGS]
    }

    /// The nine patches under a cell, each as a kid word of a row, in the order in which a refinement makes them; and their numbers, 0 if missing.
    fn block(&self, n: usize) -> ([(usize, usize); 9], [usize; 9]) {
        let (north, east) = (self.word(n, N), self.word(n, E));
        let corner = self.word(east, N);
        let (own, north_row, east_row) = (row(self.t, n), row(self.t, north), row(self.t, east));
        let kids = [own[SW], own[SE], own[NW], own[NE], north_row[SW], north_row[SE], east_row[NW], east_row[SW], row(self.t, corner)[SW]];
        let places = [(n, SW), (n, SE), (n, NW), (n, NE), (north, SW), (north, SE), (east, NW), (east, SW), (corner, SW)];
        (places, kids.map(|kid| kid as usize))
    }

    fn refine(&mut self, n: usize) -> u32 {
        let (places, mut under) = self.block(n);
        let missing = under.iter().filter(|&&q| q == 0).count();
        if missing > self.free {
            return 11;
        }
        self.free -= missing;
        let mut made = [0; 9];
        for (at, (p, wind)) in places.into_iter().enumerate() {
            if under[at] == 0 {
                under[at] = self.make(p, wind);
                made[at] = under[at];
            }
        }
        for (q, (p, wind)) in made.into_iter().zip(places) {
            if q != 0 {
                self.link(q, p, wind);
            }
        }
        *self.count(n) -= 1;
        let (status, value) = (self.t[n * ROW + STATUS], self.v[n]);
        for &q in &under[..4] {
            let kid = row_mut(self.t, q);
            kid[FLAGS] |= COMPLETE;
            if status != 0 {
                kid[STATUS] = 2;
                self.v[q] = value;
            }
        }
        *self.count(under[0]) += 4;
        let beside = self.beside(&under);
        self.refresh(&under, &beside);
        0
    }

    /// The lowest free number; four rows are looked at in a turn.
    fn lowest_free(&self) -> usize {
        let mut q = self.low;
        for four in self.t[q * ROW..].chunks_exact(4 * ROW) {
            for k in 0..4 {
                if four[k * ROW + FLAGS] == DEAD {
                    return q + k;
                }
            }
            q += 4;
        }
        while self.flags(q) != DEAD {
            q += 1;
        }
        q
    }

    /// A new patch as a kid of `p`, not yet linked to its neighbours.
    fn make(&mut self, p: usize, wind: usize) -> usize {
        let q = self.lowest_free();
        self.low = q + 1;
        let above = row_mut(self.t, p);
        above[wind] = q as i32;
        let i = 2 * above[I] + (wind == NE || wind == SE) as i32;
        let j = 2 * above[J] + (wind == NE || wind == NW) as i32;
        let level = above[LEVEL] + 1;
        *row_mut(self.t, q) = [p as i32, 0, 0, 0, 0, 0, 0, 0, 0, level, i, j, 0, 0];
        q
    }

    /// Links a row with its neighbours: kids of its parent and of its parent's neighbours.
    fn link(&mut self, q: usize, p: usize, wind: usize) {
        let p = row(self.t, p);
        let of = |side: usize, kid: usize| self.t[p[side] as usize * ROW + kid];
        let around = match wind {
            SW => [p[NW], p[SE], of(S, NW), of(W, SE)],
            NW => [of(N, SW), p[NE], p[SW], of(W, NE)],
            SE => [p[NE], of(E, SW), of(S, NE), p[SW]],
            _ => [of(N, SE), of(E, NW), p[SE], p[NW]],
        };
        row_mut(self.t, q)[N..=W].copy_from_slice(&around);
        let [north, east, south, west] = around;
        self.put_back(north, S, q);
        self.put_back(east, W, q);
        self.put_back(south, N, q);
        self.put_back(west, E, q);
    }

    /// A neighbour, if it is there, names the row q on that side.
    fn put_back(&mut self, neighbour: i32, side: usize, q: usize) {
        if neighbour != 0 {
            self.t[neighbour as usize * ROW + side] = q as i32;
        }
    }

    /// The cells west and south of the block, whose east and north walls are the block's.
    fn beside(&self, under: &[usize; 9]) -> [usize; 4] {
        [self.word(under[0], W), self.word(under[2], W), self.word(under[0], S), self.word(under[1], S)]
    }

    /// The flags of a block anew, the walls first: points and cells are worked out from them.
    fn refresh(&mut self, under: &[usize; 9], beside: &[usize; 4]) {
        for &q in under {
            self.refresh_walls(q);
        }
        for &q in under {
            self.refresh_marks(q);
        }
        for &q in beside {
            self.refresh_marks(q);
        }
    }

    fn refresh_walls(&mut self, q: usize) {
        if q != 0 {
            let r = row(self.t, q);
            let own = walls(r, self.flags(r[W] as usize), self.flags(r[S] as usize), self.flags(r[PARENT] as usize));
            let flags = &mut self.t[q * ROW + FLAGS];
            *flags = *flags & (COMPLETE | SENTENCED) | own;
        }
    }

    fn refresh_marks(&mut self, q: usize) {
        if q == 0 {
            return;
        }
        let r = row(self.t, q);
        let own = r[FLAGS] & !(BDY_POINT | GRN_POINT | BDY_CELL | GRN_CELL);
        let mut flags = own | point(own, self.flags(r[W] as usize), self.flags(r[S] as usize));
        if own & COMPLETE != 0 {
            flags |= cell(own, self.flags(r[N] as usize), self.flags(r[E] as usize));
        }
        self.t[q * ROW + FLAGS] = flags;
    }

    fn remove(&mut self, n: usize) -> u32 {
        let (_, mut under) = self.block(n);
        if under[..4].iter().any(|&q| self.flags(q) & SENTENCED == 0) {
            return 14;
        }
        let beside = self.beside(&under);
        // the eight patches around the four kids: only a cell with kids has a kid NE
        if under[4..8].iter().chain(&beside).any(|&q| self.word(q, NE) != 0) {
            return 22;
        }
        for &q in &under[..4] {
            self.take_leaf(q);
        }
        *self.count(n) += 1;
        for q in &mut under {
            if !self.touched(*q) {
                self.release(*q);
                *q = 0;
            }
        }
        self.refresh(&under, &beside);
        0
    }

    fn take_leaf(&mut self, q: usize) {
        *self.count(q) -= 1;
        self.t[q * ROW + FLAGS] = 0;
        self.t[q * ROW + STATUS] = 0;
        self.v[q] = 0.0;
    }

    /// Whether one of the four cells that meet in the patch's point is there. A cell south-west has a patch west of this one.
    fn touched(&self, q: usize) -> bool {
        let r = row(self.t, q);
        let west = row(self.t, r[W] as usize);
        (r[FLAGS] | west[FLAGS] | self.flags(r[S] as usize) | self.flags(west[S] as usize)) & COMPLETE != 0
    }

    fn release(&mut self, q: usize) {
        let r = *row(self.t, q);
        self.put_back(r[N], S, 0);
        self.put_back(r[E], W, 0);
        self.put_back(r[S], N, 0);
        self.put_back(r[W], E, 0);
        let kid = KIDS[(r[I] & 1) as usize][(r[J] & 1) as usize];
        self.t[r[PARENT] as usize * ROW + kid] = 0;
        *row_mut(self.t, q) = FREE;
        self.v[q] = 0.0;
        self.free += 1;
        self.low = self.low.min(q);
    }

    /// The walls around a killed cell change on every level: on the line of each edge, the rows from level 0 down.
    fn kill(&mut self, n: usize) -> u32 {
        let (north, east) = (self.word(n, N), self.word(n, E));
        let corner = self.word(east, N);
        let mut under = [n, north, east, corner];
        let beside = [self.word(n, W), self.word(n, S)];
        self.take_leaf(n);
        self.ground_cells -= 1;
        for q in &mut under {
            if !self.touched(*q) {
                let p = self.word(*q, PARENT);
                self.release(*q);
                self.release_ghosts(p);
                *q = 0;
            }
        }
        self.along_edges(&under, Desk::refresh_walls);
        self.along_edges(&under, |desk, q| {
            desk.refresh_marks(q);
            let (west, south) = (desk.word(q, W), desk.word(q, S));
            desk.refresh_marks(west);
            desk.refresh_marks(south);
        });
        for q in beside {
            self.refresh_marks(q);
        }
        0
    }

    fn release_ghosts(&mut self, mut p: usize) {
        while row(self.t, p)[NE..=NW] == [0; 4] {
            let above = self.word(p, PARENT);
            self.release(p);
            p = above;
        }
    }

    fn along_edges(&mut self, under: &[usize; 4], act: impl Fn(&mut Self, usize) + Copy) {
        let [own, north, east, corner] = *under;
        self.along(own, SE, act);
        self.along(own, NW, act);
        self.along(north, SE, act);
        self.along(east, NW, act);
        self.along(corner, SW, act);
    }

    /// A patch and those on the line that starts there, towards the kid `wind`.
    fn along(&mut self, q: usize, wind: usize, act: impl Fn(&mut Self, usize) + Copy) {
        if q == 0 {
            return;
        }
        act(self, q);
        let (first, second) = (self.word(q, SW), self.word(q, wind));
        self.along(first, wind, act);
        if wind != SW {
            self.along(second, wind, act);
        }
    }
}

// ---- walks

/// A walk that finds numbers, into a list that has room for all: of rows from a level on that have all flags of `mask`, and no kid NE if `leaf` is -1.
struct Walk<'a> {
    t: &'a [i32],
    order: [usize; 4],
    mask: i32,
    leaf: i32,
    from: i32,
    to: i32,
    found: [u16; MOST],
    count: usize,
}

impl<'a> Walk<'a> {
    fn new(t: &'a [i32], order: [usize; 4], kind: u32, from: i32, to: i32) -> Walk<'a> {
        let mask = match kind {
            2 | 3 => COMPLETE,
            4 => 1 << 1,
            5 => 1 << 2,
            _ => 0,
        };
        let leaf = if kind == 3 { -1 } else { 0 };
        let from = if kind == 6 { from.max(0) } else { from };
        Walk { t, order, mask, leaf, from, to, found: [0; MOST], count: 0 }
    }

    fn go(&mut self, n: usize) {
        let r = row(self.t, n);
        if r[LEVEL] >= self.from && r[FLAGS] & self.mask == self.mask && r[NE] & self.leaf == 0 {
            self.found[self.count] = n as u16;
            self.count += 1;
        }
        if r[LEVEL] < self.to && r[NE] | r[SE] | r[SW] | r[NW] != 0 {
            for wind in self.order {
                let kid = r[wind];
                if kid != 0 {
                    self.go(kid as usize);
                }
            }
        }
    }
}

pub struct Scan<'a> {
    pub start: u32,
    pub order: &'a [u8],
    pub kind: u32,
    pub from: i32,
    pub to: i32,
}

/// The refusal, and how many numbers were written.
pub fn scan(h: &Header, t: &[i32], v: &[f64], capacity: u32, what: &Scan, out: &mut [u16]) -> (u32, usize) {
    if let Err(refusal) = admit(h, t, v, capacity) {
        return (refusal, 0);
    }
    let start = what.start as usize;
    if start == 0 || start >= v.len() || row(t, start)[FLAGS] == DEAD {
        return (6, 0);
    }
    let order = match winds(what.order) {
        Some(order) => order,
        None => return (17, 0),
    };
    if !(1..=6).contains(&what.kind) || what.from < row(t, start)[LEVEL] || what.to < what.from {
        return (17, 0);
    }
    let mut walk = Walk::new(t, order, what.kind, what.from, what.to);
    walk.go(start);
    if walk.count > out.len() {
        return (18, 0);
    }
    out[..walk.count].copy_from_slice(&walk.found[..walk.count]);
    (0, walk.count)
}

fn winds(order: &[u8]) -> Option<[usize; 4]> {
    let order: [u8; 4] = order.try_into().ok()?;
    let each = (1..=4).all(|wind| order.contains(&wind));
    each.then_some(order.map(|wind| wind as usize))
}

/// What a lookup finds: the refusal, the leaf's number, its status and its value.
#[derive(Debug, PartialEq, Eq)]
pub struct Found {
    pub refusal: u32,
    pub number: u32,
    pub status: u32,
    pub bits: u64,
}

pub fn lookup(h: &Header, t: &[i32], v: &[f64], capacity: u32, speed: u32, load: u32) -> Found {
    let nothing = |refusal| Found { refusal, number: 0, status: 0, bits: 0 };
    if let Err(refusal) = admit(h, t, v, capacity) {
        return nothing(refusal);
    }
    if h.mode == RING && load >= h.rows << LAST_LEVEL {
        return nothing(19);
    }
    let d = ground_depth(h.columns, h.rows);
    let again = || TRIES.iter().find_map(|&(left, down)| leaf_at(t, v, d, speed.checked_sub(left)?, load.checked_sub(down)?));
    leaf_at(t, v, d, speed, load).or_else(again).unwrap_or(nothing(19))
}

/// Where a point that no leaf holds is tried again: so many units to the left, so many down.
const TRIES: [(u32, u32); 3] = [(1, 0), (0, 1), (1, 1)];

#[inline(always)]
fn leaf_at(t: &[i32], v: &[f64], d: u32, speed: u32, load: u32) -> Option<Found> {
    if (speed | load) >> LAST_LEVEL >> d != 0 {
        return None;
    }
    let toward = |n: usize, bit: u32| {
        let kid = KIDS[(speed >> bit & 1) as usize][(load >> bit & 1) as usize];
        t[n * ROW + kid] as usize
    };
    let mut bit = LAST_LEVEL as u32 + d;
    let mut n = 1;
    while bit > LAST_LEVEL as u32 {
        bit -= 1;
        n = toward(n, bit);
    }
    if row(t, n)[FLAGS] & COMPLETE == 0 {
        return None;
    }
    while row(t, n)[NE] != 0 {
        bit -= 1;
        n = toward(n, bit);
    }
    Some(Found { refusal: 0, number: n as u32, status: row(t, n)[STATUS] as u32, bits: v[n].to_bits() })
}

// ---- the page

const LONGEST_LINE: usize = 48;

/// Bytes written to the end of a list, with their sum; what does not fit is counted and left out.
struct Pen<'a> {
    out: &'a mut [u8],
    at: usize,
    sum: u32,
}

impl Pen<'_> {
    fn put(&mut self, text: &[u8]) {
        if let Some(place) = self.out.get_mut(self.at..self.at + text.len()) {
            place.copy_from_slice(text);
        }
        self.at += text.len();
        self.sum = text.iter().fold(self.sum, |sum, &byte| sum.wrapping_add(byte as u32));
    }
}

/// A line under way.
struct Line {
    text: [u8; LONGEST_LINE],
    length: usize,
}

impl Line {
    fn new() -> Line {
        Line { text: [0; LONGEST_LINE], length: 0 }
    }

    fn byte(&mut self, byte: u8) {
        self.text[self.length] = byte;
        self.length += 1;
    }

    fn word(&mut self, word: &[u8]) {
        self.text[self.length..self.length + word.len()].copy_from_slice(word);
        self.length += word.len();
    }

    fn number(&mut self, number: u32) {
        let mut digits = 1;
        let mut bound = 10u64;
        while number as u64 >= bound {
            digits += 1;
            bound *= 10;
        }
        let mut rest = number;
        for place in self.text[self.length..self.length + digits].iter_mut().rev() {
            *place = b'0' + (rest % 10) as u8;
            rest /= 10;
        }
        self.length += digits;
    }

    fn hex(&mut self, bits: u64) {
        for (at, place) in self.text[self.length..self.length + 16].iter_mut().enumerate() {
            *place = b"0123456789abcdef"[(bits >> (60 - 4 * at) & 15) as usize];
        }
        self.length += 16;
    }

    fn done(&self) -> &[u8] {
        &self.text[..self.length]
    }
}

/// The refusal, and the bytes written.
pub fn page(h: &Header, t: &[i32], v: &[f64], capacity: u32, out: &mut [u8]) -> (u32, usize) {
    if let Err(refusal) = admit(h, t, v, capacity) {
        return (refusal, 0);
    }
    let order = [SW, NW, SE, NE];
    let root_level = row(t, 1)[LEVEL];
    let mut walk = Walk::new(t, order, 3, root_level, LAST_LEVEL);
    walk.go(1);
    let leaves = &walk.found[..walk.count];
    if out.len() < (leaves.len() + 2) * LONGEST_LINE && lines(h, t, v, leaves, &mut []) > out.len() {
        return (18, 0);
    }
    (0, lines(h, t, v, leaves, out))
}

fn lines(h: &Header, t: &[i32], v: &[f64], leaves: &[u16], out: &mut [u8]) -> usize {
    let mut pen = Pen { out, at: 0, sum: 0 };
    let mut first = Line::new();
    first.word(b"map ");
    for number in [h.columns, h.rows, h.mark as u32] {
        first.number(number);
        first.byte(b' ');
    }
    first.word(if h.mode == RING { b"ring\n" } else { b"open\n" });
    pen.put(first.done());
    for &leaf in leaves {
        let r = row(t, leaf as usize);
        let mut line = Line::new();
        for number in [leaf as u32, r[LEVEL] as u32, r[I] as u32, r[J] as u32] {
            line.number(number);
            line.byte(b' ');
        }
        line.byte(b"nmc"[r[STATUS] as usize]);
        line.byte(b' ');
        line.hex(v[leaf as usize].to_bits());
        line.byte(b'\n');
        pen.put(line.done());
    }
    let mut last = Line::new();
    last.word(b"cells ");
    last.number(leaves.len() as u32);
    last.word(b" sum ");
    last.number(pen.sum);
    last.byte(b'\n');
    pen.put(last.done());
    pen.at
}
