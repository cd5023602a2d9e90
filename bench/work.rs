//! The workloads: lists to start from and calls to make on them. Tapes are made by a seeded generator that looks at the hand-written version's state,
//! so that every request is accepted and the table stays near full.

use crate::hand::{self, row, Desk, Header, COMPLETE, E, FLAGS, GRN_CELL, I, J, LEVEL, N, NE, NW, OPEN, PLACES, RING, ROW, S, SE, SENTENCED, SW, W};

#[derive(Clone)]
pub struct Lists {
    pub header: Header,
    pub table: Vec<i32>,
    pub values: Vec<f64>,
    pub counts: Vec<u32>,
}

impl Lists {
    pub fn capacity(&self) -> u32 {
        self.values.len() as u32 - 1
    }

    pub fn copy_from(&mut self, other: &Lists) {
        self.header = other.header;
        self.table.copy_from_slice(&other.table);
        self.values.copy_from_slice(&other.values);
        self.counts.copy_from_slice(&other.counts);
    }

    pub fn same(&self, other: &Lists) -> bool {
        let bits = |lists: &Lists| lists.values.iter().map(|x| x.to_bits()).collect::<Vec<_>>();
        self.header == other.header && self.table == other.table && bits(self) == bits(other) && self.counts == other.counts
    }

    /// What is in the table, in words.
    pub fn told(&self) -> String {
        let rows: Vec<_> = self.table.chunks(ROW).skip(1).filter(|r| r[FLAGS] & 8192 == 0).collect();
        let leaves = rows.iter().filter(|r| r[FLAGS] & COMPLETE != 0 && r[NE] == 0).count();
        let deepest = rows.iter().map(|r| r[LEVEL]).max().unwrap_or(0);
        format!("starts with {} of {} in use, {} leaves, levels to {}", rows.len(), self.capacity(), leaves, deepest)
    }
}

pub enum Work {
    Check,
    Build(u32, u32, u32),
    Tapes(Vec<Vec<u8>>),
    Lookups(Vec<(u32, u32)>),
    Questions(Vec<(u32, u32)>),
    Scan,
    Page,
}

pub struct Job {
    pub start: Lists,
    pub work: Work,
    per: Per,
}

/// What a figure is given for.
#[derive(Clone, Copy)]
enum Per {
    Row,
    Requests(usize),
    Call,
}

impl Job {
    /// The units that the workload's count is divided by.
    pub fn units(&self) -> usize {
        match (&self.work, self.per) {
            (_, Per::Row) => self.start.values.len() - 1,
            (_, Per::Requests(units)) => units,
            (Work::Lookups(points), _) => points.len(),
            (Work::Questions(questions), _) => questions.len(),
            (Work::Tapes(tapes), _) => tapes.len(),
            _ => 1,
        }
    }

    /// How often a call with nothing to do is taken off; 0: the figure is one of whole calls.
    pub fn checks(&self) -> usize {
        match &self.work {
            Work::Check | Work::Build(..) | Work::Questions(_) => 0,
            Work::Lookups(points) => points.len(),
            Work::Tapes(tapes) if tapes.len() > 1 => 0,
            _ => 1,
        }
    }

    /// A count needs no more lookups than these: each checks the whole table.
    pub fn shorten(&mut self) {
        if let Work::Lookups(points) = &mut self.work {
            points.truncate(100);
        }
    }

    /// Whether every call was accepted, so that it did the work that is measured.
    pub fn accepted(&self, answers: &[u64]) -> bool {
        match &self.work {
            Work::Tapes(_) => answers.chunks(3).all(|answer| answer[1] == 0),
            Work::Lookups(_) => answers.chunks(4).all(|answer| answer[0] == 0),
            Work::Questions(_) => answers.chunks(2).all(|answer| answer[0] == 0),
            _ => answers[0] == 0,
        }
    }
}

/// On open grids, and some of them on rings of the same size: the same makers with the same seeds.
pub const WORKLOADS: &[(&str, fn() -> Job)] = &[
    ("check-one-level", || check(one_level(OPEN))),
    ("check-deep", || check(deep())),
    ("check-mixed", || check(filled(OPEN, 8, 4095, 8))),
    ("check-1000", || check(filled(OPEN, 8, 1000, 8))),
    ("check-sparse", || check(built(8, 8, OPEN, 4095))),
    ("empty-full", || empty(nearly_full(OPEN))),
    ("empty-sparse", || empty(built(8, 8, OPEN, 4095))),
    ("mixed-1000", || mixed(OPEN, 8, 1000, 20_000)),
    ("mixed-1000-short", || mixed(OPEN, 8, 1000, 5_000)),
    ("long-4095", || mixed(OPEN, 16, 4095, 200_000)),
    ("single-1000", single),
    ("cycle-sparse", || cycles(built(8, 8, OPEN, 4095))),
    ("cycle-full", || cycles(nearly_full(OPEN))),
    ("cycle-scattered", || cycles(scattered(OPEN))),
    ("families-1000", || families(1000)),
    ("families-4095", || families(4095)),
    ("refine-fresh", || refinement(built(8, 8, OPEN, 4095))),
    ("refine-full", || refinement(nearly_full(OPEN))),
    ("build-32", || build(OPEN)),
    ("lookup", || lookups(OPEN, |speed, load| (speed, load))),
    ("lookup-right", || lookups(OPEN, |_, load| (EDGE, load))),
    ("lookup-top", || lookups(OPEN, |speed, _| (speed, EDGE))),
    ("lookup-corner", || lookups(OPEN, |_, _| (EDGE, EDGE))),
    ("count", questions),
    ("page", || Job { start: leaves(OPEN, 486), work: Work::Page, per: Per::Call }),
    ("page-quarter", || Job { start: leaves(OPEN, 57), work: Work::Page, per: Per::Call }),
    ("scan", || Job { start: leaves(OPEN, 486), work: Work::Scan, per: Per::Call }),
    ("scan-quarter", || Job { start: leaves(OPEN, 57), work: Work::Scan, per: Per::Call }),
    ("ring-check-one-level", || check(one_level(RING))),
    ("ring-check-mixed", || check(filled(RING, 8, 4095, 8))),
    ("ring-mixed-1000", || mixed(RING, 8, 1000, 20_000)),
    ("ring-cycle-full", || cycles(nearly_full(RING))),
    ("ring-cycle-scattered", || cycles(scattered(RING))),
    ("ring-cycle-sparse", || cycles(built(8, 8, RING, 4095))),
    ("ring-cycle-seam", || cycles_at(built(8, 8, RING, 4095), |r| r[J] == 7)),
    ("ring-refine-fresh", || refinement(built(8, 8, RING, 4095))),
    ("ring-build-32", || build(RING)),
    ("ring-lookup", || lookups(RING, |speed, load| (speed, load))),
    ("ring-lookup-right", || lookups(RING, |_, load| (EDGE, load))),
    ("ring-page", || Job { start: leaves(RING, 486), work: Work::Page, per: Per::Call }),
    ("ring-scan", || Job { start: leaves(RING, 486), work: Work::Scan, per: Per::Call }),
];

/// xorshift64*.
struct Chance(u64);

impl Chance {
    fn below(&mut self, bound: usize) -> usize {
        self.0 ^= self.0 >> 12;
        self.0 ^= self.0 << 25;
        self.0 ^= self.0 >> 27;
        ((self.0.wrapping_mul(0x2545_f491_4f6c_dd1d) >> 33) % bound as u64) as usize
    }
}

// ---- tapes over the state of the hand-written version

/// A tape under way, and the state that it leads to.
struct Maker<'a> {
    desk: Desk<'a>,
    tape: Vec<u8>,
    requests: usize,
    chance: Chance,
}

impl<'a> Maker<'a> {
    fn new(lists: &'a mut Lists, seed: u64) -> Maker<'a> {
        let capacity = lists.capacity();
        let desk = Desk::new(&lists.header, &mut lists.table, &mut lists.values, &mut lists.counts, capacity).expect("a sound table");
        Maker { desk, tape: vec![], requests: 0, chance: Chance(seed) }
    }

    /// Puts a request on the tape if it is accepted.
    fn ask(&mut self, kind: u8, number: usize, value: Option<f64>) -> bool {
        let mut request = vec![kind];
        request.extend((number as u16).to_be_bytes());
        if let Some(value) = value {
            request.extend(value.to_be_bytes());
        }
        let accepted = self.desk.step(&request) == 0;
        if accepted {
            self.tape.extend(request);
            self.requests += 1;
        }
        accepted
    }

    fn rows(&self) -> usize {
        self.desk.t.len() / ROW
    }

    fn kids(&self, n: usize) -> [usize; 4] {
        let r = row(self.desk.t, n);
        [SW, SE, NW, NE].map(|wind| r[wind] as usize)
    }

    fn is_leaf(&self, n: usize) -> bool {
        let r = row(self.desk.t, n);
        r[FLAGS] & COMPLETE != 0 && r[NE] == 0
    }

    /// A cell whose kids are four leaves.
    fn is_family(&self, n: usize) -> bool {
        let r = row(self.desk.t, n);
        r[FLAGS] & COMPLETE != 0 && r[NE] != 0 && self.kids(n).into_iter().all(|kid| self.is_leaf(kid))
    }

    /// A family that may be removed: nothing beside its kids has kids.
    fn is_removable(&self, n: usize) -> bool {
        let beside = |kid: usize| [N, E, S, W].map(|wind| row(self.desk.t, kid)[wind] as usize);
        self.is_family(n) && self.kids(n).into_iter().flat_map(beside).all(|q| row(self.desk.t, q)[NE] == 0)
    }

    fn some(&mut self, wanted: impl Fn(&Self, usize) -> bool) -> Option<usize> {
        for _ in 0..100_000 {
            let n = 1 + self.chance.below(self.rows() - 1);
            if wanted(self, n) {
                return Some(n);
            }
        }
        None
    }

    fn some_leaf(&mut self) -> usize {
        self.some(|maker, n| maker.is_leaf(n) && row(maker.desk.t, n)[FLAGS] & SENTENCED == 0).expect("a leaf")
    }

    /// A leaf with nothing coarser beside it.
    fn some_refinable(&mut self) -> usize {
        self.some(|maker, n| maker.is_leaf(n) && row(maker.desk.t, n)[FLAGS] & (SENTENCED | GRN_CELL) == 0).expect("a leaf to refine")
    }

    fn value(&mut self) {
        let leaf = self.some_leaf();
        let value = self.chance.below(1_000_000) as f64 / 1024.0;
        self.ask(5, leaf, Some(value));
    }

    /// Takes a family of four away: those that are not yet sentenced are, then the parent's kids go.
    fn shrink(&mut self) {
        if let Some(n) = self.some(|maker, n| maker.is_removable(n)) {
            for kid in self.kids(n) {
                if row(self.desk.t, kid)[FLAGS] & SENTENCED == 0 {
                    self.ask(2, kid, None);
                }
            }
            self.ask(3, n, None);
        }
    }

    /// A mix of requests: refine while there is room, else remove; every sixth sets a value; now and then one is sentenced or killed.
    fn mix(&mut self, requests: usize) {
        while self.requests < requests {
            match self.chance.below(600) {
                0..=99 => self.value(),
                100..=109 => {
                    let leaf = self.some_leaf();
                    self.ask(2, leaf, None);
                }
                110 => {
                    let ground = self.some(|maker, n| maker.is_leaf(n) && row(maker.desk.t, n)[LEVEL] == 0);
                    ground.map(|n| self.ask(4, n, None));
                }
                _ if self.desk.free >= 9 => {
                    let leaf = self.some_refinable();
                    self.ask(1, leaf, None);
                }
                _ => self.shrink(),
            }
        }
    }

    /// Refines leaves until fewer numbers than `left` are free, or none of many leaves has room.
    fn fill(&mut self, left: usize, value_every: usize) {
        let mut failures = 0;
        while self.desk.free > left && failures < 20_000 {
            let leaf = self.some_refinable();
            if !self.ask(1, leaf, None) {
                failures += 1;
            }
            if value_every != 0 && self.chance.below(value_every) == 0 {
                self.value();
            }
        }
    }
}

// ---- tables to start from

fn built(columns: u32, rows: u32, mode: u32, capacity: usize) -> Lists {
    let header = Header { columns: 0, rows: 0, mode: 0, mark: 0 };
    let mut lists = Lists { header, table: vec![0; ROW * (capacity + 1)], values: vec![0.0; capacity + 1], counts: vec![0; PLACES] };
    let Lists { header, table, values, counts } = &mut lists;
    let (refusal, _) = hand::build(header, table, values, counts, capacity as u32, columns, rows, mode);
    assert_eq!(refusal, 0);
    lists
}

/// A square refined at random leaves until it is full, with values here and there, and some leaves sentenced.
fn filled(mode: u32, size: u32, capacity: usize, value_every: usize) -> Lists {
    let mut lists = built(size, size, mode, capacity);
    let mut maker = Maker::new(&mut lists, 5);
    maker.fill(0, value_every);
    for _ in 0..capacity / 50 {
        let leaf = maker.some_leaf();
        maker.ask(2, leaf, None);
    }
    lists
}

/// Level-0 cells refined one after the other: every patch but the ghosts is on level 0 or 1.
fn one_level(mode: u32) -> Lists {
    let mut lists = built(28, 28, mode, 4095);
    let mut maker = Maker::new(&mut lists, 6);
    for n in 1..maker.rows() {
        if row(maker.desk.t, n)[LEVEL] == 0 {
            maker.ask(1, n, None);
        }
    }
    lists
}

/// One cell refined at the deepest of some leaves, down to level 12 and until there is no room.
fn deep() -> Lists {
    let mut lists = built(1, 1, OPEN, 4095);
    let mut maker = Maker::new(&mut lists, 7);
    maker.ask(5, 2, Some(42.5));
    let mut failures = 0;
    while maker.desk.free > 0 && failures < 20_000 {
        let some = [(); 8].map(|()| maker.some_refinable());
        let level = |n: &usize| row(maker.desk.t, *n)[LEVEL];
        let n = some.into_iter().filter(|n| level(n) < 12).max_by_key(level);
        if !n.map_or(false, |n| maker.ask(1, n, None)) {
            failures += 1;
        }
    }
    lists
}

/// One cell, refined so many times at its lower left corner.
pub fn refined(times: usize) -> Lists {
    let mut lists = built(1, 1, OPEN, 200);
    for _ in 0..times {
        let leaf = hand::lookup(&lists.header, &lists.table, &lists.values, lists.capacity(), 0, 0).number;
        assert!(Maker::new(&mut lists, 1).ask(1, leaf as usize, None));
    }
    lists
}

/// A table of 4,095 in which 9 to 12 numbers are free, the last ones: it was only ever refined.
fn nearly_full(mode: u32) -> Lists {
    let mut lists = built(16, 16, mode, 4095);
    let mut maker = Maker::new(&mut lists, 8);
    maker.fill(20, 8);
    while maker.desk.free > 12 {
        let leaf = maker.some_leaf();
        if maker.ask(1, leaf, None) && maker.desk.free < 9 {
            // a removal leaves the rows as they were before the refinement
            for kid in maker.kids(leaf) {
                maker.ask(2, kid, None);
            }
            maker.ask(3, leaf, None);
        }
    }
    lists
}

/// The same number of free rows, scattered over the table by a long tape.
fn scattered(mode: u32) -> Lists {
    let mut lists = nearly_full(mode);
    let mut maker = Maker::new(&mut lists, 9);
    maker.mix(20_000);
    while !(9..=12).contains(&maker.desk.free) {
        if maker.desk.free < 9 {
            maker.shrink();
        } else {
            let leaf = maker.some_leaf();
            maker.ask(1, leaf, None);
        }
    }
    lists
}

/// Sixteen by sixteen cells with some refinements, level 0 first, so that there are 256 + 3 times as many leaves; some have values.
fn leaves(mode: u32, refinements: usize) -> Lists {
    let mut lists = built(16, 16, mode, 4095);
    let mut maker = Maker::new(&mut lists, 10);
    for _ in 0..100 {
        maker.value();
    }
    let mut done = 0;
    while done < refinements {
        let level = if done < 256 { 0 } else { 1 };
        let n = maker.some(|maker, n| maker.is_leaf(n) && row(maker.desk.t, n)[LEVEL] == level).expect("a leaf");
        done += maker.ask(1, n, None) as usize;
    }
    for _ in 0..refinements {
        maker.value();
    }
    lists
}

// ---- workloads

fn check(start: Lists) -> Job {
    Job { start, work: Work::Check, per: Per::Row }
}

/// A tape of a mix of requests, on a table that is near full at its start.
fn mixed(mode: u32, size: u32, capacity: usize, requests: usize) -> Job {
    let mut start = built(size, size, mode, capacity);
    Maker::new(&mut start, 1).fill(9, 8);
    let mut end = start.clone();
    let mut maker = Maker::new(&mut end, 2);
    maker.mix(requests);
    let units = maker.requests;
    Job { start, work: Work::Tapes(vec![maker.tape]), per: Per::Requests(units) }
}

/// The first requests of the mixed tape, one a call.
fn single() -> Job {
    let Job { start, work, .. } = mixed(OPEN, 8, 1000, 60);
    let mut tapes = vec![];
    if let Work::Tapes(whole) = work {
        let mut rest = &whole[0][..];
        while !rest.is_empty() {
            let (request, more) = rest.split_at(if rest[0] == 5 { 11 } else { 3 });
            tapes.push(request.to_vec());
            rest = more;
        }
    }
    Job { start, work: Work::Tapes(tapes), per: Per::Call }
}

/// Refine, sentence the four, remove: 200 times, at leaves for which there is room.
fn cycles(start: Lists) -> Job {
    cycles_at(start, |_| true)
}

/// The same, at those of the leaves that are wanted.
fn cycles_at(start: Lists, wanted: fn(&hand::Row) -> bool) -> Job {
    let mut end = start.clone();
    let mut maker = Maker::new(&mut end, 3);
    let mut units = 0;
    while units < 200 {
        let leaf = maker.some_leaf();
        if wanted(row(maker.desk.t, leaf)) && maker.ask(1, leaf, None) {
            for kid in maker.kids(leaf) {
                maker.ask(2, kid, None);
            }
            assert!(maker.ask(3, leaf, None));
            units += 1;
        }
    }
    Job { start, work: Work::Tapes(vec![maker.tape]), per: Per::Requests(units) }
}

/// Three cells beside each other refined first, so that their numbers are low, and then the half of the square that is away from them, until the last
/// numbers alone are free. 100 times the three families are removed, which frees more low numbers than are remembered, and refined again: the last of
/// them has fewer than nine low numbers to choose from, and the next free one is far away.
fn families(capacity: usize) -> Job {
    let mut start = built(8, 8, OPEN, capacity);
    let mut maker = Maker::new(&mut start, 12);
    let place = |maker: &Maker, n: usize| (row(maker.desk.t, n)[LEVEL], row(maker.desk.t, n)[I], row(maker.desk.t, n)[J]);
    let cells = [0, 1, 2].map(|j| (1..maker.rows()).find(|&n| maker.is_leaf(n) && place(&maker, n) == (0, 0, j)).expect("a cell"));
    for n in cells {
        assert!(maker.ask(1, n, None));
    }
    let mut failures = 0;
    while maker.desk.free > 12 && failures < 20_000 {
        let leaf = maker.some_leaf();
        let (level, i, _) = place(&maker, leaf);
        failures += (i >> level < 4 || !maker.ask(1, leaf, None)) as usize;
    }
    let mut end = start.clone();
    let mut maker = Maker::new(&mut end, 13);
    for _ in 0..100 {
        for n in cells {
            for kid in maker.kids(n) {
                assert!(maker.ask(2, kid, None));
            }
            assert!(maker.ask(3, n, None));
        }
        for n in cells {
            assert!(maker.ask(1, n, None));
        }
    }
    let units = maker.requests;
    Job { start, work: Work::Tapes(vec![maker.tape]), per: Per::Requests(units) }
}

/// One refinement that takes all nine numbers, as one call.
fn refinement(start: Lists) -> Job {
    let mut seed = 4;
    loop {
        let mut end = start.clone();
        let mut maker = Maker::new(&mut end, seed);
        let (leaf, before) = (maker.some_leaf(), maker.desk.free);
        if maker.ask(1, leaf, None) && before - maker.desk.free == 9 {
            return Job { start, work: Work::Tapes(vec![maker.tape]), per: Per::Requests(1) };
        }
        seed += 1;
    }
}

/// A tape of no request.
fn empty(start: Lists) -> Job {
    Job { start, work: Work::Tapes(vec![vec![]]), per: Per::Requests(1) }
}

fn build(mode: u32) -> Job {
    Job { start: built(8, 8, OPEN, 4095), work: Work::Build(32, 32, mode), per: Per::Call }
}

/// The upper and right edge of 16 by 16 cells.
const EDGE: u32 = 16 * 4096;

/// Points in the area, moved to where they are looked up.
fn lookups(mode: u32, moved: fn(u32, u32) -> (u32, u32)) -> Job {
    let start = leaves(mode, 486);
    let mut chance = Chance(11);
    let mut some = || chance.below(EDGE as usize) as u32;
    let points = (0..10_000).map(|_| moved(some(), some())).collect();
    Job { start, work: Work::Lookups(points), per: Per::Call }
}

/// Levels and statuses, of a grid of 1,714 leaves.
fn questions() -> Job {
    let mut chance = Chance(14);
    let questions = (0..10_000).map(|_| (chance.below(13) as u32, chance.below(3) as u32)).collect();
    Job { start: leaves(OPEN, 486), work: Work::Questions(questions), per: Per::Call }
}
