//! The reference grids P1 to P11, the page of 07 01 01, a ring, counts and some refusals, by the library. `examples/run` compiles, runs and compares it.

const WORDS: usize = 14;
const NORTH: usize = 5;
const LEVEL: usize = 9;
const COLUMN: usize = 10;
const ROW: usize = 11;
const FLAGS: usize = 12;
const COUNTS: usize = 39;
const OPEN: u32 = 0;
const RING: u32 = 1;

#[repr(C)]
struct Header {
    columns: u32,
    rows: u32,
    mode: u32,
    mark: u16,
}

#[rustfmt::skip]
extern "C" {
    fn grid_build(header: *mut Header, table: *mut i32, table_len: usize, values: *mut f64, values_len: usize, counts: *mut u32, counts_len: usize,
                  capacity: u32, columns: u32, rows: u32, mode: u32, in_use: *mut u32) -> u32;
    fn grid_tape(header: *mut Header, table: *mut i32, table_len: usize, values: *mut f64, values_len: usize, counts: *mut u32, counts_len: usize,
                 capacity: u32, tape: *const u8, tape_len: usize, done: *mut usize, offset: *mut usize) -> u32;
    fn grid_check(header: *const Header, table: *const i32, table_len: usize, values: *const f64, values_len: usize,
                  counts: *const u32, counts_len: usize, capacity: u32) -> u32;
    fn grid_count(counts: *const u32, counts_len: usize, level: u32, status: u32, count: *mut u32) -> u32;
    fn grid_scan(header: *const Header, table: *const i32, table_len: usize, values: *const f64, values_len: usize, capacity: u32,
                 start: u32, order: *const u8, order_len: usize, kind: u32, from_level: i32, to_level: i32,
                 out: *mut u16, out_len: usize, count: *mut u32) -> u32;
    fn grid_lookup(header: *const Header, table: *const i32, table_len: usize, values: *const f64, values_len: usize, capacity: u32,
                   speed: u32, load: u32, number: *mut u32, status: *mut u32, value: *mut f64) -> u32;
    fn grid_page(header: *const Header, table: *const i32, table_len: usize, values: *const f64, values_len: usize, capacity: u32,
                 out: *mut u8, out_len: usize, count: *mut usize) -> u32;
}

/// A lent grid. Its methods hand the library slices of its own lists, so every pointer and length is a whole list's.
struct Map {
    header: Header,
    table: Vec<i32>,
    values: Vec<f64>,
    counts: Vec<u32>,
    capacity: u32,
}

impl Map {
    fn build(capacity: u32, columns: u32, rows: u32, mode: u32) -> Map {
        let places = capacity as usize + 1;
        let mut m = Map {
            header: Header { columns: 7, rows: 7, mode: 7, mark: 7 },
            table: vec![-1; WORDS * places],
            values: vec![7.0; places],
            counts: vec![7; COUNTS],
            capacity,
        };
        let mut in_use = 99;
        let refusal = unsafe {
            grid_build(
                &mut m.header, m.table.as_mut_ptr(), m.table.len(), m.values.as_mut_ptr(), m.values.len(), m.counts.as_mut_ptr(), m.counts.len(),
                capacity, columns, rows, mode, &mut in_use,
            )
        };
        println!("build {} in use {}", refusal, in_use);
        m
    }

    fn tape(&mut self, tape: &[u8]) {
        let (mut done, mut offset) = (99, 99);
        let refusal = unsafe {
            grid_tape(
                &mut self.header, self.table.as_mut_ptr(), self.table.len(), self.values.as_mut_ptr(), self.values.len(),
                self.counts.as_mut_ptr(), self.counts.len(), self.capacity, tape.as_ptr(), tape.len(), &mut done, &mut offset,
            )
        };
        println!("tape {} done {} at {} mark {}", refusal, done, offset, self.header.mark);
    }

    fn check(&self) {
        let refusal = unsafe {
            grid_check(
                &self.header, self.table.as_ptr(), self.table.len(), self.values.as_ptr(), self.values.len(),
                self.counts.as_ptr(), self.counts.len(), self.capacity,
            )
        };
        println!("check {}", refusal);
    }

    /// The refusal, and how many leaves have the level and the status.
    fn asked(&self, level: u32, status: u32) -> (u32, u32) {
        let mut number = 99;
        let refusal = unsafe { grid_count(self.counts.as_ptr(), self.counts.len(), level, status, &mut number) };
        (refusal, number)
    }

    fn count(&self, level: u32, status: u32) {
        let (refusal, number) = self.asked(level, status);
        println!("count {} is {}", refusal, number);
    }

    /// Of the levels 0 and 1, how many leaves are blank, measured and carried.
    fn lacking(&self) {
        for level in [0, 1] {
            let [blank, measured, carried] = [0, 1, 2].map(|status| self.asked(level, status).1);
            println!("level {}: blank {} measured {} carried {}", level, blank, measured, carried);
        }
    }

    fn scan(&self, order: &[u8], kind: u32, room: usize) {
        let mut out = vec![0u16; room];
        let mut count = 99;
        let refusal = unsafe {
            grid_scan(
                &self.header, self.table.as_ptr(), self.table.len(), self.values.as_ptr(), self.values.len(), self.capacity,
                1, order.as_ptr(), order.len(), kind, self.word(1, LEVEL), 12, out.as_mut_ptr(), out.len(), &mut count,
            )
        };
        print!("scan {} count {}:", refusal, count);
        for number in &out[..count as usize] {
            print!(" {}", number);
        }
        println!();
    }

    fn lookup(&self, speed: u32, load: u32) {
        let (mut number, mut status, mut value) = (99, 99, 99.0);
        let refusal = unsafe {
            grid_lookup(
                &self.header, self.table.as_ptr(), self.table.len(), self.values.as_ptr(), self.values.len(), self.capacity,
                speed, load, &mut number, &mut status, &mut value,
            )
        };
        println!("lookup {} leaf {} status {} value {:016x}", refusal, number, status, value.to_bits());
    }

    fn page(&self, room: usize) {
        let mut out = vec![0u8; room];
        let mut count = 99;
        let refusal = unsafe {
            grid_page(
                &self.header, self.table.as_ptr(), self.table.len(), self.values.as_ptr(), self.values.len(), self.capacity,
                out.as_mut_ptr(), out.len(), &mut count,
            )
        };
        println!("page {} bytes {}", refusal, count);
        print!("{}", String::from_utf8_lossy(&out[..count]));
    }

    fn word(&self, number: usize, w: usize) -> i32 {
        self.table[WORDS * number + w]
    }

    fn places(&self, first: usize, last: usize) {
        print!("places");
        for n in first..=last {
            print!(" {}=({},{})", n, self.word(n, COLUMN), self.word(n, ROW));
        }
        println!();
    }

    fn flags(&self, numbers: &[usize]) {
        print!("flags");
        for &n in numbers {
            print!(" {}", self.word(n, FLAGS));
        }
        println!();
    }

    fn row(&self, number: usize, first: usize, count: usize) {
        print!("row {}:", number);
        for w in first..first + count {
            print!(" {}", self.word(number, w));
        }
        println!();
    }
}

fn one_cell() {
    println!("P1 P2 and the page");
    let mut m = Map::build(40, 1, 1, OPEN);
    let built = m.table.clone();
    m.places(2, 5);
    m.flags(&[2, 3, 4, 5]);
    m.page(400);

    println!("P3 P4 P5");
    m.tape(&[1, 0, 2]);
    m.places(6, 14);
    m.flags(&[6, 7, 8, 9]);
    m.tape(&[2, 0, 6, 2, 0, 7, 2, 0, 8, 2, 0, 9, 3, 0, 2]);
    println!("rows of the build {}", if m.table == built { "yes" } else { "no" });
    for capacity in [14, 13] {
        Map::build(capacity, 1, 1, OPEN).tape(&[1, 0, 2]);
    }
}

fn more_cells(order: &[u8]) {
    println!("P6 P7 P8");
    let mut m = Map::build(40, 2, 1, OPEN);
    m.scan(order, 2, 40);
    m.tape(&[1, 0, 4]);
    m.scan(order, 1, 40);
    m.flags(&[17, 16, 11, 18]);
    m.tape(&[4, 0, 6]);
    m.flags(&[3, 8, 9, 17, 16, 11, 18]);
    m.tape(&[1, 0, 10]);
    m.row(10, 1, 4);

    println!("P9");
    let mut m = Map::build(40, 3, 1, OPEN);
    m.tape(&[4, 0, 6]);
    m.scan(order, 1, 40);
    m.row(6, NORTH, 4);
    m.row(8, NORTH, 4);
}

/// 11, a kid of 4, lies beside 6: 6 is refined before 11, and has its kids until 11 has none.
fn no_jump(order: &[u8]) {
    println!("no jump of two levels");
    let mut m = Map::build(40, 2, 1, OPEN);
    m.tape(&[1, 0, 4, 1, 0, 11]);
    m.tape(&[1, 0, 6, 1, 0, 11]);
    m.row(6, 1, 4);
    m.row(11, 1, 4);
    m.tape(&[2, 0, 17, 2, 0, 19, 2, 0, 16, 2, 0, 20, 3, 0, 6]);
    m.tape(&[2, 0, 25, 2, 0, 26, 2, 0, 27, 2, 0, 28, 3, 0, 11, 3, 0, 6]);
    m.scan(order, 3, 40);
    m.check();
}

/// 8 is the highest of three cells, and 4, the lowest, lies to its north: 12, a kid of 8, lies beside 4 until 4 is killed.
fn ring(order: &[u8]) {
    println!("a ring");
    let mut m = Map::build(40, 1, 3, RING);
    m.places(4, 9);
    m.row(4, NORTH, 4);
    m.row(8, NORTH, 4);
    m.flags(&[4, 5, 8, 6, 7, 9]);
    m.tape(&[1, 0, 8]);
    m.places(10, 18);
    m.row(12, NORTH, 4);
    m.row(14, NORTH, 4);
    m.flags(&[12, 13, 14, 15]);
    m.lookup(0, 3 * 4096 - 1);
    m.lookup(0, 3 * 4096);
    m.tape(&[1, 0, 12]);
    m.tape(&[4, 0, 4, 1, 0, 12]);
    m.flags(&[12, 13, 14, 15]);
    m.lookup(0, 0);
    m.scan(order, 3, 40);
    m.page(400);
    m.check();
    m.header.mode = OPEN;
    m.check();
    m.header.mode = 2;
    m.check();
    Map::build(40, 1, 2, RING);
    Map::build(40, 1, 3, 2);
}

fn counts(order: &[u8]) {
    println!("how many cells lack a measurement");
    let mut m = Map::build(40, 2, 1, OPEN);
    m.lacking();
    m.tape(&[1, 0, 4]);
    m.lacking();
    m.tape(&[5, 0, 10, 0x3f, 0xf8, 0, 0, 0, 0, 0, 0]);
    m.lacking();
    m.tape(&[5, 0, 6, 0x3f, 0xf8, 0, 0, 0, 0, 0, 0, 1, 0, 6]);
    m.lacking();
    m.tape(&[5, 0, 11, 0x3f, 0xf8, 0, 0, 0, 0, 0, 0, 1, 0, 4, 1, 0, 11]);
    m.lacking();
    m.tape(&[2, 0, 10, 2, 0, 11, 2, 0, 12, 2, 0, 13, 3, 0, 4]);
    m.lacking();
    m.tape(&[4, 0, 4]);
    m.lacking();
    m.check();
    m.count(13, 0);
    m.count(0, 3);
    m.count(u32::MAX, u32::MAX);
    m.counts[4] += 1;
    m.check();
    m.tape(&[1, 0, 16]);
    m.count(1, 1);
    m.scan(order, 3, 40);
    m.counts[4] -= 1;
    m.check();
    m.counts.truncate(38);
    m.check();
    m.tape(&[1, 0, 16]);
    m.count(13, 0);
    m.counts.resize(40, 0);
    m.check();
    m.count(1, 2);
}

fn points() -> Map {
    println!("P10 P11");
    let mut m = Map::build(40, 1, 1, OPEN);
    m.lookup(4095, 4095);
    m.lookup(4096, 0);
    m.lookup(4097, 0);
    m.tape(&[1, 0, 2, 1, 0, 2]);

    println!("rated speed");
    let mut m = Map::build(40, 2, 2, OPEN);
    m.tape(&[4, 0, 9]);
    m.lookup(4096, 4096);
    m.lookup(8192, 4095);
    m.lookup(0, 8192);
    m.lookup(8192, 4096);
    m.lookup(4097, 4097);
    m.lookup(u32::MAX, u32::MAX);
    let mut m = Map::build(40, 2, 2, OPEN);
    m.tape(&[4, 0, 7]);
    m.lookup(0, 4096);

    println!("values");
    let mut m = Map::build(40, 1, 1, OPEN);
    m.tape(&[5, 0, 2, 0x3f, 0xf8, 0, 0, 0, 0, 0, 0]);
    m.lookup(0, 0);
    m.tape(&[1, 0, 2]);
    m.lookup(4095, 0);
    m.page(400);
    m
}

fn refusals(mut m: Map, order: &[u8]) {
    println!("refusals");
    m.scan(order, 3, 3);
    m.scan(&order[..3], 3, 40);
    m.page(10);
    m.check();
    m.table[WORDS * 6 + FLAGS] += 1;
    m.check();
    m.lookup(0, 0);
    m.header.rows = 33;
    m.check();
    m.capacity = 4;
    m.table.truncate(WORDS * 5);
    m.values.truncate(5);
    m.check();
    m.tape(&[1, 0, 2]);
}

fn main() {
    let order = [3, 4, 2, 1];
    one_cell();
    more_cells(&order);
    no_jump(&order);
    ring(&order);
    counts(&order);
    refusals(points(), &order);
}
