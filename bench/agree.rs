//! Runs cases of tests/generate.py with the hand-written version and with the proved library, and compares each with what the reference answers and
//! leaves. Arguments: files of one case each (NAME.case), or inputs of the program (NAME.in, beside NAME.out).

mod hand;
mod proved;

use hand::{Found, Header, Scan};
use std::{env, fs, process};

/// The numbers of a case, one after the other.
struct Case {
    numbers: std::vec::IntoIter<i128>,
}

impl Case {
    fn number(&mut self) -> i128 {
        self.numbers.next().expect("a case ends too early")
    }

    fn list(&mut self) -> Vec<i128> {
        let length = self.number();
        (0..length).map(|_| self.number()).collect()
    }

    fn lists(&mut self) -> Lists {
        let header = Header { columns: self.number() as u32, rows: self.number() as u32, mode: self.number() as u32, mark: self.number() as u16 };
        let table = self.list().into_iter().map(|word| word as i32).collect();
        let values = self.list().into_iter().map(|bits| f64::from_bits(bits as u64)).collect();
        let counts = self.list().into_iter().map(|number| number as u32).collect();
        Lists { header, table, values, counts }
    }
}

#[derive(Clone)]
struct Lists {
    header: Header,
    table: Vec<i32>,
    values: Vec<f64>,
    counts: Vec<u32>,
}

impl Lists {
    fn same(&self, other: &Lists) -> bool {
        let bits = |lists: &Lists| lists.values.iter().map(|x| x.to_bits()).collect::<Vec<_>>();
        self.header == other.header && self.table == other.table && bits(self) == bits(other) && self.counts == other.counts
    }
}

/// Whether both versions give a case's answers and leave its lists.
fn case_agrees(text: &str) -> bool {
    let numbers: Vec<i128> = text.split_whitespace().map(|word| word.parse().expect("a number")).collect();
    let mut case = Case { numbers: numbers.into_iter() };
    let (call, capacity) = (case.number(), case.number() as u32);
    let lists = case.lists();
    let (mut a, mut b) = (lists.clone(), lists.clone());
    match call {
        1 => {
            let (columns, rows, mode) = (case.number() as u32, case.number() as u32, case.number() as u32);
            let wanted = (case.number() as u32, case.number() as u32);
            let left = case.lists();
            let by_hand = hand::build(&mut a.header, &mut a.table, &mut a.values, &mut a.counts, capacity, columns, rows, mode);
            let by_proof = proved::build(&mut b.header, &mut b.table, &mut b.values, &mut b.counts, capacity, columns, rows, mode);
            by_hand == wanted && by_proof == wanted && a.same(&left) && b.same(&left)
        }
        2 => {
            let requests: Vec<u8> = case.list().into_iter().map(|byte| byte as u8).collect();
            let wanted = (case.number() as usize, case.number() as u32, case.number() as usize);
            let left = case.lists();
            let by_hand = hand::tape(&mut a.header, &mut a.table, &mut a.values, &mut a.counts, capacity, &requests);
            let by_proof = proved::tape(&mut b.header, &mut b.table, &mut b.values, &mut b.counts, capacity, &requests);
            by_hand == wanted && by_proof == wanted && a.same(&left) && b.same(&left)
        }
        3 => {
            case.number();
            let wanted = case.number() as u32;
            let by_hand = hand::check(&a.header, &a.table, &a.values, &a.counts, capacity);
            by_hand == wanted && proved::check(&b.header, &b.table, &b.values, &b.counts, capacity) == wanted
        }
        4 => scan_agrees(&mut case, capacity, &lists),
        5 => lookups_agree(&mut case, capacity, &lists),
        6 => page_agrees(&mut case, capacity, &lists),
        _ => counts_agree(&mut case, &lists),
    }
}

fn scan_agrees(case: &mut Case, capacity: u32, lists: &Lists) -> bool {
    let start = case.number() as u32;
    let order: Vec<u8> = (0..4).map(|_| case.number() as u8).collect();
    let (kind, from, to) = (case.number() as u32, case.number() as i32, case.number() as i32);
    let (length, filler) = (case.number() as usize, case.number() as u16);
    let wanted = (case.number() as u32, case.number() as usize);
    let left: Vec<u16> = case.list().into_iter().map(|number| number as u16).collect();
    let what = Scan { start, order: &order, kind, from, to };
    let (mut a, mut b) = (vec![filler; length], vec![filler; length]);
    let by_hand = hand::scan(&lists.header, &lists.table, &lists.values, capacity, &what, &mut a);
    let by_proof = proved::scan(&lists.header, &lists.table, &lists.values, capacity, &what, &mut b);
    by_hand == wanted && by_proof == wanted && a == left && b == left
}

fn lookups_agree(case: &mut Case, capacity: u32, lists: &Lists) -> bool {
    let points: Vec<(u32, u32)> = (0..case.number()).map(|_| (case.number() as u32, case.number() as u32)).collect();
    case.number();
    points.into_iter().all(|(speed, load)| {
        let wanted = Found { refusal: case.number() as u32, number: case.number() as u32, status: case.number() as u32, bits: case.number() as u64 };
        let by_hand = hand::lookup(&lists.header, &lists.table, &lists.values, capacity, speed, load);
        by_hand == wanted && proved::lookup(&lists.header, &lists.table, &lists.values, capacity, speed, load) == wanted
    })
}

fn counts_agree(case: &mut Case, lists: &Lists) -> bool {
    let questions: Vec<(u32, u32)> = (0..case.number()).map(|_| (case.number() as u32, case.number() as u32)).collect();
    case.number();
    questions.into_iter().all(|(level, status)| {
        let wanted = (case.number() as u32, case.number() as u32);
        hand::count(&lists.counts, level, status) == wanted && proved::count(&lists.counts, level, status) == wanted
    })
}

fn page_agrees(case: &mut Case, capacity: u32, lists: &Lists) -> bool {
    let (length, filler) = (case.number() as usize, case.number() as u8);
    let wanted = (case.number() as u32, case.number() as usize);
    let left: Vec<u8> = case.list().into_iter().map(|byte| byte as u8).collect();
    let (mut a, mut b) = (vec![filler; length], vec![filler; length]);
    let by_hand = hand::page(&lists.header, &lists.table, &lists.values, capacity, &mut a);
    let by_proof = proved::page(&lists.header, &lists.table, &lists.values, capacity, &mut b);
    by_hand == wanted && by_proof == wanted && a == left && b == left
}

/// What the program of the scope paper prints for an input, by the calls of one version.
macro_rules! program {
    ($calls:ident, $input:expr) => {{
        let input: &[u8] = $input;
        let capacity = 1000;
        let header = Header { columns: 0, rows: 0, mode: 0, mark: 0 };
        let mut lists = Lists { header, table: vec![0; 14 * 1001], values: vec![0.0; 1001], counts: vec![0; hand::PLACES] };
        let mut page = vec![0; 60000];
        let head = match input {
            _ if input.len() > 60000 => 20,
            [] => 4,
            [7, columns, rows, ..] => {
                let (columns, rows) = (*columns as u32, *rows as u32);
                $calls::build(&mut lists.header, &mut lists.table, &mut lists.values, &mut lists.counts, capacity, columns, rows, hand::OPEN).0
            }
            [7, ..] => 4,
            _ => 5,
        };
        let (refusal, at) = match head {
            0 => {
                let (_, refusal, offset) =
                    $calls::tape(&mut lists.header, &mut lists.table, &mut lists.values, &mut lists.counts, capacity, &input[3..]);
                (refusal, offset + 3)
            }
            _ => (head, 0),
        };
        if refusal != 0 {
            format!("refused {} at {}\n", refusal, at).into_bytes()
        } else {
            let (_, count) = $calls::page(&lists.header, &lists.table, &lists.values, capacity, &mut page);
            page[..count].to_vec()
        }
    }};
}

fn program_agrees(name: &str) -> bool {
    let input = fs::read(name).expect("an input");
    let wanted = fs::read(name.replace(".in", ".out")).expect("what the reference prints");
    program!(hand, &input) == wanted && program!(proved, &input) == wanted
}

fn main() {
    let mut differ = 0;
    let names: Vec<String> = env::args().skip(1).collect();
    for name in &names {
        let agrees = if name.ends_with(".in") { program_agrees(name) } else { case_agrees(&fs::read_to_string(name).expect("a case")) };
        if !agrees {
            println!("{} differs", name);
            differ += 1;
        }
    }
    println!("{} cases, {} differ", names.len(), differ);
    process::exit((differ != 0) as i32);
}
