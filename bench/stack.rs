//! How much stack the calls that change nothing take, by the level of the deepest leaf.
//!
//! A call runs on a stack of its own that was filled with a pattern; what it takes reaches from below its return address down to the deepest word that
//! has changed.

use crate::proved::{grid_check, grid_count, grid_lookup, grid_page, grid_scan};
use crate::work::{refined, Lists};
use std::arch::asm;

const WORDS: usize = 1 << 16;
const PATTERN: usize = 0x5afe_57ac_4ed0_0d1e;

#[repr(align(16))]
struct Stack([usize; WORDS]);

/// The bytes that a C function takes, and what it answers. Its arguments are whole numbers and pointers: six in registers, the rest on the stack. They
/// are six at least; what a function does not look at does no harm.
fn taken(call: *const (), arguments: &[usize]) -> (usize, u32) {
    let mut stack = Box::new(Stack([PATTERN; WORDS]));
    let (six, rest) = arguments.split_at(6);
    let start = WORDS - (rest.len() + 1) / 2 * 2;
    stack.0[start..start + rest.len()].copy_from_slice(rest);
    let answer: usize;
    // a call gives r12 back as it was
    unsafe {
        asm!(
            "mov r12, rsp",
            "mov rsp, {start}",
            "call {call}",
            "mov rsp, r12",
            start = in(reg) stack.0.as_mut_ptr().add(start),
            call = in(reg) call,
            in("rdi") six[0],
            in("rsi") six[1],
            in("rdx") six[2],
            in("rcx") six[3],
            in("r8") six[4],
            in("r9") six[5],
            out("rax") answer,
            out("r12") _,
            clobber_abi("C"),
        );
    }
    let untouched = stack.0.iter().take_while(|&&word| word == PATTERN).count();
    assert!(untouched > 0, "the stack is too small");
    ((start - 1 - untouched) * std::mem::size_of::<usize>(), answer as u32)
}

/// What a call is lent of the lists, which are its first arguments.
enum Lent {
    Grid,
    GridAndCounts,
    Counts,
}

/// The bytes that a call on these lists takes.
fn taken_on(lists: &Lists, call: *const (), lent: &Lent, rest: &[usize]) -> usize {
    let Lists { header, table, values, counts } = lists;
    let grid = [header as *const _ as usize, table.as_ptr() as usize, table.len(), values.as_ptr() as usize, values.len()];
    let (counts, capacity) = ([counts.as_ptr() as usize, counts.len()], [lists.capacity() as usize]);
    let first = match lent {
        Lent::Grid => [&grid[..], &capacity].concat(),
        Lent::GridAndCounts => [&grid[..], &counts, &capacity].concat(),
        Lent::Counts => counts.to_vec(),
    };
    let (bytes, refusal) = taken(call, &[&first, rest].concat());
    assert_eq!(refusal, 0);
    bytes
}

fn place<T>(list: &mut [T]) -> usize {
    list.as_mut_ptr() as usize
}

/// A line for each call: what it takes where the deepest leaf is on level 0, and where it is on level 12. Scan and page alone may take more.
pub fn print() {
    let (mut number, mut status, mut value, mut count) = ([0u32], [0u32], [0f64], [0usize]);
    let (mut order, mut numbers, mut bytes) = ([3u8, 4, 2, 1], [0u16; 200], [0u8; 10_000]);
    let point = [0, 0, place(&mut number), place(&mut status), place(&mut value)];
    let leaves = [1, place(&mut order), 4, 3, 0, 12, place(&mut numbers), numbers.len(), place(&mut count)];
    let page = [place(&mut bytes), bytes.len(), place(&mut count)];
    let question = [0, 0, place(&mut number), 0];
    let calls: [(&str, bool, *const (), Lent, &[usize]); 5] = [
        ("check", false, grid_check as *const (), Lent::GridAndCounts, &[]),
        ("count", false, grid_count as *const (), Lent::Counts, &question),
        ("lookup, with its check", false, grid_lookup as *const (), Lent::Grid, &point),
        ("scan of leaves, with its check", true, grid_scan as *const (), Lent::Grid, &leaves),
        ("page, with its check", true, grid_page as *const (), Lent::Grid, &page),
    ];
    for (name, grows, call, lent, rest) in calls {
        let [low, high] = [0, 12].map(|times| taken_on(&refined(times), call, &lent, rest));
        println!("| {name} | {low} | {high} |");
        assert!(grows || low == high, "the stack grows with the levels");
    }
}
