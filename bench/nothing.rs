//! Calls that do nothing, with the signatures of `hand`: what a workload costs besides the calls.

use crate::hand::{Found, Header, Scan};

#[inline(never)]
pub fn check(_: &Header, _: &[i32], _: &[f64], _: &[u32], capacity: u32) -> u32 {
    capacity
}

#[inline(never)]
pub fn count(_: &[u32], level: u32, status: u32) -> (u32, u32) {
    (level, status)
}

#[inline(never)]
pub fn build(_: &mut Header, _: &mut [i32], _: &mut [f64], _: &mut [u32], capacity: u32, columns: u32, _: u32, _: u32) -> (u32, u32) {
    (capacity, columns)
}

#[inline(never)]
pub fn tape(_: &mut Header, _: &mut [i32], _: &mut [f64], _: &mut [u32], capacity: u32, tape: &[u8]) -> (usize, u32, usize) {
    (0, capacity, tape.len())
}

#[inline(never)]
pub fn scan(_: &Header, _: &[i32], _: &[f64], capacity: u32, _: &Scan, out: &mut [u16]) -> (u32, usize) {
    (capacity, out.len())
}

#[inline(never)]
pub fn lookup(_: &Header, _: &[i32], _: &[f64], capacity: u32, speed: u32, load: u32) -> Found {
    Found { refusal: capacity, number: speed, status: load, bits: 0 }
}

#[inline(never)]
pub fn page(_: &Header, _: &[i32], _: &[f64], capacity: u32, out: &mut [u8]) -> (u32, usize) {
    (capacity, out.len())
}
