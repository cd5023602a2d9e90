//! The proved library through include/grid.h, with the signatures of `hand`.

use crate::hand::{Found, Header, Scan};

extern "C" {
    fn grid_build(
        h: *mut Header,
        t: *mut i32,
        t_len: usize,
        v: *mut f64,
        v_len: usize,
        c: *mut u32,
        c_len: usize,
        capacity: u32,
        columns: u32,
        rows: u32,
        mode: u32,
        in_use: *mut u32,
    ) -> u32;
    fn grid_tape(
        h: *mut Header,
        t: *mut i32,
        t_len: usize,
        v: *mut f64,
        v_len: usize,
        c: *mut u32,
        c_len: usize,
        capacity: u32,
        tape: *const u8,
        tape_len: usize,
        done: *mut usize,
        offset: *mut usize,
    ) -> u32;
    pub fn grid_check(
        h: *const Header,
        t: *const i32,
        t_len: usize,
        v: *const f64,
        v_len: usize,
        c: *const u32,
        c_len: usize,
        capacity: u32,
    ) -> u32;
    pub fn grid_count(c: *const u32, c_len: usize, level: u32, status: u32, count: *mut u32) -> u32;
    pub fn grid_scan(
        h: *const Header,
        t: *const i32,
        t_len: usize,
        v: *const f64,
        v_len: usize,
        capacity: u32,
        start: u32,
        order: *const u8,
        order_len: usize,
        kind: u32,
        from: i32,
        to: i32,
        out: *mut u16,
        out_len: usize,
        count: *mut u32,
    ) -> u32;
    pub fn grid_lookup(
        h: *const Header,
        t: *const i32,
        t_len: usize,
        v: *const f64,
        v_len: usize,
        capacity: u32,
        speed: u32,
        load: u32,
        number: *mut u32,
        status: *mut u32,
        value: *mut f64,
    ) -> u32;
    pub fn grid_page(
        h: *const Header,
        t: *const i32,
        t_len: usize,
        v: *const f64,
        v_len: usize,
        capacity: u32,
        out: *mut u8,
        out_len: usize,
        count: *mut usize,
    ) -> u32;
}

pub fn check(h: &Header, t: &[i32], v: &[f64], c: &[u32], capacity: u32) -> u32 {
    unsafe { grid_check(h, t.as_ptr(), t.len(), v.as_ptr(), v.len(), c.as_ptr(), c.len(), capacity) }
}

pub fn count(c: &[u32], level: u32, status: u32) -> (u32, u32) {
    let mut count = u32::MAX;
    let refusal = unsafe { grid_count(c.as_ptr(), c.len(), level, status, &mut count) };
    (refusal, count)
}

pub fn build(h: &mut Header, t: &mut [i32], v: &mut [f64], c: &mut [u32], capacity: u32, columns: u32, rows: u32, mode: u32) -> (u32, u32) {
    let mut used = u32::MAX;
    let refusal = unsafe {
        grid_build(
            h,
            t.as_mut_ptr(),
            t.len(),
            v.as_mut_ptr(),
            v.len(),
            c.as_mut_ptr(),
            c.len(),
            capacity,
            columns,
            rows,
            mode,
            &mut used,
        )
    };
    (refusal, used)
}

pub fn tape(h: &mut Header, t: &mut [i32], v: &mut [f64], c: &mut [u32], capacity: u32, tape: &[u8]) -> (usize, u32, usize) {
    let (mut done, mut offset) = (usize::MAX, usize::MAX);
    let refusal = unsafe {
        grid_tape(
            h,
            t.as_mut_ptr(),
            t.len(),
            v.as_mut_ptr(),
            v.len(),
            c.as_mut_ptr(),
            c.len(),
            capacity,
            tape.as_ptr(),
            tape.len(),
            &mut done,
            &mut offset,
        )
    };
    (done, refusal, offset)
}

pub fn scan(h: &Header, t: &[i32], v: &[f64], capacity: u32, what: &Scan, out: &mut [u16]) -> (u32, usize) {
    let mut count = u32::MAX;
    let refusal = unsafe {
        grid_scan(
            h,
            t.as_ptr(),
            t.len(),
            v.as_ptr(),
            v.len(),
            capacity,
            what.start,
            what.order.as_ptr(),
            what.order.len(),
            what.kind,
            what.from,
            what.to,
            out.as_mut_ptr(),
            out.len(),
            &mut count,
        )
    };
    (refusal, count as usize)
}

pub fn lookup(h: &Header, t: &[i32], v: &[f64], capacity: u32, speed: u32, load: u32) -> Found {
    let (mut number, mut status, mut value) = (u32::MAX, u32::MAX, f64::NAN);
    let refusal = unsafe { grid_lookup(h, t.as_ptr(), t.len(), v.as_ptr(), v.len(), capacity, speed, load, &mut number, &mut status, &mut value) };
    Found { refusal, number, status, bits: value.to_bits() }
}

pub fn page(h: &Header, t: &[i32], v: &[f64], capacity: u32, out: &mut [u8]) -> (u32, usize) {
    let mut count = usize::MAX;
    let refusal = unsafe { grid_page(h, t.as_ptr(), t.len(), v.as_ptr(), v.len(), capacity, out.as_mut_ptr(), out.len(), &mut count) };
    (refusal, count)
}
