//! Cycles a second of the proved library and of the crate w65c816 0.1.17, in one process, in turn, on the same memory and program; the ends are
//! compared first. What is printed is ours over the crate's: best of the rounds, and median.
use std::process::exit;
use std::time::Instant;
use w65c816::{AddressType, Signals, System, CPU};

/// The library's functions, as the Rust crate declares them.
#[path = "../rust/src/ffi.rs"]
#[allow(dead_code)]
mod ffi;

const BUDGET: u32 = 200_000;

struct Bus {
    mem: Vec<u8>,
    reset: bool,
    vector: bool,
}

impl System for Bus {
    #[inline]
    fn read(&mut self, addr: u32, _: AddressType, _: &Signals) -> u8 {
        self.vector = addr == 0xFFFD;
        self.mem[addr as usize & 0xFFFF]
    }
    #[inline]
    fn write(&mut self, addr: u32, byte: u8, _: AddressType, _: &Signals) {
        self.mem[addr as usize & 0xFFFF] = byte;
    }
    #[inline]
    fn res(&mut self) -> bool {
        self.reset
    }
}

/// A program from 8000 on, and how it starts: P, E, A; X and Y are 0.
struct Row {
    name: &'static str,
    code: Vec<u8>,
    p: u8,
    e: bool,
    a: u16,
}

fn immediate(v: u8, wide: bool) -> Vec<u8> {
    if wide {
        vec![v, 0]
    } else {
        vec![v]
    }
}

/// Loads, stores, sums and a loop; `decimal` leaves D set.
fn mixed(wide: bool, decimal: bool) -> Vec<u8> {
    let mut c = vec![if decimal { 0xF8 } else { 0xD8 }, 0x18, 0xA5, 0x10, 0x69];
    c.extend(immediate(1, wide));
    c.extend([0x85, 0x10, 0x38, 0xAD, 0x00, 0x03, 0xE9]);
    c.extend(immediate(3, wide));
    c.extend([0x8D, 0x00, 0x03, 0x18, 0x69]);
    c.extend(immediate(0x19, wide));
    c.extend([0xE8, 0xCA, 0xE8, 0x4C, 0x00, 0x80]);
    c
}

fn rows() -> Vec<Row> {
    let branches = vec![
        0xE8, 0xD0, 0x00, 0xF0, 0x02, 0x90, 0x00, 0xB0, 0x01, 0xEA, 0x10, 0x00, 0x80, 0xF2,
    ];
    // MVN from 1000 to 2000, each time with A 0FFF again
    let moves = vec![
        0xA9, 0xFF, 0x0F, 0xA2, 0x00, 0x10, 0xA0, 0x00, 0x20, 0x54, 0x00, 0x00, 0x4C, 0x00, 0x80,
    ];
    let row = |name, code, p, e| Row {
        name,
        code,
        p,
        e,
        a: 0,
    };
    vec![
        row("mixed, 8 bits", mixed(false, false), 0x34, false),
        row("mixed, 16 bits", mixed(true, false), 0x04, false),
        row("mixed, emulation", mixed(false, false), 0x34, true),
        row("decimal, 8 bits", mixed(false, true), 0x34, false),
        row("decimal, 16 bits", mixed(true, true), 0x04, false),
        row("branches", branches, 0x34, false),
        row("block move", moves, 0x04, false),
    ]
}

fn memory(row: &Row) -> Vec<u8> {
    let mut mem = vec![0; 65536];
    mem[0x8000..0x8000 + row.code.len()].copy_from_slice(&row.code);
    mem
}

fn record(row: &Row) -> [u8; 40] {
    let mut r = [0; 40];
    r[0] = 1;
    r[4..6].copy_from_slice(&row.a.to_le_bytes());
    r[10..12].copy_from_slice(&0x01FFu16.to_le_bytes());
    r[14..16].copy_from_slice(&0x8000u16.to_le_bytes());
    r[18] = row.p;
    r[19] = row.e as u8;
    r
}

fn crate_start(row: &Row) -> (CPU, Bus) {
    let mut bus = Bus {
        mem: memory(row),
        reset: true,
        vector: false,
    };
    let mut c = CPU::new();
    c.cycle(&mut bus);
    bus.reset = false;
    while !bus.vector {
        c.cycle(&mut bus);
    }
    bus.mem = memory(row);
    c.set_e(row.e);
    c.set_p(row.p);
    c.set_c(row.a);
    c.set_x(0);
    c.set_y(0);
    c.set_s(0x01FF);
    c.set_d(0);
    c.set_pc(0x8000);
    c.set_pbr(0);
    c.set_dbr(0);
    (c, bus)
}

/// A, X, Y, S, D, PC, PBR, DBR, P; the crate doesn't say E.
type Registers = [u16; 9];

/// Nanoseconds of so many cycles, and the registers and the memory at the end.
type Seen = (u64, Registers, Vec<u8>);

fn by_crate(row: &Row, budget: u32) -> Seen {
    let (mut c, mut bus) = crate_start(row);
    let t = Instant::now();
    for _ in 0..budget {
        c.cycle(&mut bus);
    }
    let ns = t.elapsed().as_nanos() as u64;
    let r = [
        c.c(),
        c.x(),
        c.y(),
        c.s(),
        c.d(),
        c.pc(),
        c.pbr() as u16,
        c.dbr() as u16,
        c.p() as u16,
    ];
    (ns, r, bus.mem)
}

fn word(r: &[u8], i: usize) -> u16 {
    u16::from_le_bytes([r[i], r[i + 1]])
}

fn by_ours(row: &Row, budget: u32, how: &mut dyn FnMut(&mut [u8; 40], &mut Vec<u8>, u32)) -> Seen {
    let (mut r, mut mem) = (record(row), memory(row));
    let t = Instant::now();
    how(&mut r, &mut mem, budget);
    let ns = t.elapsed().as_nanos() as u64;
    let w = |i| word(&r, i);
    let b = |i: usize| r[i] as u16;
    (
        ns,
        [w(4), w(6), w(8), w(10), w(12), w(14), b(16), b(17), b(18)],
        mem,
    )
}

fn plain(r: &mut [u8; 40], mem: &mut Vec<u8>, budget: u32) {
    ffi::run(&mut r[..32], mem, budget);
}

fn stepped(r: &mut [u8; 40], mem: &mut Vec<u8>, budget: u32) {
    ffi::session_cycles(r, mem, budget);
}

/// Ours over the crate's, best and median.
fn ratio(
    row: &Row,
    budget: u32,
    rounds: usize,
    how: &mut dyn FnMut(&mut [u8; 40], &mut Vec<u8>, u32),
) -> (f64, f64) {
    for n in [1, 2, 7, 100, 12_345, budget] {
        let (a, b) = (by_crate(row, n), by_ours(row, n, how));
        assert!(
            (a.1, &a.2) == (b.1, &b.2),
            "{}: {n} cycles: {:x?} and {:x?}",
            row.name,
            a.1,
            b.1
        );
    }
    let (mut theirs, mut ours) = (vec![], vec![]);
    for _ in 0..rounds {
        theirs.push(by_crate(row, budget).0);
        ours.push(by_ours(row, budget, how).0);
    }
    theirs.sort();
    ours.sort();
    (
        theirs[0] as f64 / ours[0] as f64,
        theirs[rounds / 2] as f64 / ours[rounds / 2] as f64,
    )
}

/// ROUNDS, or 60.
fn rounds() -> usize {
    let Some(word) = std::env::args().nth(1) else {
        return 60;
    };
    match word.parse() {
        Ok(n) if n > 0 => n,
        _ => {
            eprintln!("bench: ROUNDS is a number from 1 on");
            exit(2)
        }
    }
}

fn main() {
    let rounds = rounds();
    let mut text = vec![0u8; 6 + 22 * BUDGET as usize];
    let mut traced = |r: &mut [u8; 40], mem: &mut Vec<u8>, budget: u32| {
        ffi::trace(&mut r[..32], mem, &mut text, 0, budget);
    };
    println!(
        "{:18} {:>12} {:>12} {:>12}   ours over the crate's, best (median)",
        "", "run", "traced run", "session"
    );
    for row in rows() {
        let (a, b, c) = (
            ratio(&row, BUDGET, rounds, &mut plain),
            ratio(&row, BUDGET, rounds, &mut traced),
            ratio(&row, BUDGET, rounds, &mut stepped),
        );
        println!(
            "{:18} {:5.2} ({:4.2}) {:5.2} ({:4.2}) {:5.2} ({:4.2})",
            row.name, a.0, a.1, b.0, b.1, c.0, c.1
        );
    }
}
