//! The proved library beside the crate w65c816 0.1.17, built unchanged from its source: the same starts, the same bytes, every request, byte,
//! count and record compared. A listed difference (docs/DIFFERENCES.md) is a rule that computes the crate's answer from ours; an answer that is
//! neither ours nor the rule's fails, and so does a rule that a full run never meets.
//!
//! judge SEED CASES PROGRAMS [short]: CASES random starts for each opcode and mode, PROGRAMS random programs over bank 0.
use std::process::exit;
use w65c816::{AddressType, Signals, System, CPU};

/// The library's functions, as the Rust crate declares them.
#[path = "../rust/src/ffi.rs"]
#[allow(dead_code)]
mod ffi;

/// Document 01's list.
const TAKEN: [u8; 117] = [
    0x69, 0x6D, 0x65, 0xE9, 0xED, 0xE5, 0xC9, 0xCD, 0xC5, 0x29, 0x2D, 0x25, 0x09, 0x0D, 0x05, 0x49,
    0x4D, 0x45, 0x89, 0x2C, 0x24, 0xA9, 0xAD, 0xA5, 0xA2, 0xAE, 0xA6, 0xA0, 0xAC, 0xA4, 0xE0, 0xEC,
    0xE4, 0xC0, 0xCC, 0xC4, 0x8D, 0x85, 0x8E, 0x86, 0x8C, 0x84, 0x9C, 0x64, 0x0A, 0x2A, 0x4A, 0x6A,
    0x1A, 0x3A, 0x18, 0x38, 0x58, 0x78, 0xB8, 0xD8, 0xF8, 0xEA, 0xFB, 0xEB, 0xAA, 0xA8, 0xBA, 0x8A,
    0x9A, 0x9B, 0x98, 0xBB, 0x5B, 0x1B, 0x7B, 0x3B, 0xE8, 0xC8, 0xCA, 0x88, 0xC2, 0xE2, 0x42, 0x54,
    0x44, 0x10, 0x30, 0x50, 0x70, 0x90, 0xB0, 0xD0, 0xF0, 0x80, 0x82, 0x4C, 0x6C, 0x7C, 0x5C, 0xDC,
    0x20, 0xFC, 0x22, 0x60, 0x6B, 0x48, 0xDA, 0x5A, 0x08, 0x8B, 0x0B, 0x4B, 0x68, 0xFA, 0x7A, 0x28,
    0xAB, 0x2B, 0xF4, 0xD4, 0x62,
];

/// What the programmer sees; P with M and X as they are.
#[derive(Clone, Copy, PartialEq, Debug)]
struct State {
    a: u16,
    x: u16,
    y: u16,
    s: u16,
    d: u16,
    pc: u16,
    pbr: u8,
    dbr: u8,
    p: u8,
    e: bool,
}

/// Native, 8 bits, at 8000.
const PLAIN: State = State {
    a: 0,
    x: 0,
    y: 0,
    s: 0x1FF,
    d: 0,
    pc: 0x8000,
    pbr: 0,
    dbr: 0,
    p: 0x30,
    e: false,
};

/// One access: kind, direction, address, byte.
#[derive(Clone, Copy, PartialEq, Debug)]
struct Access {
    kind: u8,
    write: bool,
    addr: u32,
    byte: u8,
}

// ---- our side

struct Ours {
    bytes: [u8; 32],
}

impl Ours {
    fn at(s: &State) -> Ours {
        let mut bytes = [0; 32];
        bytes[0] = 1;
        for (i, w) in [s.a, s.x, s.y, s.s, s.d, s.pc].iter().enumerate() {
            bytes[4 + 2 * i..6 + 2 * i].copy_from_slice(&w.to_le_bytes());
        }
        bytes[16..20].copy_from_slice(&[s.pbr, s.dbr, s.p, s.e as u8]);
        Ours { bytes }
    }

    fn word(&self, i: usize) -> u16 {
        u16::from_le_bytes([self.bytes[i], self.bytes[i + 1]])
    }

    fn state(&self) -> State {
        State {
            a: self.word(4),
            x: self.word(6),
            y: self.word(8),
            s: self.word(10),
            d: self.word(12),
            pc: self.word(14),
            pbr: self.bytes[16],
            dbr: self.bytes[17],
            p: self.bytes[18],
            e: self.bytes[19] != 0,
        }
    }

    /// At an instruction's start, or between a move's bytes.
    fn ended(&self) -> bool {
        self.bytes[1] == 0 || self.bytes[3] == 0
    }

    fn request(&self) -> Result<Access, u8> {
        let q = ffi::request(&self.bytes);
        match (q >> 48) as u8 {
            0 => Ok(Access {
                kind: (q >> 32) as u8,
                write: q >> 40 & 1 == 1,
                addr: q as u32 & 0xFF_FFFF,
                byte: (q >> 24) as u8,
            }),
            n => Err(n),
        }
    }

    fn answer(&mut self, byte: u8) -> u8 {
        ffi::answer(&mut self.bytes, byte)
    }

    /// The refusal, and the cycles done.
    fn run(&mut self, memory: &mut [u8], budget: u32) -> (u8, u32) {
        let said = ffi::run(&mut self.bytes, memory, budget);
        ((said >> 32) as u8, said as u32)
    }

    /// The refusal, the cycles done, and the bytes of text written.
    fn trace(&mut self, memory: &mut [u8], text: &mut [u8], budget: u32) -> (u8, usize, usize) {
        let said = ffi::trace(&mut self.bytes, memory, text, 0, budget);
        let (cycles, written) = (
            said as usize & 0xFF_FFFF,
            (said >> 24) as usize & 0xFFFF_FFFF,
        );
        ((said >> 56) as u8, cycles, written)
    }
}

// ---- the crate's side

fn kind_of(t: AddressType) -> u8 {
    match t {
        AddressType::Opcode => 0,
        AddressType::Program => 1,
        AddressType::Data => 2,
        AddressType::Invalid => 3,
        AddressType::Vector => 4,
    }
}

fn seen(write: bool, addr: u32, byte: u8, t: AddressType) -> Access {
    Access {
        kind: kind_of(t),
        write,
        addr,
        byte,
    }
}

/// A bus that answers one byte, whatever is asked, and keeps what was asked.
struct Wire {
    byte: u8,
    seen: Option<Access>,
    reset: bool,
}

impl System for Wire {
    fn read(&mut self, addr: u32, t: AddressType, _: &Signals) -> u8 {
        self.seen = Some(seen(false, addr, self.byte, t));
        self.byte
    }
    fn write(&mut self, addr: u32, byte: u8, t: AddressType, _: &Signals) {
        self.seen = Some(seen(true, addr, byte, t));
    }
    fn res(&mut self) -> bool {
        self.reset
    }
}

/// The crate reaches an instruction's start only by a reset; its last cycle is the vector's second byte.
fn reset() -> CPU {
    let mut cpu = CPU::new();
    let mut wire = Wire {
        byte: 0,
        seen: None,
        reset: true,
    };
    cpu.cycle(&mut wire);
    wire.reset = false;
    while wire.seen.map_or(true, |a| a.addr != 0xFFFD) {
        cpu.cycle(&mut wire);
    }
    cpu
}

fn place(cpu: &CPU, s: &State) -> CPU {
    let mut c = cpu.clone();
    c.set_e(s.e);
    c.set_p(s.p);
    c.set_c(s.a);
    c.set_x(s.x);
    c.set_y(s.y);
    c.set_s(s.s);
    c.set_d(s.d);
    c.set_pc(s.pc);
    c.set_pbr(s.pbr);
    c.set_dbr(s.dbr);
    c
}

fn seen_state(c: &CPU) -> State {
    State {
        a: c.c(),
        x: c.x(),
        y: c.y(),
        s: c.s(),
        d: c.d(),
        pc: c.pc(),
        pbr: c.pbr(),
        dbr: c.dbr(),
        p: c.p(),
        e: c.signals().e(),
    }
}

// ---- the listed differences: the crate's access, from ours

const RULES: [&str; 4] = [
    "accumulator: no access in the second cycle",
    "PER: the internal cycle asks past the operand",
    "16-bit absolute store at xxFFFF: the high byte stays in the bank",
    "16-bit absolute read at FFFFFF: the second byte at 1000000",
];

/// Which rule speaks of our access in this cycle of an instruction, and what the crate does instead.
fn rule(op: u8, cycle: usize, q: Access, dbr: u8) -> Option<(usize, Option<Access>)> {
    let next = Access {
        addr: q.addr & 0xFF_0000 | (q.addr + 1) & 0xFFFF,
        ..q
    };
    match (op, cycle) {
        (0x0A | 0x1A | 0x2A | 0x3A | 0x4A | 0x6A, 1) => Some((0, None)),
        (0x62, 3) => Some((1, Some(next))),
        (0x8C | 0x8D | 0x8E | 0x9C, 4) if q.addr & 0xFFFF == 0 => Some((
            2,
            Some(Access {
                addr: (dbr as u32) << 16,
                ..q
            }),
        )),
        (_, 4) if q.kind == 2 && !q.write && q.addr == 0 && dbr == 0xFF => Some((
            3,
            Some(Access {
                addr: 0x100_0000,
                ..q
            }),
        )),
        _ => None,
    }
}

#[derive(Default)]
struct Tally {
    cycles: u64,
    starts: u64,
    lines: u64,
    hits: [u64; 4],
}

fn fail(
    what: &str,
    from: &dyn std::fmt::Debug,
    ours: &dyn std::fmt::Debug,
    theirs: &dyn std::fmt::Debug,
) -> ! {
    println!("judge: {what}\n  from   {from:x?}\n  ours   {ours:x?}\n  crate  {theirs:x?}");
    exit(1)
}

/// Our access and the crate's, in this cycle of an instruction; what the crate reads elsewhere, `answer` gives it.
fn same_access(
    t: &mut Tally,
    from: &State,
    op: u8,
    cycle: usize,
    dbr: u8,
    q: Access,
    theirs: Option<Access>,
    answer: &dyn Fn(u32) -> u8,
) {
    let answered = |a: Access| {
        if a.write {
            a
        } else {
            Access {
                byte: answer(a.addr),
                ..a
            }
        }
    };
    match rule(op, cycle, q, dbr) {
        Some((n, expected)) if expected.map(answered) == theirs => t.hits[n] += 1,
        _ if theirs == Some(q) => {}
        _ => fail("the requests differ", &(from, op, cycle), &q, &theirs),
    }
}

fn same_state(what: &str, from: &dyn std::fmt::Debug, ours: &Ours, theirs: &CPU) {
    let (a, b) = (ours.state(), seen_state(theirs));
    if a != b {
        fail(what, from, &a, &b);
    }
}

/// One instruction, or one byte of a move, with bytes by number; every request and every register after every cycle.
fn instruction(t: &mut Tally, cpu: &CPU, from: &State, byte: &mut dyn FnMut(usize) -> u8) {
    let (mut ours, mut theirs) = (Ours::at(from), place(cpu, from));
    let mut op = 0;
    t.starts += 1;
    for cycle in 0..9 {
        let b = byte(cycle);
        if cycle == 0 {
            op = b;
        }
        let before = ours.state();
        let q = ours
            .request()
            .unwrap_or_else(|n| fail("refused", from, &n, &cycle));
        let mut wire = Wire {
            byte: b,
            seen: None,
            reset: false,
        };
        theirs.cycle(&mut wire);
        let q = if q.write { q } else { Access { byte: b, ..q } };
        same_access(t, from, op, cycle, before.dbr, q, wire.seen, &|_| b);
        let n = ours.answer(b);
        if n != 0 {
            fail("refused", &(from, op), &n, &cycle);
        }
        same_state("the records differ", &(from, op, cycle), &ours, &theirs);
        t.cycles += 1;
        if ours.ended() {
            return;
        }
    }
    fail("no end after nine cycles", &(from, op), &ours.state(), &())
}

// ---- starts

struct Random(u64);

impl Random {
    fn next(&mut self) -> u64 {
        self.0 ^= self.0 << 13;
        self.0 ^= self.0 >> 7;
        self.0 ^= self.0 << 17;
        self.0.wrapping_mul(0x2545_F491_4F6C_DD1D) >> 16
    }
    fn byte(&mut self) -> u8 {
        let edges = [0x00, 0x01, 0x7F, 0x80, 0xFE, 0xFF, 0x99, 0x0F];
        match self.next() % 3 {
            0 => edges[self.next() as usize % edges.len()],
            _ => self.next() as u8,
        }
    }
    fn word(&mut self) -> u16 {
        let edges = [
            0x0000, 0x0001, 0x00FF, 0x0100, 0x01FF, 0x0200, 0x7FFF, 0x8000, 0xFFFD, 0xFFFE, 0xFFFF,
        ];
        match self.next() % 3 {
            0 => edges[self.next() as usize % edges.len()],
            _ => u16::from_le_bytes([self.byte(), self.byte()]),
        }
    }
    /// A byte of a program: a listed opcode, seldom one that may leave bank 0, and now and then any byte.
    fn code(&mut self) -> u8 {
        let op = TAKEN[self.next() as usize % TAKEN.len()];
        match self.next() % 400 {
            0 => self.byte(),
            1..=3 => op,
            _ if [0x5C, 0xDC, 0x22, 0x6B, 0xAB, 0x54, 0x44].contains(&op) => 0xEA,
            _ => op,
        }
    }
    /// A well-formed start: mode 0 is emulation, the others native by their widths.
    fn start(&mut self, mode: u8) -> State {
        let e = mode == 0;
        let (m, x) = [
            (true, true),
            (true, true),
            (true, false),
            (false, true),
            (false, false),
        ][mode as usize];
        let narrow = |v: u16| if x { v & 0xFF } else { v };
        let (sx, sy, s) = (self.word(), self.word(), self.word());
        State {
            a: self.word(),
            x: narrow(sx),
            y: narrow(sy),
            s: if e { 0x100 | s & 0xFF } else { s },
            d: self.word(),
            pc: self.word(),
            pbr: self.byte(),
            dbr: self.byte(),
            p: self.next() as u8 & 0xCF | (m as u8) << 5 | (x as u8) << 4,
            e,
        }
    }
}

/// Every opcode in every mode, from random starts with edges.
fn opcodes(t: &mut Tally, cpu: &CPU, r: &mut Random, cases: usize) {
    for op in TAKEN {
        for mode in 0..5 {
            for _ in 0..cases {
                let from = r.start(mode);
                instruction(t, cpu, &from, &mut |k| if k == 0 { op } else { r.byte() });
            }
        }
    }
}

/// All operands of 8-bit ADC, SBC and CMP, and of the shifts, with both carries and both D.
fn exhaustive(t: &mut Tally, cpu: &CPU) {
    for (carry, decimal) in [(0, 0), (1, 0), (0, 1), (1, 1)] {
        for a in 0..256 {
            let p = 0x30 | decimal << 3 | carry;
            let from = State { a, p, ..PLAIN };
            for b in 0..=255 {
                for op in [0x69, 0xE9, 0xC9] {
                    instruction(t, cpu, &from, &mut |k| [op, b][k.min(1)]);
                }
            }
            for op in [0x0A, 0x2A, 0x4A, 0x6A, 0x1A, 0x3A] {
                instruction(t, cpu, &from, &mut |k| [op, 0][k.min(1)]);
            }
        }
    }
}

// ---- programs over bank 0

/// A memory that answers the crate, and keeps what crossed the bus.
struct Bank {
    memory: Vec<u8>,
    seen: Option<Access>,
}

impl System for Bank {
    fn read(&mut self, addr: u32, t: AddressType, _: &Signals) -> u8 {
        let byte = self.memory[addr as usize & 0xFFFF];
        self.seen = Some(seen(false, addr, byte, t));
        byte
    }
    fn write(&mut self, addr: u32, byte: u8, t: AddressType, _: &Signals) {
        self.seen = Some(seen(true, addr, byte, t));
        if addr < 0x1_0000 {
            self.memory[addr as usize] = byte;
        }
    }
}

/// A trace line as an access.
fn read_line(line: &str) -> Access {
    let f: Vec<&str> = line.split('\t').collect();
    Access {
        kind: "OPDI".find(f[1]).unwrap() as u8,
        write: f[2] == "W",
        addr: u32::from_str_radix(f[3], 16).unwrap(),
        byte: u8::from_str_radix(f[4], 16).unwrap(),
    }
}

/// The crate over a memory of its own, and where in an instruction it is: opcode, cycle, and DBR before the cycle.
struct Theirs {
    cpu: CPU,
    bank: Bank,
    op: u8,
    cycle: usize,
    dbr: u8,
}

impl Theirs {
    fn turn(&mut self) -> Option<Access> {
        self.bank.seen = None;
        self.cpu.cycle(&mut self.bank);
        self.bank.seen
    }

    /// A cycle beside our line of it, which has that number.
    fn follow(&mut self, t: &mut Tally, from: &State, number: usize, line: &str) {
        let q = read_line(line);
        if line.split('\t').next() != Some(&number.to_string()) {
            fail("a line's number", from, &line, &number);
        }
        if self.cpu.tcu() == 0xFF || q.kind == 0 {
            (self.op, self.cycle) = (q.byte, 0);
        }
        let seen = self.turn();
        let answer = |a: u32| self.bank.memory[a as usize & 0xFFFF];
        same_access(t, from, self.op, self.cycle, self.dbr, q, seen, &answer);
        self.dbr = self.cpu.dbr();
        self.cycle += 1;
        t.lines += 1;
    }

    /// Where we stopped, the crate leaves the list, or bank 0.
    fn leave(&mut self, t: &mut Tally, from: &State, refusal: u8) {
        let wide_store = matches!(self.op, 0x8C | 0x8D | 0x8E | 0x9C) && self.cycle == 4;
        match (refusal, self.turn()) {
            (0, _) => {}
            (5, Some(a)) if a.kind == 0 && !TAKEN.contains(&a.byte) => {}
            (7, Some(a)) if a.addr > 0xFFFF => {}
            (7, Some(_)) if wide_store => t.hits[2] += 1,
            (n, a) => {
                let at = (from, self.op, self.cycle);
                fail("a refusal that the crate doesn't show", &at, &n, &a)
            }
        }
    }
}

/// A random program: listed opcodes and random bytes, from a random start in bank 0. Our trace, line by line, beside the crate's cycles.
fn program(t: &mut Tally, cpu: &CPU, r: &mut Random, budget: u32) {
    let mut memory: Vec<u8> = (0..65536).map(|_| r.code()).collect();
    let mode = (r.next() % 5) as u8;
    let mut from = r.start(mode);
    (from.pbr, from.dbr) = (0, 0);
    let (mut ours, cpu) = (Ours::at(&from), place(cpu, &from));
    let bank = Bank {
        memory: memory.clone(),
        seen: None,
    };
    let mut theirs = Theirs {
        cpu,
        bank,
        op: 0,
        cycle: 0,
        dbr: 0,
    };
    let mut text = vec![0u8; 6 + 22 * budget as usize];
    let (refusal, cycles, written) = ours.trace(&mut memory, &mut text, budget);
    let text = std::str::from_utf8(&text[..written]).unwrap();
    for (i, line) in text.lines().skip(1).enumerate() {
        theirs.follow(t, &from, i + 1, line);
    }
    if text.lines().count() != cycles + 1 {
        fail("the count of lines", &from, &cycles, &text.lines().count());
    }
    same_state("the ends differ", &from, &ours, &theirs.cpu);
    if memory != theirs.bank.memory {
        fail("the memories differ", &from, &(), &());
    }
    theirs.leave(t, &from, refusal);
}

fn expect(name: &str, got: (u8, u32), want: (u8, u32)) {
    if got != want {
        fail(name, &(), &got, &want)
    }
}

/// The limits of document 01's list: memory, budget and record.
fn limits() {
    let run = |s: &State, size, budget| Ours::at(s).run(&mut vec![0xEA; size], budget);
    let most = 1_000_000;
    expect("memory of 65,535", run(&PLAIN, 65535, 1), (1, 0));
    expect("memory of 65,537", run(&PLAIN, 65537, 1), (1, 0));
    expect("budget 1,000,001", run(&PLAIN, 65536, most + 1), (2, 0));
    expect("budget 1,000,000", run(&PLAIN, 65536, most), (0, most));
    let (e, s) = (true, 0x200);
    let outside = State { e, s, ..PLAIN };
    let wide = State { x: 0x100, ..PLAIN };
    let bank = State { pbr: 1, ..PLAIN };
    expect("S outside page 1", run(&outside, 65536, 1), (4, 0));
    expect("X above FF", run(&wide, 65536, 1), (4, 0));
    expect("bank 1", run(&bank, 65536, 1), (7, 0));
}

/// The room of a text, the cycles of an opcode, and the opcodes.
fn more_limits() {
    for (room, want) in [(94, (0, 4)), (93, (3, 0))] {
        let (mut memory, mut text) = (vec![0xEA; 65536], vec![0; room]);
        let (refusal, cycles, _) = Ours::at(&PLAIN).trace(&mut memory, &mut text, 4);
        expect("text room", (refusal, cycles as u32), want);
    }
    for (cycle, want) in [(0, 6), (1, 0), (2, 6), (255, 6)] {
        let mut ours = Ours::at(&PLAIN);
        ours.bytes[1..4].copy_from_slice(&[1, 0xEA, cycle]);
        let refusal = ours.request().err().unwrap_or(0);
        expect("a cycle of NOP", (refusal, 0), (want, 0));
    }
    for op in 0..=255u8 {
        let refusal = Ours::at(&PLAIN).answer(op);
        let want = if TAKEN.contains(&op) { 0 } else { 5 };
        expect("a fetched byte", (refusal, 0), (want, 0));
    }
}

/// A number of the command line, or another where it has none.
fn number(args: &[String], place: usize, other: u64) -> u64 {
    let Some(word) = args.get(place) else {
        return other;
    };
    word.parse().unwrap_or_else(|_| {
        eprintln!("judge: '{word}' isn't a number from 0 on, of 64 bits");
        exit(2)
    })
}

/// Whether the last word is there, which can only be `short`.
fn is_short(args: &[String]) -> bool {
    let rest = args.get(4..).unwrap_or(&[]);
    if !rest.is_empty() && rest != ["short"] {
        eprintln!("usage: judge [SEED CASES PROGRAMS [short]]");
        exit(2)
    }
    !rest.is_empty()
}

fn main() {
    let args: Vec<String> = std::env::args().collect();
    let (seed, cases, programs) = (
        number(&args, 1, 1),
        number(&args, 2, 200) as usize,
        number(&args, 3, 2000),
    );
    let short = is_short(&args);
    let (cpu, mut r, mut t) = (
        reset(),
        Random(seed.wrapping_mul(0x9E37_79B9_7F4A_7C15) | 1),
        Tally::default(),
    );
    limits();
    more_limits();
    opcodes(&mut t, &cpu, &mut r, cases);
    if !short {
        exhaustive(&mut t, &cpu);
    }
    for _ in 0..programs {
        program(&mut t, &cpu, &mut r, 2000);
    }
    println!("judge: seed {seed}: {} instructions, {} cycles with every register; {programs} programs, {} trace lines", t.starts, t.cycles, t.lines);
    for (name, n) in RULES.iter().zip(t.hits) {
        println!("judge: {n} times: {name}");
        if n == 0 && !short {
            println!("judge: a rule that was never met");
            exit(1);
        }
    }
    println!("judge: no other difference");
}
