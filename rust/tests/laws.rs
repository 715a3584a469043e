//! What holds of every record and program, tried on random ones: bytes there and back, one cycle at a time against runs, traces in pieces
//! against whole ones, and refused calls, which change nothing.
use glavorint::{
    edition, flag, room, Access, Held, Kind, Record, Refusal, Request, Run, Scratch, Session,
    Tracer, BUDGET, EDITION, MEMORY,
};

/// Marsaglia's xorshift, 64 bits.
struct Dice(u64);

impl Dice {
    fn roll(&mut self) -> u64 {
        self.0 ^= self.0 << 13;
        self.0 ^= self.0 >> 7;
        self.0 ^= self.0 << 17;
        self.0
    }

    fn byte(&mut self) -> u8 {
        (self.roll() >> 32) as u8
    }

    fn word(&mut self) -> u16 {
        (self.roll() >> 32) as u16
    }

    fn below(&mut self, n: u32) -> u32 {
        (self.roll() >> 32) as u32 % n
    }

    /// Any record; few are well formed.
    fn record(&mut self) -> Record {
        let held = Held {
            opcode: self.byte(),
            cycle: self.byte() % 9,
        };
        Record {
            a: self.word(),
            x: self.word(),
            y: self.word(),
            s: self.word(),
            d: self.word(),
            pc: self.word(),
            pbr: self.byte(),
            dbr: self.byte(),
            p: self.byte(),
            e: self.below(2) == 1,
            held: (self.below(2) == 1).then_some(held),
            scratch: Scratch {
                address: self.word(),
                data: self.word(),
                bank: self.byte(),
            },
        }
    }

    /// A well-formed record at an instruction's start in bank 0.
    fn start(&mut self) -> Record {
        let mut record = Record {
            pbr: 0,
            dbr: 0,
            held: None,
            scratch: Scratch::default(),
            ..self.record()
        };
        if record.e {
            record.p |= flag::M | flag::X;
            record.s = 0x0100 | record.s & 0xFF;
        }
        if record.p & flag::X != 0 {
            record.x &= 0xFF;
            record.y &= 0xFF;
        }
        record
    }

    /// A memory of opcodes that are taken, and zeros between them so that banks are often 0.
    fn memory(&mut self, opcodes: &[u8]) -> Vec<u8> {
        let mut byte = || match self.below(8) {
            0 => 0,
            1 => self.byte(),
            _ => opcodes[self.below(opcodes.len() as u32) as usize],
        };
        (0..MEMORY).map(|_| byte()).collect()
    }
}

/// The bytes that are taken at a fetch.
fn listed() -> Vec<u8> {
    (0..=255)
        .filter(|byte| Record::start(0x8000).answer(*byte).is_ok())
        .collect()
}

/// Says of random programs what each of two ways makes of them. Some must end whole, and some be refused with 5 and with 7.
fn each_program(seed: u64, mut law: impl FnMut(&mut Dice, Record, Vec<u8>, u32) -> Run) {
    let mut dice = Dice(seed);
    let opcodes = listed();
    let mut ends = [0; 8];
    for _ in 0..300 {
        let record = dice.start();
        let memory = dice.memory(&opcodes);
        let budget = 1 + dice.below(60);
        let run = law(&mut dice, record, memory, budget);
        ends[run
            .refusal
            .map_or(0, |refusal| usize::from(refusal.number()))] += 1;
    }
    assert!(ends[0] > 20 && ends[5] > 20 && ends[7] > 20, "{ends:?}");
    assert_eq!(ends.iter().sum::<i32>(), ends[0] + ends[5] + ends[7]);
}

#[test]
fn the_library_is_of_this_edition() {
    assert_eq!(edition(), EDITION);
}

#[test]
fn the_opcodes_taken_are_117() {
    let opcodes = listed();
    assert_eq!(opcodes.len(), 117);
    assert!(opcodes.contains(&0x54) && !opcodes.contains(&0xDB)); // MVN is, STP isn't
}

#[test]
fn starts_are_well_formed() {
    assert_eq!(Record::default(), Record::start(0));
    let emulation = Record {
        e: true,
        ..Record::default()
    };
    let mut dice = Dice(65_816);
    let starts = (0..1_000).map(|_| dice.start());
    for record in starts.chain([Record::default(), emulation]) {
        let fetch = Request {
            address: u32::from(record.pc),
            kind: Kind::Opcode,
            access: Access::Read,
        };
        assert_eq!(record.request(), Ok(fetch));
    }
}

#[test]
fn refusals_have_the_numbers_of_the_paper() {
    for number in 0..=255 {
        match Refusal::from_number(number) {
            Some(refusal) => assert_eq!(refusal.number(), number),
            None => assert!(!(1..=7).contains(&number)),
        }
    }
    assert_eq!(
        Refusal::Record.to_string(),
        "refusal 4: record not well formed"
    );
    assert_eq!(
        Refusal::Bank.to_string(),
        "refusal 7: run: request outside bank 0, of any kind"
    );
}

#[test]
fn a_packed_record_is_found_again() {
    let mut dice = Dice(816);
    for _ in 0..10_000 {
        let record = dice.record();
        assert_eq!(Record::from_bytes(&record.to_bytes()), Ok(record));
        let session = Session::new(record);
        assert_eq!((session.record(), session.count()), (record, 0));
        assert_eq!(Session::from_bytes(&session.to_bytes()), Ok(session));
    }
}

#[test]
fn each_field_has_its_place() {
    let record = Record {
        a: 0x0504,
        x: 0x0706,
        y: 0x0908,
        s: 0x0B0A,
        d: 0x0D0C,
        pc: 0x0F0E,
        pbr: 0x10,
        dbr: 0x11,
        p: 0x12,
        e: true,
        held: Some(Held {
            opcode: 0x02,
            cycle: 0x03,
        }),
        scratch: Scratch {
            address: 0x1514,
            data: 0x1716,
            bank: 0x18,
        },
    };
    let mut bytes = [0; 32];
    for (place, byte) in bytes.iter_mut().enumerate().take(25) {
        *byte = place as u8;
    }
    bytes[0] = 1; // edition
    bytes[1] = 1; // held
    bytes[19] = 1; // E
    assert_eq!(record.to_bytes(), bytes);
    assert_eq!(Record::from_bytes(&bytes), Ok(record));
}

#[test]
fn the_library_reads_each_register_where_it_stands() {
    let record = Record {
        a: 0x1122,
        x: 0x3344,
        y: 0x5566,
        s: 0x7788,
        d: 0x99AA,
        pc: 0xBBCC,
        pbr: 0xDD,
        dbr: 0xEE,
        p: flag::V | flag::C,
        ..Record::start(0)
    };
    let fetch = Request {
        address: 0xDD_BBCC,
        kind: Kind::Opcode,
        access: Access::Read,
    };
    assert_eq!(record.request(), Ok(fetch));
    // What each push writes, high byte first.
    let pushes: [(u8, &[u8]); 7] = [
        (0x48, &[0x11, 0x22]), // PHA
        (0xDA, &[0x33, 0x44]), // PHX
        (0x5A, &[0x55, 0x66]), // PHY
        (0x0B, &[0x99, 0xAA]), // PHD
        (0x4B, &[0xDD]),       // PHK
        (0x8B, &[0xEE]),       // PHB
        (0x08, &[0x41]),       // PHP
    ];
    for (opcode, bytes) in pushes {
        let mut pushing = record;
        pushing.answer(opcode).unwrap();
        pushing.answer(0).unwrap();
        for (place, byte) in bytes.iter().enumerate() {
            let write = Request {
                address: 0x7788 - place as u32,
                kind: Kind::Data,
                access: Access::Write(*byte),
            };
            assert_eq!(pushing.request(), Ok(write), "{opcode:02X}");
            pushing.answer(0).unwrap();
        }
        let after = Record {
            pc: 0xBBCD,
            s: 0x7788 - bytes.len() as u16,
            ..record
        };
        assert_eq!(pushing, after, "{opcode:02X}");
    }
    // The next cycle of LDA absolute asks for the word that its operand left.
    let held = Held {
        opcode: 0xAD,
        cycle: 3,
    };
    let loading = Record {
        held: Some(held),
        scratch: Scratch {
            address: 0x1234,
            ..Scratch::default()
        },
        ..record
    };
    let read = Request {
        address: 0xEE_1234,
        kind: Kind::Data,
        access: Access::Read,
    };
    assert_eq!(loading.request(), Ok(read));
}

#[test]
fn a_session_is_a_run() {
    each_program(1, |_, mut record, mut memory, budget| {
        let mut session = Session::new(record);
        let mut bytes = memory.clone();
        let run = record.run(&mut memory, budget);
        for _ in 0..run.cycles {
            assert_eq!(session.cycle(&mut bytes), Ok(()));
        }
        if let Some(refusal) = run.refusal {
            let stopped = session;
            assert_eq!(session.cycle(&mut bytes), Err(refusal));
            assert_eq!(session, stopped);
        }
        assert_eq!(session.record(), record);
        assert_eq!(session.count(), u64::from(run.cycles));
        assert!(bytes == memory);
        run
    });
}

#[test]
fn cycles_of_a_session_are_its_cycles() {
    each_program(2, |_, record, mut memory, budget| {
        let mut session = Session::new(record);
        let (mut several, mut bytes) = (session, memory.clone());
        let mut cycles = 0;
        let mut refusal = None;
        while cycles < budget && refusal.is_none() {
            match session.cycle(&mut memory) {
                Ok(()) => cycles += 1,
                Err(stopped) => refusal = Some(stopped),
            }
        }
        // in two parts, the second of which may have nothing left to do
        let half = several.cycles(&mut bytes, budget / 2);
        assert_eq!(half.cycles, cycles.min(budget / 2));
        let rest = several.cycles(&mut bytes, budget - half.cycles);
        assert_eq!((half.cycles + rest.cycles, rest.refusal), (cycles, refusal));
        assert_eq!(several, session);
        assert_eq!(several.count(), u64::from(cycles));
        assert!(bytes == memory);
        Run { cycles, refusal }
    });
}

/// A cycle over the bytes of bank 0, by request and answer.
fn by_hand(
    bytes: &mut [u8],
    asked: Result<Request, Refusal>,
    answer: impl FnOnce(u8) -> Result<(), Refusal>,
) -> Result<(), Refusal> {
    let request = asked?;
    let place = bytes
        .get_mut(request.address as usize)
        .ok_or(Refusal::Bank)?;
    match request.access {
        Access::Read => answer(*place),
        Access::Write(byte) => {
            *place = byte;
            answer(!byte)
        }
    }
}

#[test]
fn requests_and_answers_are_a_run() {
    each_program(2, |_, start, mut memory, budget| {
        let (mut record, mut stepped, mut session) = (start, start, Session::new(start));
        let mut bytes = memory.clone();
        let mut others = memory.clone();
        let run = record.run(&mut memory, budget);
        let all = run.cycles + u32::from(run.refusal.is_some());
        for cycle in 0..all {
            let expected = match run.refusal {
                Some(refusal) if cycle == run.cycles => Err(refusal),
                _ => Ok(()),
            };
            let asked = stepped.request();
            assert_eq!(session.request(), asked);
            assert_eq!(
                by_hand(&mut bytes, asked, |byte| stepped.answer(byte)),
                expected
            );
            assert_eq!(
                by_hand(&mut others, asked, |byte| session.answer(byte)),
                expected
            );
        }
        assert_eq!((stepped, session.record()), (record, record));
        assert_eq!(session.count(), u64::from(run.cycles));
        assert!(bytes == memory && others == memory);
        run
    });
}

#[test]
fn pieces_of_a_trace_joined_are_the_whole() {
    each_program(3, |dice, start, memory, budget| {
        let (mut run_record, mut run_memory) = (start, memory.clone());
        let run = run_record.run(&mut run_memory, budget);

        let (mut record, mut traced) = (start, memory.clone());
        let mut text = vec![b'.'; room(0, budget)];
        let whole = record.trace(&mut traced, &mut text, 0, budget);
        assert_eq!((whole.cycles, whole.refusal), (run.cycles, run.refusal));
        assert!(record == run_record && traced == run_memory);
        assert!(text[whole.written..].iter().all(|byte| *byte == b'.'));
        text.truncate(whole.written);
        let lines = text.iter().filter(|byte| **byte == b'\n').count();
        assert_eq!(lines, 1 + run.cycles as usize);

        // The library's own pieces; a cycle at least in the first, as the header comes again otherwise.
        let (mut record, mut pieced) = (start, memory.clone());
        let mut joined = Vec::new();
        let mut done = 0;
        while done < run.cycles {
            let budget = 1 + dice.below(run.cycles - done);
            let mut piece = vec![0; room(done, budget)];
            let trace = record.trace(&mut pieced, &mut piece, done, budget);
            assert_eq!((trace.cycles, trace.refusal), (budget, None));
            joined.extend_from_slice(&piece[..trace.written]);
            done += budget;
        }
        if run.cycles > 0 {
            assert!(joined == text);
        }
        assert!(record == run_record && pieced == run_memory);

        // A tracer's, some of no cycle.
        let (mut record, mut streamed) = (start, memory);
        let mut tracer = Tracer::new(Vec::new());
        let mut left = budget;
        let end = loop {
            let piece = dice.below(left + 1);
            let end = tracer.run(&mut record, &mut streamed, piece).unwrap();
            left -= end.cycles;
            if left == 0 || end.refusal.is_some() {
                break end;
            }
        };
        assert_eq!((tracer.cycles(), end.refusal), (run.cycles, run.refusal));
        assert!(tracer.into_inner() == text);
        assert!(record == run_record && streamed == run_memory);
        run
    });
}

#[test]
fn a_long_trace_goes_out_in_pieces() {
    let mut memory = vec![0xEA; MEMORY];
    let mut text = vec![0; room(0, 50_000)];
    let mut record = Record::start(0);
    let whole = record.trace(&mut memory, &mut text, 0, 50_000);
    text.truncate(whole.written);

    let mut out = Vec::new();
    let mut streamed = Record::start(0);
    let run = streamed.trace_to(&mut memory, &mut out, 50_000).unwrap();
    assert_eq!(run.result(), Ok(50_000));
    assert!(out == text && streamed == record);
}

#[test]
fn a_tracer_refuses_before_it_writes() {
    let mut memory = vec![0xEA; MEMORY];
    let mut record = Record::start(0);
    let mut tracer = Tracer::new(Vec::new());
    let refused = |tracer: &mut Tracer<Vec<u8>>, record: &mut Record, memory: &mut [u8], budget| {
        let run = tracer.run(record, memory, budget).unwrap();
        (run.cycles, run.refusal)
    };
    let of_memory = refused(&mut tracer, &mut record, &mut memory[1..], BUDGET + 1);
    assert_eq!(of_memory, (0, Some(Refusal::Memory)));
    let of_budget = refused(&mut tracer, &mut record, &mut memory, BUDGET + 1);
    assert_eq!(of_budget, (0, Some(Refusal::Budget)));
    assert_eq!(
        tracer.run(&mut record, &mut memory, 10).unwrap().result(),
        Ok(10)
    );
    // The cycles before count.
    let of_both = refused(&mut tracer, &mut record, &mut memory, BUDGET - 9);
    assert_eq!(of_both, (0, Some(Refusal::Budget)));
    assert_eq!((tracer.cycles(), record.pc), (10, 5));
    let text = tracer.into_inner();
    assert_eq!(text.iter().filter(|byte| **byte == b'\n').count(), 11);
}

#[test]
fn a_writer_that_fails_ends_the_run() {
    let mut memory = vec![0xEA; MEMORY];
    let mut record = Record::start(0);
    let mut small = [0; 100_000];
    let mut out = &mut small[..];
    assert!(record.trace_to(&mut memory, &mut out, 50_000).is_err());
    assert!(record.pc > 0 && record.pc < 25_000);
}

#[test]
fn a_refused_record_stays() {
    let mut dice = Dice(4);
    let mut numbers = [0; 8];
    for _ in 0..20_000 {
        // One in two is well formed but for what it holds.
        let mut record = dice.record();
        if dice.below(2) == 0 {
            record.held.get_or_insert(Held {
                opcode: 0,
                cycle: 1,
            });
            record.e = false;
            record.p &= !flag::X;
        }
        let before = record;
        let mut session = Session::new(record);
        let byte = dice.byte();
        let asked = record.request();
        let answered = record.answer(byte);
        assert_eq!(session.request(), asked);
        assert_eq!(session.answer(byte), answered);
        assert_eq!(session.record(), record);
        assert_eq!(session.count(), u64::from(answered.is_ok()));
        match answered {
            Ok(()) => {
                assert!(asked.is_ok());
                numbers[0] += 1;
            }
            Err(refusal) => {
                assert_eq!(record, before);
                assert!(asked.is_ok() && refusal == Refusal::Opcode || asked == Err(refusal));
                numbers[usize::from(refusal.number())] += 1;
            }
        }
    }
    // Accepted, and refused with 4, 5 and 6 alone, each many times.
    assert!(
        [0, 4, 5, 6].iter().all(|n| numbers[*n] > 500),
        "{numbers:?}"
    );
    assert_eq!(
        numbers.iter().sum::<i32>(),
        numbers[0] + numbers[4] + numbers[5] + numbers[6]
    );
}

#[test]
fn a_refused_run_leaves_record_memory_and_text() {
    let mut dice = Dice(5);
    let memory = dice.memory(&listed());
    let start = dice.start();
    for (size, budget, room, refusal) in [
        (MEMORY - 1, 4, 94, Refusal::Memory),
        (MEMORY, BUDGET + 1, 94, Refusal::Budget),
        (MEMORY, 4, 93, Refusal::Room),
    ] {
        let mut record = start;
        let mut bytes = memory[..size].to_vec();
        let mut text = vec![b'.'; room];
        let trace = record.trace(&mut bytes, &mut text, 0, budget);
        assert_eq!(
            (trace.cycles, trace.written, trace.refusal),
            (0, 0, Some(refusal))
        );
        assert!(record == start && bytes == memory[..size] && text == vec![b'.'; room]);
    }
    let mut session = Session::new(start);
    let mut bytes = memory[1..].to_vec();
    assert_eq!(session.cycle(&mut bytes), Err(Refusal::Memory));
    let none = session.cycles(&mut bytes, 4);
    assert_eq!((none.cycles, none.refusal), (0, Some(Refusal::Memory)));
    assert_eq!(session.cycles(&mut bytes, 0).refusal, Some(Refusal::Memory));
    assert!(session == Session::new(start) && bytes == memory[1..]);
}

#[test]
fn a_count_at_its_top_stands_still() {
    let mut bytes = Session::new(Record::start(0x8000)).to_bytes();
    bytes[32..].copy_from_slice(&(u64::MAX - 1).to_le_bytes());
    let mut session = Session::from_bytes(&bytes).unwrap();
    assert_eq!(session.count(), u64::MAX - 1);
    session.answer(0xEA).unwrap();
    session.answer(0).unwrap();
    assert_eq!((session.count(), session.record().pc), (u64::MAX, 0x8001));
    assert_eq!(Session::from_bytes(&bytes[1..]), Err(Refusal::Record));
    bytes[0] = 0;
    assert_eq!(Session::from_bytes(&bytes), Err(Refusal::Record));
}
