//! The paper's figures of runs, and its first trace.
use glavorint::{flag, room, Access, Kind, Record, Refusal, Request, Run, Trace, BUDGET, MEMORY};

const FIRST_TRACE: &[u8] =
    b"bus\t1\n1\tO\tR\t008000\t18\n2\tI\tR\t008001\t69\n3\tO\tR\t008001\t69\n4\tP\tR\t008002\t01\n";

/// A memory with these bytes at 8000.
fn rom(bytes: &[u8]) -> Vec<u8> {
    let mut memory = vec![0; MEMORY];
    memory[0x8000..0x8000 + bytes.len()].copy_from_slice(bytes);
    memory
}

fn whole(cycles: u32) -> Run {
    Run {
        cycles,
        refusal: None,
    }
}

fn refused(refusal: Refusal) -> Run {
    Run {
        cycles: 0,
        refusal: Some(refusal),
    }
}

/// MVN inside bank 0, from X to Y.
fn moving(p: u8, a: u16, x: u16, y: u16) -> Record {
    let start = Record::start(0x8000);
    Record {
        p,
        a,
        x,
        y,
        ..start
    }
}

#[test]
fn mvn_with_a_0000_is_one_byte() {
    let mut memory = rom(&[0x54]);
    memory[0x1000] = 101;
    memory[0x1001] = 102;
    let mut record = moving(0, 0, 0x1000, 0x2000);
    assert_eq!(record.run(&mut memory, 7), whole(7));
    let after = Record {
        pc: 0x8003,
        ..moving(0, 0xFFFF, 0x1001, 0x2001)
    };
    assert_eq!(record, after);
    assert_eq!((memory[0x2000], memory[0x2001]), (101, 0));
}

#[test]
fn mvn_with_a_ffff_is_458752_cycles() {
    for p in [0, flag::M | flag::X] {
        let mut memory = rom(&[0x54]);
        let before = memory.clone();
        let mut record = moving(p, 0xFFFF, 0, 0);
        assert_eq!(record.run(&mut memory, 458_752), whole(458_752));
        let after = Record {
            pc: 0x8003,
            ..moving(p, 0xFFFF, 0, 0)
        };
        assert_eq!(record, after);
        assert!(memory == before);
        let mut record = moving(p, 0xFFFF, 0, 0);
        assert_eq!(record.run(&mut memory, 458_751), whole(458_751));
        assert_eq!(record.held.map(|held| held.cycle), Some(6));
    }
}

#[test]
fn mvn_with_8_bit_index_wraps_x_from_ff() {
    let mut memory = rom(&[0x54]);
    let mut record = moving(flag::M | flag::X, 1, 0x00FF, 0);
    assert_eq!(record.run(&mut memory, 7), whole(7));
    assert_eq!((record.x, record.y), (0, 1));
    assert_eq!(
        record.held.map(|held| (held.opcode, held.cycle)),
        Some((0x54, 0))
    );
}

#[test]
fn jmp_ffff_reads_its_second_byte_at_0000() {
    let mut memory = rom(&[0x6C, 0xFF, 0xFF]);
    memory[0xFFFF] = 0x34;
    memory[0x0000] = 0x12;
    let mut record = Record::start(0x8000);
    assert_eq!(record.run(&mut memory, 5), whole(5));
    assert_eq!((record.pc, record.held), (0x1234, None));
}

#[test]
fn bit_immediate_changes_z_alone() {
    for kept in [0, flag::N, flag::V, flag::N | flag::V] {
        let mut memory = rom(&[0x89, 0xC0]);
        let p = kept | flag::M | flag::X;
        let mut record = moving(p, 0x3F, 0, 0);
        assert_eq!(record.run(&mut memory, 2), whole(2));
        assert_eq!(record.p, p | flag::Z);
    }
}

#[test]
fn decimal_99_and_01_wraps() {
    let mut memory = rom(&[0x69, 0x01]);
    let p = flag::M | flag::X | flag::D;
    let mut record = moving(p, 0x99, 0, 0);
    assert_eq!(record.run(&mut memory, 2), whole(2));
    assert_eq!((record.a, record.p), (0, p | flag::C | flag::Z));
}

#[test]
fn memory_of_another_size_is_refused_with_1() {
    for size in [0, 1, 65_535, 65_537] {
        let mut memory = vec![0xEA; size];
        let mut record = Record::start(0x8000);
        assert_eq!(record.run(&mut memory, 1), refused(Refusal::Memory));
        assert_eq!(
            record.run(&mut memory, BUDGET + 1),
            refused(Refusal::Memory)
        );
        assert_eq!(record, Record::start(0x8000));
    }
}

#[test]
fn a_budget_above_1000000_is_refused_with_2() {
    let mut memory = rom(&[0x80, 0xFE]);
    let mut record = Record::start(0x8000);
    assert_eq!(record.run(&mut memory, 1_000_001), refused(Refusal::Budget));
    assert_eq!(record, Record::start(0x8000));
    assert_eq!(record.run(&mut memory, 1_000_000), whole(1_000_000));
    assert_eq!(BUDGET, 1_000_000);
}

#[test]
fn the_first_trace_needs_94_bytes() {
    let mut memory = rom(&[0x18, 0x69, 0x01]);
    assert_eq!(room(0, 4), 94);
    let mut record = Record::start(0x8000);
    let mut text = [b'.'; 93];
    let trace = record.trace(&mut memory, &mut text, 0, 4);
    let short = Trace {
        cycles: 0,
        written: 0,
        refusal: Some(Refusal::Room),
    };
    assert_eq!((trace, record), (short, Record::start(0x8000)));
    assert_eq!(text, [b'.'; 93]);

    let mut text = [b'.'; 94];
    let trace = record.trace(&mut memory, &mut text, 0, 4);
    let done = Trace {
        cycles: 4,
        written: FIRST_TRACE.len(),
        refusal: None,
    };
    assert_eq!(trace, done);
    assert_eq!(&text[..trace.written], FIRST_TRACE);
    assert!(text[trace.written..].iter().all(|byte| *byte == b'.'));
    assert_eq!((record.a, record.pc), (0x0001, 0x8003));
}

#[test]
fn the_first_trace_has_its_kinds() {
    let mut record = Record::start(0x8000);
    let cycles = [
        (0x8000, Kind::Opcode, 0x18),
        (0x8001, Kind::Invalid, 0x69),
        (0x8001, Kind::Opcode, 0x69),
        (0x8002, Kind::Program, 0x01),
    ];
    for (address, kind, byte) in cycles {
        let access = Access::Read;
        let request = Request {
            address,
            kind,
            access,
        };
        assert_eq!(record.request(), Ok(request));
        record.answer(byte).unwrap();
    }
    assert_eq!((record.a, record.pc), (0x0001, 0x8003));
}

#[test]
fn a_record_is_refused_with_4_where_a_cycle_is_asked_for() {
    let mut memory = rom(&[0xEA]);
    let folded = Record {
        e: true,
        s: 0x0200,
        ..Record::start(0x8000)
    };
    let mut record = folded;
    assert_eq!(record.run(&mut memory, 0), whole(0));
    assert_eq!(record.run(&mut memory, 1), refused(Refusal::Record));
    assert_eq!(record.request(), Err(Refusal::Record));
    assert_eq!(record.answer(0xEA), Err(Refusal::Record));
    assert_eq!(record, folded);
}

#[test]
fn what_was_written_before_a_refusal_stays() {
    let mut memory = rom(&[0x85, 0x10]);
    let mut record = moving(flag::M | flag::X, 0x42, 0, 0);
    let end = Run {
        cycles: 3,
        refusal: Some(Refusal::Opcode),
    };
    assert_eq!(record.run(&mut memory, 10), end);
    assert_eq!(
        (memory[0x0010], record.pc, record.held),
        (0x42, 0x8002, None)
    );
}

#[test]
fn a_request_outside_bank_0_is_refused_with_7_in_a_run() {
    let mut memory = rom(&[0xEA]);
    let away = Record {
        pbr: 1,
        ..Record::start(0x8000)
    };
    let mut record = away;
    assert_eq!(record.run(&mut memory, 1), refused(Refusal::Bank));
    assert_eq!(record, away);
    assert_eq!(
        record.request().map(|request| request.address),
        Ok(0x01_8000)
    );
}
