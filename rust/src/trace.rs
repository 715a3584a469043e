//! Runs that write a line of text for each cycle.
use crate::{ffi, Record, Refusal, Run};
use std::io::{self, Write};

/// The bytes of the header line.
const HEADER: usize = 6;
/// The bytes that a line may have.
const LINE: usize = 22;
/// The cycles that a [`Tracer`] does between two writes.
const PIECE: u32 = 4096;

/// The room that a trace of `budget` cycles must find: a header of 6 bytes where no cycle was done before, and 22 bytes for each cycle.
pub const fn room(before: u32, budget: u32) -> usize {
    let lines = LINE * budget as usize;
    if before == 0 {
        HEADER + lines
    } else {
        lines
    }
}

/// How far a traced run came.
#[derive(Clone, Copy, Debug, PartialEq, Eq, Hash)]
#[must_use = "a trace may have been refused"]
pub struct Trace {
    /// The completed cycles of this piece.
    pub cycles: u32,
    /// The bytes of text that were written.
    pub written: usize,
    /// Why the next cycle wasn't done; `None` if the whole budget was.
    pub refusal: Option<Refusal>,
}

impl Record {
    /// [`run`](Record::run) with a line of text for each completed cycle, written from the start of `text`.
    ///
    /// A trace may be made in pieces: `before` says how many cycles were done in the pieces before this one. The lines are numbered on from there,
    /// and the header is written where none were. 2 counts `before` in; 3 is given where `text` is shorter than [`room`] says. 1 to 3
    /// change nothing. After 4 to 7 the text has the header and the lines of the completed cycles. Past `written` the text stays as it was.
    ///
    /// ```
    /// use glavorint::{room, Record, MEMORY};
    ///
    /// let mut memory = vec![0; MEMORY];
    /// memory[0x8000] = 0xEA; // NOP
    /// let mut text = vec![0; room(0, 2)];
    /// let trace = Record::start(0x8000).trace(&mut memory, &mut text, 0, 2);
    /// assert_eq!(trace.refusal, None);
    /// assert_eq!(&text[..trace.written], b"bus\t1\n1\tO\tR\t008000\tEA\n2\tI\tR\t008001\t00\n");
    /// ```
    pub fn trace(&mut self, memory: &mut [u8], text: &mut [u8], before: u32, budget: u32) -> Trace {
        let bits = self.lend(|bytes| ffi::trace(bytes, memory, text, before, budget));
        Trace {
            cycles: bits as u32 & 0xFF_FFFF,
            written: (bits >> 24) as u32 as usize,
            refusal: Refusal::told((bits >> 56) as u8),
        }
    }

    /// A whole trace into a writer: [`Tracer`] for one run. Refused as [`run`](Record::run) is, and nothing is written where 1 or 2 is given.
    ///
    /// ```
    /// use glavorint::{Record, MEMORY};
    ///
    /// # fn main() -> std::io::Result<()> {
    /// let mut memory = vec![0xEA; MEMORY];
    /// let mut text = Vec::new();
    /// let run = Record::start(0x8000).trace_to(&mut memory, &mut text, 1_000)?;
    /// assert_eq!(run.result(), Ok(1_000));
    /// assert!(text.ends_with(b"\n1000\tI\tR\t0081F4\tEA\n"));
    /// # Ok(())
    /// # }
    /// ```
    pub fn trace_to(
        &mut self,
        memory: &mut [u8],
        out: &mut impl Write,
        budget: u32,
    ) -> io::Result<Run> {
        Tracer::new(out).run(self, memory, budget)
    }
}

/// One trace, written piece by piece as runs go on.
///
/// The lines of each run are numbered on from the one before, and the header is written once. A trace has at most 1,000,000 cycles in all.
#[derive(Debug)]
pub struct Tracer<W> {
    out: W,
    cycles: u32,
    headed: bool,
    text: Vec<u8>,
}

impl<W: Write> Tracer<W> {
    /// A trace that goes to `out`; nothing is written yet.
    pub fn new(out: W) -> Tracer<W> {
        Tracer {
            out,
            cycles: 0,
            headed: false,
            text: vec![0; room(0, PIECE)],
        }
    }

    /// [`Record::run`], with its lines written to this trace. 2 counts the cycles of its runs before; 3 isn't given.
    ///
    /// Nothing is written where 1 or 2 is given. An error of the writer ends the run early: record and memory have then done the cycles of
    /// the piece that couldn't be written, and the trace is no longer of use.
    pub fn run(&mut self, record: &mut Record, memory: &mut [u8], budget: u32) -> io::Result<Run> {
        // With no room for a text nothing is done: it is refused by 3, or there is no cycle to do. So 1 and 2 come before the first piece.
        let whole = record.trace(memory, &mut [], self.cycles, budget);
        if let Some(refusal @ (Refusal::Memory | Refusal::Budget)) = whole.refusal {
            return Ok(Run {
                cycles: 0,
                refusal: Some(refusal),
            });
        }
        let mut run = Run {
            cycles: 0,
            refusal: None,
        };
        loop {
            let piece = (budget - run.cycles).min(PIECE);
            let trace = record.trace(memory, &mut self.text, self.cycles, piece);
            // The library writes the header wherever no cycle was done before, so also where a run before this one did none.
            let from = match self.cycles {
                0 if self.headed => HEADER,
                _ => 0,
            };
            self.headed = true;
            self.cycles += trace.cycles;
            run.cycles += trace.cycles;
            run.refusal = trace.refusal;
            self.out.write_all(&self.text[from..trace.written])?;
            if run.refusal.is_some() || run.cycles == budget {
                return Ok(run);
            }
        }
    }

    /// The cycles of this trace.
    pub fn cycles(&self) -> u32 {
        self.cycles
    }

    /// The writer, once the trace is whole.
    pub fn into_inner(self) -> W {
        self.out
    }
}
