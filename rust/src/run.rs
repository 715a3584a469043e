//! Runs over a memory.
use crate::{ffi, Record, Refusal};

/// How far a run came.
#[derive(Clone, Copy, Debug, PartialEq, Eq, Hash)]
#[must_use = "a run may have been refused"]
pub struct Run {
    /// The completed cycles.
    pub cycles: u32,
    /// Why the next cycle wasn't done; `None` if all that were asked for were.
    pub refusal: Option<Refusal>,
}

impl Run {
    /// Bits 0 to 31 are the cycles, 32 to 39 the refusal.
    pub(crate) fn told(bits: u64) -> Run {
        Run {
            cycles: bits as u32,
            refusal: Refusal::told((bits >> 32) as u8),
        }
    }

    /// The completed cycles if nothing was refused.
    pub fn result(self) -> Result<u32, Refusal> {
        match self.refusal {
            None => Ok(self.cycles),
            Some(refusal) => Err(refusal),
        }
    }
}

impl Record {
    /// At most `budget` cycles over a memory that stands for bank 0.
    ///
    /// The memory is a slice and no array, so that another length than 65,536 can be lent and is refused by its number. 1 and 2
    /// change nothing and report 0 cycles. After 4 to 7 the record is as it was before the refused cycle, which changed nothing; what the completed
    /// cycles wrote stays. With budget 0 no cycle is done, so 4 to 7 aren't given.
    ///
    /// ```
    /// use glavorint::{Record, Refusal, MEMORY};
    ///
    /// let mut memory = vec![0; MEMORY];
    /// memory[0x8000..0x8003].copy_from_slice(&[0x18, 0x69, 0x01]); // CLC, ADC #01
    /// let mut record = Record::start(0x8000);
    /// let run = record.run(&mut memory, 100);
    /// assert_eq!(run.cycles, 4);
    /// assert_eq!(run.refusal, Some(Refusal::Opcode)); // 00 at 8003 isn't listed
    /// assert_eq!((record.a, record.pc), (0x0001, 0x8003));
    /// ```
    pub fn run(&mut self, memory: &mut [u8], budget: u32) -> Run {
        Run::told(self.lend(|bytes| ffi::run(bytes, memory, budget)))
    }
}
