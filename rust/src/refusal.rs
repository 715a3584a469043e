//! Why a call does nothing, or a run goes no further.
use std::error::Error;
use std::fmt;

/// The paper's seven refusals. Each is given exactly under the words beside it, in this order: 1, 2, 3 once, before the first cycle;
/// then at each cycle 4, 5 for a held opcode, 6, 7, and last 5 for a fetched byte. There may be more in a later edition.
#[derive(Clone, Copy, Debug, PartialEq, Eq, PartialOrd, Ord, Hash)]
#[non_exhaustive]
pub enum Refusal {
    /// 1: the memory of a run isn't 65,536 bytes.
    Memory = 1,
    /// 2: the budget of a run is above 1,000,000 cycles; in a trace the cycles of the pieces before are counted in.
    Budget = 2,
    /// 3: the text of a trace is shorter than [`room`](crate::room) says.
    Room = 3,
    /// 4: the record isn't well formed, or the bytes aren't a packed record.
    Record = 4,
    /// 5: the opcode that is held, or was just fetched, isn't listed.
    Opcode = 5,
    /// 6: the held opcode has no such cycle at the record's widths, mode and low byte of D.
    Cycle = 6,
    /// 7: in a run, a request outside bank 0, of any kind.
    Bank = 7,
}

impl Refusal {
    /// The paper's number, 1 to 7.
    pub const fn number(self) -> u8 {
        self as u8
    }

    /// The refusal of a number, if the paper has it.
    pub const fn from_number(number: u8) -> Option<Refusal> {
        match number {
            1 => Some(Refusal::Memory),
            2 => Some(Refusal::Budget),
            3 => Some(Refusal::Room),
            4 => Some(Refusal::Record),
            5 => Some(Refusal::Opcode),
            6 => Some(Refusal::Cycle),
            7 => Some(Refusal::Bank),
            _ => None,
        }
    }

    /// What the library's byte says: 0 is no refusal. It is proved to answer no other number.
    pub(crate) fn told(number: u8) -> Option<Refusal> {
        match number {
            0 => None,
            n => Some(Refusal::from_number(n).expect("a refusal of this edition")),
        }
    }

    /// The same of a call that answers nothing else.
    pub(crate) fn done(number: u8) -> Result<(), Refusal> {
        match Refusal::told(number) {
            None => Ok(()),
            Some(refusal) => Err(refusal),
        }
    }
}

impl fmt::Display for Refusal {
    fn fmt(&self, f: &mut fmt::Formatter<'_>) -> fmt::Result {
        let words = match self {
            Refusal::Memory => "run: memory isn't 65,536 bytes",
            Refusal::Budget => "run: budget above 1,000,000 cycles",
            Refusal::Room => "traced run: text buffer shorter than 6 + 22 × budget",
            Refusal::Record => "record not well formed",
            Refusal::Opcode => "opcode held, or just fetched, isn't listed",
            Refusal::Cycle => {
                "the held opcode has no such cycle at the record's widths, mode and low byte of D"
            }
            Refusal::Bank => "run: request outside bank 0, of any kind",
        };
        write!(f, "refusal {}: {words}", self.number())
    }
}

impl Error for Refusal {}
