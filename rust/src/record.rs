//! The record: all that the processor is between two cycles.
use crate::{ffi, Refusal, Request, EDITION, RECORD};

/// The bits of [`Record::p`], in emulation too, where M and X are set.
pub mod flag {
    /// Negative.
    pub const N: u8 = 0x80;
    /// Overflow.
    pub const V: u8 = 0x40;
    /// The accumulator is 8 bits wide.
    pub const M: u8 = 0x20;
    /// The index registers are 8 bits wide.
    pub const X: u8 = 0x10;
    /// Decimal mode.
    pub const D: u8 = 0x08;
    /// Interrupts are disabled.
    pub const I: u8 = 0x04;
    /// Zero.
    pub const Z: u8 = 0x02;
    /// Carry.
    pub const C: u8 = 0x01;
}

/// The processor between two cycles.
///
/// Any value of every field may be written down. The library tests whether the record is *well formed*, and refuses with 4 if it isn't:
/// in emulation both width flags are set; with the index flag set the high bytes of X and Y are 0; at an instruction's start, and between the
/// bytes of a block move, the scratch words are 0 and in emulation the high byte of S is 1. Every record that the library gives after an accepted
/// cycle is well formed.
///
/// ```
/// use glavorint::{flag, Record};
///
/// let wide = Record { a: 0x1234, p: flag::D, ..Record::start(0x8000) };
/// assert!(wide.request().is_ok());
/// ```
#[derive(Clone, Copy, Debug, PartialEq, Eq, Hash)]
pub struct Record {
    /// The accumulator, 16 bits at either width.
    pub a: u16,
    /// The index register X.
    pub x: u16,
    /// The index register Y.
    pub y: u16,
    /// The stack pointer.
    pub s: u16,
    /// The direct page register.
    pub d: u16,
    /// The program counter.
    pub pc: u16,
    /// The program bank.
    pub pbr: u8,
    /// The data bank.
    pub dbr: u8,
    /// The status register, N V M X D I Z C from bit 7 down: see [`flag`].
    pub p: u8,
    /// Whether the processor is in emulation.
    pub e: bool,
    /// The instruction under way; `None` at an instruction's start.
    pub held: Option<Held>,
    /// What the instruction under way has read so far.
    pub scratch: Scratch,
}

/// The instruction under way.
#[derive(Clone, Copy, Debug, PartialEq, Eq, Hash)]
pub struct Held {
    /// Its opcode.
    pub opcode: u8,
    /// Its next cycle; the fetch is cycle 0, so 1 comes after it. Between the bytes of a block move it is 0.
    pub cycle: u8,
}

/// Words that an instruction keeps between its cycles. They are 0 at its start.
#[derive(Clone, Copy, Debug, Default, PartialEq, Eq, Hash)]
pub struct Scratch {
    /// The address word.
    pub address: u16,
    /// The data word.
    pub data: u16,
    /// The bank byte.
    pub bank: u8,
}

impl Record {
    /// An instruction's start at `pc` in bank 0: native, 8-bit registers, S 01FF, all else 0. With `e` set it is well formed too.
    pub const fn start(pc: u16) -> Record {
        Record {
            a: 0,
            x: 0,
            y: 0,
            s: 0x01FF,
            d: 0,
            pc,
            pbr: 0,
            dbr: 0,
            p: flag::M | flag::X,
            e: false,
            held: None,
            scratch: Scratch {
                address: 0,
                data: 0,
                bank: 0,
            },
        }
    }

    /// The packed record, as include/glavorint.h lays it out. Any record can be packed, well formed or not.
    pub fn to_bytes(&self) -> [u8; RECORD] {
        let mut bytes = [0; RECORD];
        bytes[0] = EDITION as u8;
        if let Some(held) = self.held {
            bytes[1..4].copy_from_slice(&[1, held.opcode, held.cycle]);
        }
        let words = [self.a, self.x, self.y, self.s, self.d, self.pc];
        for (place, word) in bytes[4..16].chunks_exact_mut(2).zip(words) {
            place.copy_from_slice(&word.to_le_bytes());
        }
        bytes[16..20].copy_from_slice(&[self.pbr, self.dbr, self.p, u8::from(self.e)]);
        bytes[20..22].copy_from_slice(&self.scratch.address.to_le_bytes());
        bytes[22..24].copy_from_slice(&self.scratch.data.to_le_bytes());
        bytes[24] = self.scratch.bank;
        bytes
    }

    /// The record of packed bytes.
    ///
    /// Refused with 4 are bytes that aren't a packed record: another length than 32, another edition, a byte above 1 where there are 0 and 1
    /// alone, or a reserved byte that isn't 0. Whether the record is well formed isn't tested here. Where no opcode is held, the bytes
    /// of an opcode and its cycle mean nothing and aren't kept.
    ///
    /// ```
    /// use glavorint::{Record, Refusal};
    ///
    /// let record = Record::start(0x8000);
    /// let mut bytes = record.to_bytes();
    /// assert_eq!(Record::from_bytes(&bytes), Ok(record));
    /// bytes[31] = 1;
    /// assert_eq!(Record::from_bytes(&bytes), Err(Refusal::Record));
    /// ```
    pub fn from_bytes(bytes: &[u8]) -> Result<Record, Refusal> {
        let bytes: &[u8; RECORD] = bytes.try_into().map_err(|_| Refusal::Record)?;
        let regular = u32::from(bytes[0]) == EDITION && bytes[1] <= 1 && bytes[19] <= 1;
        if !regular || bytes[25..] != [0; 7] {
            return Err(Refusal::Record);
        }
        Ok(Record::unpacked(bytes))
    }

    /// The record of bytes that are known to be a packed one.
    pub(crate) fn unpacked(bytes: &[u8; RECORD]) -> Record {
        let word = |at: usize| u16::from_le_bytes([bytes[at], bytes[at + 1]]);
        let held = Held {
            opcode: bytes[2],
            cycle: bytes[3],
        };
        Record {
            a: word(4),
            x: word(6),
            y: word(8),
            s: word(10),
            d: word(12),
            pc: word(14),
            pbr: bytes[16],
            dbr: bytes[17],
            p: bytes[18],
            e: bytes[19] == 1,
            held: (bytes[1] == 1).then_some(held),
            scratch: Scratch {
                address: word(20),
                data: word(22),
                bank: bytes[24],
            },
        }
    }

    /// Lends the packed record to a call and takes back what it makes of it.
    pub(crate) fn lend<T>(&mut self, call: impl FnOnce(&mut [u8]) -> T) -> T {
        let mut bytes = self.to_bytes();
        let answer = call(&mut bytes);
        *self = Record::unpacked(&bytes);
        answer
    }

    /// What this record asks of the bus in its next cycle; it depends on the record alone. Refused with 4, 5 or 6.
    ///
    /// ```
    /// use glavorint::{Access, Kind, Record, Request};
    ///
    /// let fetch = Request { address: 0x8000, kind: Kind::Opcode, access: Access::Read };
    /// assert_eq!(Record::start(0x8000).request(), Ok(fetch));
    /// ```
    pub fn request(&self) -> Result<Request, Refusal> {
        Request::told(ffi::request(&self.to_bytes()))
    }

    /// Completes the cycle with the answered byte; after a write the byte makes no difference. Refused with 4, 5 or 6, and then the record
    /// stays as it was. What [`request`](Record::request) refuses is refused here too; a fetched byte that isn't listed is refused here alone.
    ///
    /// ```
    /// use glavorint::{Record, Refusal};
    ///
    /// let mut record = Record::start(0x8000);
    /// assert_eq!(record.answer(0x00), Err(Refusal::Opcode));
    /// assert_eq!(record, Record::start(0x8000));
    /// assert_eq!(record.answer(0xEA), Ok(()));
    /// assert_eq!(record.pc, 0x8001);
    /// ```
    pub fn answer(&mut self, byte: u8) -> Result<(), Refusal> {
        Refusal::done(self.lend(|bytes| ffi::answer(bytes, byte)))
    }
}

/// [`Record::start`] at 0000.
impl Default for Record {
    fn default() -> Record {
        Record::start(0)
    }
}

#[cfg(test)]
mod tests {
    use super::*;
    use crate::MEMORY;

    /// Whether the library takes bytes for a packed record: with budget 0 it refuses by 4 those alone that aren't.
    fn taken(bytes: &[u8]) -> bool {
        let before = bytes.to_vec();
        let mut bytes = before.clone();
        let end = ffi::run(&mut bytes, &mut [0; MEMORY], 0);
        assert_eq!(bytes, before);
        assert!(end == 0 || end == 4 << 32, "{end:x}");
        end == 0
    }

    #[test]
    fn bytes_are_a_record_where_the_library_says_so() {
        let record = Record {
            held: Some(Held {
                opcode: 0x54,
                cycle: 3,
            }),
            e: true,
            ..Record::start(0x8000)
        };
        let whole = record.to_bytes();
        let (mut good, mut bad) = (0, 0);
        for place in 0..RECORD {
            for byte in [0, 1, 2, 3, 0x80, 0xFF] {
                let mut bytes = whole;
                bytes[place] = byte;
                assert_eq!(
                    Record::from_bytes(&bytes).is_ok(),
                    taken(&bytes),
                    "{byte} at {place}"
                );
                if taken(&bytes) {
                    good += 1;
                } else {
                    bad += 1;
                }
            }
        }
        // Refused: 5 of the edition's bytes, 4 of each flag's, 5 of each of the seven reserved ones'.
        assert_eq!((good, bad), (32 * 6 - 48, 48));
        for length in [0, 1, 31, 33, 40] {
            let bytes: Vec<u8> = whole.iter().copied().chain([0; 8]).take(length).collect();
            assert!(!taken(&bytes));
            assert_eq!(Record::from_bytes(&bytes), Err(Refusal::Record), "{length}");
        }
    }

    #[test]
    fn an_opcode_that_is_not_held_makes_no_difference() {
        let mut noted = Record::start(0x8000).to_bytes();
        noted[2..4].copy_from_slice(&[0x54, 6]);
        let mut plain = Record::start(0x8000).to_bytes();
        assert_eq!(Record::from_bytes(&noted), Ok(Record::start(0x8000)));
        assert_eq!(ffi::request(&noted), ffi::request(&plain));
        assert_eq!(ffi::answer(&mut noted, 0xEA), 0);
        assert_eq!(ffi::answer(&mut plain, 0xEA), 0);
        assert_eq!(noted, plain);
    }
}
