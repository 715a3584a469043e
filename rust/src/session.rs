//! A record with a count of its cycles.
use crate::{ffi, Record, Refusal, Request, Run, RECORD, SESSION};
use std::fmt;

/// A record and the count of its completed cycles, changed in place.
///
/// It is kept as the library takes it, so nothing is packed from cycle to cycle.
///
/// ```
/// use glavorint::{Record, Session, MEMORY};
///
/// let mut memory = vec![0; MEMORY];
/// memory[0x8000] = 0x18; // CLC
/// let mut session = Session::new(Record::start(0x8000));
/// session.cycle(&mut memory)?;
/// session.cycle(&mut memory)?;
/// assert!(session.cycle(&mut memory).is_err()); // 00 isn't listed
/// assert_eq!((session.count(), session.record().pc), (2, 0x8001));
/// # Ok::<(), glavorint::Refusal>(())
/// ```
#[derive(Clone, Copy, PartialEq, Eq, Hash)]
pub struct Session {
    bytes: [u8; SESSION],
}

impl Session {
    /// A session at this record, with no cycle done. Any record is taken; one that isn't well formed is refused at its cycles.
    pub fn new(record: Record) -> Session {
        let mut bytes = [0; SESSION];
        bytes[..RECORD].copy_from_slice(&record.to_bytes());
        Session { bytes }
    }

    /// The session of 40 bytes: a packed record, then the count with its low byte first. Refused with 4 if they aren't that, as in
    /// [`Record::from_bytes`].
    pub fn from_bytes(bytes: &[u8]) -> Result<Session, Refusal> {
        let bytes: [u8; SESSION] = bytes.try_into().map_err(|_| Refusal::Record)?;
        let record = Record::from_bytes(&bytes[..RECORD])?;
        let mut session = Session::new(record);
        session.bytes[RECORD..].copy_from_slice(&bytes[RECORD..]);
        Ok(session)
    }

    /// The 40 bytes.
    pub fn to_bytes(&self) -> [u8; SESSION] {
        self.bytes
    }

    /// What the session asks of the bus: [`Record::request`].
    pub fn request(&self) -> Result<Request, Refusal> {
        Request::told(ffi::session_request(&self.bytes))
    }

    /// Completes the cycle with the answered byte and counts it: [`Record::answer`]. A refused cycle isn't counted, and the session stays as it was.
    pub fn answer(&mut self, byte: u8) -> Result<(), Refusal> {
        Refusal::done(ffi::session_answer(&mut self.bytes, byte))
    }

    /// One cycle over a memory that stands for bank 0: a run of budget 1. Refused with 1 or 4 to 7; a refused cycle isn't counted, and
    /// session and memory stay as they were.
    pub fn cycle(&mut self, memory: &mut [u8]) -> Result<(), Refusal> {
        Refusal::done(ffi::session_cycle(&mut self.bytes, memory))
    }

    /// At most `count` cycles one after another, up to the first that is refused: [`Session::cycle`] so many times, by one call. Any count will do;
    /// a memory of another length is refused with 0 too, as by a run, and nothing else.
    ///
    /// ```
    /// use glavorint::{Record, Refusal, Session, MEMORY};
    ///
    /// let mut memory = vec![0; MEMORY];
    /// memory[0x8000..0x8003].copy_from_slice(&[0x18, 0x69, 0x01]); // CLC, ADC #01
    /// let mut session = Session::new(Record::start(0x8000));
    /// assert_eq!(session.cycles(&mut memory, 3).result(), Ok(3));
    /// let run = session.cycles(&mut memory, 2_000_000);
    /// assert_eq!((run.cycles, run.refusal), (1, Some(Refusal::Opcode))); // 00 at 8003 isn't listed
    /// assert_eq!((session.count(), session.record().a), (4, 0x0001));
    /// ```
    pub fn cycles(&mut self, memory: &mut [u8], count: u32) -> Run {
        Run::told(ffi::session_cycles(&mut self.bytes, memory, count))
    }

    /// The completed cycles. At 18,446,744,073,709,551,615 the count stands still.
    pub fn count(&self) -> u64 {
        let mut count = [0; SESSION - RECORD];
        count.copy_from_slice(&self.bytes[RECORD..]);
        u64::from_le_bytes(count)
    }

    /// The record as it is now.
    pub fn record(&self) -> Record {
        let mut record = [0; RECORD];
        record.copy_from_slice(&self.bytes[..RECORD]);
        Record::unpacked(&record)
    }
}

impl fmt::Debug for Session {
    fn fmt(&self, f: &mut fmt::Formatter<'_>) -> fmt::Result {
        f.debug_struct("Session")
            .field("record", &self.record())
            .field("count", &self.count())
            .finish()
    }
}
