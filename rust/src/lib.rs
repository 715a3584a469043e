//! A 65C816 whose every bus cycle is proved equal to a definition written from the chip's data sheet.
//!
//! The functions that do the work are proved; this crate makes them safe to call. A [`Record`] is all that the processor is between two
//! cycles. It is run in one of three ways:
//!
//! - [`Record::run`] over 65,536 bytes that stand for bank 0, or [`Record::trace`] and [`Tracer`] with a line of text for each cycle;
//! - [`Record::request`] and [`Record::answer`], one cycle at a time over a bus of your own;
//! - [`Session`], the same with a count of the cycles.
//!
//! ```
//! use glavorint::{Record, MEMORY};
//!
//! let mut memory = vec![0; MEMORY];
//! memory[0x8000..0x8004].copy_from_slice(&[0xF8, 0x18, 0x69, 0x01]); // SED, CLC, ADC #01
//! let mut record = Record { a: 0x99, ..Record::start(0x8000) };
//! assert_eq!(record.run(&mut memory, 6).result(), Ok(6));
//! assert_eq!(record.a, 0x00); // 99 + 01 in decimal digits
//! assert_eq!(record.p & glavorint::flag::C, glavorint::flag::C);
//! ```
//!
//! What can't be done is refused by a number of the paper's list, a [`Refusal`]. Nothing is kept between calls and nothing is shared, so any
//! number of machines may run side by side.
#![deny(missing_docs, unsafe_code)]
#![warn(clippy::all)]

mod bus;
#[allow(unsafe_code)]
mod ffi;
mod record;
mod refusal;
mod run;
mod session;
mod trace;

pub use bus::{Access, Kind, Request};
pub use record::{flag, Held, Record, Scratch};
pub use refusal::Refusal;
pub use run::Run;
pub use session::Session;
pub use trace::{room, Trace, Tracer};

/// The edition of the packed bytes that this crate writes. A library of another edition refuses them all with 4.
pub const EDITION: u32 = 1;
/// The bytes of a packed record.
pub const RECORD: usize = 32;
/// The bytes of a packed session.
pub const SESSION: usize = 40;
/// The bytes of the memory of a run.
pub const MEMORY: usize = 65_536;
/// The most cycles of a run, or of a trace in all its pieces.
pub const BUDGET: u32 = 1_000_000;

/// The edition of the library that is linked.
pub fn edition() -> u32 {
    ffi::edition()
}
