//! A first trace: CLC and ADC #01 at 8000, in native mode with 8-bit registers. Prints the trace of their four cycles.
//!
//! ```text
//! library/build.sh && cargo run --manifest-path rust/Cargo.toml --example first_trace
//! ```
use glavorint::{Record, MEMORY};
use std::error::Error;
use std::io;

fn main() -> Result<(), Box<dyn Error>> {
    let mut memory = vec![0; MEMORY];
    memory[0x8000..0x8003].copy_from_slice(&[0x18, 0x69, 0x01]);
    let mut record = Record::start(0x8000);
    record
        .trace_to(&mut memory, &mut io::stdout(), 4)?
        .result()?;
    Ok(())
}
