//! A milk tanker's ROM adds deliveries in decimal digits, over a bus that has a meter and a slip printer on it. The sum is checked.
//!
//! ```text
//! library/build.sh && cargo run --manifest-path rust/Cargo.toml --example add_deliveries
//! ```
use glavorint::{Access, Kind, Record, Refusal, Session};

/// At 8000. A is 16 bits wide, four digits; X counts the ten thousands.
const ROM: [u8; 21] = [
    0xF8, //             8000  SED
    0xC2, 0x20, //       8001  REP #20
    0xA9, 0x00, 0x00, // 8003  LDA #0000
    0x18, //             8006  CLC
    0x6D, 0x00, 0x40, // 8007  ADC 4000  the meter
    0x90, 0x01, //       800A  BCC 800D
    0xE8, //             800C  INX
    0x8D, 0x02, 0x40, // 800D  STA 4002  the slip, four digits
    0x8E, 0x04, 0x40, // 8010  STX 4004  and the ten thousands, which print it
    0x80, 0xF1, //       8013  BRA 8006
];

/// Litres, as the meter shows them.
const DELIVERIES: [u16; 8] = [482, 1_250, 9_075, 36, 4_999, 9_999, 801, 2_760];

/// Four decimal digits as the chip holds them.
fn digits(n: u16) -> u16 {
    n % 10 + (n / 10 % 10) * 0x10 + (n / 100 % 10) * 0x100 + (n / 1_000 % 10) * 0x1000
}

fn value(digits: u16) -> u32 {
    (0..4).rev().fold(0, |n, place| {
        n * 10 + u32::from(digits >> (4 * place) & 0xF)
    })
}

/// What stands on the bus beside the ROM.
#[derive(Default)]
struct Farm {
    delivered: usize,
    slip: [u8; 3],
    printed: Vec<u32>,
}

impl Farm {
    /// The meter goes on to the next delivery when its high byte is read as data; an internal cycle asks for nothing.
    fn read(&mut self, address: u32, kind: Kind) -> u8 {
        let [low, high] = digits(DELIVERIES[self.delivered % DELIVERIES.len()]).to_le_bytes();
        match (address, kind) {
            (0x4000, Kind::Data) => low,
            (0x4001, Kind::Data) => {
                self.delivered += 1;
                high
            }
            (0x8000..=0x8014, _) => ROM[address as usize - 0x8000],
            _ => 0,
        }
    }

    fn write(&mut self, address: u32, byte: u8) {
        if let 0x4002..=0x4004 = address {
            self.slip[address as usize - 0x4002] = byte;
        }
        if address == 0x4004 {
            let [low, high, wraps] = self.slip;
            let total = value(u16::from_le_bytes([low, high])) + 10_000 * u32::from(wraps);
            self.printed.push(total);
        }
    }
}

fn main() -> Result<(), Refusal> {
    let mut farm = Farm::default();
    let mut session = Session::new(Record::start(0x8000));
    while farm.printed.len() < DELIVERIES.len() {
        let request = session.request()?;
        let byte = match request.access {
            Access::Read => farm.read(request.address, request.kind),
            Access::Write(byte) => {
                farm.write(request.address, byte);
                byte
            }
        };
        session.answer(byte)?;
    }
    let mut sum = 0;
    for (litres, total) in DELIVERIES.iter().zip(&farm.printed) {
        sum += u32::from(*litres);
        println!("{litres:6} {total:8}");
        assert_eq!(*total, sum, "the ROM's total isn't the sum");
    }
    println!(
        "{} deliveries, {sum} litres, {} cycles",
        DELIVERIES.len(),
        session.count()
    );
    Ok(())
}
