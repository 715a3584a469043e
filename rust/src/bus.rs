//! What a cycle asks of the bus.
use crate::Refusal;

/// The one request of a cycle.
#[derive(Clone, Copy, Debug, PartialEq, Eq, Hash)]
pub struct Request {
    /// 24 bits: the bank in bits 16 to 23.
    pub address: u32,
    /// What the access is for.
    pub kind: Kind,
    /// Its direction and, for a write, the byte.
    pub access: Access,
}

/// What an access is for: VPA and VDA of the chip.
#[derive(Clone, Copy, Debug, PartialEq, Eq, Hash)]
pub enum Kind {
    /// The fetch of an opcode; O in a trace.
    Opcode,
    /// The fetch of an operand's byte; P in a trace.
    Program,
    /// Data, pointers and the stack; D in a trace.
    Data,
    /// An internal cycle, whose address means nothing to the memory; I in a trace.
    Invalid,
}

/// The direction of an access.
#[derive(Clone, Copy, Debug, PartialEq, Eq, Hash)]
pub enum Access {
    /// The bus answers a byte.
    Read,
    /// The bus takes this byte; what is answered makes no difference.
    Write(u8),
}

impl Request {
    /// The bits of `glavorint_request`: 0-23 address, 24-31 byte, 32-39 kind, 40 write, 48-55 refusal.
    pub(crate) fn told(bits: u64) -> Result<Request, Refusal> {
        if let Some(refusal) = Refusal::told((bits >> 48) as u8) {
            return Err(refusal);
        }
        let access = match bits >> 40 & 1 {
            0 => Access::Read,
            _ => Access::Write((bits >> 24) as u8),
        };
        let kind = match (bits >> 32) as u8 {
            0 => Kind::Opcode,
            1 => Kind::Program,
            2 => Kind::Data,
            _ => Kind::Invalid,
        };
        let address = bits as u32 & 0xFF_FFFF;
        Ok(Request {
            address,
            kind,
            access,
        })
    }
}
