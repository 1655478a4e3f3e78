//! Why a call refuses (docs/RULES.md, 1.2).
use crate::raw;
use crate::ControlByte;
use core::fmt;

/// Why a call refuses, with what it carries. The cases stand in the order of their numbers, from 1 on.
///
/// As text it says what is wrong. Bytes and CRCs are hexadecimal there, without a mark, and counts are decimal, as in docs/RULES.md.
///
/// ```
/// use malstrink::{parse, Address};
///
/// let wrong = parse(&[0x53, 0x05, 0x08, 0x00, 0x04, 0x60, 0xBC, 0x88]).unwrap_err();
/// assert_eq!(wrong.to_string(), "the CRC is 88BC and should be 89BC");
/// assert_eq!(Address::pd(0x90).unwrap_err().to_string(), "address 90 is above 7F");
/// ```
///
/// `{:?}` shows the case's name and its numbers, and those are decimal: `BadCrc { got: 35004, want: 35260 }`. That is also what a
/// `main` that answers `Result<_, Box<dyn Error>>` prints when it ends by a refusal. To have the text there, print it before ending,
/// or hand on the text as the error:
///
/// ```
/// fn main() -> Result<(), Box<dyn std::error::Error>> {
///     let bytes = [0x53, 0x05, 0x07, 0x00, 0x00, 0x60, 0x41];
///     let parsed = malstrink::parse(&bytes).map_err(|wrong| wrong.to_string())?;
///     assert_eq!(parsed.packet.code, 0x60);
///     Ok(())
/// }
/// ```
///
/// With the feature `std` it is a `std::error::Error`. A case may be added, so a `match` needs an arm for the rest.
#[derive(Clone, Copy, Debug, PartialEq, Eq, Hash)]
#[non_exhaustive]
pub enum Refusal {
    /// 1: too few bytes are at hand, or a place runs outside its slice.
    Truncated {
        /// How many bytes there are.
        have: usize,
        /// How many are needed.
        need: usize,
    },
    /// 2: the first byte, carried here, is not 53 hex.
    BadSom(u8),
    /// 3: the high half of the control byte is not 0, or it and the block disagree in building.
    BadControlByte(u8),
    /// 4: LEN leaves no room for what the frame must hold.
    BadLength {
        /// LEN.
        declared: usize,
        /// LEN again.
        actual: usize,
    },
    /// 5: a block's length byte is below 2. What is carried is the block's type byte.
    BadSecurityBlockLength(u8),
    /// 6: a block's type is not one of 11 to 18 hex.
    BadSecurityBlock(u8),
    /// 7: the CRC is wrong.
    BadCrc {
        /// What the frame has.
        got: u16,
        /// What was worked out.
        want: u16,
    },
    /// 8: the checksum is wrong.
    BadChecksum {
        /// What the frame has.
        got: u8,
        /// What was worked out.
        want: u8,
    },
    /// 9: an address above 7F hex is asked for.
    BadAddress(u8),
    /// 10: a sequence number is above 3.
    BadSqn(u8),
    /// 11: in building, a MAC is due and missing, or given and not due. A MAC that is wrong is `BadCryptogram`.
    BadMac,
    /// 12: a frame would be longer than 65,535 bytes.
    BufferOverflow {
        /// How long it would be.
        need: usize,
        /// 65,535.
        have: usize,
    },
    /// 13: a frame to unseal has no block, or one of type 11 to 14 hex.
    NotSecure,
    /// 14: encrypted data has a wrong length or wrong padding.
    BadPadding,
    /// 15: a cryptogram, a first chain value or a MAC is wrong.
    BadCryptogram,
    /// 16: the session's state or end is not one that the call is for.
    WrongState,
    /// 17: block data to build, of the length carried here, is longer than 253 bytes.
    BlockTooLong(usize),
    /// 18: a lent buffer is too short.
    NoRoom {
        /// How many bytes are needed.
        need: usize,
        /// How long the buffer is.
        have: usize,
    },
    /// 19: a payload is no body of its code, carried here, or that code is not listed.
    BadBody(u8),
}

impl Refusal {
    /// The refusal's number, 1 or more.
    pub const fn number(self) -> u8 {
        use Refusal::*;
        match self {
            Truncated { .. } => 1,
            BadSom(_) => 2,
            BadControlByte(_) => 3,
            BadLength { .. } => 4,
            BadSecurityBlockLength(_) => 5,
            BadSecurityBlock(_) => 6,
            BadCrc { .. } => 7,
            BadChecksum { .. } => 8,
            BadAddress(_) => 9,
            BadSqn(_) => 10,
            BadMac => 11,
            BufferOverflow { .. } => 12,
            NotSecure => 13,
            BadPadding => 14,
            BadCryptogram => 15,
            WrongState => 16,
            BlockTooLong(_) => 17,
            NoRoom { .. } => 18,
            BadBody(_) => 19,
        }
    }

    /// The refusal of a number, with its two values as the archive tells them: a byte or a CRC comes in a number of 64 bits.
    fn of(number: u8, a: usize, b: usize) -> Option<Refusal> {
        use Refusal::*;
        let (x, y) = (a as u8, b as u8);
        let (got, want) = (a as u16, b as u16);
        Some(match number {
            1 => Truncated { have: a, need: b },
            2 => BadSom(x),
            3 => BadControlByte(x),
            4 => BadLength { declared: a, actual: b },
            5 => BadSecurityBlockLength(x),
            6 => BadSecurityBlock(x),
            7 => BadCrc { got, want },
            8 => BadChecksum { got: x, want: y },
            9 => BadAddress(x),
            10 => BadSqn(x),
            11 => BadMac,
            12 => BufferOverflow { need: a, have: b },
            13 => NotSecure,
            14 => BadPadding,
            15 => BadCryptogram,
            16 => WrongState,
            17 => BlockTooLong(a),
            18 => NoRoom { need: a, have: b },
            19 => BadBody(x),
            _ => return None,
        })
    }
}

impl fmt::Display for Refusal {
    fn fmt(&self, f: &mut fmt::Formatter<'_>) -> fmt::Result {
        use Refusal::*;
        match *self {
            Truncated { have, need } => write!(f, "{have} bytes are there and {need} are needed"),
            BadSom(b) => write!(f, "the first byte is {b:02X} and not 53"),
            BadControlByte(b) => write!(f, "control byte {b:02X} {}", control_fault(b)),
            BadLength { declared: n, .. } => write!(f, "a length of {n} leaves no room for what the frame must hold"),
            BadSecurityBlockLength(b) => write!(f, "the length of a block of type {b:02X} is below 2"),
            BadSecurityBlock(b) => write!(f, "block type {b:02X} is not one of 11 to 18"),
            BadCrc { got, want } => write!(f, "the CRC is {got:04X} and should be {want:04X}"),
            BadChecksum { got, want } => write!(f, "the checksum is {got:02X} and should be {want:02X}"),
            BadAddress(b) => write!(f, "address {b:02X} is above 7F"),
            BadSqn(n) => write!(f, "sequence number {n} is above 3"),
            BadMac => f.write_str("a MAC is due and missing, or given and not due"),
            BufferOverflow { need, have } => write!(f, "a frame of {need} bytes is longer than {have}"),
            NotSecure => f.write_str("the frame is not sealed: it has no block, or one of type 11 to 14"),
            BadPadding => f.write_str("encrypted data has a wrong length or wrong padding"),
            BadCryptogram => f.write_str("a cryptogram, a first chain value or a MAC is wrong"),
            WrongState => f.write_str("the call is not for this state or this end of a session"),
            BlockTooLong(n) => write!(f, "block data of {n} bytes is longer than 253"),
            NoRoom { need, have } => write!(f, "the buffer has {have} bytes and {need} are needed"),
            BadBody(code) => write!(f, "the payload is no body of code {code:02X}, or that code is not listed"),
        }
    }
}

/// What is wrong with a control byte. Up to 0F it was put together in building, from a number and two flags.
fn control_fault(byte: u8) -> &'static str {
    if byte > 0x0F {
        "is above 0F"
    } else if byte & ControlByte::HAS_SCB != 0 {
        "says that a block follows, and there is none"
    } else {
        "says that no block follows, and there is one"
    }
}

#[cfg(feature = "std")]
impl std::error::Error for Refusal {}

impl raw::Answer {
    /// What was asked for, or the refusal.
    pub(crate) fn told(self) -> Result<usize, Refusal> {
        if self.refusal == 0 {
            return Ok(self.a);
        }
        match Refusal::of(self.refusal, self.a, self.b) {
            Some(refusal) => Err(refusal),
            None => unreachable!("the archive has no refusal {}", self.refusal),
        }
    }

    /// The same where a success has nothing to tell.
    pub(crate) fn done(self) -> Result<(), Refusal> {
        self.told().map(|_| ())
    }
}

#[cfg(test)]
mod tests;
