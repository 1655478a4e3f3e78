//! Bodies of replies (docs/RULES.md, 13).
use crate::raw;
use crate::{Parsed, Refusal};
use core::fmt;
use core::iter::FusedIterator;

const ACK: u8 = 0x40;
const NAK: u8 = 0x41;
const PDID: u8 = 0x45;
const PDCAP: u8 = 0x46;
const LSTATR: u8 = 0x48;
const RAW: u8 = 0x50;
const KEYPAD: u8 = 0x53;

/// What the payload of a reply says. Its slices are parts of the payload that it was read from.
///
/// ```
/// use malstrink::{Refusal, Reply};
///
/// let payload = [0, 1, 26, 0, 0x8F, 0xA3, 0x40, 0x40];
/// let reply = Reply::read(0x50, &payload)?;
/// assert_eq!((reply.name(), reply.badge()), ("RAW", Some(37_653_761)));
/// match reply {
///     Reply::Raw { reader, bits, bytes, .. } => assert_eq!((reader, bits, bytes), (0, 26, &payload[4..])),
///     _ => unreachable!(),
/// }
/// // a byte fewer is not the bytes that 26 bits need
/// assert_eq!(Reply::read(0x50, &payload[..7]), Err(Refusal::BadBody(0x50)));
/// # Ok::<(), Refusal>(())
/// ```
///
/// A case may be added, so a `match` needs an arm for the rest.
#[derive(Clone, Copy, Debug, PartialEq, Eq, Hash)]
#[non_exhaustive]
pub enum Reply<'a> {
    /// 40 hex: the command was taken. It has no bytes.
    Ack,
    /// 41 hex: the command was not taken.
    Nak {
        /// The error byte.
        error: u8,
        /// What follows, as it stands.
        rest: &'a [u8],
    },
    /// 45 hex: what the device is.
    PdId {
        /// The vendor's three bytes.
        vendor: [u8; 3],
        /// The model.
        model: u8,
        /// The version.
        version: u8,
        /// The serial number.
        serial: u32,
        /// The firmware's version, its first number.
        major: u8,
        /// Its second.
        minor: u8,
        /// Its third.
        build: u8,
    },
    /// 46 hex: what the device can do.
    PdCap(Triples<'a>),
    /// 48 hex: the device's own state.
    LStatR {
        /// The tamper byte.
        tamper: u8,
        /// The power byte.
        power: u8,
    },
    /// 50 hex: a badge was read. [`Reply::badge`] has it as a number.
    Raw {
        /// The reader that read it.
        reader: u8,
        /// The format.
        format: u8,
        /// How many bits it has.
        bits: u16,
        /// The bits, the first one highest, in exactly the bytes that they need.
        bytes: &'a [u8],
    },
    /// 53 hex: keys were pressed.
    Keypad {
        /// The reader that they were pressed at.
        reader: u8,
        /// The digits, at most 255.
        digits: &'a [u8],
    },
}

fn body(code: u8, payload: &[u8]) -> raw::Body {
    unsafe { raw::malstrink_read_body(code, payload.as_ptr(), payload.len()) }
}

impl<'a> Reply<'a> {
    /// Reads the payload of a frame with this code whole (13). A payload that is no body of its code, and every code that is not one
    /// of those above: `BadBody`.
    ///
    /// A sealed frame has its code in the clear, and [`crate::parse`] tells it; its payload is what [`crate::Session::unseal`] shows.
    ///
    /// ```
    /// # use malstrink::*;
    /// # fn shown(controller: &mut Session, frame: &[u8]) -> Result<(), Refusal> {
    /// let mut work = [0; 64];
    /// let payload = controller.unseal(frame, &mut work).answer?;
    /// let reply = Reply::read(parse(frame)?.packet.code, payload)?;
    /// # Ok(())
    /// # }
    /// ```
    pub fn read(code: u8, payload: &'a [u8]) -> Result<Reply<'a>, Refusal> {
        let b = body(code, payload);
        b.answer.done()?;
        let rest = &payload[b.rest_start..b.rest_start + b.rest_len];
        Ok(match b.code {
            ACK => Reply::Ack,
            NAK => Reply::Nak { error: b.error, rest },
            PDID => Reply::PdId {
                vendor: b.vendor,
                model: b.model,
                version: b.version,
                serial: b.serial,
                major: b.firmware_major,
                minor: b.firmware_minor,
                build: b.firmware_build,
            },
            PDCAP => Reply::PdCap(Triples { payload }),
            LSTATR => Reply::LStatR {
                tamper: b.tamper,
                power: b.power,
            },
            RAW => Reply::Raw {
                reader: b.reader,
                format: b.format,
                bits: b.bits,
                bytes: rest,
            },
            KEYPAD => Reply::Keypad {
                reader: b.reader,
                digits: rest,
            },
            _ => unreachable!("the archive has no body of code {}", b.code),
        })
    }

    /// The code of a frame that has it.
    pub const fn code(&self) -> u8 {
        match self {
            Reply::Ack => ACK,
            Reply::Nak { .. } => NAK,
            Reply::PdId { .. } => PDID,
            Reply::PdCap(_) => PDCAP,
            Reply::LStatR { .. } => LSTATR,
            Reply::Raw { .. } => RAW,
            Reply::Keypad { .. } => KEYPAD,
        }
    }

    /// Its name (13.2).
    pub const fn name(&self) -> &'static str {
        match self {
            Reply::Ack => "ACK",
            Reply::Nak { .. } => "NAK",
            Reply::PdId { .. } => "PDID",
            Reply::PdCap(_) => "PDCAP",
            Reply::LStatR { .. } => "LSTATR",
            Reply::Raw { .. } => "RAW",
            Reply::Keypad { .. } => "KEYPAD",
        }
    }

    /// The badge of a `Raw` as one number: its bits as they stand, the first one highest, where there are 1 to 64 of them. What is
    /// spare in the last byte is no part of it. None of anything else.
    pub fn badge(&self) -> Option<u64> {
        match *self {
            Reply::Raw {
                reader,
                format,
                bits,
                bytes,
            } => badge(reader, format, bits, bytes),
            _ => None,
        }
    }
}

/// The number is the archive's, which is handed the body again. 64 bits need eight bytes: where there are more, there is no number. One
/// that was not read, and whose bytes are not those that its bits need, the archive refuses.
fn badge(reader: u8, format: u8, bits: u16, bytes: &[u8]) -> Option<u64> {
    let [low, high] = bits.to_le_bytes();
    let mut payload = [reader, format, low, high, 0, 0, 0, 0, 0, 0, 0, 0];
    let end = 4 + bytes.len();
    payload.get_mut(4..end)?.copy_from_slice(bytes);
    let b = body(RAW, &payload[..end]);
    b.has_number.then_some(b.number)
}

impl<'a> Parsed<'a> {
    /// What the frame says, if it is a reply in the clear (14.2): its address has the reply flag, and it has no MAC. A payload that is
    /// no body of its code: `BadBody`. Anybody on the line can make such a frame.
    ///
    /// `None` for a command, and where the frame is sealed, plain or encrypted: only [`crate::Session::unseal`] shows what such a frame
    /// says, and that it is the other end's.
    ///
    /// ```
    /// use malstrink::{parse, Refusal, Reply};
    ///
    /// let ack = [0x53, 0x85, 0x08, 0x00, 0x05, 0x40, 0x3F, 0xBC];
    /// assert_eq!(parse(&ack)?.reply(), Some(Ok(Reply::Ack)));
    /// let poll = [0x53, 0x05, 0x08, 0x00, 0x04, 0x60, 0xBC, 0x89];
    /// assert_eq!(parse(&poll)?.reply(), None);
    /// # Ok::<(), Refusal>(())
    /// ```
    pub fn reply(&self) -> Option<Result<Reply<'a>, Refusal>> {
        if !self.packet.addr.is_reply() || self.mac.is_some() {
            return None;
        }
        Some(Reply::read(self.packet.code, self.packet.data))
    }
}

/// One thing that a device can do.
#[derive(Clone, Copy, Debug, PartialEq, Eq, Hash)]
pub struct Triple {
    /// The function.
    pub function: u8,
    /// The compliance.
    pub compliance: u8,
    /// The number.
    pub number: u8,
}

/// The triples of a `PdCap`, one or more. Only [`Reply::read`] makes them.
///
/// ```
/// use malstrink::{Refusal, Reply, Triple};
///
/// if let Reply::PdCap(triples) = Reply::read(0x46, &[1, 2, 3, 4, 5, 6])? {
///     assert_eq!(triples.len(), 2);
///     assert_eq!(triples.get(1), Some(Triple { function: 4, compliance: 5, number: 6 }));
///     assert!(triples.iter().any(|t| t.function == 1));
/// }
/// # Ok::<(), Refusal>(())
/// ```
#[derive(Clone, Copy, PartialEq, Eq, Hash)]
pub struct Triples<'a> {
    payload: &'a [u8],
}

#[allow(clippy::len_without_is_empty)] // there is always one
impl<'a> Triples<'a> {
    /// How many there are, at least 1.
    pub const fn len(&self) -> usize {
        self.payload.len() / 3
    }

    /// Triple i, counted from 0.
    pub fn get(&self, i: usize) -> Option<Triple> {
        let t = unsafe { raw::malstrink_triple(PDCAP, self.payload.as_ptr(), self.payload.len(), i) };
        t.there.then_some(Triple {
            function: t.function,
            compliance: t.compliance,
            number: t.number,
        })
    }

    /// All of them, in their order.
    pub fn iter(&self) -> TriplesIter<'a> {
        TriplesIter { triples: *self, at: 0 }
    }
}

impl<'a> IntoIterator for Triples<'a> {
    type Item = Triple;
    type IntoIter = TriplesIter<'a>;

    fn into_iter(self) -> TriplesIter<'a> {
        self.iter()
    }
}

impl fmt::Debug for Triples<'_> {
    fn fmt(&self, f: &mut fmt::Formatter<'_>) -> fmt::Result {
        f.debug_list().entries(self.iter()).finish()
    }
}

/// The triples of a `PdCap`, one after the other.
#[derive(Clone, Debug)]
pub struct TriplesIter<'a> {
    triples: Triples<'a>,
    at: usize,
}

impl Iterator for TriplesIter<'_> {
    type Item = Triple;

    fn next(&mut self) -> Option<Triple> {
        let t = self.triples.get(self.at)?;
        self.at += 1;
        Some(t)
    }

    fn size_hint(&self) -> (usize, Option<usize>) {
        let left = self.triples.len() - self.at;
        (left, Some(left))
    }
}

impl ExactSizeIterator for TriplesIter<'_> {}
impl FusedIterator for TriplesIter<'_> {}
