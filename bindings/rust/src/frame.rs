//! Frames: their small kinds, reading and building (docs/RULES.md, 2 to 4).
use crate::lent::lend;
use crate::raw;
use crate::Refusal;

/// The checksum of a frame's bytes (2.5).
pub fn checksum8(bytes: &[u8]) -> u8 {
    unsafe { raw::malstrink_checksum8(bytes.as_ptr(), bytes.len()) }
}

/// The CRC of a frame's bytes (2.6). In a frame its low byte comes first.
///
/// ```
/// assert_eq!(malstrink::crc16(&[0x53, 0x05, 0x08, 0x00, 0x04, 0x60]), 0x89BC);
/// ```
pub fn crc16(bytes: &[u8]) -> u16 {
    unsafe { raw::malstrink_crc16(bytes.as_ptr(), bytes.len()) }
}

/// An address byte, with the reply flag (2.3).
#[derive(Clone, Copy, Debug, PartialEq, Eq, Hash)]
pub struct Address(u8);

impl Address {
    /// The address that every device takes.
    pub const BROADCAST: Address = Address(0x7F);

    /// The bit that is set in what a reader sends.
    pub const REPLY_FLAG: u8 = 0x80;

    /// Any byte, as a frame has it.
    pub const fn from_raw(byte: u8) -> Address {
        Address(byte)
    }

    /// The address of a command to device n. Above 7F hex: `BadAddress`.
    pub fn pd(n: u8) -> Result<Address, Refusal> {
        unsafe { raw::malstrink_address_pd(n) }.told().map(|a| Address(a as u8))
    }

    /// The address of a reply from device n. Above 7F hex: `BadAddress`.
    pub fn reply(n: u8) -> Result<Address, Refusal> {
        unsafe { raw::malstrink_address_reply(n) }
            .told()
            .map(|a| Address(a as u8))
    }

    /// The whole byte, flag included.
    pub const fn as_byte(self) -> u8 {
        self.0
    }

    /// The device's address: the byte without the reply flag.
    pub const fn pd_addr(self) -> u8 {
        self.0 & !Address::REPLY_FLAG
    }

    /// Whether the reply flag is set.
    pub const fn is_reply(self) -> bool {
        self.0 & Address::REPLY_FLAG != 0
    }

    /// Whether the device's address is the one that every device takes. The reply flag does not matter.
    pub const fn is_broadcast(self) -> bool {
        self.pd_addr() == Address::BROADCAST.0
    }
}

/// A sequence number, 0 to 3 (2.3).
#[derive(Clone, Copy, Debug, PartialEq, Eq, Hash)]
pub struct Sqn(u8);

impl Sqn {
    /// The number used at boot and recovery.
    pub const ZERO: Sqn = Sqn(0);

    /// Above 3: `BadSqn`.
    pub fn new(n: u8) -> Result<Sqn, Refusal> {
        unsafe { raw::malstrink_sqn_new(n) }.told().map(|a| Sqn(a as u8))
    }

    /// The number after this one: 1, 2, 3 and 1 again. It never comes back to 0.
    pub fn next(self) -> Sqn {
        match unsafe { raw::malstrink_sqn_next(self.0) }.told() {
            Ok(n) => Sqn(n as u8),
            Err(_) => unreachable!("a Sqn is at most 3"),
        }
    }

    /// The number.
    pub const fn value(self) -> u8 {
        self.0
    }
}

/// What a control byte says (2.2).
#[derive(Clone, Copy, Debug, PartialEq, Eq, Hash)]
pub struct ControlByte {
    /// The sequence number.
    pub sqn: Sqn,
    /// Whether the frame ends with a CRC. If not, it ends with a checksum.
    pub crc: bool,
    /// Whether a block follows.
    pub block: bool,
}

impl ControlByte {
    /// The bit that says that the trailer is a CRC.
    pub const USE_CRC: u8 = 0x04;

    /// The bit that says that a block follows.
    pub const HAS_SCB: u8 = 0x08;

    /// From its parts.
    pub const fn new(sqn: Sqn, crc: bool, block: bool) -> ControlByte {
        ControlByte { sqn, crc, block }
    }

    /// Above 0F hex: `BadControlByte`.
    pub fn decode(byte: u8) -> Result<ControlByte, Refusal> {
        let c = unsafe { raw::malstrink_control_decode(byte) };
        c.answer.done()?;
        Ok(ControlByte {
            sqn: Sqn(c.sqn),
            crc: c.crc,
            block: c.block,
        })
    }

    /// The byte.
    pub fn encode(self) -> u8 {
        match unsafe { raw::malstrink_control_encode(self.sqn.0, self.crc, self.block) }.told() {
            Ok(byte) => byte as u8,
            Err(_) => unreachable!("a Sqn is at most 3"),
        }
    }

    /// Whether the trailer is a CRC.
    pub const fn use_crc(self) -> bool {
        self.crc
    }

    /// Whether a block follows.
    pub const fn has_scb(self) -> bool {
        self.block
    }
}

/// The type of a block (2.4): the hexadecimal number is in the name.
#[derive(Clone, Copy, Debug, PartialEq, Eq, Hash)]
#[repr(u8)]
#[allow(missing_docs)]
pub enum ScsType {
    Scs11 = 0x11,
    Scs12 = 0x12,
    Scs13 = 0x13,
    Scs14 = 0x14,
    Scs15 = 0x15,
    Scs16 = 0x16,
    Scs17 = 0x17,
    Scs18 = 0x18,
}

impl ScsType {
    /// Not one of the eight: `BadSecurityBlock`.
    pub fn from_byte(byte: u8) -> Result<ScsType, Refusal> {
        let n = unsafe { raw::malstrink_scs_type(byte) }.told()?;
        match ScsType::of(n as u8) {
            Some(ty) => Ok(ty),
            None => unreachable!("the archive has no block type {}", n),
        }
    }

    /// The byte.
    pub const fn as_byte(self) -> u8 {
        self as u8
    }

    /// Whether four bytes of MAC stand before the trailer: 15 to 18 hex.
    pub const fn has_mac(self) -> bool {
        0x15 <= self.as_byte()
    }

    /// Whether the frame's data is encrypted: 17 and 18 hex.
    pub const fn is_encrypted(self) -> bool {
        0x17 <= self.as_byte()
    }

    /// Whether it is one of the handshake's: 11 to 14 hex.
    pub const fn is_handshake(self) -> bool {
        self.as_byte() <= 0x14
    }

    fn of(byte: u8) -> Option<ScsType> {
        Some(match byte {
            0x11 => ScsType::Scs11,
            0x12 => ScsType::Scs12,
            0x13 => ScsType::Scs13,
            0x14 => ScsType::Scs14,
            0x15 => ScsType::Scs15,
            0x16 => ScsType::Scs16,
            0x17 => ScsType::Scs17,
            0x18 => ScsType::Scs18,
            _ => return None,
        })
    }
}

/// A security block.
#[derive(Clone, Copy, Debug, PartialEq, Eq, Hash)]
pub struct Block<'a> {
    /// Its type.
    pub ty: ScsType,
    /// Its data, at most 253 bytes.
    pub data: &'a [u8],
}

impl<'a> Block<'a> {
    /// Reads the block at the start of `bytes`, a frame's part from byte 5 on (3.3). Refuses by `Truncated`,
    /// `BadSecurityBlockLength` or `BadSecurityBlock`.
    pub fn read(bytes: &'a [u8]) -> Result<Block<'a>, Refusal> {
        let b = unsafe { raw::malstrink_block(bytes.as_ptr(), bytes.len()) };
        b.answer.done()?;
        match ScsType::of(b.ty) {
            Some(ty) => Ok(Block {
                ty,
                data: &bytes[2..2 + usize::from(b.data_len)],
            }),
            None => unreachable!("the archive has no block type {}", b.ty),
        }
    }

    /// Its length in a frame, its own length byte and its type counted.
    pub const fn wire_len(&self) -> usize {
        self.data.len() + 2
    }
}

/// What the first five bytes of a frame say (3.2), among it how long the frame is that arrives.
///
/// A driver can rely on this:
///
/// - No byte but the first five is looked at.
/// - What is refused as `BadSom` or `BadControlByte`, [`parse`] refuses in the same way, whatever follows: nothing is to be waited
///   for.
/// - An accepted frame shows the address, the length and the control byte that its head shows.
/// - While fewer than `len` bytes are there, [`parse`] refuses as `Truncated { have, need: len }` and in no other way. When they
///   are there, and the first five, its answer stays the same, whatever follows.
///
/// So it reads five bytes, then those up to `len`, and parses once. It must not read on because [`parse`] refuses as `Truncated`:
/// a whole frame is refused so too, one whose block runs past its end (3.3). The crate's examples/driver.rs is a driver.
#[derive(Clone, Copy, Debug, PartialEq, Eq, Hash)]
pub struct Head {
    /// The address.
    pub addr: Address,
    /// LEN, the length of the whole frame, as it stands there: any number from 0 to 65,535, so also one below 5, or above what the
    /// caller has room for.
    pub len: usize,
    /// The control byte.
    pub control: ControlByte,
}

impl Head {
    /// Looks at the first five bytes only. Refuses by `Truncated`, `BadSom` or `BadControlByte`.
    ///
    /// ```
    /// use malstrink::{parse, Head};
    /// use std::io::Read;
    ///
    /// let mut line = &[0x53, 0x05, 0x08, 0x00, 0x04, 0x60, 0xBC, 0x89, 0x53, 0x05][..];
    /// let mut room = [0; 1440];
    /// line.read_exact(&mut room[..5]).unwrap();
    /// let len = Head::read(&room[..5]).unwrap().len;
    /// assert!(len <= room.len()); // a longer frame is the driver's own to refuse
    /// let more = len.saturating_sub(5); // LEN may be below 5: `parse` refuses it then
    /// line.read_exact(&mut room[5..5 + more]).unwrap();
    /// assert_eq!(parse(&room[..5 + more]).unwrap().packet.code, 0x60);
    /// assert_eq!(line, [0x53, 0x05]); // the next frame is still on the line
    /// ```
    pub fn read(bytes: &[u8]) -> Result<Head, Refusal> {
        let h = unsafe { raw::malstrink_head(bytes.as_ptr(), bytes.len()) };
        h.answer.done()?;
        Ok(Head {
            addr: Address(h.addr),
            len: h.len,
            control: ControlByte {
                sqn: Sqn(h.sqn),
                crc: h.crc,
                block: h.block,
            },
        })
    }
}

/// The parts of a frame, all but its MAC and its trailer.
#[derive(Clone, Copy, Debug, PartialEq, Eq, Hash)]
pub struct Packet<'a> {
    /// The address.
    pub addr: Address,
    /// The control byte. Its flag `block` has to say whether there is a block.
    pub control: ControlByte,
    /// The block.
    pub block: Option<Block<'a>>,
    /// The code of the command or reply.
    pub code: u8,
    /// The data, also called payload.
    pub data: &'a [u8],
}

/// The trailer of a frame.
#[derive(Clone, Copy, Debug, PartialEq, Eq, Hash)]
pub enum Trailer {
    /// One byte.
    Checksum(u8),
    /// Two bytes.
    Crc(u16),
}

impl Trailer {
    /// Whether it is a CRC.
    pub const fn is_crc(self) -> bool {
        matches!(self, Trailer::Crc(_))
    }
}

/// A frame that was read. Its slices are parts of the bytes that it was read from.
#[derive(Clone, Copy, Debug, PartialEq, Eq, Hash)]
pub struct Parsed<'a> {
    /// Its parts.
    pub packet: Packet<'a>,
    /// The MAC, there exactly if the block's type is 15 to 18 hex. Reading does not check it: [`crate::Session::unseal`] does.
    pub mac: Option<[u8; 4]>,
    /// The trailer, which is right.
    pub trailer: Trailer,
    /// How long the frame is. Bytes after it were not looked at.
    pub len: usize,
}

/// Reads the frame at the start of `bytes` (3.1). Refuses by number 1 to 8.
///
/// ```
/// use malstrink::{parse, Refusal};
///
/// let poll = [0x53, 0x05, 0x08, 0x00, 0x04, 0x60, 0xBC, 0x89];
/// assert_eq!(parse(&poll)?.packet.code, 0x60);
/// assert_eq!(parse(&poll[..7]), Err(Refusal::Truncated { have: 7, need: 8 }));
/// # Ok::<(), Refusal>(())
/// ```
pub fn parse(bytes: &[u8]) -> Result<Parsed<'_>, Refusal> {
    let p = unsafe { raw::malstrink_parse(bytes.as_ptr(), bytes.len()) };
    p.answer.done()?;
    let part = |start: usize, len: usize| &bytes[start..start + len];
    Ok(Parsed {
        packet: Packet {
            addr: Address(p.addr),
            control: ControlByte {
                sqn: Sqn(p.sqn),
                crc: p.crc,
                block: p.block,
            },
            block: ScsType::of(p.block_type).map(|ty| Block {
                ty,
                data: part(p.block_start, p.block_len),
            }),
            code: p.code,
            data: part(p.data_start, p.data_len),
        },
        mac: if p.mac_start == 0 {
            None
        } else {
            part(p.mac_start, 4).try_into().ok()
        },
        trailer: if p.trailer_is_crc {
            Trailer::Crc(p.trailer)
        } else {
            Trailer::Checksum(p.trailer as u8)
        },
        len: p.len,
    })
}

/// A packet's fields as they cross, and its block's data.
fn fields<'a>(p: &Packet<'a>) -> (raw::Packet, &'a [u8]) {
    let (block_type, block) = p.block.map_or((0, &[][..]), |b| (b.ty.as_byte(), b.data));
    let fields = raw::Packet {
        addr: p.addr.0,
        sqn: p.control.sqn.0,
        crc: p.control.crc,
        block: p.control.block,
        block_type,
        code: p.code,
    };
    (fields, block)
}

/// Builds a frame at the front of `out` (4.3) and shows it there. Refuses by `BadControlByte`, `BadMac`, `BlockTooLong`,
/// `BufferOverflow` or `NoRoom`, in this order.
///
/// A MAC is due exactly if the block's type is 15 to 18 hex. It is worked out over what [`build_body`] writes.
pub fn build<'o>(packet: &Packet<'_>, mac: Option<[u8; 4]>, out: &'o mut [u8]) -> Result<&'o [u8], Refusal> {
    let (p, block) = fields(packet);
    let [b0, b1, b2, b3] = mac.unwrap_or([0; 4]);
    let given = mac.is_some();
    let mac = raw::Mac { given, b0, b1, b2, b3 };
    lend(out, |to, room| unsafe {
        let data = packet.data;
        raw::malstrink_build(p, block.as_ptr(), block.len(), data.as_ptr(), data.len(), mac, to, room)
    })
}

/// Writes what a MAC is worked out over, from 53 hex to the end of data (4.5), and shows it. It wants room for the whole frame, and a
/// block for which a MAC is due; else it refuses as [`build`] does.
pub fn build_body<'o>(packet: &Packet<'_>, out: &'o mut [u8]) -> Result<&'o [u8], Refusal> {
    let (p, block) = fields(packet);
    lend(out, |to, room| unsafe {
        let data = packet.data;
        raw::malstrink_build_body(p, block.as_ptr(), block.len(), data.as_ptr(), data.len(), to, room)
    })
}
