//! The oracle's answers, in the layout of the proved side's. Where the paper asks for another answer than the Rust's, the answer
//! is the paper's and comes with the difference's name (docs/DIFFERENCES.md).
use crate::second;
use crate::session;
use crate::wire::*;
use osdp::error::{Error, SecureSessionError};
use osdp::packet::*;
use osdp::secure::{cipher::*, crypto::*, mac::*, pad::*};

pub const UNDUE_MAC: &str = "a MAC that is not due: 11";
pub const BLOCK_TOO_LONG: &str = "block data above 253 bytes: 17";
pub const NO_ROOM: &str = "no room in the buffer: 18";
pub const SQN_ABOVE_3: &str = "SQN above 3: 10";

pub type Answer = (Out, Option<&'static str>);

/// The paper's number and values of an error.
pub fn number(e: &Error) -> (u8, usize, usize) {
    match *e {
        Error::Truncated { have, need } => (1, have, need),
        Error::BadSom(b) => (2, b.into(), 0),
        Error::BadControlByte(b) => (3, b.into(), 0),
        Error::BadLength { declared, actual } => (4, declared, actual),
        Error::BadSecurityBlockLength(b) => (5, b.into(), 0),
        Error::BadSecurityBlock(b) => (6, b.into(), 0),
        Error::BadCrc { got, want } => (7, got.into(), want.into()),
        Error::BadChecksum { got, want } => (8, got.into(), want.into()),
        Error::BadAddress(b) => (9, b.into(), 0),
        Error::BadSqn(b) => (10, b.into(), 0),
        Error::BadMac => (11, 0, 0),
        Error::BufferOverflow { need, have } => (12, need, have),
        Error::SecureSession(SecureSessionError::NotSecure) => (13, 0, 0),
        Error::SecureSession(SecureSessionError::BadPadding) => (14, 0, 0),
        Error::SecureSession(SecureSessionError::BadCryptogram) => (15, 0, 0),
        ref other => panic!("an error that the paper does not number: {other:?}"),
    }
}

fn plain(r: Result<usize, Error>) -> Answer {
    let mut o = Out::default();
    match r {
        Ok(n) => o.answer((0, n, 0)),
        Err(e) => o.answer(number(&e)),
    };
    (o, None)
}

/// The same where a sequence number is asked for: the Rust refuses one above 3 before the call.
fn with_sqn(n: u8, given: impl FnOnce(Sqn) -> u8) -> Answer {
    let (o, _) = plain(Sqn::new(n).map(|n| given(n).into()));
    (o, (n > 3).then_some(SQN_ABOVE_3))
}

/// Where a part of `all` starts.
pub fn at(all: &[u8], part: &[u8]) -> usize {
    part.as_ptr() as usize - all.as_ptr() as usize
}

fn block(buf: &[u8]) -> Answer {
    let mut o = Out::default();
    match ScbView::parse(buf) {
        Ok(v) => {
            assert_eq!(at(buf, v.data), 2);
            o.answer((0, 0, 0)).u8(v.ty.as_byte()).u8(v.data.len() as u8);
        }
        Err(e) => {
            o.answer(number(&e)).u8(0).u8(0);
        }
    }
    (o, None)
}

/// The Rust has no call for the first five bytes alone: parsing them alone tells LEN in its refusal.
fn head(buf: &[u8]) -> Answer {
    let mut o = Out::default();
    let five = &buf[..buf.len().min(5)];
    let len = match ParsedPacket::parse(five) {
        Err(Error::Truncated { have: 5, need }) if five.len() == 5 => need,
        Err(Error::BadLength { declared, .. }) => declared,
        Err(e) => {
            o.answer(number(&e)).u8(0).u64(0).u8(0).u8(0).u8(0);
            return (o, None);
        }
        Ok(_) => panic!("a frame of five bytes"),
    };
    let c = ControlByte::decode(buf[4]).unwrap();
    o.answer((0, 0, 0)).u8(Address::from_raw(buf[1]).as_byte()).u64(len);
    o.u8(c.sqn.value()).bool(c.use_crc()).bool(c.has_scb());
    (o, None)
}

fn parse(buf: &[u8]) -> Answer {
    let mut o = Out::default();
    match ParsedPacket::parse(buf) {
        Ok((p, used)) => {
            let (ty, start, len) = p.scb.map_or((0, 0, 0), |b| (b.ty.as_byte(), at(buf, b.data), b.data.len()));
            let data_end = at(buf, p.data) + p.data.len();
            let mac = p.mac.map_or(0, |m| {
                assert_eq!(m, buf[data_end..data_end + 4]);
                data_end
            });
            o.answer((0, 0, 0)).u8(p.addr.as_byte()).u8(p.ctrl.sqn.value()).bool(p.ctrl.use_crc()).bool(p.ctrl.has_scb());
            o.u8(ty).u64(start).u64(len).u8(p.code).u64(at(buf, p.data)).u64(p.data.len()).u64(mac);
            match p.trailer {
                Trailer::Checksum(n) => o.u8(0).u16(n.into()),
                Trailer::Crc(n) => o.u8(1).u16(n),
            };
            o.u64(used);
        }
        Err(e) => {
            o.answer(number(&e)).bytes(&[0; 5]).u64(0).u64(0).u8(0).u64(0).u64(0).u64(0).u8(0).u16(0).u64(0);
        }
    }
    (o, None)
}

pub fn flags(crc: bool, block: bool) -> CtrlFlags {
    let one = |on: bool, flag: CtrlFlags| if on { flag } else { CtrlFlags::empty() };
    one(crc, CtrlFlags::USE_CRC) | one(block, CtrlFlags::HAS_SCB)
}

/// What is asked to be built, as it travels.
#[derive(Clone, Debug)]
pub struct Ask {
    pub addr: u8,
    pub sqn: u8,
    pub crc: bool,
    pub flag: bool,
    pub ty: u8,
    pub code: u8,
    pub mac: Option<[u8; 4]>,
    pub block: Vec<u8>,
    pub data: Vec<u8>,
    pub room: usize,
}
impl Ask {
    pub fn bytes(&self) -> Vec<u8> {
        let mut o = Out::default();
        o.u8(self.addr).u8(self.sqn).bool(self.crc).bool(self.flag).u8(self.ty).u8(self.code);
        o.bool(self.mac.is_some()).bytes(&self.mac.unwrap_or([0; 4]));
        o.u32(self.block.len()).u32(self.data.len()).u32(self.room).bytes(&self.block).bytes(&self.data);
        o.0
    }
    fn read(b: &[u8]) -> Self {
        let (bn, dn) = (u32_at(b, 11), u32_at(b, 15));
        Self {
            addr: b[0],
            sqn: b[1],
            crc: b[2] != 0,
            flag: b[3] != 0,
            ty: b[4],
            code: b[5],
            mac: (b[6] != 0).then(|| array(b, 7)),
            block: b[23..23 + bn].to_vec(),
            data: b[23 + bn..23 + bn + dn].to_vec(),
            room: u32_at(b, 19),
        }
    }
    /// The Rust's packet; `Err` where it cannot be made.
    pub fn packet(&self) -> Result<Packet, Error> {
        let sqn = Sqn::new(self.sqn)?;
        let scb = if self.ty == 0 { None } else { Some(Scb::new(ScsType::from_byte(self.ty)?, self.block.clone())) };
        let ctrl = ControlByte::new(sqn, flags(self.crc, self.flag));
        Ok(Packet { addr: Address::from_raw(self.addr), ctrl, scb, code: self.code, data: self.data.clone() })
    }
}

/// The answer, what stands between it and the buffer, and what the buffer holds in the end.
pub fn into_buffer(room: usize, answer: (u8, usize, usize), between: &[u8], written: &[u8], name: Option<&'static str>) -> Answer {
    let mut buffer = fill(room + GUARD);
    buffer[..written.len()].copy_from_slice(written);
    let mut o = Out::default();
    o.answer(answer).bytes(between).bytes(&buffer);
    (o, name)
}

fn build(ask: &Ask, body: bool) -> Answer {
    let room = ask.room;
    let told = |answer, written: &[u8], name| into_buffer(room, answer, &[], written, name);
    let packet = match ask.packet() {
        Ok(p) => p,
        Err(e) => return told(number(&e), &[], matches!(e, Error::BadSqn(_)).then_some(SQN_ABOVE_3)),
    };
    let due = packet.scb.as_ref().is_some_and(|s| s.ty.has_mac());
    let mut before_mac = Vec::new();
    let made = match ask.mac {
        _ if body => packet.encode_with_mac(|bytes| {
            before_mac = bytes.to_vec();
            [0; 4]
        }),
        Some(mac) => packet.encode_with_mac(|_| mac),
        None => packet.encode(),
    };
    if let Err(e @ (Error::BadControlByte(_) | Error::BadMac)) = &made {
        return told(number(e), &[], None);
    }
    if (body || ask.mac.is_some()) && !due {
        return told((11, 0, 0), &[], Some(UNDUE_MAC));
    }
    if packet.scb.as_ref().is_some_and(|s| s.data.len() > 253) {
        return told((17, ask.block.len(), 0), &[], Some(BLOCK_TOO_LONG));
    }
    match made {
        Err(e) => told(number(&e), &[], None),
        Ok(frame) if room < frame.len() => told((18, frame.len(), room), &[], Some(NO_ROOM)),
        Ok(frame) => {
            let bytes = if body { &before_mac } else { &frame };
            told((0, bytes.len(), 0), bytes, None)
        }
    }
}

pub fn calls() -> u64 {
    aes::CALLS.load(std::sync::atomic::Ordering::Relaxed)
}

/// 48 bytes in three blocks.
fn keys(op: u8, input: &[u8]) -> Answer {
    let k = array(input, 0);
    let mut o = Out::default();
    let last = match op {
        AES_ENCRYPT => {
            let b = aes128_encrypt(&k, &array(input, 16));
            assert_eq!(b, second::encrypt(&k, &array(input, 16)), "the Rust's AES is not OpenSSL's");
            b
        }
        AES_DECRYPT => {
            let b = aes128_decrypt(&k, &array(input, 16));
            assert_eq!(b, second::decrypt(&k, &array(input, 16)), "the Rust's AES is not OpenSSL's");
            b
        }
        DERIVE => {
            let keys = SessionKeys::derive(&k, &array(input, 16));
            o.bytes(&keys.s_enc).bytes(&keys.s_mac1);
            keys.s_mac2
        }
        CLIENT => client_cryptogram(&k, &array(input, 16), &array(input, 24)),
        SERVER => server_cryptogram(&k, &array(input, 16), &array(input, 24)),
        FIRST => initial_rmac(&k, &array(input, 16), &array(input, 32)),
        DIVERSIFY => diversify_scbk_legacy(&k, &array(input, 16)),
        _ => complement_icv(&k),
    };
    o.bytes(&last);
    (o, None)
}

/// The answer of a deciphering and what it leaves over the data's length: zeros behind the payload, or alone where it is refused.
pub fn deciphered(text: Result<Vec<u8>, SecureSessionError>, data_n: usize) -> ((u8, usize, usize), Vec<u8>) {
    match text {
        Ok(mut text) => {
            let n = text.len();
            text.resize(data_n, 0);
            ((0, n, 0), text)
        }
        Err(e) => (number(&e.into()), vec![0; data_n]),
    }
}

/// Room, key and start value, then the data. The Rust grows a vector: no room is the paper's own refusal.
fn cipher(op: u8, input: &[u8]) -> Answer {
    let room = u32_at(input, 0);
    let (k, v) = (&array(input, 4), &array(input, 20));
    let data = &input[36..];
    let before = calls();
    let (answer, written) = match op {
        PAD_MAC | PAD_DATA => {
            let mut padded = data.to_vec();
            if op == PAD_MAC { pad_mac(&mut padded) } else { pad_data(&mut padded) }
            ((0, padded.len(), 0), padded)
        }
        ENCRYPT => {
            let hidden = encrypt_data(k, v, data);
            ((0, hidden.len(), 0), hidden)
        }
        _ => deciphered(decrypt_data(k, v, data), data.len()),
    };
    let made = calls() - before;
    // the paddings do not tell of calls
    let told = |calls: u64| if op >= ENCRYPT { calls.to_le_bytes().to_vec() } else { Vec::new() };
    if room < written.len() {
        into_buffer(room, (18, written.len(), room), &told(0), &[], Some(NO_ROOM))
    } else {
        into_buffer(room, answer, &told(made), &written, None)
    }
}

/// The oracle's answer to a request.
pub fn call(op: u8, input: &[u8]) -> Answer {
    let mut o = Out::default();
    match op {
        CHECKSUM8 => o.u8(checksum8(input)),
        CRC16 => {
            assert_eq!(crc16(input).to_le_bytes(), crc16_le(input));
            o.u16(crc16(input))
        }
        ADDRESS_PD => return plain(Address::pd(input[0]).map(|a| a.as_byte().into())),
        ADDRESS_REPLY => return plain(Address::reply(input[0]).map(|a| a.as_byte().into())),
        SQN_NEW => return plain(Sqn::new(input[0]).map(|n| n.value().into())),
        SQN_NEXT => return with_sqn(input[0], |n| n.next().value()),
        CONTROL_DECODE => match ControlByte::decode(input[0]) {
            Ok(c) => {
                assert_eq!(c.encode(), input[0]);
                o.answer((0, 0, 0)).u8(c.sqn.value()).bool(c.use_crc()).bool(c.has_scb())
            }
            Err(e) => o.answer(number(&e)).bytes(&[0; 3]),
        },
        CONTROL_ENCODE => return with_sqn(input[0], |n| ControlByte::new(n, flags(input[1] != 0, input[2] != 0)).encode()),
        SCS_TYPE => return plain(ScsType::from_byte(input[0]).map(|t| t.as_byte().into())),
        BLOCK => return block(input),
        HEAD => return head(input),
        PARSE => return parse(input),
        BUILD => return build(&Ask::read(input), false),
        BUILD_BODY => return build(&Ask::read(input), true),
        AES_ENCRYPT..=COMPLEMENT => return keys(op, input),
        PAD_MAC | PAD_DATA | ENCRYPT | DECRYPT => return cipher(op, input),
        UNPAD => return plain(unpad_data(input).map(|s| s.len()).map_err(Error::from)),
        CBC_MAC => {
            let before = calls();
            let full = cbc_mac(&input[48..], &array(input, 0), &array(input, 16), &array(input, 32));
            o.bytes(&full).u64((calls() - before) as usize)
        }
        _ => return session::call(op, input),
    };
    (o, None)
}
