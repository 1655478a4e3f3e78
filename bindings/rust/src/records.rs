//! The records that cross the C interface, field for field as include/malstrink.h has them. They stand in a file of their own, without
//! the functions, because oracle/timing takes them from here.
//!
//! Those that hold keys have no `Debug`, so that no key can be printed by mistake. Their `==` stops at the first difference: it is for
//! oracle/timing, and this crate has `same`.

#[repr(C)]
#[derive(Clone, Copy, Debug, PartialEq)]
pub struct Answer {
    pub refusal: u8,
    pub a: usize,
    pub b: usize,
}

#[repr(C)]
#[derive(Clone, Copy)]
pub struct Bytes4 {
    pub bytes: [u8; 4],
}

#[repr(C)]
#[derive(Clone, Copy)]
pub struct Bytes8 {
    pub bytes: [u8; 8],
}

#[repr(C)]
#[derive(Clone, Copy)]
pub struct Bytes16 {
    pub bytes: [u8; 16],
}

#[repr(C)]
pub struct Control {
    pub answer: Answer,
    pub sqn: u8,
    pub crc: bool,
    pub block: bool,
}

#[repr(C)]
pub struct Block {
    pub answer: Answer,
    pub ty: u8,
    pub data_len: u8,
}

#[repr(C)]
pub struct Head {
    pub answer: Answer,
    pub addr: u8,
    pub len: usize,
    pub sqn: u8,
    pub crc: bool,
    pub block: bool,
}

#[repr(C)]
#[derive(Clone, Copy, Debug, PartialEq)]
pub struct Parsed {
    pub answer: Answer,
    pub addr: u8,
    pub sqn: u8,
    pub crc: bool,
    pub block: bool,
    pub block_type: u8,
    pub block_start: usize,
    pub block_len: usize,
    pub code: u8,
    pub data_start: usize,
    pub data_len: usize,
    pub mac_start: usize,
    pub trailer_is_crc: bool,
    pub trailer: u16,
    pub len: usize,
}

#[repr(C)]
#[derive(Clone, Copy, Debug, PartialEq)]
pub struct Body {
    pub answer: Answer,
    pub code: u8,
    pub error: u8,
    pub vendor: [u8; 3],
    pub model: u8,
    pub version: u8,
    pub serial: u32,
    pub firmware_major: u8,
    pub firmware_minor: u8,
    pub firmware_build: u8,
    pub tamper: u8,
    pub power: u8,
    pub reader: u8,
    pub format: u8,
    pub bits: u16,
    pub count: u8,
    pub rest_start: usize,
    pub rest_len: usize,
    pub has_number: bool,
    pub number: u64,
}

#[repr(C)]
#[derive(Clone, Copy, Debug, PartialEq)]
pub struct Triple {
    pub there: bool,
    pub function: u8,
    pub compliance: u8,
    pub number: u8,
}

#[repr(C)]
#[derive(Clone, Copy)]
pub struct Packet {
    pub addr: u8,
    pub sqn: u8,
    pub crc: bool,
    pub block: bool,
    pub block_type: u8,
    pub code: u8,
}

#[repr(C)]
#[derive(Clone, Copy)]
pub struct Mac {
    pub given: bool,
    pub b0: u8,
    pub b1: u8,
    pub b2: u8,
    pub b3: u8,
}

#[repr(C)]
#[derive(Clone, Copy, PartialEq)]
pub struct Keys {
    pub s_enc: [u8; 16],
    pub s_mac1: [u8; 16],
    pub s_mac2: [u8; 16],
}

#[repr(C)]
#[derive(Clone, Copy, Debug, PartialEq)]
pub struct Ciphered {
    pub answer: Answer,
    pub calls: usize,
}

#[repr(C)]
#[derive(Clone, Copy, Debug, PartialEq)]
pub struct Chain {
    pub full: [u8; 16],
    pub calls: usize,
}

#[repr(C)]
#[derive(Clone, Copy, PartialEq)]
pub struct Session {
    pub end: u8,
    pub state: u8,
    pub scbk: [u8; 16],
    pub rnd_a: [u8; 8],
    pub rnd_b: [u8; 8],
    pub cuid: [u8; 8],
    pub keys: Keys,
    pub chain: [u8; 16],
}

#[repr(C)]
pub struct Stepped {
    pub answer: Answer,
    pub session: Session,
}

#[repr(C)]
pub struct SteppedBlock {
    pub answer: Answer,
    pub block: [u8; 16],
    pub session: Session,
}

#[repr(C)]
pub struct BlockAnswer {
    pub answer: Answer,
    pub block: [u8; 16],
}

#[repr(C)]
pub struct KeysAnswer {
    pub answer: Answer,
    pub keys: Keys,
}

#[repr(C)]
#[derive(Clone, Copy)]
pub struct ToSeal {
    pub addr: u8,
    pub sqn: u8,
    pub from_reader: bool,
    pub encrypt: bool,
    pub code: u8,
}

#[repr(C)]
pub struct Sealed {
    pub answer: Answer,
    pub calls: usize,
    pub session: Session,
}

#[repr(C)]
pub struct Unsealed {
    pub answer: Answer,
    pub in_work: bool,
    pub start: usize,
    pub len: usize,
    pub calls: usize,
    pub session: Session,
}
