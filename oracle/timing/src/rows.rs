//! What is timed.
use crate::clock::{Side, least, side};
use crate::ours;
use crate::sealed::{sealing, unsealing};
use crate::table::Row;
use osdp::cipher::generic_array::GenericArray;
use osdp::cipher::{BlockEncrypt, KeyInit};
use osdp::packet::{Address, ControlByte, CtrlFlags, PacketBuilder, ParsedPacket, Sqn, Trailer};
use osdp::secure::cipher::{decrypt_data, encrypt_data};
use osdp::secure::crypto::{aes128_decrypt, aes128_encrypt};
use osdp::secure::mac::cbc_mac;
use std::hint::black_box as hidden;

pub const KEY: [u8; 16] = *b"\x2b\x7e\x15\x16\x28\xae\xd2\xa6\xab\xf7\x15\x88\x09\xcf\x4f\x3c";
pub const KEY2: [u8; 16] = *b"\x30\x31\x32\x33\x34\x35\x36\x37\x38\x39\x3a\x3b\x3c\x3d\x3e\x3f";
pub const START: [u8; 16] = *b"\x00\x11\x22\x33\x44\x55\x66\x77\x88\x99\xaa\xbb\xcc\xdd\xee\xff";

/// Bytes that look random and are the same in every run.
pub fn bytes(n: usize) -> Vec<u8> {
    let mut x = 0x9E37_79B9_7F4A_7C15u64;
    let mut next = || {
        x ^= x << 13;
        x ^= x >> 7;
        x ^= x << 17;
        (x >> 32) as u8
    };
    (0..n).map(|_| next()).collect()
}

pub fn with_commas(n: usize) -> String {
    if n < 1000 { n.to_string() } else { format!("{},{:03}", n / 1000, n % 1000) }
}

/// A side of the Rust, over software AES or over the processor's.
pub fn over<'a>(instructions: bool, mut side: impl FnMut() -> f64 + 'a) -> Side<'a> {
    Box::new(move || {
        osdp::use_instructions(instructions);
        side()
    })
}

fn rust<'a, R>(instructions: bool, call: impl FnMut() -> R + 'a) -> Side<'a> {
    // how many calls make a round is found here, over the same AES
    osdp::use_instructions(instructions);
    over(instructions, side(call))
}

/// Ours, the Rust's, and the Rust's over the processor's AES where it has one.
pub type Times = Vec<f64>;

fn with_aes<'a, R, S: PartialEq>(ours: impl FnMut() -> R + 'a, theirs: impl Fn() -> S + Copy + 'a) -> Times {
    let mut sides = vec![side(ours), rust(false, theirs)];
    if osdp::has_instructions() {
        let soft = theirs();
        osdp::use_instructions(true);
        assert!(theirs() == soft, "the Rust over the processor's AES answers otherwise");
        sides.push(rust(true, theirs));
    }
    least(sides)
}

/// A packet without block whose frame has n bytes.
fn packet(n: usize, crc: bool) -> PacketBuilder {
    let flags = if crc { CtrlFlags::USE_CRC } else { CtrlFlags::empty() };
    let data = bytes(n - if crc { 8 } else { 7 });
    PacketBuilder::plain(Address::from_raw(5), ControlByte::new(Sqn::new(2).unwrap(), flags), 0x60, data)
}

/// The Rust's answer, as the C interface has it.
fn in_c(p: &ParsedPacket, frame: &[u8], len: usize) -> ours::Parsed {
    let place = |s: &[u8]| s.as_ptr() as usize - frame.as_ptr() as usize;
    let (trailer_is_crc, trailer) = match p.trailer {
        Trailer::Crc(x) => (true, x),
        Trailer::Checksum(x) => (false, x.into()),
    };
    ours::Parsed {
        answer: ours::Answer { refusal: 0, a: 0, b: 0 },
        addr: p.addr.as_byte(),
        sqn: p.ctrl.sqn.value(),
        crc: p.ctrl.use_crc(),
        block: p.ctrl.has_scb(),
        block_type: p.scb.map_or(0, |b| b.ty as u8),
        block_start: p.scb.map_or(0, |b| place(b.data)),
        block_len: p.scb.map_or(0, |b| b.data.len()),
        code: p.code,
        data_start: place(p.data),
        data_len: p.data.len(),
        mac_start: p.mac.map_or(0, |_| place(p.data) + p.data.len()),
        trailer_is_crc,
        trailer,
        len,
    }
}

fn parse(n: usize, crc: bool) -> Times {
    let frame = packet(n, crc).encode().unwrap();
    let (p, len) = ParsedPacket::parse(&frame).unwrap();
    assert_eq!(ours::parse(&frame), in_c(&p, &frame, len));
    least(vec![side(|| ours::parse(hidden(&frame))), side(|| ParsedPacket::parse(hidden(&frame)))])
}

fn build(n: usize, crc: bool) -> Times {
    let p = packet(n, crc);
    let frame = p.encode().unwrap();
    let mut out = vec![0; n];
    let call = |out: &mut [u8]| ours::build(p.addr.as_byte(), p.ctrl.sqn.value(), crc, p.code, hidden(&p.data), out);
    assert_eq!(call(&mut out), ours::Answer { refusal: 0, a: n, b: 0 });
    assert_eq!(out, frame);
    least(vec![side(|| call(hidden(&mut out))), side(|| hidden(&p).encode())])
}

fn mac(n: usize) -> Times {
    let input = bytes(n);
    let (ours, theirs) = (|| ours::cbc_mac(hidden(&input), &START, &KEY, &KEY2), || cbc_mac(hidden(&input), &START, &KEY, &KEY2));
    assert_eq!(ours(), ours::Chain { full: theirs(), calls: n.div_ceil(16) });
    with_aes(ours, theirs)
}

fn encrypt(n: usize) -> Times {
    let (data, mut out) = (bytes(n), vec![0; n / 16 * 16 + 16]);
    let theirs = || encrypt_data(&KEY, &START, hidden(&data));
    let answer = ours::Answer { refusal: 0, a: n / 16 * 16 + 16, b: 0 };
    assert_eq!(ours::encrypt_data(&KEY, &START, &data, &mut out), ours::Ciphered { answer, calls: n / 16 + 1 });
    assert_eq!(out, theirs());
    let ours = || ours::encrypt_data(&KEY, &START, hidden(&data), hidden(&mut out));
    with_aes(ours, theirs)
}

fn decrypt(n: usize) -> Times {
    let text = bytes(n);
    let data = encrypt_data(&KEY, &START, &text);
    let mut out = vec![0; data.len()];
    let theirs = || decrypt_data(&KEY, &START, hidden(&data));
    let answer = ours::Answer { refusal: 0, a: n, b: 0 };
    assert_eq!(ours::decrypt_data(&KEY, &START, &data, &mut out), ours::Ciphered { answer, calls: n / 16 + 1 });
    assert_eq!(out[..n], text);
    assert_eq!(theirs().unwrap(), text);
    let ours = || ours::decrypt_data(&KEY, &START, hidden(&data), hidden(&mut out));
    with_aes(ours, theirs)
}

fn block() -> Times {
    let (ours, theirs) = (|| ours::aes_encrypt(hidden(&KEY), hidden(&START)), || aes128_encrypt(hidden(&KEY), hidden(&START)));
    assert_eq!(ours(), theirs());
    with_aes(ours, theirs)
}

fn block_back() -> Times {
    let (ours, theirs) = (|| ours::aes_decrypt(hidden(&KEY), hidden(&START)), || aes128_decrypt(hidden(&KEY), hidden(&START)));
    assert_eq!(ours(), theirs());
    with_aes(ours, theirs)
}

/// A block over an expanded key, each from the one before. The C interface has no such call: ours is the difference of two MACs,
/// 100 blocks apart.
fn block_alone() -> Times {
    let long = bytes(3216);
    let over = |n: usize| {
        let ours = || ours::cbc_mac(hidden(&long[..n]), &START, &KEY, &KEY2);
        assert_eq!(ours().full, cbc_mac(&long[..n], &START, &KEY, &KEY2));
        least(vec![side(ours)])[0]
    };
    let expanded = |instructions| {
        osdp::use_instructions(instructions);
        let c = osdp::Aes128::new(GenericArray::from_slice(&KEY));
        let mut b = *GenericArray::from_slice(&START);
        least(vec![side(|| c.encrypt_block(hidden(&mut b)))])[0]
    };
    let mut times = vec![(over(3216) - over(1616)) / 100.0, expanded(false)];
    if osdp::has_instructions() {
        times.push(expanded(true));
    }
    times
}

type Call = Box<dyn Fn() -> Times>;

fn all() -> Vec<(String, Option<f64>, Call)> {
    let mut rows: Vec<(String, Option<f64>, Call)> = Vec::new();
    for (name, call) in [("parse", parse as fn(usize, bool) -> Times), ("build", build)] {
        for (sum, crc) in [("CRC", true), ("checksum", false)] {
            for n in [8, 64, 1440] {
                rows.push((format!("{name}, {sum}, {}", with_commas(n)), Some(1.0), Box::new(move || call(n, crc))));
            }
        }
    }
    for (name, call) in [("seal", sealing as fn(usize, bool) -> Times), ("unseal", unsealing)] {
        for (kind, encrypt) in [("plain", false), ("encrypted", true)] {
            for n in [0, 64, 1400] {
                rows.push((format!("{name}, {kind}, {}", with_commas(n)), Some(0.35), Box::new(move || call(n, encrypt))));
            }
        }
    }
    rows.push(("MAC of 1,440".into(), None, Box::new(|| mac(1440))));
    for (name, call) in [("encrypt data", encrypt as fn(usize) -> Times), ("decrypt data", decrypt)] {
        for n in [0, 64, 1400] {
            rows.push((format!("{name}, {}", with_commas(n)), None, Box::new(move || call(n))));
        }
    }
    rows.push(("block, key expanded".into(), None, Box::new(block)));
    rows.push(("block back, key expanded".into(), None, Box::new(block_back)));
    rows.push(("block alone".into(), None, Box::new(block_alone)));
    rows
}

/// The rows whose names have `part` in them.
pub fn beside(part: &str) -> Vec<Row> {
    let timed = |(name, goal, call): (String, Option<f64>, Call)| {
        let ns = call();
        Row { name, ours: ns[0], soft: ns[1], hard: ns.get(2).copied(), goal }
    };
    all().into_iter().filter(|r| r.0.contains(part)).map(timed).collect()
}

pub const GROWING: [&str; 8] =
    ["parse, CRC", "parse, checksum", "build, CRC", "build, checksum", "seal, plain", "seal, encrypted", "unseal, plain", "unseal, encrypted"];

/// How the cost grows with the payload: of n bytes, ours and the Rust's of each call.
pub fn growth() -> Vec<(usize, Vec<Times>)> {
    let at = |n: usize| {
        let frames = vec![parse(n + 8, true), parse(n + 7, false), build(n + 8, true), build(n + 7, false)];
        [frames, vec![sealing(n, false), sealing(n, true), unsealing(n, false), unsealing(n, true)]].concat()
    };
    [0, 16, 64, 256, 512, 1024, 1400].map(|n| (n, at(n))).into()
}

/// The ratio of every frame of up to `longest` bytes.
pub fn every_length(longest: usize) -> Vec<(&'static str, Vec<(usize, f64)>)> {
    let over = |name, shortest: usize, call: fn(usize, bool) -> Times, crc| {
        let ratio = |n| {
            let times = call(n, crc);
            (n, times[0] / times[1])
        };
        (name, (shortest..=longest).map(ratio).collect())
    };
    vec![over(GROWING[0], 8, parse, true), over(GROWING[1], 7, parse, false), over(GROWING[2], 8, build, true), over(GROWING[3], 7, build, false)]
}
