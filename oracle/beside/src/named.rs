//! The worked cases of the paper, each by its name: what is asked, and the answer as the paper prints it (docs/RULES.md, 2.3, 5.5
//! and 10; FIPS 197; SP 800-38A). The answers here are written out by hand: neither side works them out.
use crate::rust;
use crate::session::Held;
use crate::wire::*;

pub struct Named {
    pub name: String,
    pub op: u8,
    pub input: Vec<u8>,
    /// The answer, from its first byte on, as far as the paper settles it.
    pub says: Vec<u8>,
}

/// How the cases came out.
#[derive(Default)]
pub struct Tally {
    asked: usize,
    agree: usize,
    unlike: Vec<String>,
}

impl Tally {
    /// Holds a case's answers against the paper and against one another.
    pub fn judge(&mut self, case: &Named, sides: &[(&str, &[u8])]) {
        let before = self.unlike.len();
        for (side, answer) in sides {
            if !answer.starts_with(&case.says) {
                let told = &answer[..answer.len().min(case.says.len())];
                self.unlike.push(format!("{}: {side} answers {}, not {}", case.name, shown(told), shown(&case.says)));
            }
        }
        if sides.iter().any(|s| s.1 != sides[0].1) {
            self.unlike.push(format!("{}: the two differ", case.name));
        }
        self.asked += 1;
        self.agree += usize::from(self.unlike.len() == before);
    }

    /// Tells of them; answers whether all came out as the paper says.
    pub fn report(&self) -> bool {
        for case in &self.unlike {
            println!("not as the paper says: {case}");
        }
        println!("{} of {} worked cases of the paper agree, asked by name (docs/RULES.md, 10)", self.agree, self.asked);
        self.agree == self.asked
    }
}

fn case(name: String, op: u8, input: Vec<u8>, says: &Out) -> Named {
    Named { name, op, input, says: says.0.clone() }
}

/// A refusal as the paper writes it: counts are decimal, bytes and CRCs hexadecimal.
fn written((n, a, b): (u8, usize, usize)) -> String {
    match n {
        1 | 4 | 12 | 18 => format!("{n} ({a}, {b})"),
        7 => format!("7 ({a:04X}, {b:04X})"),
        8 => format!("8 ({a:02X}, {b:02X})"),
        2 | 3 | 5 | 6 | 9 => format!("{n} ({a:02X})"),
        10 | 17 => format!("{n} ({a})"),
        _ => format!("{n}"),
    }
}

fn refused(question: &str, op: u8, input: Vec<u8>, refusal: (u8, usize, usize)) -> Named {
    case(format!("{question}: {}", written(refusal)), op, input, Out::default().answer(refusal))
}

fn bytes(hex: &str) -> Vec<u8> {
    hex.split_whitespace().map(|b| u8::from_str_radix(b, 16).expect("a byte")).collect()
}

fn named_bytes(hex: &str) -> &str {
    if hex.is_empty() { "no bytes" } else { hex }
}

/// Bytes without spaces, as FIPS 197 prints them.
fn run(hex: &str) -> Vec<u8> {
    (0..hex.len()).step_by(2).map(|i| u8::from_str_radix(&hex[i..i + 2], 16).expect("a byte")).collect()
}

/// 10.1: what reading refuses.
fn unread() -> Vec<Named> {
    let frames = [
        ("53 05 08 00 04 60 BC", (1, 7, 8)),
        ("53 05 08 00 04 60 BC 88", (7, 0x88BC, 0x89BC)),
        ("53 05 07 00 00 60 40", (8, 0x40, 0x41)),
        ("", (1, 0, 5)),
        ("53 05 00 00 04", (4, 0, 0)),
        ("53 05 07 00 04 60 BC", (4, 7, 7)),
        ("53 05 08 00 14 60 BC 89", (3, 0x14, 0)),
        ("53 05 09 00 08 01 15 60 00", (5, 0x15, 0)),
        ("53 05 09 00 08 05 15 60 00", (1, 4, 5)),
        ("53 05 09 00 08 02 19 60 00", (6, 0x19, 0)),
        ("53 05 09 00 08 02 15 60 00", (4, 9, 9)),
        ("53 05 09 00 08 04 11 60 00", (4, 9, 9)),
    ];
    frames.map(|(hex, refusal)| refused(&format!("reading {}", named_bytes(hex)), PARSE, bytes(hex), refusal)).into()
}

/// 10.1: what it accepts, with every field. All three have address 05, SQN 0, code 60, no block data, no payload and no MAC.
fn read() -> Vec<Named> {
    // whether a CRC ends it, the block's type, where the block's data and the payload would start, the trailer, LEN
    let frames = [
        ("53 05 08 00 04 60 BC 89", true, 0, 0, 6, 0x89BC, 8),
        ("53 05 07 00 00 60 41", false, 0, 0, 6, 0x41, 7),
        ("53 05 09 00 08 02 11 60 24", false, 0x11, 7, 8, 0x24, 9),
    ];
    let says = |crc, ty, block, data, trailer, len| {
        let mut o = Out::default();
        o.answer((0, 0, 0)).u8(5).u8(0).bool(crc).bool(ty != 0).u8(ty).u64(block).u64(0).u8(0x60).u64(data).u64(0).u64(0);
        o.bool(crc).u16(trailer).u64(len);
        o
    };
    let accepted = |(hex, crc, ty, block, data, trailer, len): (&str, bool, u8, usize, usize, u16, usize)| {
        case(format!("reading {hex}: {len} used"), PARSE, bytes(hex), &says(crc, ty, block, data, trailer, len))
    };
    frames.map(accepted).into()
}

/// The CRC that the Rust's comment names: from 0, the low bit first.
fn kermit(bytes: &[u8]) -> u16 {
    let bit = |crc: u16, _| if crc & 1 == 1 { crc >> 1 ^ 0x8408 } else { crc >> 1 };
    bytes.iter().fold(0, |crc, b| (0..8).fold(crc ^ u16::from(*b), bit))
}

/// 2.5, 2.6, 10.2: sums.
fn sums() -> Vec<Named> {
    let poll = bytes("53 05 08 00 04 60");
    assert_eq!(kermit(&poll), 0x8BF6, "KERMIT of the sample frame");
    vec![
        case("checksum of no bytes: 0".into(), CHECKSUM8, vec![], Out::default().u8(0)),
        case("CRC of 53 05 08 00 04 60: 89BC, not KERMIT's 8BF6".into(), CRC16, poll, Out::default().u16(0x89BC)),
    ]
}

/// 2.2, 2.3: addresses, sequence numbers and control bytes at their limits.
fn small_kinds() -> Vec<Named> {
    let given = |name: &str, op, byte: u8, told: usize| case(name.into(), op, vec![byte], Out::default().answer((0, told, 0)));
    vec![
        given("command address of 7F: 7F", ADDRESS_PD, 0x7F, 0x7F),
        refused("command address of 80", ADDRESS_PD, vec![0x80], (9, 0x80, 0)),
        given("reply address of 05: 85", ADDRESS_REPLY, 0x05, 0x85),
        refused("reply address of 80", ADDRESS_REPLY, vec![0x80], (9, 0x80, 0)),
        given("sequence number 3: 3", SQN_NEW, 3, 3),
        refused("sequence number 4", SQN_NEW, vec![4], (10, 4, 0)),
        given("next of 0: 1", SQN_NEXT, 0, 1),
        given("next of 1: 2", SQN_NEXT, 1, 2),
        given("next of 2: 3", SQN_NEXT, 2, 3),
        given("next of 3: 1", SQN_NEXT, 3, 1),
        refused("next of 4", SQN_NEXT, vec![4], (10, 4, 0)),
        refused("control byte 14", CONTROL_DECODE, vec![0x14], (3, 0x14, 0)),
    ]
}

/// 5.5: both paddings of n bytes 41, into a buffer that has one block more than they need.
fn padded() -> Vec<Named> {
    let pad = |name: &str, op, n: usize, more: &[u8], total: usize| {
        let data = vec![0x41; n];
        let mut all = [&data[..], more].concat();
        all.resize(total, 0);
        let input = [&(total as u32 + 16).to_le_bytes()[..], &[0; 32], &data].concat();
        case(format!("padding {n} bytes for {name}: {total}"), op, input, Out::default().answer((0, total, 0)).bytes(&all))
    };
    vec![
        pad("the MAC", PAD_MAC, 0, &[], 0),
        pad("the MAC", PAD_MAC, 15, &[0x80], 16),
        pad("the MAC", PAD_MAC, 16, &[], 16),
        pad("the MAC", PAD_MAC, 17, &[0x80], 32),
        pad("data", PAD_DATA, 0, &[0x80], 16),
        pad("data", PAD_DATA, 15, &[0x80], 16),
        pad("data", PAD_DATA, 16, &[0x80], 32),
        pad("data", PAD_DATA, 17, &[0x80], 32),
    ]
}

/// 5.5: the call tells how many bytes stand before the padding; they are the first of those it was handed.
fn unpadded() -> Vec<Named> {
    let left = |hex: &str, rest: &str| {
        let (all, front) = (bytes(hex), bytes(rest));
        assert!(all.starts_with(&front));
        let told = if rest.is_empty() { "none" } else { rest };
        case(format!("unpadding {hex}: {told}"), UNPAD, all, Out::default().answer((0, front.len(), 0)))
    };
    let unlike = |hex: &str| refused(&format!("unpadding {}", named_bytes(hex)), UNPAD, bytes(hex), (14, 0, 0));
    vec![left("80", ""), left("41 80 00", "41"), left("80 80 00", "80"), unlike("00 00"), unlike(""), unlike("80 41")]
}

/// A session that is Secure, at the controller's end. What it holds decides no length and no count.
fn secure() -> Held {
    Held { end: 0, state: 3, fields: std::array::from_fn(|i| i as u8) }
}

/// 6.2, 10.2: of no bytes the full MAC is the chain value, and the session's chain value stays.
fn mac() -> Vec<Named> {
    let (chain, keys) = (secure().chain(), secure().keys());
    let alone = [chain, keys.s_mac1, keys.s_mac2].concat();
    let session = secure().bytes();
    vec![
        case("MAC of no bytes: the chain value, no call".into(), CBC_MAC, alone, Out::default().bytes(&chain).u64(0)),
        case(
            "a session's MAC of no bytes: the chain value".into(),
            MAC,
            session.clone(),
            Out::default().answer((0, 0, 0)).bytes(&chain).bytes(&session),
        ),
    ]
}

/// What is asked to be sealed: n bytes from the controller, to address 05.
fn sealing(encrypt: bool, n: usize, room: usize) -> Vec<u8> {
    let asked = [5, 1, 0, encrypt as u8, 0x69];
    [&secure().bytes()[..], &(room as u32).to_le_bytes(), &asked, &vec![0x41; n]].concat()
}

/// 8.1, 9.2, 10.2: the frame's length and the cipher calls; and the same frame opened again, by as many calls.
fn sealed(encrypt: bool, n: usize, frame: usize, calls: usize) -> [Named; 2] {
    let kind = if encrypt { "encrypted" } else { "plain" };
    let asked = sealing(encrypt, n, frame);
    let all = rust::call(SEAL, &asked).0.0;
    let line = &all[25 + Held::LEN..][..frame];
    // encrypted, the payload stands at the front of the work buffer; plain, behind head, block and code
    let (work, start) = if encrypt { (frame - 14, 0) } else { (0, 8) };
    let opening = [&secure().bytes()[..], &(work as u32).to_le_bytes(), line].concat();
    let mut opened = Out::default();
    opened.answer((0, 0, 0)).bool(encrypt).u64(start).u64(n).u64(calls);
    [
        case(
            format!("sealing {n} bytes {kind}: a frame of {frame}, calls {calls}"),
            SEAL,
            asked,
            Out::default().answer((0, frame, 0)).u64(calls),
        ),
        case(format!("opening {n} bytes {kind}: calls {calls}"), UNSEAL, opening, &opened),
    ]
}

/// 8.1, 9.3: one byte more than a frame takes. No cipher call is made, and the session and the buffer stay.
fn too_long(encrypt: bool, n: usize, total: usize) -> Named {
    let kind = if encrypt { "encrypted" } else { "plain" };
    let mut c = refused(&format!("sealing {n} bytes {kind}"), SEAL, sealing(encrypt, n, 70_000), (12, total, 65_535));
    c.says.extend_from_slice(&0u64.to_le_bytes());
    c.says.extend_from_slice(&secure().bytes());
    c.says.extend_from_slice(&fill(70_000 + GUARD));
    c
}

/// FIPS 197, B and C.1, both ways. A request of a key's call has three blocks; the third is not looked at.
fn one_block() -> Vec<Named> {
    let examples = [
        ("B", "2b7e151628aed2a6abf7158809cf4f3c", "3243f6a8885a308d313198a2e0370734", "3925841d02dc09fbdc118597196a0b32"),
        ("C.1", "000102030405060708090a0b0c0d0e0f", "00112233445566778899aabbccddeeff", "69c4e0d86a7b0430d8cdb78070b4c55a"),
    ];
    let one = |name: String, op, key: &str, from: &str, to: &str| {
        case(name, op, [run(key), run(from), vec![0; 16]].concat(), Out::default().bytes(&run(to)))
    };
    let both = |(part, key, plain, hidden): (&str, &str, &str, &str)| {
        let (there, back) = (format!("FIPS 197 {part}, enciphering"), format!("FIPS 197 {part}, deciphering"));
        [one(there, AES_ENCRYPT, key, plain, hidden), one(back, AES_DECRYPT, key, hidden, plain)]
    };
    examples.map(both).into_iter().flatten().collect()
}

/// SP 800-38A, F.2.1 and F.2.2. The calls pad, so a fifth block follows the four that are printed there.
fn chained() -> Vec<Named> {
    let plain = run(concat!(
        "6bc1bee22e409f96e93d7e117393172aae2d8a571e03ac9c9eb76fac45af8e51",
        "30c81c46a35ce411e5fbc1191a0a52eff69f2445df4f9b17ad2b417be66c3710"
    ));
    let hidden = run(concat!(
        "7649abac8119b246cee98e9b12e9197d5086cb9b507219ee95db113a917678b2",
        "73bed6b8e3c1743b7116e69e222295163ff1caa1681fac09120eca307586e1a7"
    ));
    let (key, start) = (run("2b7e151628aed2a6abf7158809cf4f3c"), run("000102030405060708090a0b0c0d0e0f"));
    let asked = |data: &[u8]| [&80u32.to_le_bytes()[..], &key, &start, data].concat();
    let all = rust::call(ENCRYPT, &asked(&plain)).0.0;
    let mut enciphered = Out::default();
    enciphered.answer((0, 80, 0)).u64(5).bytes(&hidden);
    let mut deciphered = Out::default();
    deciphered.answer((0, 64, 0)).u64(5).bytes(&plain).bytes(&[0; 16]);
    vec![
        case("SP 800-38A F.2.1, enciphering by CBC".into(), ENCRYPT, asked(&plain), &enciphered),
        case("SP 800-38A F.2.2, deciphering by CBC".into(), DECRYPT, asked(&all[25..][..80]), &deciphered),
    ]
}

/// The paper's cases. Every name is another and fits what crates/replay reads of one.
pub fn all() -> Vec<Named> {
    let parts = [read(), unread(), sums(), small_kinds(), padded(), unpadded(), mac(), one_block(), chained()];
    let mut all: Vec<Named> = parts.into_iter().flatten().collect();
    for (encrypt, n, frame, calls) in [
        (true, 0, 30, 3),
        (true, 15, 30, 3),
        (true, 16, 46, 5),
        (false, 8, 22, 1),
        (false, 9, 23, 2),
        (true, 65_519, 65_534, 8191),
        (false, 65_521, 65_535, 4096),
    ] {
        all.extend(sealed(encrypt, n, frame, calls));
    }
    all.push(too_long(true, 65_520, 65_550));
    all.push(too_long(false, 65_522, 65_536));
    let names: std::collections::BTreeSet<_> = all.iter().map(|c| &c.name).collect();
    assert!(names.len() == all.len() && names.iter().all(|n| n.len() <= 64), "a case's name stands twice or is too long");
    all
}
