//! What is asked of sessions: calls in any order on any contents, conversations of two ends, and the limits of sealing.
use crate::Compare;
use crate::cases::{Random, TYPES, close, random_frame};
use crate::rust::flags;
use crate::session::Held;
use crate::wire::*;
use osdp::packet::{Address, ControlByte, Packet, Scb, ScsType, Sqn};
use osdp::secure::cipher::{complement_icv, encrypt_data};
use osdp::secure::crypto::{SessionKeys, client_cryptogram};
use osdp::secure::mac::cbc_mac;

const CALLS: [u8; 16] = [
    WIPE, CHALLENGE, RECEIVE_CCRYPT, SERVER_CRYPTOGRAM, INITIAL_RMAC, CONFIRM_RMAC_I, RECEIVE_CHALLENGE, RECEIVE_SCRYPT, MAC, VERIFY,
    KEYS, LAST_OTHER_MAC, SEAL_DATA, OPEN_DATA, SEAL, UNSEAL,
];

/// Where the session after a call stands in its answer.
fn session_at(op: u8) -> Option<usize> {
    match op {
        NEW | NEW_READER | WIPE => Some(0),
        CHALLENGE | RECEIVE_CCRYPT | CONFIRM_RMAC_I | VERIFY => Some(17),
        RECEIVE_CHALLENGE | RECEIVE_SCRYPT | MAC => Some(33),
        SEAL => Some(25),
        UNSEAL => Some(42),
        _ => None,
    }
}

/// One call on a session, which becomes what the oracle makes of it.
fn call(c: &mut Compare, held: &mut Held, op: u8, args: &[u8]) -> Vec<u8> {
    let told = c.step(op, [&held.bytes(), args].concat());
    if let Some(at) = session_at(op) {
        *held = Held::read(&told[at..]);
    }
    told
}

fn made(c: &mut Compare, op: u8, args: &[u8]) -> Held {
    Held::read(&c.step(op, args.to_vec()))
}

/// A value, in one of four cases with one bit wrong.
fn mostly(r: &mut Random, mut bytes: Vec<u8>) -> Vec<u8> {
    if r.below(4) == 0 {
        r.spoil(&mut bytes);
    }
    bytes
}

/// Lengths where padding and blocks turn, and others.
fn length(r: &mut Random) -> usize {
    match r.below(3) {
        0 => r.pick(&[0, 1, 7, 8, 9, 15, 16, 17, 31, 32, 33, 47, 48]),
        1 => r.below(24),
        _ => r.below(100),
    }
}

/// The room that is needed, or around it.
fn around(r: &mut Random, need: usize) -> usize {
    match r.below(8) {
        0 => need.saturating_sub(1),
        1 => need + 1,
        2 => r.below(need + 40),
        3 => 0,
        _ => need,
    }
}

fn mac_of(held: &Held, bytes: &[u8]) -> [u8; 4] {
    let k = held.keys();
    cbc_mac(bytes, &held.chain(), &k.s_mac1, &k.s_mac2)[..4].try_into().unwrap()
}

/// Data that a session of these contents opens, or nearly.
fn hidden(r: &mut Random, held: &Held) -> Vec<u8> {
    let n = length(r);
    let mut text = r.bytes(n);
    if r.below(3) == 0 {
        text.iter_mut().for_each(|b| *b = if *b < 128 { 0x80 } else { 0 });
    }
    let mut all = encrypt_data(&held.keys().s_enc, &complement_icv(&held.chain()), &text);
    match r.below(8) {
        0 => all.truncate(r.below(all.len() + 1)),
        1 => r.spoil(&mut all),
        2 => all.truncate(all.len() - 16),
        _ => {}
    }
    all
}

/// A frame with the right MAC for a session of these contents: any type that has one, either trailer, with and without block data.
fn with_mac(r: &mut Random, held: &Held) -> Vec<u8> {
    let ty = r.pick(&TYPES[4..]);
    let data = if ty >= 0x17 {
        hidden(r, held)
    } else {
        let n = length(r);
        r.bytes(n)
    };
    let block = if r.bool() { 0 } else { r.below(20) };
    let flags = flags(r.bool(), true);
    let packet = Packet {
        addr: Address::from_raw(r.byte()),
        ctrl: ControlByte::new(Sqn::new(r.byte() & 3).unwrap(), flags),
        scb: Some(Scb::new(ScsType::from_byte(ty).unwrap(), r.bytes(block))),
        code: r.byte(),
        data,
    };
    packet.encode_with_mac(|bytes| mac_of(held, bytes)).unwrap()
}

/// A frame with one thing wrong: a bit with or without a trailer made anew, the block's type, cut short; or bytes after it.
fn damaged(r: &mut Random, frame: &[u8]) -> Vec<u8> {
    let crc = frame[4] & 4 != 0;
    let body = frame.len() - if crc { 2 } else { 1 };
    let mut f = frame[..body].to_vec();
    match r.below(6) {
        0 => {
            let mut f = frame.to_vec();
            r.spoil(&mut f);
            return f;
        }
        1 => return frame[..r.below(frame.len())].to_vec(),
        2 => {
            let n = 1 + r.below(9);
            return [frame, &r.bytes(n)].concat();
        }
        3 if body > 6 => f[6] = r.pick(&TYPES),
        // the last four bytes: where a MAC is due, it
        4 => f[body - 1 - r.below(4)] ^= 1 << r.below(8),
        _ => r.spoil(&mut f),
    }
    close(f, crc)
}

/// How long the encrypted data of a frame is, if it can be read and has any.
fn hidden_len(frame: &[u8]) -> usize {
    use osdp::packet::ParsedPacket;
    match ParsedPacket::parse(frame) {
        Ok((p, _)) if p.scb.is_some_and(|b| b.ty.is_encrypted()) => p.data.len(),
        _ => 0,
    }
}

/// What a call is handed: mostly what takes a session of these contents further.
fn args(r: &mut Random, held: &Held, op: u8) -> Vec<u8> {
    match op {
        CHALLENGE => r.bytes(8),
        RECEIVE_CCRYPT => {
            let (cuid, b) = (r.bytes(8), r.bytes(8));
            let k = SessionKeys::derive(&held.scbk(), &held.rnd_a());
            let client = client_cryptogram(&k.s_enc, &held.rnd_a(), b[..].try_into().unwrap());
            [cuid, b, mostly(r, client.to_vec())].concat()
        }
        CONFIRM_RMAC_I => mostly(r, held.first().to_vec()),
        RECEIVE_CHALLENGE => r.bytes(16),
        RECEIVE_SCRYPT => mostly(r, held.server().to_vec()),
        MAC => {
            let n = length(r);
            r.bytes(n)
        }
        VERIFY => {
            let n = length(r);
            let bytes = r.bytes(n);
            [mostly(r, mac_of(held, &bytes).to_vec()), bytes].concat()
        }
        SEAL_DATA | OPEN_DATA | SEAL | UNSEAL => with_room(r, held, op),
        _ => Vec::new(),
    }
}

/// The same where a buffer is lent: its room comes first.
fn with_room(r: &mut Random, held: &Held, op: u8) -> Vec<u8> {
    match op {
        SEAL_DATA => {
            let n = length(r);
            let room = around(r, (n / 16 + 1) * 16);
            into(room, &r.bytes(n))
        }
        OPEN_DATA => {
            let data = hidden(r, held);
            let room = around(r, data.len());
            into(room, &data)
        }
        SEAL => {
            let (encrypt, n) = (r.bool(), length(r));
            let room = around(r, sealed_len(encrypt, n));
            sealing(r, room, encrypt, n)
        }
        _ => {
            let mut frame = if r.below(8) == 0 {
                let n = length(r);
                random_frame(r, n)
            } else {
                with_mac(r, held)
            };
            if r.below(3) == 0 {
                frame = damaged(r, &frame);
            }
            let room = around(r, hidden_len(&frame));
            into(room, &frame)
        }
    }
}

fn sealed_len(encrypt: bool, n: usize) -> usize {
    if encrypt { (n / 16 + 1) * 16 + 14 } else { n + 14 }
}

fn sealing(r: &mut Random, room: usize, encrypt: bool, n: usize) -> Vec<u8> {
    let sqn = if r.below(16) == 0 { r.byte() } else { r.byte() & 3 };
    let asked = [r.byte(), sqn, r.bool() as u8, encrypt as u8, r.byte()];
    into(room, &[&asked[..], &r.bytes(n)].concat())
}

/// The room of a buffer, then what else the call is handed.
fn into(room: usize, rest: &[u8]) -> Vec<u8> {
    [&(room as u32).to_le_bytes()[..], rest].concat()
}

/// Every call on sessions of any contents, in every state and at every end, also those that are none.
fn contents(c: &mut Compare, r: &mut Random, count: u64) {
    for end in [0, 1, 2, 255] {
        for state in [0, 1, 2, 3, 4, 255] {
            for op in CALLS {
                for _ in 0..4 {
                    let mut held = Held { end, state, fields: r.bytes(Held::LEN - 2).try_into().unwrap() };
                    let x = args(r, &held, op);
                    call(c, &mut held, op, &x);
                }
            }
        }
    }
    for _ in 0..count / 8 {
        let mut held = Held { end: r.byte() & 1, state: r.byte() & 3, fields: r.bytes(Held::LEN - 2).try_into().unwrap() };
        let op = if r.bool() { r.pick(&CALLS) } else { next(r, &held) };
        let x = args(r, &held, op);
        call(c, &mut held, op, &x);
    }
}

/// A call that a session in this state takes.
fn next(r: &mut Random, held: &Held) -> u8 {
    match (held.end, held.state) {
        (0, 0) => CHALLENGE,
        (0, 1) => RECEIVE_CCRYPT,
        (0, 2) => r.pick(&[SERVER_CRYPTOGRAM, INITIAL_RMAC, CONFIRM_RMAC_I, CONFIRM_RMAC_I]),
        (1, 0) => RECEIVE_CHALLENGE,
        (1, 1) => RECEIVE_SCRYPT,
        _ => r.pick(&CALLS[8..]),
    }
}

/// One session through calls in any order, half of them such as its state takes.
fn walk(c: &mut Compare, r: &mut Random) {
    let mut held = if r.bool() {
        let scbk = r.bytes(16);
        made(c, NEW, &scbk)
    } else {
        let both = r.bytes(24);
        made(c, NEW_READER, &both)
    };
    for _ in 0..24 {
        let op = if r.bool() { r.pick(&CALLS) } else { next(r, &held) };
        // a wipe ends what the walk has come to, so it is asked less often
        let op = if op == WIPE && r.below(4) != 0 { KEYS } else { op };
        let x = args(r, &held, op);
        call(c, &mut held, op, &x);
    }
}

/// The controller's end and the reader's.
struct Ends([Held; 2]);

impl Ends {
    /// Two sessions with one base key, led through the handshake.
    fn secured(c: &mut Compare, r: &mut Random) -> Self {
        let (scbk, cuid, a, b) = (r.bytes(16), r.bytes(8), r.bytes(8), r.bytes(8));
        let mut controller = made(c, NEW, &scbk);
        let mut reader = made(c, NEW_READER, &[&scbk[..], &cuid].concat());
        call(c, &mut controller, CHALLENGE, &a);
        let told = call(c, &mut reader, RECEIVE_CHALLENGE, &[&a[..], &b].concat());
        call(c, &mut controller, RECEIVE_CCRYPT, &[&cuid, &b, &told[17..33]].concat());
        let server = call(c, &mut controller, SERVER_CRYPTOGRAM, &[]);
        let told = call(c, &mut reader, RECEIVE_SCRYPT, &server[17..33]);
        call(c, &mut controller, CONFIRM_RMAC_I, &told[17..33]);
        assert!(controller.is_secure() && reader.is_secure() && controller.chain() == reader.chain());
        Ends([controller, reader])
    }

    /// A frame from one end; the sender's direction is its own.
    fn send(&mut self, c: &mut Compare, r: &mut Random, from: usize) -> Vec<u8> {
        let (encrypt, n) = (r.bool(), length(r));
        let total = sealed_len(encrypt, n);
        let mut x = sealing(r, total, encrypt, n);
        (x[5], x[6]) = (x[5] & 3, from as u8);
        if r.below(8) == 0 {
            // one byte short: refused, and the next is sealed from the same chain value
            let mut short = x.clone();
            short[..4].copy_from_slice(&(total as u32 - 1).to_le_bytes());
            call(c, &mut self.0[from], SEAL, &short);
        }
        let told = call(c, &mut self.0[from], SEAL, &x);
        told[25 + Held::LEN..][..total].to_vec()
    }

    fn take(&mut self, c: &mut Compare, to: usize, frame: &[u8], room: usize) -> u8 {
        call(c, &mut self.0[to], UNSEAL, &into(room, frame))[0]
    }

    /// Whether the two still have the same chain value.
    fn together(&self) -> bool {
        self.0[0].chain() == self.0[1].chain()
    }

    /// What may befall a frame on its way: an old one comes first, it comes spoiled, into too short a buffer, after the next one, or
    /// back to its sender.
    fn on_the_way(&mut self, c: &mut Compare, r: &mut Random, from: usize, frame: &[u8], sent: &[Vec<u8>]) {
        let to = 1 - from;
        match r.below(24) {
            0 if !sent.is_empty() => {
                let old = &sent[r.below(sent.len())];
                self.take(c, to, old, 200);
            }
            1..=4 => {
                let spoilt = damaged(r, frame);
                let room = around(r, hidden_len(&spoilt));
                // bytes after it do not spoil it
                if !spoilt.starts_with(frame) {
                    self.take(c, to, &spoilt, room);
                }
            }
            5 if hidden_len(frame) > 0 => {
                self.take(c, to, frame, hidden_len(frame) - 1);
            }
            6 => {
                let mut ahead = Ends(self.0.clone());
                let later = ahead.send(c, r, from);
                self.take(c, to, &later, 200);
            }
            7 => {
                self.take(c, from, frame, 200);
            }
            _ => {}
        }
    }
}

/// A handshake, then frames from either end. With losses, a frame may be lost or cross another; once the ends have parted, a few more
/// are tried and two new sessions begin.
fn conversation(c: &mut Compare, r: &mut Random, frames: usize, losses: bool) {
    let mut ends = Ends::secured(c, r);
    let mut sent: Vec<Vec<u8>> = Vec::new();
    let mut parted = 0;
    for _ in 0..frames {
        let from = r.below(2);
        let mut opens = ends.together();
        let frame = ends.send(c, r, from);
        ends.on_the_way(c, r, from, &frame, &sent);
        let mishap = if losses { r.below(100) } else { 100 };
        if mishap == 0 {
            continue;
        }
        if mishap == 1 {
            let other = ends.send(c, r, 1 - from);
            ends.take(c, from, &other, 200);
            opens = false;
        }
        let room = hidden_len(&frame) + r.below(3);
        let refusal = ends.take(c, 1 - from, &frame, room);
        assert!(!opens || refusal == 0 && ends.together(), "the Rust does not open what it sealed");
        sent.push(frame);
        if !ends.together() {
            parted += 1;
        }
        if parted > 3 {
            parted = 0;
            sent.clear();
            ends = Ends::secured(c, r);
        }
    }
}

/// Sealing and unsealing where lengths turn and at the limits of a frame, in rooms around what they need.
fn limits(c: &mut Compare, r: &mut Random) {
    let fresh = Ends::secured(c, r);
    let small = (0..=50).chain([253, 254, 255, 256, 257]);
    let large = [65_487, 65_488, 65_503, 65_504, 65_518, 65_519, 65_520, 65_521, 65_522, 65_535, 65_536, 70_000];
    for n in small.chain(large) {
        for encrypt in [true, false] {
            for from in [0, 1] {
                if n > 1000 && from == 1 && n != 65_519 && n != 65_521 {
                    continue;
                }
                let total = sealed_len(encrypt, n);
                let x = sealing(r, 0, encrypt, n);
                for room in [total - 1, total + 1, total] {
                    let mut x = x.clone();
                    x[..4].copy_from_slice(&(room as u32).to_le_bytes());
                    x[5] &= 3;
                    let mut ends = Ends(fresh.0.clone());
                    let told = call(c, &mut ends.0[from], SEAL, &x);
                    if told[0] == 0 && room == total {
                        let frame = told[25 + Held::LEN..][..total].to_vec();
                        let need = hidden_len(&frame);
                        ends.take(c, 1 - from, &frame, need.saturating_sub(1));
                        ends.take(c, 1 - from, &frame, need);
                        ends.take(c, 1 - from, &frame, need + 1);
                    }
                }
            }
        }
    }
}

/// Which of sealing's tests comes first: the state, SQN, the limit, the room.
fn order(c: &mut Compare, r: &mut Random) {
    let fresh = Ends::secured(c, r).0[0].clone();
    for n in [0, 65_519, 65_520, 65_521, 65_522] {
        for (sqn, encrypt) in [(0, true), (4, true), (255, true), (3, false), (4, false)] {
            for (state, room) in [(2, 0), (3, 0), (3, 65_535), (2, 65_535)] {
                let asked = [5, sqn, 0, encrypt as u8, 0x60];
                let x = into(room, &[&asked[..], &r.bytes(n)].concat());
                call(c, &mut Held { state, ..fresh.clone() }, SEAL, &x);
            }
        }
    }
}

/// Places in, at and past the end of both slices, up to sums past 64 bits.
fn places(c: &mut Compare) {
    let numbers = [0, 1, 2, 3, 4, 5, 6, 1 << 32, u64::MAX - 5, u64::MAX - 1, u64::MAX];
    for (frame, work) in [(0usize, 0usize), (0, 4), (4, 0), (3, 5), (5, 3)] {
        for in_work in [0u8, 1] {
            for start in numbers {
                for len in numbers {
                    let mut o = Out::default();
                    o.u8(in_work).u64(start as usize).u64(len as usize).u32(frame).bytes(&vec![7; frame + work]);
                    c.ask(PAYLOAD_TEST, o.0);
                }
            }
        }
    }
}

pub fn all(c: &mut Compare, r: &mut Random, count: u64) {
    places(c);
    limits(c, r);
    order(c, r);
    contents(c, r, count);
    for _ in 0..count / 150 {
        walk(c, r);
    }
    for _ in 0..count / 200 {
        let frames = 4 + r.below(20);
        conversation(c, r, frames, true);
    }
    for _ in 0..4 {
        conversation(c, r, (count / 600) as usize, false);
    }
}
