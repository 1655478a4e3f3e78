//! What is asked. `count` sets how many of the random cases there are; the exhaustive ones are always asked in full.
use crate::Compare;
use crate::named;
use crate::rust::Ask;
use crate::talk;
use crate::wire::*;
use osdp::packet::{checksum8, crc16};
use osdp::secure::cipher::encrypt_data;

/// xorshift64*, so that a seed gives the same run everywhere.
pub struct Random(u64);
impl Random {
    pub fn new(seed: u64) -> Self {
        Self(seed.wrapping_mul(0x9E37_79B9_7F4A_7C15) | 1)
    }
    pub fn next(&mut self) -> u64 {
        self.0 ^= self.0 >> 12;
        self.0 ^= self.0 << 25;
        self.0 ^= self.0 >> 27;
        self.0.wrapping_mul(0x2545_F491_4F6C_DD1D)
    }
    pub fn below(&mut self, n: usize) -> usize {
        ((self.next() >> 32) as usize) % n
    }
    pub fn byte(&mut self) -> u8 {
        (self.next() >> 56) as u8
    }
    pub fn bytes(&mut self, n: usize) -> Vec<u8> {
        (0..n).map(|_| self.byte()).collect()
    }
    pub fn bool(&mut self) -> bool {
        self.next() >> 63 == 1
    }
    /// Turns one bit of them.
    pub fn spoil(&mut self, bytes: &mut [u8]) {
        let i = self.below(bytes.len());
        bytes[i] ^= 1 << self.below(8);
    }
    pub fn pick<T: Copy>(&mut self, of: &[T]) -> T {
        of[self.below(of.len())]
    }
}

pub const TYPES: [u8; 8] = [0x11, 0x12, 0x13, 0x14, 0x15, 0x16, 0x17, 0x18];

/// A buffer, for every call that reads one.
fn read(c: &mut Compare, buf: Vec<u8>) {
    if let Some(block) = buf.get(5..) {
        c.ask(BLOCK, block.to_vec());
    }
    c.ask(HEAD, buf.clone());
    c.ask(PARSE, buf);
}

pub fn close(mut frame: Vec<u8>, crc: bool) -> Vec<u8> {
    if crc {
        frame.extend_from_slice(&crc16(&frame).to_le_bytes());
    } else {
        frame.push(checksum8(&frame));
    }
    frame
}

/// 53, an address, LEN, CTRL, what follows it, and a right trailer.
fn frame(addr: u8, len: usize, ctrl: u8, rest: &[u8]) -> Vec<u8> {
    let mut f = vec![0x53, addr, len as u8, (len >> 8) as u8, ctrl];
    f.extend_from_slice(rest);
    close(f, ctrl & 4 != 0)
}

fn good(addr: u8, ctrl: u8, rest: &[u8]) -> Vec<u8> {
    let len = 5 + rest.len() + if ctrl & 4 != 0 { 2 } else { 1 };
    frame(addr, len, ctrl, rest)
}

/// Every byte, for the calls that take one; every control byte, with and without the SQN above 3.
fn bytes(c: &mut Compare) {
    for b in 0..=255u8 {
        for op in [ADDRESS_PD, ADDRESS_REPLY, SQN_NEW, SQN_NEXT, CONTROL_DECODE, SCS_TYPE] {
            c.ask(op, vec![b]);
        }
        for flags in 0..4 {
            c.ask(CONTROL_ENCODE, vec![b, flags & 1, flags >> 1]);
        }
    }
}

/// All inputs up to a length over an alphabet.
fn over(alphabet: &[u8], longest: u32) -> impl Iterator<Item = Vec<u8>> {
    let letters = alphabet.len();
    let input = move |n: u32, k: usize| (0..n).map(|i| alphabet[k / letters.pow(i) % letters]).collect();
    (0..=longest).flat_map(move |n| (0..letters.pow(n)).map(move |k| input(n, k)))
}

fn exhaustive(c: &mut Compare) {
    for s in over(&Vec::from_iter(0..=255), 2) {
        c.ask(CHECKSUM8, s.clone());
        c.ask(CRC16, s.clone());
        c.ask(BLOCK, s.clone());
        c.ask(PARSE, s);
    }
    // bytes that a frame's tests tell apart
    for s in over(&[0x53, 0x00, 0x07, 0x08, 0x09, 0x0C], 6) {
        c.ask(HEAD, s.clone());
        c.ask(PARSE, s);
    }
    // every control byte, LEN up to 24, four lengths of buffer
    for ctrl in 0..=255u8 {
        for len in 0..24usize {
            for have in [5, 7, 8, 24] {
                let mut s = vec![0x53, 5, len as u8, 0, ctrl, 2, 0x15, 0x60, 0, 0, 0, 0, 0, 0, 0, 0, 0, 0, 0, 0, 0, 0, 0, 0];
                s.truncate(have);
                c.ask(PARSE, s);
            }
        }
    }
    // every block length and type, in frames of each size around what they need, with right trailers
    for ctrl in [8, 12] {
        for block in 0..=255u8 {
            for ty in 0x0F..=0x1A {
                for more in [0usize, 1, 2, 3, 4, 5, 6, 7, 9] {
                    let mut rest = vec![block, ty];
                    rest.resize((block as usize + more).max(2), 0x60);
                    read(c, good(5, ctrl, &rest));
                }
            }
        }
    }
}

/// A good frame with random contents.
pub fn random_frame(r: &mut Random, data: usize) -> Vec<u8> {
    let ctrl = r.byte() & 15;
    let mut rest = Vec::new();
    if ctrl & 8 != 0 {
        let n = if r.below(8) == 0 { r.below(254) } else { r.below(4) };
        rest.push(n as u8 + 2);
        let ty = r.pick(&TYPES);
        rest.push(ty);
        rest.extend(r.bytes(n));
        rest.extend(r.bytes(1 + data));
        if ty >= 0x15 {
            rest.extend(r.bytes(4));
        }
    } else {
        rest.extend(r.bytes(1 + data));
    }
    good(r.byte(), ctrl, &rest)
}

/// Copies of a good frame, each damaged in one place.
fn damaged(c: &mut Compare, r: &mut Random, f: &[u8]) {
    for i in 0..f.len() {
        let mut s = f.to_vec();
        s[i] ^= 1 << r.below(8);
        c.ask(PARSE, s.clone());
        s[i] = r.byte();
        read(c, s);
        c.ask(PARSE, f[..i].to_vec());
    }
    let mut s = f.to_vec();
    for _ in 0..3 {
        s.push(r.byte());
        read(c, s.clone());
    }
}

/// Damage under a right trailer: LEN, CTRL, block length and type changed, the trailer made again.
fn crooked(c: &mut Compare, r: &mut Random, f: &[u8]) {
    let mut s = f.to_vec();
    let n = s.len() - if s[4] & 4 != 0 { 2 } else { 1 };
    s.truncate(n);
    let i = r.pick(&[1usize, 2, 4, 5, 6, 7]);
    if i < s.len() {
        s[i] = if r.bool() { r.byte() } else { s[i].wrapping_add(r.byte() % 5).wrapping_sub(2) };
    }
    let s = close(s, f[4] & 4 != 0);
    read(c, s);
}

fn sums(c: &mut Compare, r: &mut Random, count: u64) {
    for n in 0..600 {
        let s = r.bytes(n);
        c.ask(CHECKSUM8, s.clone());
        c.ask(CRC16, s);
    }
    for _ in 0..count / 40 {
        let n = r.below(100);
        let s = r.bytes(n);
        c.ask(CHECKSUM8, s.clone());
        c.ask(CRC16, s);
    }
}

fn parsing(c: &mut Compare, r: &mut Random, count: u64) {
    for _ in 0..count / 400 {
        let n = r.below(24);
        let f = random_frame(r, n);
        c.ask(PARSE, f.clone());
        damaged(c, r, &f);
        for _ in 0..8 {
            crooked(c, r, &f);
        }
    }
    for _ in 0..count / 8 {
        let n = r.below(16);
        let mut s = r.bytes(n);
        for (i, b) in [0x53, 5, 9, 0, r.byte() & 15, 2, 0x15].into_iter().enumerate() {
            if i < s.len() && r.below(6) != 0 {
                s[i] = b;
            }
        }
        read(c, s);
    }
    // long ones, up to the limit of LEN and beyond
    for n in [250, 255, 256, 257, 1440, 4095, 4096, 65_500, 65_519, 65_521, 65_526, 65_527, 65_528] {
        for _ in 0..4 {
            let f = random_frame(r, n);
            let mut s = f.clone();
            read(c, f);
            s.pop();
            c.ask(PARSE, s);
        }
    }
}

/// A packet, into buffers of every size around what it needs.
fn build(c: &mut Compare, ask: Ask) {
    let need = ask.packet().ok().and_then(|p| p.encode_with_mac(|_| [0; 4]).ok()).map_or(16, |f| f.len());
    let mut rooms = vec![need, need + 1, need + 5, need - 1];
    if need < 4096 {
        rooms.extend([need.saturating_sub(4), need.saturating_sub(5), 0, 1]);
    }
    for room in rooms {
        let ask = Ask { room, ..ask.clone() };
        c.ask(BUILD_BODY, ask.bytes());
        c.ask(BUILD, ask.bytes());
    }
}

fn building(c: &mut Compare, r: &mut Random, count: u64) {
    // all combinations of the fields, a few lengths
    for sqn in [0, 1, 2, 3, 4, 255] {
        for bits in 0..8u8 {
            for ty in [0, 0x10, 0x11, 0x12, 0x13, 0x14, 0x15, 0x16, 0x17, 0x18, 0x19] {
                for block in [0, 1, 3] {
                    for data in [0, 1, 16] {
                        let (block, data) = (r.bytes(block), r.bytes(data));
                        let mac = (bits & 4 != 0).then(|| r.bytes(4).try_into().unwrap());
                        let (crc, flag) = (bits & 1 != 0, bits & 2 != 0);
                        build(c, Ask { addr: r.byte(), sqn, crc, flag, ty, code: r.byte(), mac, block, data, room: 0 });
                    }
                }
            }
        }
    }
    building_limits(c, r);
    for _ in 0..count / 60 {
        let ty = if r.below(4) == 0 { 0 } else { r.pick(&TYPES) };
        let due = ty >= 0x15;
        let mac = (due != (r.below(8) == 0)).then(|| r.bytes(4).try_into().unwrap());
        let flag = (ty != 0) != (r.below(16) == 0);
        let (block, data) = (r.below(20), r.below(60));
        let (block, data) = (r.bytes(block), r.bytes(data));
        build(c, Ask { addr: r.byte(), sqn: r.byte() & 3, crc: r.bool(), flag, ty, code: r.byte(), mac, block, data, room: 0 });
    }
}

/// Block data of 253 bytes and more, a total of 65,535 and one more.
fn building_limits(c: &mut Compare, r: &mut Random) {
    for ty in TYPES {
        for crc in [false, true] {
            for block in [252, 253, 254, 255, 256, 300] {
                let block = r.bytes(block);
                let mac = (ty >= 0x15).then_some([1, 2, 3, 4]);
                build(c, Ask { addr: 5, sqn: 1, crc, flag: true, ty, code: 0x60, mac, block, data: vec![], room: 0 });
            }
        }
    }
    for ty in [0, 0x11, 0x15, 0x18] {
        for crc in [false, true] {
            let mac = (ty >= 0x15).then_some([1, 2, 3, 4]);
            let fixed = 6 + if ty == 0 { 0 } else { 2 } + if mac.is_some() { 4 } else { 0 } + if crc { 2 } else { 1 };
            for total in [65_534, 65_535, 65_536, 65_537] {
                let data = r.bytes(total - fixed);
                build(c, Ask { addr: 5, sqn: 2, crc, flag: ty != 0, ty, code: 0x60, mac, block: vec![], data, room: 0 });
            }
        }
    }
}

/// The room that is needed, and others around it.
fn around(n: usize) -> [usize; 5] {
    [n, n + 1, n.saturating_sub(1), 0, n + 16]
}

/// A call that is handed a buffer's room, key and start value, and data.
fn cipher(c: &mut Compare, op: u8, room: usize, keys: &[u8], data: &[u8]) {
    c.ask(op, [&(room as u32).to_le_bytes(), &keys[..32], data].concat());
}

/// Paddings and CBC of 0 to 70 bytes, in every room around what they need.
fn paddings(c: &mut Compare, r: &mut Random) {
    for n in 0..=70 {
        for _ in 0..4 {
            let (keys, data) = (r.bytes(32), r.bytes(n));
            for room in around(n / 16 * 16 + 16) {
                for op in [PAD_MAC, PAD_DATA, ENCRYPT, DECRYPT] {
                    cipher(c, op, room, &keys, &data);
                }
            }
            for room in around(n) {
                for op in [PAD_MAC, DECRYPT] {
                    cipher(c, op, room, &keys, &data);
                }
            }
        }
    }
    // everything that padding can look like over a small alphabet
    for s in over(&[0x00, 0x80, 0x41, 0x81], 7) {
        c.ask(UNPAD, s);
    }
}

/// MAC, CBC, keys and cryptograms.
fn ciphers(c: &mut Compare, r: &mut Random, count: u64) {
    for _ in 0..count / 60 {
        let keys = r.bytes(48);
        c.ask(r.pick(&[AES_ENCRYPT, AES_DECRYPT]), keys.clone());
        c.ask(r.pick(&[AES_ENCRYPT, AES_DECRYPT, DERIVE, CLIENT, SERVER, FIRST, DIVERSIFY, COMPLEMENT]), keys.clone());
        let n = r.below(100);
        let data = r.bytes(n);
        c.ask(CBC_MAC, [&keys[..], &data].concat());
        cipher(c, ENCRYPT, 112, &keys, &data);
        // good encrypted data and the same with one bit turned, of any payload and of one that looks like padding
        let (k, v) = (keys[..16].try_into().unwrap(), keys[16..32].try_into().unwrap());
        let text: Vec<u8> = data.iter().map(|b| if r.below(3) == 0 { 0x80 } else { b & 0x80 }).collect();
        for text in [&data, &text] {
            let mut hidden = encrypt_data(k, v, text);
            let room = r.pick(&around(hidden.len()));
            cipher(c, DECRYPT, room, &keys, &hidden);
            r.spoil(&mut hidden);
            cipher(c, DECRYPT, hidden.len(), &keys, &hidden);
        }
    }
}

pub fn all(c: &mut Compare, seed: u64, count: u64) {
    let mut r = Random::new(seed);
    named::all().into_iter().for_each(|case| c.named(case));
    bytes(c);
    exhaustive(c);
    sums(c, &mut r, count);
    parsing(c, &mut r, count);
    building(c, &mut r, count);
    paddings(c, &mut r);
    ciphers(c, &mut r, count);
    talk::all(c, &mut r, count);
}
