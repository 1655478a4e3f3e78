//! The oracle's answers to the session's calls.
//!
//! A session travels as the 106 bytes of the C struct. The Rust's `Session<S>` has 104 bytes, all of them in private fields; where
//! each field stands in it is found out once, from a session that was led through its own calls (`Places::find`), and from then on a
//! session is put together from its bytes before a call and taken apart after it. So its calls can be tried on any contents.
//!
//! The Rust has no reader's end. What the paper says of it is said with the Rust's own functions for keys and cryptograms, and a reader's
//! session that is Secure is the Rust's `Session<Secure>`, which does not know its end. The wipe is the paper's alone.
use crate::rust::{Answer, NO_ROOM, SQN_ABOVE_3, at, calls, deciphered, into_buffer, number};
use crate::wire::*;
use osdp::error::Error;
use osdp::packet::{Address, ParsedPacket, Sqn};
use osdp::reply::CCrypt;
use osdp::secure::crypto::{SessionKeys, client_cryptogram, initial_rmac, server_cryptogram};
use osdp::secure::frame::{self, Direction};
use osdp::secure::session::{Challenged, Cryptogrammed, Disconnected, Secure, Session};
use std::mem::{MaybeUninit, size_of};
use std::sync::OnceLock;

pub const WRONG_STATE: &str = "another state or end: 16";
pub const SHORT_WORK: &str = "the work buffer is too short: 18";
pub const TOO_LONG: &str = "a sealed payload one too long: 12, no call";
pub const WIPED: &str = "a wrong MAC or padding on types 17 and 18: zeroed";
pub const READER: &str = "the reader's end: added";
pub const WIPE_CALL: &str = "wipe: added";

/// The fields' lengths, in the order in which they travel: SCBK, RND.A, RND.B, cUID, S-ENC, S-MAC1, S-MAC2, the chain value.
const FIELDS: [usize; 8] = [16, 8, 8, 8, 16, 16, 16, 16];
const BYTES: usize = 104;

/// A session as it travels.
#[derive(Clone, PartialEq, Eq)]
pub struct Held {
    pub end: u8,
    pub state: u8,
    /// The fields, one after the other.
    pub fields: [u8; BYTES],
}

/// Where a field starts among the fields.
const fn start(i: usize) -> usize {
    let (mut at, mut k) = (0, 0);
    while k < i {
        at += FIELDS[k];
        k += 1;
    }
    at
}

impl Held {
    pub const LEN: usize = 2 + BYTES;
    pub fn read(bytes: &[u8]) -> Self {
        Self { end: bytes[0], state: bytes[1], fields: array(bytes, 2) }
    }
    pub fn bytes(&self) -> Vec<u8> {
        [&[self.end, self.state][..], &self.fields].concat()
    }
    fn field<const N: usize>(&self, i: usize) -> [u8; N] {
        array(&self.fields, start(i))
    }
    fn set(&mut self, i: usize, bytes: &[u8]) {
        assert_eq!(bytes.len(), FIELDS[i]);
        self.fields[start(i)..][..bytes.len()].copy_from_slice(bytes);
    }
    pub fn scbk(&self) -> [u8; 16] {
        self.field(0)
    }
    pub fn rnd_a(&self) -> [u8; 8] {
        self.field(1)
    }
    pub fn rnd_b(&self) -> [u8; 8] {
        self.field(2)
    }
    pub fn cuid(&self) -> [u8; 8] {
        self.field(3)
    }
    pub fn keys(&self) -> SessionKeys {
        SessionKeys { s_enc: self.field(4), s_mac1: self.field(5), s_mac2: self.field(6) }
    }
    pub fn chain(&self) -> [u8; 16] {
        self.field(7)
    }
    pub fn is_secure(&self) -> bool {
        self.end < 2 && self.state == 3
    }
    pub fn server(&self) -> [u8; 16] {
        server_cryptogram(&self.keys().s_enc, &self.rnd_a(), &self.rnd_b())
    }
    pub fn first(&self) -> [u8; 16] {
        let k = self.keys();
        initial_rmac(&k.s_mac1, &k.s_mac2, &self.server())
    }
    fn at(&self, end: u8, state: u8) -> bool {
        self.end == end && self.state == state
    }
    fn set_keys(&mut self, k: &SessionKeys) {
        self.set(4, &k.s_enc);
        self.set(5, &k.s_mac1);
        self.set(6, &k.s_mac2);
    }
}

/// Where each field stands in the Rust's session.
struct Places([usize; 8]);

impl Places {
    fn get() -> &'static Self {
        static FOUND: OnceLock<Places> = OnceLock::new();
        FOUND.get_or_init(Self::find)
    }

    /// Leads a session through its handshake with fields that are all different, and looks for each among its bytes.
    fn find() -> Self {
        let (scbk, a, b, cuid) = (*b"a base key found", *b"random.A", *b"8 more b", *b"identity");
        let k = SessionKeys::derive(&scbk, &a);
        let ccrypt = CCrypt { cuid, rnd_b: b, client_cryptogram: client_cryptogram(&k.s_enc, &a, &b) };
        let s0 = Session::<Disconnected>::new(scbk);
        let s1 = s0.clone().challenge(a);
        let s2 = s1.clone().receive_ccrypt(&ccrypt).ok().unwrap();
        let first = s2.initial_rmac();
        let s3 = s2.clone().confirm_rmac_i(&first).ok().unwrap();
        let known = [&scbk[..], &a, &b, &cuid, &k.s_enc, &k.s_mac1, &k.s_mac2, &first];
        let bytes = raw(&s3);
        let find = |want: &&[u8]| {
            let found: Vec<_> = (0..=BYTES - want.len()).filter(|i| bytes[*i..].starts_with(want)).collect();
            assert_eq!(found.len(), 1, "a field of the Rust's session is not found once");
            found[0]
        };
        let places = Places(known.each_ref().map(find));
        // in every state the fields must be read as the session shows them itself, and a session put together must be the same
        places.try_on(&s0);
        places.try_on(&s1);
        places.try_on(&s2);
        places.try_on(&s3);
        places
    }

    fn try_on<S>(&self, s: &Session<S>)
    where
        Session<S>: std::fmt::Debug,
    {
        let shown = format!("{s:?}");
        let fields = self.apart(s);
        let mut from = 0;
        for (i, name) in ["scbk: ", "rnd_a: ", "rnd_b: ", "cuid: ", "s_enc: ", "s_mac1: ", "s_mac2: ", "last_their_mac: "].iter().enumerate() {
            let field = format!("{name}{:?}", &fields[start(i)..start(i + 1)]);
            from += shown[from..].find(&field).expect("a field that the Rust's session shows otherwise") + field.len();
        }
        assert_eq!(format!("{:?}", self.together::<S>(&fields)), shown);
    }

    fn apart<S>(&self, s: &Session<S>) -> [u8; BYTES] {
        let bytes = raw(s);
        let mut fields = [0; BYTES];
        for (i, at) in self.0.iter().enumerate() {
            fields[start(i)..start(i + 1)].copy_from_slice(&bytes[*at..][..FIELDS[i]]);
        }
        fields
    }

    fn together<S>(&self, fields: &[u8; BYTES]) -> Session<S> {
        assert_eq!(size_of::<Session<S>>(), BYTES);
        let mut s = MaybeUninit::<Session<S>>::zeroed();
        for (i, at) in self.0.iter().enumerate() {
            // the field stands inside the session, and any bytes are a value of it
            unsafe { s.as_mut_ptr().cast::<u8>().add(*at).copy_from(fields[start(i)..].as_ptr(), FIELDS[i]) };
        }
        unsafe { s.assume_init() }
    }
}

/// A session's bytes: it has no others than those of its fields.
fn raw<S>(s: &Session<S>) -> [u8; BYTES] {
    assert_eq!(size_of::<Session<S>>(), BYTES);
    unsafe { *(s as *const Session<S>).cast() }
}

fn together<S>(held: &Held) -> Session<S> {
    Places::get().together(&held.fields)
}

/// What a call made of a session.
fn apart<S>(end: u8, state: u8, s: &Session<S>) -> Held {
    Held { end, state, fields: Places::get().apart(s) }
}

const DONE: (u8, usize, usize) = (0, 0, 0);
const WRONG: (u8, usize, usize) = (16, 0, 0);

/// An answer, a block where the call answers one, and the session after it.
fn stepped(answer: (u8, usize, usize), block: Option<[u8; 16]>, held: &Held, name: Option<&'static str>) -> Answer {
    let mut o = Out::default();
    o.answer(answer).bytes(block.as_ref().map_or(&[], |b| &b[..])).bytes(&held.bytes());
    (o, name)
}

fn shown(answer: (u8, usize, usize), bytes: &[u8], name: Option<&'static str>) -> Answer {
    let mut o = Out::default();
    o.answer(answer).bytes(bytes);
    (o, name)
}

/// The handshake at the controller's end: the Rust's own calls.
fn controller(op: u8, held: Held, x: &[u8]) -> Answer {
    match op {
        CHALLENGE if held.at(0, 0) => {
            let next = together::<Disconnected>(&held).challenge(array(x, 0));
            stepped(DONE, None, &apart(0, 1, &next), None)
        }
        RECEIVE_CCRYPT if held.at(0, 1) => {
            let ccrypt = CCrypt { cuid: array(x, 0), rnd_b: array(x, 8), client_cryptogram: array(x, 16) };
            match together::<Challenged>(&held).receive_ccrypt(&ccrypt) {
                Ok(next) => stepped(DONE, None, &apart(0, 2, &next), None),
                Err((back, e)) => stepped(number(&e.into()), None, &apart(0, 0, &back), None),
            }
        }
        CONFIRM_RMAC_I if held.at(0, 2) => match together::<Cryptogrammed>(&held).confirm_rmac_i(&array(x, 0)) {
            Ok(next) => stepped(DONE, None, &apart(0, 3, &next), None),
            Err((back, e)) => stepped(number(&e.into()), None, &apart(0, 0, &back), None),
        },
        SERVER_CRYPTOGRAM if held.at(0, 2) => shown(DONE, &together::<Cryptogrammed>(&held).server_cryptogram(), None),
        INITIAL_RMAC if held.at(0, 2) => shown(DONE, &together::<Cryptogrammed>(&held).initial_rmac(), None),
        SERVER_CRYPTOGRAM | INITIAL_RMAC => shown(WRONG, &[0; 16], Some(WRONG_STATE)),
        _ => stepped(WRONG, None, &held, Some(WRONG_STATE)),
    }
}

/// The handshake at the reader's end, and the wipe, as the paper has them.
fn added(op: u8, mut held: Held, x: &[u8]) -> Answer {
    match op {
        RECEIVE_CHALLENGE if held.at(1, 0) => {
            let (a, b) = (array(x, 0), array(x, 8));
            let k = SessionKeys::derive(&held.scbk(), &a);
            held.set_keys(&k);
            held.set(1, &a);
            held.set(2, &b);
            held.state = 1;
            stepped(DONE, Some(client_cryptogram(&k.s_enc, &a, &b)), &held, Some(READER))
        }
        RECEIVE_SCRYPT if held.at(1, 1) => {
            if held.server()[..] == x[..16] {
                let first = held.first();
                held.set(7, &first);
                held.state = 3;
                stepped(DONE, Some(first), &held, Some(READER))
            } else {
                let mut back = Held { end: 1, state: 0, fields: [0; BYTES] };
                back.set(0, &held.scbk());
                back.set(3, &held.cuid());
                stepped((15, 0, 0), Some([0; 16]), &back, Some(READER))
            }
        }
        WIPE => {
            let mut o = Out::default();
            o.bytes(&Held { state: 0, fields: [0; BYTES], ..held }.bytes());
            (o, Some(WIPE_CALL))
        }
        _ => stepped(WRONG, Some([0; 16]), &held, Some(WRONG_STATE)),
    }
}

/// What a session that is Secure does, at either end.
fn secure(op: u8, held: Held, x: &[u8]) -> Answer {
    if !held.is_secure() {
        return match op {
            MAC => stepped(WRONG, Some([0; 16]), &held, Some(WRONG_STATE)),
            VERIFY => stepped(WRONG, None, &held, Some(WRONG_STATE)),
            KEYS => shown(WRONG, &[0; 48], Some(WRONG_STATE)),
            _ => shown(WRONG, &[0; 16], Some(WRONG_STATE)),
        };
    }
    let mut s = together::<Secure>(&held);
    match op {
        MAC => {
            let full = s.mac(x);
            stepped(DONE, Some(full), &apart(held.end, 3, &s), None)
        }
        VERIFY => {
            let answer = s.verify(&x[4..], &array(x, 0)).map_or_else(|e| number(&e.into()), |()| DONE);
            stepped(answer, None, &apart(held.end, 3, &s), None)
        }
        KEYS => {
            let k = s.keys();
            shown(DONE, &[k.s_enc, k.s_mac1, k.s_mac2].concat(), None)
        }
        _ => shown(DONE, s.last_other_mac(), None),
    }
}

/// Enciphering and deciphering on a session: a deciphering that is refused zeroes the data's length.
fn on_session(op: u8, held: &Held, room: usize, bytes: &[u8]) -> Answer {
    let counted = |answer, calls: u64, written: &[u8], name| into_buffer(room, answer, &calls.to_le_bytes(), written, name);
    if !held.is_secure() {
        return counted(WRONG, 0, &[], Some(WRONG_STATE));
    }
    let s = together::<Secure>(held);
    let before = calls();
    let (answer, written) = if op == SEAL_DATA {
        let hidden = s.seal_data(bytes);
        ((0, hidden.len(), 0), hidden)
    } else {
        deciphered(s.open_data(bytes), bytes.len())
    };
    if room < written.len() {
        return counted((18, written.len(), room), 0, &[], Some(NO_ROOM));
    }
    counted(answer, calls() - before, &written, None)
}

fn seal(held: &Held, room: usize, asked: &[u8], data: &[u8]) -> Answer {
    let sealed = |answer, calls: u64, held: &Held, written: &[u8], name| {
        into_buffer(room, answer, &[&calls.to_le_bytes()[..], &held.bytes()].concat(), written, name)
    };
    if !held.is_secure() {
        return sealed(WRONG, 0, held, &[], Some(WRONG_STATE));
    }
    let &[addr, sqn, from_reader, encrypt, code] = asked else { panic!("five bytes") };
    let sqn = match Sqn::new(sqn) {
        Ok(n) => n,
        Err(e) => return sealed(number(&e), 0, held, &[], Some(SQN_ABOVE_3)),
    };
    let direction = if from_reader != 0 { Direction::PdToAcu } else { Direction::AcuToPd };
    let mut s = together::<Secure>(held);
    let before = calls();
    let frame = frame::seal(&mut s, Address::from_raw(addr), sqn, direction, encrypt != 0, code, data);
    let made = calls() - before;
    let after = apart(held.end, 3, &s);
    match frame {
        Err(e) => {
            assert!(after == *held, "a sealing that the Rust refuses has moved its session");
            sealed(number(&e), 0, held, &[], (made > 0).then_some(TOO_LONG))
        }
        Ok(frame) if room < frame.len() => sealed((18, frame.len(), room), 0, held, &[], Some(NO_ROOM)),
        Ok(frame) => sealed((0, frame.len(), 0), made, &after, &frame, None),
    }
}

/// Where a payload was opened: in the work buffer or in the frame, start, length.
type Place = (bool, usize, usize);

fn unsealed(room: usize, answer: (u8, usize, usize), place: Place, calls: u64, held: &Held, written: &[u8], name: Option<&'static str>) -> Answer {
    let mut o = Out::default();
    o.bool(place.0).u64(place.1).u64(place.2).u64(calls as usize).bytes(&held.bytes());
    into_buffer(room, answer, &o.0, written, name)
}

fn unseal(held: &Held, room: usize, frame: &[u8]) -> Answer {
    let refused = |answer, calls, written: &[u8], name| unsealed(room, answer, (false, 0, 0), calls, held, written, name);
    if !held.is_secure() {
        return refused(WRONG, 0, &[], Some(WRONG_STATE));
    }
    let (p, used) = match ParsedPacket::parse(frame) {
        Ok(read) => read,
        Err(e) => return refused(number(&e), 0, &[], None),
    };
    let hidden = p.scb.is_some_and(|b| b.ty.is_encrypted());
    let d = p.data.len();
    if hidden && room < d {
        return refused((18, d, room), 0, &[], Some(SHORT_WORK));
    }
    let mut s = together::<Secure>(held);
    let before = calls();
    let opened = frame::unseal(&mut s, &p, &frame[..used]);
    let made = calls() - before;
    let after = apart(held.end, 3, &s);
    match opened {
        Err(e) => {
            assert!(!matches!(e, Error::ShortMac), "01 has it that ShortMac cannot arise");
            assert!(after == *held, "an unsealing that the Rust refuses has moved its session");
            let zeros = vec![0; if hidden { d } else { 0 }];
            refused(number(&e), made, &zeros, hidden.then_some(WIPED))
        }
        Ok(mut text) if hidden => {
            let n = text.len();
            text.resize(d, 0);
            unsealed(room, DONE, (true, 0, n), made, &after, &text, None)
        }
        Ok(text) => {
            assert_eq!(text, p.data);
            let start = at(frame, p.data);
            unsealed(room, DONE, (false, start, d), made, &after, &[], None)
        }
    }
}

/// The Rust answers a vector where ours answers a place, so this is the paper's alone.
fn payload_test(x: &[u8]) -> Answer {
    let (start, len) = (u64::from_le_bytes(array(x, 1)) as u128, u64::from_le_bytes(array(x, 9)) as u128);
    let frame = u32_at(x, 17);
    let size = if x[0] != 0 { x.len() - 21 - frame } else { frame };
    let end = start + len;
    shown(if end > size as u128 { (1, size, end.min(u64::MAX as u128) as usize) } else { DONE }, &[], None)
}

pub fn call(op: u8, input: &[u8]) -> Answer {
    match op {
        NEW => {
            let mut o = Out::default();
            o.bytes(&apart(0, 0, &Session::<Disconnected>::new(array(input, 0))).bytes());
            return (o, None);
        }
        NEW_READER => {
            let mut held = Held { end: 1, state: 0, fields: [0; BYTES] };
            held.set(0, &input[..16]);
            held.set(3, &input[16..24]);
            let mut o = Out::default();
            o.bytes(&held.bytes());
            return (o, Some(READER));
        }
        PAYLOAD_TEST => return payload_test(input),
        _ => {}
    }
    let (held, x) = (Held::read(input), &input[Held::LEN..]);
    let room = || u32_at(x, 0);
    match op {
        CHALLENGE | RECEIVE_CCRYPT | SERVER_CRYPTOGRAM | INITIAL_RMAC | CONFIRM_RMAC_I => controller(op, held, x),
        RECEIVE_CHALLENGE | RECEIVE_SCRYPT | WIPE => added(op, held, x),
        MAC | VERIFY | KEYS | LAST_OTHER_MAC => secure(op, held, x),
        SEAL_DATA | OPEN_DATA => on_session(op, &held, room(), &x[4..]),
        SEAL => seal(&held, room(), &x[4..9], &x[9..]),
        UNSEAL => unseal(&held, room(), &x[4..]),
        _ => unreachable!(),
    }
}
