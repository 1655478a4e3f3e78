//! Sealing and unsealing. Each call moves the session's chain, so what is timed is a run of frames from one session on, as in a
//! conversation. The Rust's side of unsealing is its parse and its unseal, which ours does in one call.
use crate::clock::{Side, least, round};
use crate::ours;
use crate::rows::{Times, bytes, over};
use osdp::packet::{Address, ParsedPacket, Sqn};
use osdp::reply::CCrypt;
use osdp::secure::crypto::{SessionKeys, client_cryptogram};
use osdp::secure::frame::{Direction, seal, unseal};
use osdp::secure::session::{Disconnected, Secure, Session};
use std::hint::black_box as hidden;

const SCBK: [u8; 16] = *b"0123456789:;<=>?";
const RND_A: [u8; 8] = *b"\xA0\xA1\xA2\xA3\xA4\xA5\xA6\xA7";
const RND_B: [u8; 8] = *b"\xB0\xB1\xB2\xB3\xB4\xB5\xB6\xB7";
const CUID: [u8; 8] = *b"\x00\x06\x8E\x00\x00\x00\x00\x01";
const ADDR: u8 = 5;
const SQN: u8 = 2;
const CODE: u8 = 0x69;

/// A controller's session after the handshake.
fn theirs() -> Session<Secure> {
    let keys = SessionKeys::derive(&SCBK, &RND_A);
    let answer = CCrypt { cuid: CUID, rnd_b: RND_B, client_cryptogram: client_cryptogram(&keys.s_enc, &RND_A, &RND_B) };
    let Ok(s) = Session::<Disconnected>::new(SCBK).challenge(RND_A).receive_ccrypt(&answer) else { panic!("the cryptogram") };
    let first = s.initial_rmac();
    let Ok(s) = s.confirm_rmac_i(&first) else { panic!("the first chain value") };
    s
}

/// The same, as the C interface has it.
fn session(s: &Session<Secure>) -> ours::Session {
    let k = s.keys();
    let keys = ours::Keys { s_enc: k.s_enc, s_mac1: k.s_mac1, s_mac2: k.s_mac2 };
    ours::Session { end: 0, state: 3, scbk: SCBK, rnd_a: RND_A, rnd_b: RND_B, cuid: CUID, keys, chain: *s.last_other_mac() }
}

/// How many frames there are in a run for n bytes of payload.
fn run(n: usize) -> usize {
    (2048 / (n + 16)).clamp(4, 64)
}

fn seal_one(s: &mut Session<Secure>, encrypt: bool, data: &[u8]) -> Vec<u8> {
    seal(s, Address::from_raw(ADDR), Sqn::new(SQN).unwrap(), Direction::AcuToPd, encrypt, CODE, data).unwrap()
}

fn unseal_one(s: &mut Session<Secure>, frame: &[u8]) -> Vec<u8> {
    let (p, n) = ParsedPacket::parse(frame).unwrap();
    unseal(s, &p, &frame[..n]).unwrap()
}

fn timed<'a>(ours: impl FnMut() -> f64 + 'a, theirs: impl Fn() -> f64 + Copy + 'a) -> Times {
    let mut sides: Vec<Side> = vec![Box::new(ours), over(false, theirs)];
    if osdp::has_instructions() {
        sides.push(over(true, theirs));
    }
    least(sides)
}

pub fn sealing(n: usize, encrypt: bool) -> Times {
    let data = bytes(n);
    let (mut a, mut b) = (theirs(), session(&theirs()));
    let mut out = vec![0; seal_one(&mut theirs(), encrypt, &data).len()];
    for i in 0..run(n) {
        osdp::use_instructions(i % 2 == 1 && osdp::has_instructions());
        let frame = seal_one(&mut a, encrypt, &data);
        let r = ours::seal(&b, [ADDR, SQN, 0, encrypt.into(), CODE], &data, &mut out);
        assert_eq!(r.answer, ours::Answer { refusal: 0, a: frame.len(), b: 0 });
        assert_eq!(out, frame);
        assert!(r.session == session(&a), "the sessions differ");
        b = r.session;
    }
    let ours = || {
        let mut s = session(&theirs());
        round(run(n), |_| s = ours::seal(&s, [ADDR, SQN, 0, encrypt.into(), CODE], hidden(&data), hidden(&mut out)).session)
    };
    let theirs = || {
        let mut s = theirs();
        round(run(n), |_| _ = hidden(seal_one(&mut s, encrypt, hidden(&data))))
    };
    timed(ours, theirs)
}

pub fn unsealing(n: usize, encrypt: bool) -> Times {
    let data = bytes(n);
    let mut from = theirs();
    let frames: Vec<_> = (0..run(n)).map(|_| seal_one(&mut from, encrypt, &data)).collect();
    let (mut a, mut b, mut work) = (theirs(), session(&theirs()), vec![0; n / 16 * 16 + 16]);
    for (i, f) in frames.iter().enumerate() {
        osdp::use_instructions(i % 2 == 1 && osdp::has_instructions());
        assert_eq!(unseal_one(&mut a, f), data);
        let r = ours::unseal(&b, f, &mut work);
        assert_eq!(r.answer, ours::Answer { refusal: 0, a: 0, b: 0 });
        let place = if r.in_work { &work } else { f };
        assert_eq!(place[r.start..r.start + r.len], data);
        assert!(r.session == session(&a), "the sessions differ");
        b = r.session;
    }
    let ours = || {
        let mut s = session(&theirs());
        round(run(n), |i| s = ours::unseal(&s, hidden(&frames[i]), hidden(&mut work)).session)
    };
    let theirs = || {
        let mut s = theirs();
        round(run(n), |i| _ = hidden(unseal_one(&mut s, hidden(&frames[i]))))
    };
    timed(ours, theirs)
}
