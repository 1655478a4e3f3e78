//! Sessions through the archive: the handshake at both ends, sealing and unsealing, and what is refused (docs/RULES.md, 7 to 9).
use malstrink::*;

const SCBK: [u8; 16] = *b"key of cabinet 7";

fn secured() -> (Session, Session) {
    let mut c = Session::new(&SCBK);
    let mut r = Session::new_reader(&SCBK, b"cabinet7");
    assert_eq!((c.end(), r.end()), (End::Controller, End::Reader));
    c.challenge(b"random.A").unwrap();
    let client = r.receive_challenge(b"random.A", b"random.B").unwrap();
    assert_eq!((c.state(), r.state()), (State::Challenged, State::Challenged));
    c.receive_ccrypt(b"cabinet7", b"random.B", &client).unwrap();
    assert_eq!(c.state(), State::Cryptogrammed);
    let first = r.receive_scrypt(&c.server_cryptogram().unwrap()).unwrap();
    assert_eq!(c.initial_rmac(), Ok(first));
    c.confirm_rmac_i(&first).unwrap();
    assert_eq!((c.state(), r.state()), (State::Secure, State::Secure));
    (c, r)
}

fn message(encrypt: bool, data: &[u8]) -> Message<'_> {
    let (addr, sqn) = (Address::pd(5).unwrap(), Sqn::new(1).unwrap());
    Message {
        addr,
        sqn,
        direction: Direction::FromController,
        encrypt,
        code: 0x69,
        data,
    }
}

#[test]
fn keys_and_chain_are_those_of_the_handshake() {
    let (c, r) = secured();
    let k = SessionKeys::derive(&SCBK, b"random.A");
    assert!(c.keys() == Ok(k.clone()) && r.keys() == Ok(k.clone()));
    let server = server_cryptogram(&k.s_enc, b"random.A", b"random.B");
    let first = initial_rmac(&k.s_mac1, &k.s_mac2, &server);
    assert_eq!((c.last_other_mac(), r.last_other_mac()), (Ok(first), Ok(first)));
}

#[test]
fn frames_pass_both_ways() {
    let (mut c, mut r) = secured();
    let payload = [0x5A; 17];
    for (encrypt, n, len, calls) in [
        (true, 0, 30, 3),
        (true, 15, 30, 3),
        (true, 16, 46, 5),
        (true, 17, 46, 5),
        (false, 8, 22, 1),
        (false, 9, 23, 2),
    ] {
        let (mut line, mut work) = ([0xEE; 64], [0xEE; 64]);
        let sealed = c.seal(&message(encrypt, &payload[..n]), &mut line);
        let frame = sealed.answer.unwrap();
        assert_eq!((frame.len(), sealed.calls), (len, calls));
        let ty = if encrypt { ScsType::Scs17 } else { ScsType::Scs15 };
        assert_eq!(parse(frame).unwrap().packet.block, Some(Block { ty, data: &[] }));
        let opened = r.unseal(frame, &mut work);
        assert_eq!(
            opened,
            Counted {
                answer: Ok(&payload[..n]),
                calls
            }
        );
        assert!(line[len..].iter().chain(&work[len..]).all(|b| *b == 0xEE));
        assert_eq!(c.last_other_mac(), r.last_other_mac());
        // and back
        let reply = Message {
            direction: Direction::FromReader,
            ..message(encrypt, &payload[..n])
        };
        let frame = r.seal(&reply, &mut line).answer.unwrap();
        assert_eq!(
            c.unseal_place(frame, &mut work).answer.map(|p| (p.in_work, p.len)),
            Ok((encrypt, n))
        );
    }
}

#[test]
fn a_refused_frame_moves_nothing() {
    let (mut c, mut r) = secured();
    let (mut line, mut work) = ([0; 64], [0xEE; 64]);
    let frame = c.seal(&message(true, b"a red lamp"), &mut line).answer.unwrap();
    let chain = r.last_other_mac();
    let short = r.unseal(frame, &mut work[..15]);
    assert_eq!(
        (short.answer, short.calls),
        (Err(Refusal::NoRoom { need: 16, have: 15 }), 0)
    );
    assert_eq!(work, [0xEE; 64]);
    assert_eq!(
        r.unseal(&frame[..29], &mut work).answer,
        Err(Refusal::Truncated { have: 29, need: 30 })
    );
    // the MAC is wrong, the CRC right
    let mut spoilt = frame.to_vec();
    spoilt[24] ^= 1;
    let crc = crc16(&spoilt[..28]).to_le_bytes();
    spoilt[28..].copy_from_slice(&crc);
    assert_eq!(
        r.unseal(&spoilt, &mut work),
        Counted {
            answer: Err(Refusal::BadCryptogram),
            calls: 3
        }
    );
    assert_eq!((&work[..16], &work[16..]), (&[0; 16][..], &[0xEE; 48][..]));
    assert_eq!((r.last_other_mac(), r.state()), (chain, State::Secure));
    assert_eq!(r.unseal(frame, &mut work).answer, Ok(&b"a red lamp"[..]));
    // the same frame again
    assert!(matches!(
        r.unseal(frame, &mut work).answer,
        Err(Refusal::BadPadding | Refusal::BadCryptogram)
    ));
    let poll = [0x53, 0x05, 0x08, 0x00, 0x04, 0x60, 0xBC, 0x89];
    assert_eq!(r.unseal(&poll, &mut work).answer, Err(Refusal::NotSecure));
}

#[test]
fn limits_of_sealing() {
    let (mut c, mut r) = secured();
    let (mut line, mut work, data) = (vec![0; 65_535], vec![0; 65_535], vec![0x5A; 65_522]);
    for (encrypt, n, len) in [(true, 65_519, 65_534), (false, 65_521, 65_535)] {
        let frame = c.seal(&message(encrypt, &data[..n]), &mut line).answer.unwrap();
        assert_eq!(frame.len(), len);
        assert_eq!(r.unseal(frame, &mut work).answer, Ok(&data[..n]));
        let chain = c.last_other_mac();
        let over = c.seal(&message(encrypt, &data[..n + 1]), &mut line);
        let need = if encrypt { 65_550 } else { 65_536 };
        assert_eq!(
            over,
            Counted {
                answer: Err(Refusal::BufferOverflow { need, have: 65_535 }),
                calls: 0
            }
        );
        assert_eq!(c.last_other_mac(), chain);
    }
}

#[test]
fn a_failed_handshake_starts_again() {
    let mut c = Session::new(&SCBK);
    c.challenge(b"random.A").unwrap();
    assert_eq!(
        c.receive_ccrypt(b"cabinet7", b"random.B", &[0; 16]),
        Err(Refusal::BadCryptogram)
    );
    assert_eq!(c.state(), State::Disconnected);
    c.challenge(b"random.A").unwrap();
    let k = SessionKeys::derive(&SCBK, b"random.A");
    c.receive_ccrypt(
        b"cabinet7",
        b"random.B",
        &client_cryptogram(&k.s_enc, b"random.A", b"random.B"),
    )
    .unwrap();
    assert_eq!(c.confirm_rmac_i(&[0; 16]), Err(Refusal::BadCryptogram));
    assert_eq!(c.state(), State::Disconnected);

    let mut r = Session::new_reader(&SCBK, b"cabinet7");
    r.receive_challenge(b"random.A", b"random.B").unwrap();
    assert_eq!(r.receive_scrypt(&[0; 16]), Err(Refusal::BadCryptogram));
    assert_eq!(r.state(), State::Disconnected);
    r.receive_challenge(b"random.A", b"random.B").unwrap();
    r.receive_scrypt(&server_cryptogram(&k.s_enc, b"random.A", b"random.B"))
        .unwrap();
    assert_eq!(r.state(), State::Secure);
}

#[test]
fn another_state_or_end_is_refused() {
    let (mut c, mut r) = secured();
    let wrong = Err(Refusal::WrongState);
    assert_eq!(c.challenge(&[0; 8]), wrong);
    assert_eq!(c.receive_ccrypt(&[0; 8], &[0; 8], &[0; 16]), wrong);
    assert_eq!(c.confirm_rmac_i(&[0; 16]), wrong);
    assert_eq!(c.server_cryptogram(), Err(Refusal::WrongState));
    assert_eq!(c.initial_rmac(), Err(Refusal::WrongState));
    assert_eq!(c.receive_challenge(&[0; 8], &[0; 8]), Err(Refusal::WrongState));
    assert_eq!(c.receive_scrypt(&[0; 16]), Err(Refusal::WrongState));
    assert_eq!(r.challenge(&[0; 8]), wrong);
    assert_eq!((c.state(), r.state()), (State::Secure, State::Secure));

    let mut fresh = Session::new(&SCBK);
    let mut out = [0xEE; 64];
    let refused = Counted {
        answer: Err(Refusal::WrongState),
        calls: 0,
    };
    assert_eq!(fresh.mac(b"bytes"), Err(Refusal::WrongState));
    assert_eq!(fresh.verify(b"bytes", &[0; 4]), wrong);
    assert_eq!(fresh.keys(), Err(Refusal::WrongState));
    assert_eq!(fresh.last_other_mac(), Err(Refusal::WrongState));
    assert_eq!(fresh.seal_data(b"text", &mut out), refused);
    assert_eq!(fresh.open_data(&[0; 16], &mut out), refused);
    assert_eq!(fresh.seal(&message(true, b"text"), &mut out), refused);
    assert_eq!(fresh.unseal(&[0x53], &mut [0; 4]), refused);
    assert_eq!(out, [0xEE; 64]);
}

#[test]
fn mac_and_data_on_a_session() {
    let (mut c, mut r) = secured();
    let (k, chain) = (c.keys().unwrap(), c.last_other_mac().unwrap());
    let (mut out, mut same, mut back) = ([0; 32], [0; 32], [0; 32]);
    let hidden = c.seal_data(b"a payload of 17 b", &mut out);
    assert_eq!(
        hidden,
        encrypt_data(&k.s_enc, &complement_icv(&chain), b"a payload of 17 b", &mut same)
    );
    let opened = r.open_data(hidden.answer.unwrap(), &mut back);
    assert_eq!(
        opened,
        Counted {
            answer: Ok(&b"a payload of 17 b"[..]),
            calls: 2
        }
    );

    let full = c.mac(b"some bytes").unwrap();
    assert_eq!(full, cbc_mac(b"some bytes", &chain, &k.s_mac1, &k.s_mac2).full);
    assert_eq!(c.last_other_mac(), Ok(full));
    let [a, b, d, e] = [full[0], full[1], full[2], full[3]];
    assert_eq!(r.verify(b"some bytes", &[a, b, d, e ^ 1]), Err(Refusal::BadCryptogram));
    assert_eq!(r.last_other_mac(), Ok(chain));
    assert_eq!(r.verify(b"some bytes", &[a, b, d, e]), Ok(()));
    assert_eq!(r.last_other_mac(), Ok(full));
}

#[test]
fn places() {
    let (frame, work) = (&[1, 2, 3][..], &[4, 5][..]);
    let place = |in_work, start, len| Place { in_work, start, len };
    assert_eq!(payload(frame, work, place(false, 1, 2)), Ok(&[2, 3][..]));
    assert_eq!(payload(frame, work, place(true, 0, 1)), Ok(&[4][..]));
    assert_eq!(
        payload(frame, work, place(true, 0, 3)),
        Err(Refusal::Truncated { have: 2, need: 3 })
    );
    let past = payload(frame, work, place(false, usize::MAX, 2));
    assert_eq!(
        past,
        Err(Refusal::Truncated {
            have: 3,
            need: usize::MAX
        })
    );
}

#[test]
fn wiping() {
    let (mut c, _) = secured();
    c.wipe();
    assert_eq!((c.end(), c.state()), (End::Controller, State::Disconnected));
    // the base key is gone: the keys are now those of a key of zeros
    let k = SessionKeys::derive(&[0; 16], b"random.A");
    c.challenge(b"random.A").unwrap();
    c.receive_ccrypt(
        b"cabinet7",
        b"random.B",
        &client_cryptogram(&k.s_enc, b"random.A", b"random.B"),
    )
    .unwrap();
    assert_eq!(
        format!("{c:?}"),
        "Session { end: Controller, state: Cryptogrammed, .. }"
    );
}

#[test]
fn dropping_writes_zeros() {
    let mut held = std::mem::ManuallyDrop::new(secured().0);
    let at = (&*held as *const Session).cast::<u8>();
    // the memory stays ours: only what Drop does to it is looked at
    let bytes = |at: *const u8| unsafe { std::slice::from_raw_parts(at, std::mem::size_of::<Session>()) }.to_vec();
    assert!(bytes(at).iter().any(|b| *b != 0));
    unsafe { std::mem::ManuallyDrop::drop(&mut held) };
    assert!(bytes(at).iter().all(|b| *b == 0));
}
