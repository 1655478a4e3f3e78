//! Bodies of replies through the archive: some of each kind, read and refused, as docs/RULES.md, 13 has them.
use malstrink::*;

fn refused(code: u8, payload: &[u8]) {
    assert_eq!(Reply::read(code, payload), Err(Refusal::BadBody(code)), "{payload:?}");
}

/// Reads a body, and compares it, its code and its name.
fn reads(code: u8, payload: &[u8], name: &str, want: Reply<'_>) {
    let got = Reply::read(code, payload).unwrap();
    assert_eq!((got, got.code(), got.name()), (want, code, name));
}

#[test]
fn ack_and_nak() {
    reads(0x40, &[], "ACK", Reply::Ack);
    refused(0x40, &[0]);
    reads(0x41, &[3], "NAK", Reply::Nak { error: 3, rest: &[] });
    let rest = &[0xAA, 0xBB];
    reads(0x41, &[5, 0xAA, 0xBB], "NAK", Reply::Nak { error: 5, rest });
    refused(0x41, &[]);
}

#[test]
fn pdid() {
    let payload = [0xCA, 0xFE, 0x01, 2, 3, 0x78, 0x56, 0x34, 0x12, 4, 5, 6, 7];
    let want = Reply::PdId {
        vendor: [0xCA, 0xFE, 0x01],
        model: 2,
        version: 3,
        serial: 0x1234_5678,
        major: 4,
        minor: 5,
        build: 6,
    };
    reads(0x45, &payload[..12], "PDID", want);
    refused(0x45, &payload[..11]);
    refused(0x45, &payload);
}

#[test]
fn pdcap() {
    let payload = [1, 2, 3, 4, 5, 0xFF];
    let reply = Reply::read(0x46, &payload).unwrap();
    assert_eq!((reply.code(), reply.name()), (0x46, "PDCAP"));
    let triples = match reply {
        Reply::PdCap(triples) => triples,
        other => panic!("{other:?}"),
    };
    let triple = |function, compliance, number| Triple {
        function,
        compliance,
        number,
    };
    let both = [triple(1, 2, 3), triple(4, 5, 0xFF)];
    assert_eq!((triples.len(), triples.iter().len()), (2, 2));
    assert_eq!(triples.into_iter().collect::<Vec<_>>(), both);
    assert_eq!((triples.get(0), triples.get(1)), (Some(both[0]), Some(both[1])));
    // where 3 times i is past 64 bits
    for i in [2, usize::MAX / 3, usize::MAX / 3 + 1, usize::MAX] {
        assert_eq!(triples.get(i), None);
    }
    let mut iter = triples.iter();
    assert_eq!((iter.next(), iter.size_hint()), (Some(both[0]), (1, Some(1))));
    assert_eq!((iter.next(), iter.next(), iter.next()), (Some(both[1]), None, None));
    assert_eq!(iter.size_hint(), (0, Some(0)));
    assert_eq!(format!("{triples:?}"), format!("{both:?}"));
    for n in [0, 1, 2, 4, 5] {
        refused(0x46, &payload[..n]);
    }
    for n in 1..300 {
        match Reply::read(0x46, &[9; 900][..3 * n]) {
            Ok(Reply::PdCap(many)) => assert_eq!((many.len(), many.iter().count()), (n, n)),
            other => panic!("{other:?}"),
        }
    }
}

#[test]
fn lstatr() {
    reads(0x48, &[1, 0xFE], "LSTATR", Reply::LStatR { tamper: 1, power: 0xFE });
    for n in [0, 1, 3] {
        refused(0x48, &[0; 3][..n]);
    }
}

/// A RAW of so many bits that is accepted, and its badge.
fn badge(bits: u16, bytes: &[u8]) -> Option<u64> {
    let [low, high] = bits.to_le_bytes();
    let payload = [&[7, 1, low, high], bytes].concat();
    let want = Reply::Raw {
        reader: 7,
        format: 1,
        bits,
        bytes,
    };
    reads(0x50, &payload, "RAW", want);
    Reply::read(0x50, &payload).unwrap().badge()
}

#[test]
fn raw() {
    // 10001111 10100011 01000000 01; the six spare bits are no part of it
    assert_eq!(badge(26, &[0x8F, 0xA3, 0x40, 0x40]), Some(37_653_761));
    assert_eq!(badge(26, &[0x8F, 0xA3, 0x40, 0x7F]), Some(37_653_761));
    assert_eq!(badge(0, &[]), None);
    assert_eq!((badge(1, &[0x80]), badge(1, &[0x7F])), (Some(1), Some(0)));
    let bytes = [0x81, 0x23, 0x45, 0x67, 0x89, 0xAB, 0xCD, 0xEF, 0x80];
    assert_eq!(badge(64, &bytes[..8]), Some(0x8123_4567_89AB_CDEF));
    assert_eq!(badge(63, &bytes[..8]), Some(0x4091_A2B3_C4D5_E6F7));
    assert_eq!(badge(65, &bytes), None);
    assert_eq!(badge(257, &[0; 33]), None);
    assert_eq!(badge(65_535, &[0xFF; 8192]), None);
    let payload = [0, 1, 26, 0, 0x8F, 0xA3, 0x40, 0x40, 0];
    refused(0x50, &payload[..7]);
    refused(0x50, &payload);
    refused(0x50, &[0, 1, 0, 26, 0x8F, 0xA3, 0x40, 0x40]);
    refused(0x50, &[7, 0, 0, 0, 0]);
    for n in 0..4 {
        refused(0x50, &payload[..n]);
    }
}

/// A badge that was not read has a number only if it could have been.
#[test]
fn made_up_badges() {
    let made = |bits, bytes| Reply::Raw {
        reader: 0,
        format: 0,
        bits,
        bytes,
    };
    assert_eq!(made(8, &[5]).badge(), Some(5));
    assert_eq!(made(8, &[]).badge(), None);
    assert_eq!(made(8, &[5, 5]).badge(), None);
    assert_eq!(made(64, &[0; 9]).badge(), None);
    assert_eq!(made(65, &[0; 8]).badge(), None);
    assert_eq!(Reply::Ack.badge(), None);
}

#[test]
fn keypad() {
    let payload = [2, 3, b'1', b'2', 0x0D, 0x0D];
    let digits = &payload[2..5];
    reads(0x53, &payload[..5], "KEYPAD", Reply::Keypad { reader: 2, digits });
    let digits = &[];
    reads(0x53, &[9, 0], "KEYPAD", Reply::Keypad { reader: 9, digits });
    refused(0x53, &payload[..4]);
    refused(0x53, &payload);
    refused(0x53, &[9]);
    refused(0x53, &[]);
}

#[test]
fn unlisted_codes() {
    for code in 0..=255 {
        if ![0x40, 0x41, 0x45, 0x46, 0x48, 0x50, 0x53].contains(&code) {
            for n in [0, 1, 2, 4, 12, 32] {
                refused(code, &[0; 32][..n]);
            }
        }
    }
}

const BADGE: [u8; 8] = [0, 1, 26, 0, 0x8F, 0xA3, 0x40, 0x40];

/// Of a frame that is not sealed; its own refusal comes first.
#[test]
fn from_a_frame() {
    let packet = Packet {
        addr: Address::reply(5).unwrap(),
        control: ControlByte::new(Sqn::ZERO, true, false),
        block: None,
        code: 0x50,
        data: &BADGE,
    };
    let mut line = [0; 40];
    let frame = build(&packet, None, &mut line).unwrap();
    let reply = parse(frame).unwrap().reply().unwrap().unwrap();
    assert_eq!((reply.name(), reply.badge()), ("RAW", Some(37_653_761)));
    let data = &BADGE[..7];
    let frame = build(&Packet { data, ..packet }, None, &mut line).unwrap();
    assert_eq!(parse(frame).unwrap().reply(), Some(Err(Refusal::BadBody(0x50))));
    // from the controller, and to every reader: the code is a reply's, and the frame is none
    for addr in [Address::pd(5).unwrap(), Address::from_raw(0x7F)] {
        let frame = build(&Packet { addr, ..packet }, None, &mut line).unwrap();
        assert_eq!(parse(frame).unwrap().reply(), None);
    }
    let frame = build(&packet, None, &mut line).unwrap();
    let mut cut = frame.to_vec();
    cut[8] ^= 1;
    assert!(matches!(parse(&cut), Err(Refusal::BadCrc { .. })));
}

fn secured() -> (Session, Session) {
    let (scbk, a, b, id) = (b"key of cabinet 7", b"random.A", b"random.B", b"cabinet7");
    let (mut c, mut r) = (Session::new(scbk), Session::new_reader(scbk, id));
    c.challenge(a).unwrap();
    let client = r.receive_challenge(a, b).unwrap();
    c.receive_ccrypt(id, b, &client).unwrap();
    let first = r.receive_scrypt(&c.server_cryptogram().unwrap()).unwrap();
    c.confirm_rmac_i(&first).unwrap();
    (c, r)
}

/// A sealed frame's bytes are not read as they stand there, also where they are not encrypted.
#[test]
fn from_a_sealed_frame() {
    let (mut c, mut r) = secured();
    for encrypt in [false, true] {
        let message = Message {
            addr: Address::reply(5).unwrap(),
            sqn: Sqn::ZERO,
            direction: Direction::FromReader,
            encrypt,
            code: 0x50,
            data: &BADGE,
        };
        let (mut line, mut work) = ([0; 64], [0; 64]);
        let frame = r.seal(&message, &mut line).answer.unwrap();
        let parsed = parse(frame).unwrap();
        assert_eq!(parsed.reply(), None);
        let payload = c.unseal(frame, &mut work).answer.unwrap();
        let reply = Reply::read(parsed.packet.code, payload).unwrap();
        assert_eq!(reply.badge(), Some(37_653_761));
    }
}
