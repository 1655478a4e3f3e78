//! Frames, keys, padding, MAC and CBC through the archive: the worked cases of docs/RULES.md, 5 and 10, FIPS 197 and SP 800-38A.
use malstrink::*;

const POLL: [u8; 8] = [0x53, 0x05, 0x08, 0x00, 0x04, 0x60, 0xBC, 0x89];

#[test]
fn sums() {
    assert_eq!(checksum8(&[]), 0);
    assert_eq!(checksum8(&[0x53, 0x05, 0x07, 0x00, 0x00, 0x60]), 0x41);
    assert_eq!(crc16(&POLL[..6]), 0x89BC);
    assert_eq!(crc16(&[]), 0x1D0F);
}

#[test]
fn small_kinds() {
    assert_eq!(Address::pd(5).map(Address::as_byte), Ok(5));
    assert_eq!(Address::reply(5).map(Address::as_byte), Ok(0x85));
    assert_eq!(Address::pd(0x80), Err(Refusal::BadAddress(0x80)));
    assert_eq!(Address::reply(0xFF), Err(Refusal::BadAddress(0xFF)));
    assert_eq!(Sqn::new(4), Err(Refusal::BadSqn(4)));
    let mut sqn = Sqn::ZERO;
    let seen: Vec<u8> = (0..5)
        .map(|_| {
            sqn = sqn.next();
            sqn.value()
        })
        .collect();
    assert_eq!(seen, [1, 2, 3, 1, 2]);
    for byte in 0..=255 {
        match ControlByte::decode(byte) {
            Ok(c) => assert!(c.encode() == byte && byte < 16),
            Err(e) => assert!(e == Refusal::BadControlByte(byte) && byte > 15),
        }
        match ScsType::from_byte(byte) {
            Ok(ty) => assert_eq!(ty.as_byte(), byte),
            Err(e) => assert!(e == Refusal::BadSecurityBlock(byte) && !(0x11..=0x18).contains(&byte)),
        }
    }
}

/// docs/RULES.md, 2.2 to 2.4, over every byte.
#[test]
fn what_small_kinds_tell() {
    assert_eq!((Address::BROADCAST.as_byte(), Address::REPLY_FLAG), (0x7F, 0x80));
    for byte in 0..=255 {
        let a = Address::from_raw(byte);
        assert_eq!(
            (a.as_byte(), a.pd_addr(), a.is_reply()),
            (byte, byte % 128, byte >= 128)
        );
        assert_eq!(a.is_broadcast(), byte == 0x7F || byte == 0xFF);
        if byte < 128 {
            let (command, reply) = (Address::pd(byte).unwrap(), Address::reply(byte).unwrap());
            assert_eq!((command.pd_addr(), command.is_reply()), (byte, false));
            assert_eq!((reply.pd_addr(), reply.is_reply()), (byte, true));
        }
        if let Ok(ty) = ScsType::from_byte(byte) {
            assert_eq!(ty.has_mac(), (0x15..=0x18).contains(&byte));
            assert_eq!(ty.is_encrypted(), byte == 0x17 || byte == 0x18);
            assert_eq!(ty.is_handshake(), (0x11..=0x14).contains(&byte));
        }
        if let Ok(c) = ControlByte::decode(byte) {
            assert_eq!(c, ControlByte::new(c.sqn, c.use_crc(), c.has_scb()));
            let flags = |on: bool, bit: u8| if on { bit } else { 0 };
            let (crc, block) = (
                flags(c.use_crc(), ControlByte::USE_CRC),
                flags(c.has_scb(), ControlByte::HAS_SCB),
            );
            assert_eq!(c.sqn.value() + crc + block, byte);
        }
    }
    assert_eq!((ControlByte::USE_CRC, ControlByte::HAS_SCB), (4, 8));
    let block = |data| Block {
        ty: ScsType::Scs12,
        data,
    };
    assert_eq!((block(&[]).wire_len(), block(&[7, 8]).wire_len()), (2, 4));
    assert!(Trailer::Crc(0).is_crc() && !Trailer::Checksum(0).is_crc());
}

fn truncated<T>(have: usize, need: usize) -> Result<T, Refusal> {
    Err(Refusal::Truncated { have, need })
}

fn length<T>(n: usize) -> Result<T, Refusal> {
    Err(Refusal::BadLength { declared: n, actual: n })
}

/// A frame of nine bytes whose control byte says that a block follows.
fn with_block(end: [u8; 4]) -> Vec<u8> {
    [&[0x53, 5, 9, 0, 8][..], &end].concat()
}

#[test]
fn reading() {
    let p = parse(&POLL).unwrap();
    assert_eq!((p.packet.addr, p.packet.code, p.len), (Address::from_raw(5), 0x60, 8));
    assert_eq!((p.packet.block, p.packet.data, p.mac), (None, &[][..], None));
    assert_eq!(p.trailer, Trailer::Crc(0x89BC));
    assert_eq!(
        parse(&[0x53, 5, 7, 0, 0, 0x60, 0x41]).map(|p| p.trailer),
        Ok(Trailer::Checksum(0x41))
    );
    let frame = with_block([0x02, 0x11, 0x60, 0x24]);
    assert_eq!(
        parse(&frame).unwrap().packet.block,
        Some(Block {
            ty: ScsType::Scs11,
            data: &[]
        })
    );
    assert_eq!(
        Block::read(&[4, 0x12, 7, 8, 9]),
        Ok(Block {
            ty: ScsType::Scs12,
            data: &[7, 8]
        })
    );
    let head = Head::read(&POLL[..5]).unwrap();
    assert_eq!((head.addr.as_byte(), head.len, head.control.encode()), (5, 8, 4));
}

#[test]
fn refused_reading() {
    assert_eq!(parse(&POLL[..7]), truncated(7, 8));
    assert_eq!(parse(&[]), truncated(0, 5));
    let mut wrong = POLL;
    wrong[7] = 0x88;
    assert_eq!(
        parse(&wrong),
        Err(Refusal::BadCrc {
            got: 0x88BC,
            want: 0x89BC
        })
    );
    assert_eq!(
        parse(&[0x53, 5, 7, 0, 0, 0x60, 0x40]),
        Err(Refusal::BadChecksum { got: 0x40, want: 0x41 })
    );
    assert_eq!(parse(&[0x53, 5, 0, 0, 4]), length(0));
    assert_eq!(
        parse(&[0x53, 5, 8, 0, 0x14, 0x60, 0xBC, 0x89]),
        Err(Refusal::BadControlByte(0x14))
    );
    assert_eq!(parse(&[0x54, 5, 8, 0, 4, 0x60, 0xBC, 0x89]), Err(Refusal::BadSom(0x54)));
    assert_eq!(
        parse(&with_block([0x01, 0x15, 0x60, 0])),
        Err(Refusal::BadSecurityBlockLength(0x15))
    );
    assert_eq!(parse(&with_block([0x05, 0x15, 0x60, 0])), truncated(4, 5));
    assert_eq!(
        parse(&with_block([0x02, 0x19, 0x60, 0])),
        Err(Refusal::BadSecurityBlock(0x19))
    );
    assert_eq!(parse(&with_block([0x02, 0x15, 0x60, 0])), length(9));
    assert_eq!(Block::read(&[1]), Err(Refusal::Truncated { have: 1, need: 2 }));
}

/// The head against the parse, on every part of some lines from their start, with every control byte, and LEN from 0 to 9 and the
/// frame's own.
#[test]
fn head_and_parse() {
    let mut out = [0; 40];
    let sealed = build(&sealed(), Some([9, 8, 7, 6]), &mut out).unwrap();
    let (plain, too_long) = (with_block([2, 0x11, 0x60, 0x24]), with_block([5, 0x15, 0x60, 0]));
    let mut accepted = 0;
    for frame in [&POLL[..], &[0x53, 5, 7, 0, 0, 0x60, 0x41], &plain, &too_long, sealed] {
        for (len, control) in (0..10)
            .chain([frame[2]])
            .flat_map(|len| (0..=255).map(move |c| (len, c)))
        {
            let mut line = [frame, &POLL].concat();
            (line[2], line[4]) = (len, control);
            for n in 0..=line.len() {
                accepted += u32::from(agree(&line, n));
            }
            line[0] = 0x54;
            assert_eq!(Head::read(&line), Err(Refusal::BadSom(0x54)));
            assert_eq!(
                (parse(&line), parse(&line[..5])),
                (Err(Refusal::BadSom(0x54)), Err(Refusal::BadSom(0x54)))
            );
        }
    }
    assert!(accepted > 0);
    assert_eq!(Head::read(&[0x53, 5, 0xFE, 0xFF, 4]).map(|h| h.len), Ok(65_534));
}

/// The head and the parse of the first n bytes of a line, whose first one is 53 hex. Tells whether they were accepted.
fn agree(line: &[u8], n: usize) -> bool {
    let (head, parsed) = (Head::read(&line[..n]), parse(&line[..n]));
    if n < 5 {
        assert_eq!((head, parsed), (truncated(n, 5), truncated(n, 5)));
        return false;
    }
    let (len, control) = (usize::from(line[2]), line[4]);
    if control > 15 {
        let refusal = Refusal::BadControlByte(control);
        assert_eq!((head, parsed), (Err(refusal), Err(refusal)));
        return false;
    }
    let head = head.unwrap();
    assert_eq!(
        (head.addr.as_byte(), head.len, head.control.encode()),
        (line[1], len, control)
    );
    if n < len {
        assert_eq!(parsed, truncated(n, len));
    } else {
        assert_eq!(parsed, parse(&line[..len.max(5)]));
    }
    if let Ok(p) = parsed {
        assert_eq!(
            (p.packet.addr, p.len, p.packet.control),
            (head.addr, head.len, head.control)
        );
    }
    parsed.is_ok()
}

fn sealed() -> Packet<'static> {
    Packet {
        addr: Address::reply(5).unwrap(),
        control: ControlByte {
            sqn: Sqn::new(2).unwrap(),
            crc: true,
            block: true,
        },
        block: Some(Block {
            ty: ScsType::Scs16,
            data: &[1, 2, 3],
        }),
        code: 0x40,
        data: b"payload",
    }
}

#[test]
fn building() {
    let sealed = sealed();
    let mut out = [0xEE; 40];
    let body = build_body(&sealed, &mut out).unwrap().to_vec();
    assert_eq!(
        body,
        [&[0x53, 0x85, 24, 0, 0x0E, 5, 0x16, 1, 2, 3, 0x40][..], b"payload"].concat()
    );
    let frame = build(&sealed, Some([9, 8, 7, 6]), &mut out).unwrap().to_vec();
    assert_eq!((frame.len(), &out[24..]), (24, &[0xEE; 16][..]));
    // read, then built again
    let p = parse(&frame).unwrap();
    assert_eq!((p.packet, p.mac), (sealed, Some([9, 8, 7, 6])));
    assert_eq!(build(&p.packet, p.mac, &mut out), Ok(&frame[..]));
}

#[test]
fn refused_building() {
    let sealed = sealed();
    let mut out = [0xEE; 40];
    assert_eq!(build(&sealed, None, &mut out), Err(Refusal::BadMac));
    assert_eq!(
        build(&sealed, Some([0; 4]), &mut out[..23]),
        Err(Refusal::NoRoom { need: 24, have: 23 })
    );
    let poll = Packet {
        block: None,
        data: &[],
        ..sealed
    };
    assert_eq!(build(&poll, None, &mut out), Err(Refusal::BadControlByte(0x0E)));
    let long = [0; 254];
    let block = Some(Block {
        ty: ScsType::Scs11,
        data: &long,
    });
    assert_eq!(
        build(&Packet { block, ..sealed }, None, &mut out),
        Err(Refusal::BlockTooLong(254))
    );
    assert_eq!(out, [0xEE; 40]);
}

#[test]
fn limits_of_building() {
    let sealed = sealed();
    let data = vec![0; 65_527];
    let packet = Packet {
        control: ControlByte {
            block: false,
            ..sealed.control
        },
        block: None,
        data: &data,
        ..sealed
    };
    assert_eq!(build(&packet, None, &mut vec![0; 70_000]).map(<[u8]>::len), Ok(65_535));
    let data = vec![0; 65_528];
    let too_long = build(&Packet { data: &data, ..packet }, None, &mut [0; 40]).map(<[u8]>::len);
    assert_eq!(
        too_long,
        Err(Refusal::BufferOverflow {
            need: 65_536,
            have: 65_535
        })
    );
}

fn hex<const N: usize>(text: &str) -> [u8; N] {
    let mut bytes = [0; N];
    for (i, b) in bytes.iter_mut().enumerate() {
        *b = u8::from_str_radix(&text[2 * i..2 * i + 2], 16).unwrap();
    }
    bytes
}

#[test]
fn keys() {
    // FIPS 197, C.1
    let key = hex("000102030405060708090a0b0c0d0e0f");
    let (plain, hidden) = (
        hex("00112233445566778899aabbccddeeff"),
        hex("69c4e0d86a7b0430d8cdb78070b4c55a"),
    );
    assert_eq!(aes_encrypt(&key, &plain), hidden);
    assert_eq!(aes_decrypt(&key, &hidden), plain);

    let template = |tag: u8| [&[1, tag][..], b"random", &[0; 8]].concat().try_into().unwrap();
    let k = SessionKeys::derive(&key, b"random.A");
    assert_eq!(k.s_enc, aes_encrypt(&key, &template(0x82)));
    assert_eq!(k.s_mac1, aes_encrypt(&key, &template(0x01)));
    assert_eq!(k.s_mac2, aes_encrypt(&key, &template(0x02)));
    assert_eq!(
        client_cryptogram(&k.s_enc, b"random.A", b"random.B"),
        aes_encrypt(&k.s_enc, b"random.Arandom.B")
    );
    let server = server_cryptogram(&k.s_enc, b"random.A", b"random.B");
    assert_eq!(server, aes_encrypt(&k.s_enc, b"random.Brandom.A"));
    assert_eq!(
        initial_rmac(&k.s_mac1, &k.s_mac2, &server),
        aes_encrypt(&k.s_mac2, &aes_encrypt(&k.s_mac1, &server))
    );
    let both = hex("0001020304050607fffefdfcfbfaf9f8");
    assert_eq!(
        diversify_scbk_legacy(&key, &[0, 1, 2, 3, 4, 5, 6, 7]),
        aes_encrypt(&key, &both)
    );
    assert_eq!(format!("{k:?}"), "SessionKeys { .. }");
}

#[test]
fn keys_are_the_same_only_in_every_byte() {
    assert!(same(&[], &[]) && same(b"one key", b"one key"));
    assert!(!same(b"one", b"one key") && !same(b"one key", b"one kez") && !same(b"one key", b"pne key"));
    let k = SessionKeys::derive(&[7; 16], b"random.A");
    assert!(k == k.clone());
    for i in 0..16 {
        for bit in 0..8 {
            let spoilt = |change: fn(&mut SessionKeys) -> &mut [u8; 16]| {
                let mut other = k.clone();
                change(&mut other)[i] ^= 1 << bit;
                other
            };
            assert!(k != spoilt(|k| &mut k.s_enc) && k != spoilt(|k| &mut k.s_mac1) && k != spoilt(|k| &mut k.s_mac2));
        }
    }
}

#[test]
fn paddings() {
    let mut out = [0xEE; 40];
    for (n, for_mac, for_data) in [(0, 0, 16), (15, 16, 16), (16, 16, 32), (17, 32, 32)] {
        let text = [0x41; 17];
        let padded = |len: usize| {
            let mut all = text[..n].to_vec();
            if len > n {
                all.push(0x80);
            }
            all.resize(len, 0);
            all
        };
        assert_eq!(pad_mac(&text[..n], &mut out), Ok(&padded(for_mac)[..]));
        assert_eq!(pad_data(&text[..n], &mut out), Ok(&padded(for_data)[..]));
        assert_eq!(unpad_data(&padded(for_data)), Ok(&text[..n]));
        let short = pad_data(&text[..n], &mut out[..for_data - 1]);
        assert_eq!(
            short,
            Err(Refusal::NoRoom {
                need: for_data,
                have: for_data - 1
            })
        );
    }
    assert_eq!(unpad_data(&[]), Err(Refusal::BadPadding));
    assert_eq!(unpad_data(&[0x80, 0x41]), Err(Refusal::BadPadding));
}

/// The key and the start value of SP 800-38A's examples.
fn key_and_start() -> ([u8; 16], [u8; 16]) {
    (
        hex("2b7e151628aed2a6abf7158809cf4f3c"),
        hex("000102030405060708090a0b0c0d0e0f"),
    )
}

fn refused<T>(refusal: Refusal, calls: usize) -> Counted<T> {
    Counted {
        answer: Err(refusal),
        calls,
    }
}

#[test]
fn mac() {
    let (key, iv) = key_and_start();
    assert_eq!(cbc_mac(&[], &iv, &key, &iv), Chain { full: iv, calls: 0 });
    let one = cbc_mac(&[0x41], &[0; 16], &iv, &key);
    assert_eq!(
        (one.full, one.calls),
        (aes_encrypt(&key, &hex("41800000000000000000000000000000")), 1)
    );
    assert_eq!(complement_icv(&iv), hex("fffefdfcfbfaf9f8f7f6f5f4f3f2f1f0"));
}

#[test]
fn cbc() {
    let (key, iv) = key_and_start();
    // SP 800-38A, F.2.1 and F.2.2: the first two blocks; the padding adds a third
    let plain: [u8; 32] = hex("6bc1bee22e409f96e93d7e117393172aae2d8a571e03ac9c9eb76fac45af8e51");
    let hidden: [u8; 32] = hex("7649abac8119b246cee98e9b12e9197d5086cb9b507219ee95db113a917678b2");
    let (mut out, mut back) = ([0xEE; 64], [0xEE; 64]);
    let c = encrypt_data(&key, &iv, &plain, &mut out);
    assert_eq!(
        (c.answer.map(|all| (&all[..32], all.len())), c.calls),
        (Ok((&hidden[..], 48)), 3)
    );
    let opened = decrypt_data(&key, &iv, &out[..48], &mut back);
    assert_eq!(
        opened,
        Counted {
            answer: Ok(&plain[..]),
            calls: 3
        }
    );
    let junk = decrypt_data(&key, &iv, &out[..32], &mut back);
    assert_eq!(junk, refused(Refusal::BadPadding, 2));
    assert_eq!((&back[..32], &back[48..]), (&[0; 32][..], &[0xEE; 16][..]));
    let ragged = decrypt_data(&key, &iv, &out[..17], &mut back);
    assert_eq!(ragged, refused(Refusal::BadPadding, 0));
    let short = encrypt_data(&key, &iv, &plain, &mut out[..47]);
    assert_eq!(short, refused(Refusal::NoRoom { need: 48, have: 47 }, 0));
}
