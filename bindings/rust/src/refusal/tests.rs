//! Every refusal that the header has is here, is told as itself and says what is wrong.
extern crate std;

use super::*;
use std::string::ToString;
use std::vec;
use std::vec::Vec;

/// Every refusal with its number and its text; refusal 3 has three texts, for what can be wrong with a control byte.
fn texts() -> Vec<(Refusal, u8, &'static str)> {
    use Refusal::*;
    vec![
        (Truncated { have: 7, need: 8 }, 1, "7 bytes are there and 8 are needed"),
        (BadSom(0x54), 2, "the first byte is 54 and not 53"),
        (BadControlByte(0x14), 3, "control byte 14 is above 0F"),
        (
            BadControlByte(0x0E),
            3,
            "control byte 0E says that a block follows, and there is none",
        ),
        (
            BadControlByte(0x04),
            3,
            "control byte 04 says that no block follows, and there is one",
        ),
        (
            BadLength { declared: 9, actual: 9 },
            4,
            "a length of 9 leaves no room for what the frame must hold",
        ),
        (
            BadSecurityBlockLength(0x15),
            5,
            "the length of a block of type 15 is below 2",
        ),
        (BadSecurityBlock(0x0A), 6, "block type 0A is not one of 11 to 18"),
        (
            BadCrc {
                got: 0x88BC,
                want: 0xBC,
            },
            7,
            "the CRC is 88BC and should be 00BC",
        ),
        (
            BadChecksum { got: 0x40, want: 0x0F },
            8,
            "the checksum is 40 and should be 0F",
        ),
        (BadAddress(0x90), 9, "address 90 is above 7F"),
        (BadSqn(4), 10, "sequence number 4 is above 3"),
        (BadMac, 11, "a MAC is due and missing, or given and not due"),
        (
            BufferOverflow {
                need: 65_536,
                have: 65_535,
            },
            12,
            "a frame of 65536 bytes is longer than 65535",
        ),
        (
            NotSecure,
            13,
            "the frame is not sealed: it has no block, or one of type 11 to 14",
        ),
        (BadPadding, 14, "encrypted data has a wrong length or wrong padding"),
        (BadCryptogram, 15, "a cryptogram, a first chain value or a MAC is wrong"),
        (
            WrongState,
            16,
            "the call is not for this state or this end of a session",
        ),
        (BlockTooLong(254), 17, "block data of 254 bytes is longer than 253"),
        (
            NoRoom { need: 24, have: 23 },
            18,
            "the buffer has 23 bytes and 24 are needed",
        ),
        (
            BadBody(0x50),
            19,
            "the payload is no body of code 50, or that code is not listed",
        ),
    ]
}

const HEADER: &str = include_str!("../../../../include/malstrink.h");

/// The numbers of the header's refusals, but for 0, which is none.
fn numbers() -> impl Iterator<Item = u8> {
    let told = HEADER.lines().filter_map(|line| {
        let constant = line.trim().strip_prefix("MALSTRINK_REFUSAL_")?;
        constant.split([' ', ',']).nth(2)?.parse().ok()
    });
    told.filter(|&n| n > 0)
}

#[test]
fn each_constant_was_read() {
    let named = HEADER.matches("MALSTRINK_REFUSAL_").count();
    assert!(named > 1, "the header names no refusals");
    assert_eq!(numbers().count(), named - 1, "the header's constants, but for NONE");
}

#[test]
fn each_number_is_told_as_itself() {
    for n in numbers() {
        let told = raw::Answer { refusal: n, a: 1, b: 2 }.told();
        assert_eq!(told.map_err(Refusal::number), Err(n));
    }
    assert_eq!(raw::Answer { refusal: 0, a: 7, b: 0 }.told(), Ok(7));
}

#[test]
fn each_says_what_is_wrong() {
    for (refusal, number, text) in texts() {
        assert_eq!((refusal.number(), refusal.to_string().as_str()), (number, text));
    }
    let mut tried: Vec<u8> = texts().iter().map(|t| t.1).collect();
    tried.dedup();
    assert_eq!(tried, numbers().collect::<Vec<u8>>());
}
