//! What refusals say, and how they are told apart (docs/RULES.md, 1.2).
use malstrink::*;

/// The texts of refusal 3 are those of the calls that give it.
#[test]
fn a_control_byte_is_refused_for_what_it_says() {
    let told = |block: Option<Block<'_>>, flag: bool| {
        let packet = Packet {
            addr: Address::from_raw(5),
            control: ControlByte::new(Sqn::ZERO, true, flag),
            block,
            code: 0x60,
            data: &[],
        };
        build(&packet, None, &mut [0; 40]).unwrap_err().to_string()
    };
    let block = Block {
        ty: ScsType::Scs11,
        data: &[],
    };
    assert_eq!(
        told(None, true),
        "control byte 0C says that a block follows, and there is none"
    );
    assert_eq!(
        told(Some(block), false),
        "control byte 04 says that no block follows, and there is one"
    );
    assert_eq!(
        ControlByte::decode(0x10).unwrap_err().to_string(),
        "control byte 10 is above 0F"
    );
}

#[test]
#[cfg(feature = "std")]
fn each_is_an_error() {
    fn asked(n: u8) -> Result<u8, Box<dyn std::error::Error>> {
        Ok(Address::pd(n)?.as_byte())
    }
    assert_eq!(asked(5).unwrap(), 5);
    assert_eq!(asked(0x90).unwrap_err().to_string(), "address 90 is above 7F");
}
