//! The proved calls, by the prototypes of include/malstrink.h. The records are those of the Rust bindings.
pub use crate::records::{Answer, Chain, Ciphered, Keys, Parsed, Sealed, Session, Unsealed};
use crate::records::{Bytes16, Mac, Packet, ToSeal};

#[link(name = "malstrink", kind = "static")]
unsafe extern "C" {
    fn malstrink_parse(frame: *const u8, n: usize) -> Parsed;
    fn malstrink_build(
        packet: Packet, block: *const u8, block_n: usize, data: *const u8, data_n: usize, mac: Mac, out: *mut u8, n: usize,
    ) -> Answer;
    fn malstrink_aes_encrypt(key: Bytes16, block: Bytes16) -> Bytes16;
    fn malstrink_aes_decrypt(key: Bytes16, block: Bytes16) -> Bytes16;
    fn malstrink_cbc_mac(input: *const u8, n: usize, icv: Bytes16, s_mac1: Bytes16, s_mac2: Bytes16) -> Chain;
    fn malstrink_encrypt_data(s_enc: Bytes16, iv: Bytes16, data: *const u8, data_n: usize, out: *mut u8, n: usize) -> Ciphered;
    fn malstrink_decrypt_data(s_enc: Bytes16, iv: Bytes16, data: *const u8, data_n: usize, out: *mut u8, n: usize) -> Ciphered;
    fn malstrink_seal(s: Session, p: ToSeal, data: *const u8, data_n: usize, out: *mut u8, n: usize) -> Sealed;
    fn malstrink_unseal(s: Session, frame: *const u8, frame_n: usize, work: *mut u8, n: usize) -> Unsealed;
}

fn of(bytes: &[u8; 16]) -> Bytes16 {
    Bytes16 { bytes: *bytes }
}

pub fn parse(frame: &[u8]) -> Parsed {
    unsafe { malstrink_parse(frame.as_ptr(), frame.len()) }
}

/// A packet without block and MAC.
pub fn build(addr: u8, sqn: u8, crc: bool, code: u8, data: &[u8], out: &mut [u8]) -> Answer {
    let packet = Packet { addr, sqn, crc, block: false, block_type: 0, code };
    let mac = Mac { given: false, b0: 0, b1: 0, b2: 0, b3: 0 };
    unsafe { malstrink_build(packet, [].as_ptr(), 0, data.as_ptr(), data.len(), mac, out.as_mut_ptr(), out.len()) }
}

pub fn aes_encrypt(key: &[u8; 16], block: &[u8; 16]) -> [u8; 16] {
    unsafe { malstrink_aes_encrypt(of(key), of(block)) }.bytes
}

pub fn aes_decrypt(key: &[u8; 16], block: &[u8; 16]) -> [u8; 16] {
    unsafe { malstrink_aes_decrypt(of(key), of(block)) }.bytes
}

pub fn cbc_mac(input: &[u8], icv: &[u8; 16], s_mac1: &[u8; 16], s_mac2: &[u8; 16]) -> Chain {
    unsafe { malstrink_cbc_mac(input.as_ptr(), input.len(), of(icv), of(s_mac1), of(s_mac2)) }
}

pub fn encrypt_data(s_enc: &[u8; 16], iv: &[u8; 16], data: &[u8], out: &mut [u8]) -> Ciphered {
    unsafe { malstrink_encrypt_data(of(s_enc), of(iv), data.as_ptr(), data.len(), out.as_mut_ptr(), out.len()) }
}

pub fn decrypt_data(s_enc: &[u8; 16], iv: &[u8; 16], data: &[u8], out: &mut [u8]) -> Ciphered {
    unsafe { malstrink_decrypt_data(of(s_enc), of(iv), data.as_ptr(), data.len(), out.as_mut_ptr(), out.len()) }
}

/// The packet is address, SQN, whether from the reader, whether encrypted, code.
pub fn seal(session: &Session, [addr, sqn, reader, encrypted, code]: [u8; 5], data: &[u8], out: &mut [u8]) -> Sealed {
    let packet = ToSeal { addr, sqn, from_reader: reader != 0, encrypt: encrypted != 0, code };
    unsafe { malstrink_seal(*session, packet, data.as_ptr(), data.len(), out.as_mut_ptr(), out.len()) }
}

pub fn unseal(session: &Session, frame: &[u8], work: &mut [u8]) -> Unsealed {
    unsafe { malstrink_unseal(*session, frame.as_ptr(), frame.len(), work.as_mut_ptr(), work.len()) }
}
