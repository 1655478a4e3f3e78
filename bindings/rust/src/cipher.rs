//! Paddings, the chain MAC and CBC (docs/RULES.md, 5 and 6).
use crate::keys::sixteen;
use crate::lent::{lend, lend_counted};
use crate::raw;
use crate::Refusal;

/// An answer, and how often the cipher was called for it. Key expansion is not counted. A refusal has its calls too (9.3).
#[derive(Clone, Copy, Debug, PartialEq, Eq)]
pub struct Counted<T> {
    /// What was asked for.
    pub answer: Result<T, Refusal>,
    /// How often the cipher was called on a block.
    pub calls: usize,
}

/// A full MAC, and how often the cipher was called for it.
#[derive(Clone, Copy, Debug, PartialEq, Eq)]
pub struct Chain {
    /// All sixteen bytes; the first four travel.
    pub full: [u8; 16],
    /// How often the cipher was called on a block.
    pub calls: usize,
}

/// Pads for the MAC (5.1) into the front of `out`, and shows it. A shorter buffer: `NoRoom`.
pub fn pad_mac<'o>(data: &[u8], out: &'o mut [u8]) -> Result<&'o [u8], Refusal> {
    lend(out, |to, room| unsafe {
        raw::malstrink_pad_mac(data.as_ptr(), data.len(), to, room)
    })
}

/// Pads for data (5.2) into the front of `out`, and shows it. A shorter buffer: `NoRoom`.
pub fn pad_data<'o>(data: &[u8], out: &'o mut [u8]) -> Result<&'o [u8], Refusal> {
    lend(out, |to, room| unsafe {
        raw::malstrink_pad_data(data.as_ptr(), data.len(), to, room)
    })
}

/// What stands before the padding (5.3). Without one: `BadPadding`.
///
/// ```
/// assert_eq!(malstrink::unpad_data(&[0x41, 0x80, 0x00]), Ok(&[0x41][..]));
/// ```
pub fn unpad_data(bytes: &[u8]) -> Result<&[u8], Refusal> {
    let answer = unsafe { raw::malstrink_unpad_data(bytes.as_ptr(), bytes.len()) };
    answer.told().map(|n| &bytes[..n])
}

/// The complement, byte by byte: from a chain value the start of CBC (6.3).
pub fn complement_icv(mac: &[u8; 16]) -> [u8; 16] {
    unsafe { raw::malstrink_complement_icv(sixteen(mac)) }.bytes
}

/// The MAC of `input` from the chain value `icv` on (6.2).
pub fn cbc_mac(input: &[u8], icv: &[u8; 16], s_mac1: &[u8; 16], s_mac2: &[u8; 16]) -> Chain {
    let c = unsafe {
        raw::malstrink_cbc_mac(
            input.as_ptr(),
            input.len(),
            sixteen(icv),
            sixteen(s_mac1),
            sixteen(s_mac2),
        )
    };
    Chain {
        full: c.full,
        calls: c.calls,
    }
}

/// Pads and enciphers (6.4) into the front of `out`, and shows it. A shorter buffer: `NoRoom`.
pub fn encrypt_data<'o>(s_enc: &[u8; 16], iv: &[u8; 16], data: &[u8], out: &'o mut [u8]) -> Counted<&'o [u8]> {
    lend_counted(out, |to, room| unsafe {
        raw::malstrink_encrypt_data(sixteen(s_enc), sixteen(iv), data.as_ptr(), data.len(), to, room)
    })
}

/// Deciphers and takes the padding off (6.5), into the front of `out`, and shows the payload. Refuses by `NoRoom` where `out` is
/// shorter than `data`, then by `BadPadding`, which zeroes that length of it.
pub fn decrypt_data<'o>(s_enc: &[u8; 16], iv: &[u8; 16], data: &[u8], out: &'o mut [u8]) -> Counted<&'o [u8]> {
    lend_counted(out, |to, room| unsafe {
        raw::malstrink_decrypt_data(sixteen(s_enc), sixteen(iv), data.as_ptr(), data.len(), to, room)
    })
}
