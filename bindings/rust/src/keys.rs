//! The cipher, keys and cryptograms (docs/RULES.md, 6.1, 7.2 and 7.3).
use crate::raw;
use crate::wipe::wipe;
use core::fmt;
use core::ptr::read_volatile;

pub(crate) fn sixteen(bytes: &[u8; 16]) -> raw::Bytes16 {
    raw::Bytes16 { bytes: *bytes }
}

pub(crate) fn eight(bytes: &[u8; 8]) -> raw::Bytes8 {
    raw::Bytes8 { bytes: *bytes }
}

/// AES-128 of one block, as FIPS 197 has it.
pub fn aes_encrypt(key: &[u8; 16], block: &[u8; 16]) -> [u8; 16] {
    unsafe { raw::malstrink_aes_encrypt(sixteen(key), sixteen(block)) }.bytes
}

/// AES-128 of one block, backwards.
pub fn aes_decrypt(key: &[u8; 16], block: &[u8; 16]) -> [u8; 16] {
    unsafe { raw::malstrink_aes_decrypt(sixteen(key), sixteen(block)) }.bytes
}

/// Whether two slices are equal, for what must match and is secret. Every byte is looked at: where they differ does not show in the time,
/// only whether their lengths do.
///
/// It is the loop of `same` in the repository's crate `secure_keys`, which the archive uses and does not hand out.
pub fn same(a: &[u8], b: &[u8]) -> bool {
    if a.len() != b.len() {
        return false;
    }
    let differences = a.iter().zip(b).fold(0, |d, (x, y)| d | (x ^ y));
    // A compiler that sees what is asked of the differences could stop at the first. It does not see through a volatile read, before
    // which all of them have to be there.
    let all = unsafe { read_volatile(&differences) };
    all == 0
}

/// The session keys. They are wiped when dropped, and compared by [`same`].
#[derive(Clone)]
pub struct SessionKeys {
    /// S-ENC: enciphers data.
    pub s_enc: [u8; 16],
    /// S-MAC1: for all blocks of a MAC but the last.
    pub s_mac1: [u8; 16],
    /// S-MAC2: for the last block of a MAC.
    pub s_mac2: [u8; 16],
}

impl SessionKeys {
    /// The keys that SCBK and RND.A give.
    pub fn derive(scbk: &[u8; 16], rnd_a: &[u8; 8]) -> SessionKeys {
        SessionKeys::taken(&mut unsafe { raw::malstrink_derive(sixteen(scbk), eight(rnd_a)) })
    }

    /// Takes the keys over and wipes what they came in.
    pub(crate) fn taken(k: &mut raw::Keys) -> SessionKeys {
        let keys = SessionKeys {
            s_enc: k.s_enc,
            s_mac1: k.s_mac1,
            s_mac2: k.s_mac2,
        };
        wipe(k);
        keys
    }
}

/// All three keys are looked at, whichever differs.
impl PartialEq for SessionKeys {
    fn eq(&self, other: &SessionKeys) -> bool {
        same(&self.s_enc, &other.s_enc) & same(&self.s_mac1, &other.s_mac1) & same(&self.s_mac2, &other.s_mac2)
    }
}

impl Eq for SessionKeys {}

impl Drop for SessionKeys {
    fn drop(&mut self) {
        wipe(&mut self.s_enc);
        wipe(&mut self.s_mac1);
        wipe(&mut self.s_mac2);
    }
}

/// Shows no key.
impl fmt::Debug for SessionKeys {
    fn fmt(&self, f: &mut fmt::Formatter<'_>) -> fmt::Result {
        f.write_str("SessionKeys { .. }")
    }
}

/// What the reader proves itself with.
pub fn client_cryptogram(s_enc: &[u8; 16], rnd_a: &[u8; 8], rnd_b: &[u8; 8]) -> [u8; 16] {
    unsafe { raw::malstrink_client_cryptogram(sixteen(s_enc), eight(rnd_a), eight(rnd_b)) }.bytes
}

/// What the controller proves itself with.
pub fn server_cryptogram(s_enc: &[u8; 16], rnd_a: &[u8; 8], rnd_b: &[u8; 8]) -> [u8; 16] {
    unsafe { raw::malstrink_server_cryptogram(sixteen(s_enc), eight(rnd_a), eight(rnd_b)) }.bytes
}

/// The first chain value.
pub fn initial_rmac(s_mac1: &[u8; 16], s_mac2: &[u8; 16], server_cryptogram: &[u8; 16]) -> [u8; 16] {
    unsafe { raw::malstrink_initial_rmac(sixteen(s_mac1), sixteen(s_mac2), sixteen(server_cryptogram)) }.bytes
}

/// SCBK from a master key and a reader's identity, by the legacy rule.
pub fn diversify_scbk_legacy(mk: &[u8; 16], cuid: &[u8; 8]) -> [u8; 16] {
    unsafe { raw::malstrink_diversify_scbk_legacy(sixteen(mk), eight(cuid)) }.bytes
}
