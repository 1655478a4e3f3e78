//! The part of the aes 0.8 / cipher 0.4 interface that osdp-rs uses, over Debian's aes-soft 0.6 (RustCrypto's software AES).
//! Block calls are counted; key expansion is not.
pub mod cipher {
    pub use aes_soft::cipher::generic_array;
    use generic_array::{typenum::U16, GenericArray};
    pub type B = GenericArray<u8, U16>;
    pub trait KeyInit {
        fn new(key: &B) -> Self;
    }
    pub trait KeyIvInit {
        fn new(key: &B, iv: &B) -> Self;
    }
    pub trait BlockEncrypt {
        fn encrypt_block(&self, block: &mut B);
    }
    pub trait BlockDecrypt {
        fn decrypt_block(&self, block: &mut B);
    }
    pub trait BlockEncryptMut {
        fn encrypt_block_mut(&mut self, block: &mut B);
    }
    pub trait BlockDecryptMut {
        fn decrypt_block_mut(&mut self, block: &mut B);
    }
}
use aes_soft::cipher::{BlockCipher, NewBlockCipher};
use cipher::{BlockDecrypt, BlockEncrypt, KeyInit, B};
use std::sync::atomic::{AtomicU64, Ordering::Relaxed};

/// How many blocks were enciphered or deciphered so far.
pub static CALLS: AtomicU64 = AtomicU64::new(0);

pub struct Aes128(aes_soft::Aes128);

impl KeyInit for Aes128 {
    fn new(key: &B) -> Self {
        Self(aes_soft::Aes128::new(key))
    }
}
impl BlockEncrypt for Aes128 {
    fn encrypt_block(&self, block: &mut B) {
        CALLS.fetch_add(1, Relaxed);
        BlockCipher::encrypt_block(&self.0, block)
    }
}
impl BlockDecrypt for Aes128 {
    fn decrypt_block(&self, block: &mut B) {
        CALLS.fetch_add(1, Relaxed);
        BlockCipher::decrypt_block(&self.0, block)
    }
}
