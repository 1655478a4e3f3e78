//! The part of the aes 0.8 / cipher 0.4 interface that the Rust uses, over aes-soft or the processor's instructions. RustCrypto's
//! own `aes` chooses between the two in the same way, by a flag that it reads when a key is expanded.
pub use counted::cipher;

use aes_soft::cipher::{BlockCipher, NewBlockCipher};
use cipher::{B, BlockDecrypt, BlockEncrypt, KeyInit};
use std::sync::atomic::{AtomicBool, Ordering::Relaxed};

static INSTRUCTIONS: AtomicBool = AtomicBool::new(false);

pub fn use_instructions(on: bool) {
    INSTRUCTIONS.store(on, Relaxed);
}

pub fn has_instructions() -> bool {
    #[cfg(target_arch = "x86_64")]
    return std::arch::is_x86_feature_detected!("aes");
    #[cfg(target_arch = "aarch64")]
    return std::arch::is_aarch64_feature_detected!("aes");
}

unsafe extern "C" {
    fn hard_expand(key: *const u8, keys: *mut u8);
    fn hard_encrypt(keys: *const u8, block: *mut u8);
    fn hard_decrypt(keys: *const u8, block: *mut u8);
}

pub enum Aes128 {
    Soft(aes_soft::Aes128),
    Hard([u8; 352]),
}

impl KeyInit for Aes128 {
    #[inline]
    fn new(key: &B) -> Self {
        if INSTRUCTIONS.load(Relaxed) {
            let mut keys = [0; 352];
            unsafe { hard_expand(key.as_ptr(), keys.as_mut_ptr()) };
            Self::Hard(keys)
        } else {
            Self::Soft(aes_soft::Aes128::new(key))
        }
    }
}
impl BlockEncrypt for Aes128 {
    #[inline]
    fn encrypt_block(&self, block: &mut B) {
        match self {
            Self::Soft(c) => c.encrypt_block(block),
            Self::Hard(keys) => unsafe { hard_encrypt(keys.as_ptr(), block.as_mut_ptr()) },
        }
    }
}
impl BlockDecrypt for Aes128 {
    #[inline]
    fn decrypt_block(&self, block: &mut B) {
        match self {
            Self::Soft(c) => c.decrypt_block(block),
            Self::Hard(keys) => unsafe { hard_decrypt(keys.as_ptr(), block.as_mut_ptr()) },
        }
    }
}
