//! An AES of another house: OpenSSL's libcrypto (Debian's libssl-dev). It judges the oracle's own AES on every block that is asked.
#[repr(C)]
struct Key {
    words: [u32; 60],
    rounds: i32,
}

#[link(name = "crypto")]
unsafe extern "C" {
    fn AES_set_encrypt_key(key: *const u8, bits: i32, out: *mut Key) -> i32;
    fn AES_set_decrypt_key(key: *const u8, bits: i32, out: *mut Key) -> i32;
    fn AES_encrypt(from: *const u8, to: *mut u8, key: *const Key);
    fn AES_decrypt(from: *const u8, to: *mut u8, key: *const Key);
}

type Expand = unsafe extern "C" fn(*const u8, i32, *mut Key) -> i32;
type Cipher = unsafe extern "C" fn(*const u8, *mut u8, *const Key);

/// One block by one of the two directions; `expand` and `cipher` are of the same.
fn one(expand: Expand, cipher: Cipher, key: &[u8; 16], block: &[u8; 16]) -> [u8; 16] {
    let (mut k, mut out) = (Key { words: [0; 60], rounds: 0 }, [0; 16]);
    unsafe {
        assert_eq!(expand(key.as_ptr(), 128, &mut k), 0);
        cipher(block.as_ptr(), out.as_mut_ptr(), &k);
    }
    out
}

pub fn encrypt(key: &[u8; 16], block: &[u8; 16]) -> [u8; 16] {
    one(AES_set_encrypt_key, AES_encrypt, key, block)
}

pub fn decrypt(key: &[u8; 16], block: &[u8; 16]) -> [u8; 16] {
    one(AES_set_decrypt_key, AES_decrypt, key, block)
}
