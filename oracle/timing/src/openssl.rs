//! OpenSSL's AES-128 (libcrypto, EVP), each call with its key's expansion. What it may use is fixed when the library is loaded, so
//! each of its columns is a process of its own.
use crate::clock::{Side, least, side};
use crate::rows::{KEY, KEY2, START, bytes, with_commas};
use osdp::secure::cipher::encrypt_data;
use osdp::secure::crypto::aes128_encrypt;
use osdp::secure::mac::cbc_mac;
use std::ffi::{c_int, c_void};
use std::hint::black_box as hidden;
use std::ptr::null;

#[link(name = "crypto")]
unsafe extern "C" {
    fn EVP_CIPHER_CTX_new() -> *mut c_void;
    fn EVP_aes_128_cbc() -> *const c_void;
    fn EVP_CipherInit_ex(ctx: *mut c_void, kind: *const c_void, engine: *const c_void, key: *const u8, iv: *const u8, enc: c_int) -> c_int;
    fn EVP_CipherUpdate(ctx: *mut c_void, out: *mut u8, n: *mut c_int, data: *const u8, data_n: c_int) -> c_int;
    fn EVP_CIPHER_CTX_set_padding(ctx: *mut c_void, on: c_int) -> c_int;
}

/// The variable that takes the processor's AES instructions away.
#[cfg(target_arch = "aarch64")]
pub const WITHOUT: (&str, &str) = ("OPENSSL_armcap", "0");
#[cfg(target_arch = "x86_64")]
pub const WITHOUT: (&str, &str) = ("OPENSSL_ia32cap", "~0x200000200000000");

struct Cbc(*mut c_void);

impl Cbc {
    fn new(encrypt: bool) -> Self {
        unsafe {
            let ctx = EVP_CIPHER_CTX_new();
            assert_eq!(EVP_CipherInit_ex(ctx, EVP_aes_128_cbc(), null(), null(), null(), encrypt.into()), 1);
            assert_eq!(EVP_CIPHER_CTX_set_padding(ctx, 0), 1);
            Self(ctx)
        }
    }

    fn key(&mut self, key: &[u8; 16], iv: &[u8]) {
        unsafe { assert_eq!(EVP_CipherInit_ex(self.0, null(), null(), key.as_ptr(), iv.as_ptr(), -1), 1) };
    }

    /// Whole blocks of data into out.
    fn run(&mut self, data: &[u8], out: &mut [u8]) {
        assert!(data.len() <= out.len());
        let mut n = 0;
        unsafe { assert_eq!(EVP_CipherUpdate(self.0, out.as_mut_ptr(), &mut n, data.as_ptr(), data.len() as c_int), 1) };
    }

    fn keyed(&mut self, data: &[u8], out: &mut [u8]) {
        self.key(hidden(&KEY), &START);
        self.run(hidden(data), out);
    }

    /// The MAC of whole blocks; out has their room.
    fn mac(&mut self, input: &[u8], out: &mut [u8]) -> [u8; 16] {
        let last = input.len() - 16;
        self.key(&KEY, &START);
        self.run(&input[..last], out);
        let chain: [u8; 16] = if last == 0 { START } else { out[last - 16..last].try_into().unwrap() };
        self.key(&KEY2, &chain);
        self.run(&input[last..], out);
        out[..16].try_into().unwrap()
    }
}

fn padded(n: usize) -> Vec<u8> {
    let mut data = bytes(n);
    data.push(0x80);
    data.resize(n / 16 * 16 + 16, 0);
    data
}

fn padded_mac(mut input: Vec<u8>) -> Vec<u8> {
    if input.len() % 16 != 0 {
        input.push(0x80);
        input.resize(input.len().next_multiple_of(16), 0);
    }
    input
}

fn one(s: Side) -> f64 {
    least(vec![s])[0]
}

/// The blocks of a frame alone: the MAC of eight bytes and the payload, and the payload's own where `payload` is given.
fn blocks_of<'a>(mac: &'a mut Cbc, mut payload: Option<&'a mut Cbc>, n: usize) -> Side<'a> {
    let data = if payload.is_some() { padded(n) } else { bytes(n) };
    let body = padded_mac([&bytes(8)[..], &data].concat());
    let mut out = vec![0; body.len()];
    assert_eq!(mac.mac(&body, &mut out), cbc_mac(&body, &START, &KEY, &KEY2));
    side(move || {
        if let Some(c) = &mut payload {
            c.keyed(&data, &mut out);
        }
        mac.mac(hidden(&body), &mut out)
    })
}

pub fn rows() -> Vec<(String, f64)> {
    let (mut forth, mut chain, mut back, mut out) = (Cbc::new(true), Cbc::new(true), Cbc::new(false), vec![0; 4096]);
    let mut block = |c: &mut Cbc| {
        c.key(hidden(&KEY), &[0; 16]);
        c.run(hidden(&START), &mut out);
    };
    let mut rows = vec![("block, key expanded".to_string(), one(side(|| block(&mut forth)))), ("block back, key expanded".to_string(), one(side(|| block(&mut back))))];
    block(&mut forth);
    assert_eq!(out[..16], aes128_encrypt(&KEY, &START));
    let long = bytes(1600);
    rows.push(("block alone".to_string(), one(side(|| forth.run(hidden(&long), &mut out))) / 100.0));
    let input = bytes(1440);
    assert_eq!(forth.mac(&input, &mut out), cbc_mac(&input, &START, &KEY, &KEY2));
    rows.push(("MAC of 1,440".to_string(), one(side(|| forth.mac(hidden(&input), &mut out)))));
    for n in [0, 64, 1400] {
        let data = padded(n);
        rows.push((format!("encrypt data, {}", with_commas(n)), one(side(|| forth.keyed(&data, &mut out)))));
        let hid = encrypt_data(&KEY, &START, &bytes(n));
        forth.keyed(&data, &mut out);
        assert_eq!(out[..data.len()], hid);
        rows.push((format!("decrypt data, {}", with_commas(n)), one(side(|| back.keyed(&hid, &mut out)))));
        assert_eq!(out[..data.len()], data);
    }
    for (kind, encrypt) in [("plain", false), ("encrypted", true)] {
        for n in [0, 64, 1400] {
            rows.push((format!("seal, {kind}, {}", with_commas(n)), one(blocks_of(&mut forth, encrypt.then_some(&mut chain), n))));
            rows.push((format!("unseal, {kind}, {}", with_commas(n)), one(blocks_of(&mut forth, encrypt.then_some(&mut back), n))));
        }
    }
    rows
}
