//! A second crate root over the Rust's files, which stand unchanged behind target/oracle/src. It differs from ../osdp in its AES
//! alone: blocks are not counted, and a switch chooses between aes-soft and the processor's instructions (adapter.rs, hard.c).
extern crate alloc;
extern crate self as aes;
extern crate self as cbc;

mod adapter;
#[path = "../../cbc/src/lib.rs"]
mod chaining;
pub use adapter::{Aes128, cipher, has_instructions, use_instructions};
pub use chaining::{Decryptor, Encryptor};

#[path = "../../osdp/src/ported.rs"]
mod ported;
pub use ported::*;
