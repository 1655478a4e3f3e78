//! OSDP frames and the secure channel over them, as safe Rust over an archive whose every function is proved.
//!
//! What each call does, number by number, is in the repository's docs/RULES.md; the sections are cited here. The calls keep no
//! pointer, allocate nothing and end on every input. A call that cannot do what it is asked answers a [`Refusal`], and leaves the
//! session and every buffer as they were, with the two exceptions of docs/RULES.md, 1.3: a failed handshake resets the session, and
//! a deciphering that is refused zeroes the length of the encrypted data in its buffer.
//!
//! The proofs are of the archive. What stands in this crate is the Rust around it, which is small and plain, and is tested.
//!
//! # Linking
//!
//! The archive is for x86-64 or aarch64, and needs `memcpy` and `memset` and nothing else. The build script looks for it in the
//! repository's `target/archive`, or in the directory that the environment variable `MALSTRINK_LIB_DIR` names; where it is not, it says how it is
//! made, and the build fails. `MALSTRINK_LIB_DIR=none` links nothing, which is enough for `cargo check`, `cargo doc` and `cargo clippy`.
//!
//! # Features
//!
//! `std`, which is off: a [`Refusal`] is a `std::error::Error`. Nothing else changes.
//!
//! # Both ends of a channel
//!
//! ```
//! use malstrink::{parse, Address, Direction, Message, Reply, Session, Sqn};
//!
//! let scbk = *b"key of cabinet 7";
//! let mut controller = Session::new(&scbk);
//! let mut reader = Session::new_reader(&scbk, b"cabinet7");
//!
//! // The four steps of the handshake; the caller carries the values in frames of type 11 to 14.
//! controller.challenge(b"random.A")?;
//! let client = reader.receive_challenge(b"random.A", b"random.B")?;
//! controller.receive_ccrypt(b"cabinet7", b"random.B", &client)?;
//! let first = reader.receive_scrypt(&controller.server_cryptogram()?)?;
//! controller.confirm_rmac_i(&first)?;
//!
//! // A sealed frame.
//! let message = Message {
//!     addr: Address::pd(5)?,
//!     sqn: Sqn::ZERO.next(),
//!     direction: Direction::FromController,
//!     encrypt: true,
//!     code: 0x69,
//!     data: b"a red lamp",
//! };
//! let (mut line, mut work) = ([0; 64], [0; 64]);
//! let frame = controller.seal(&message, &mut line).answer?;
//! assert_eq!(frame.len(), 30);
//! assert_eq!(reader.unseal(frame, &mut work).answer?, b"a red lamp");
//!
//! // And a reply: a badge of 26 bits, at reader 0, in format 1.
//! let message = Message {
//!     addr: Address::reply(5)?,
//!     direction: Direction::FromReader,
//!     code: 0x50,
//!     data: &[0, 1, 26, 0, 0x8F, 0xA3, 0x40, 0x40],
//!     ..message
//! };
//! let frame = reader.seal(&message, &mut line).answer?;
//! let code = parse(frame)?.packet.code;
//! let reply = Reply::read(code, controller.unseal(frame, &mut work).answer?)?;
//! assert_eq!(reply.badge(), Some(37_653_761));
//! # Ok::<(), malstrink::Refusal>(())
//! ```
#![no_std]
#![warn(missing_docs)]

#[cfg(feature = "std")]
extern crate std;

mod cipher;
mod frame;
mod keys;
mod lent;
mod raw;
mod records;
mod refusal;
mod reply;
mod session;
mod wipe;

pub use cipher::{cbc_mac, complement_icv, decrypt_data, encrypt_data, pad_data, pad_mac, unpad_data, Chain, Counted};
pub use frame::{
    build, build_body, checksum8, crc16, parse, Address, Block, ControlByte, Head, Packet, Parsed, ScsType, Sqn,
    Trailer,
};
pub use keys::{
    aes_decrypt, aes_encrypt, client_cryptogram, diversify_scbk_legacy, initial_rmac, same, server_cryptogram,
    SessionKeys,
};
pub use refusal::Refusal;
pub use reply::{Reply, Triple, Triples, TriplesIter};
pub use session::{payload, Direction, End, Message, Place, Session, State};
