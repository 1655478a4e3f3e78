//! Stands for src/secure/mod.rs, which is not at hand.
#[path = "../../../target/oracle/src/secure/cipher.rs"]
pub mod cipher;
#[path = "../../../target/oracle/src/secure/crypto.rs"]
pub mod crypto;
#[path = "../../../target/oracle/src/secure/frame.rs"]
pub mod frame;
#[path = "../../../target/oracle/src/secure/mac.rs"]
pub mod mac;
#[path = "../../../target/oracle/src/secure/pad.rs"]
pub mod pad;
#[path = "../../../target/oracle/src/secure/session.rs"]
pub mod session;
