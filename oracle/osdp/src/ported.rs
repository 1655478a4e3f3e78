//! The original's ported modules, unchanged behind target/oracle/src, and what of its root they ask for. Both crate roots over them,
//! this crate's and ../../timing's, show all of it at their top, where the modules look for each other.
#[path = "../../../target/oracle/src/error.rs"]
pub mod error;
#[path = "../../../target/oracle/src/packet/mod.rs"]
pub mod packet;
#[path = "secure.rs"]
pub mod secure;
/// Stands for src/reply/ccrypt.rs, which is not at hand: the fields that session.rs reads.
pub mod reply {
    pub struct CCrypt {
        pub cuid: [u8; 8],
        pub rnd_b: [u8; 8],
        pub client_cryptogram: [u8; 16],
    }
}
pub use error::{Error, Result};
// Constants of the original's lib.rs, as there.
pub const SOM: u8 = 0x53;
pub const BROADCAST_ADDR: u8 = 0x7F;
pub const REPLY_FLAG: u8 = 0x80;
