//! Our crate root over the original's files, which stand unchanged behind target/oracle/src (made by the script `compare`).
//! The original's root names modules that are not at hand; this one declares the ported ones only.
extern crate alloc;
mod ported;
pub use ported::*;
