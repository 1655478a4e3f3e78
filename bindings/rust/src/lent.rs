//! Buffers lent to the archive for writing.
use crate::raw;
use crate::{Counted, Refusal};

/// Lends `out` to a call, which is handed its place and length, and shows the front of it that the call has written.
pub(crate) fn lend(out: &mut [u8], call: impl FnOnce(*mut u8, usize) -> raw::Answer) -> Result<&[u8], Refusal> {
    // first the length: asking for it later would borrow the bytes anew, and the pointer could no longer write them
    let room = out.len();
    let answer = call(out.as_mut_ptr(), room);
    answer.told().map(|n| &out[..n])
}

/// The same for a call that tells how often it called the cipher.
pub(crate) fn lend_counted(out: &mut [u8], call: impl FnOnce(*mut u8, usize) -> raw::Ciphered) -> Counted<&[u8]> {
    let mut calls = 0;
    let answer = lend(out, |to, room| {
        let c = call(to, room);
        calls = c.calls;
        c.answer
    });
    Counted { answer, calls }
}
