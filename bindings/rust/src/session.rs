//! One session of the channel, at either end (docs/RULES.md, 7 and 8).
use crate::keys::{eight, sixteen};
use crate::lent::lend_counted;
use crate::raw;
use crate::wipe::wipe;
use crate::{Address, Counted, Refusal, SessionKeys, Sqn};
use core::fmt;

/// Which end of the line a session is.
#[derive(Clone, Copy, Debug, PartialEq, Eq, Hash)]
pub enum End {
    /// The cabinet controller (ACU).
    Controller,
    /// The badge reader (PD).
    Reader,
}

/// How far the handshake is.
#[derive(Clone, Copy, Debug, PartialEq, Eq, Hash)]
pub enum State {
    /// Not begun, failed or wiped.
    Disconnected,
    /// RND.A was sent or taken.
    Challenged,
    /// The controller has found the client cryptogram right.
    Cryptogrammed,
    /// Frames can be sealed and unsealed.
    Secure,
}

/// Who sends a sealed frame, as the caller names it. It is not tested against the session's end.
#[derive(Clone, Copy, Debug, PartialEq, Eq, Hash)]
pub enum Direction {
    /// Block type 15 hex, or 17 encrypted.
    FromController,
    /// Block type 16 hex, or 18 encrypted.
    FromReader,
}

/// What is to be sealed.
#[derive(Clone, Copy, Debug, PartialEq, Eq, Hash)]
pub struct Message<'a> {
    /// The address.
    pub addr: Address,
    /// The sequence number.
    pub sqn: Sqn,
    /// Who sends it.
    pub direction: Direction,
    /// Whether the data is encrypted.
    pub encrypt: bool,
    /// The code, which is never encrypted.
    pub code: u8,
    /// The data: at most 65,519 bytes encrypted, 65,521 plain.
    pub data: &'a [u8],
}

/// Where an opened payload stands.
#[derive(Clone, Copy, Debug, PartialEq, Eq, Hash)]
pub struct Place {
    /// In the work buffer, or else in the frame.
    pub in_work: bool,
    /// Its first byte.
    pub start: usize,
    /// Its length.
    pub len: usize,
}

/// The payload at a place (8.5). A place that runs outside its slice: `Truncated`, with the slice's length and the end needed.
pub fn payload<'a>(frame: &'a [u8], work: &'a [u8], place: Place) -> Result<&'a [u8], Refusal> {
    let Place { in_work, start, len } = place;
    let answer = unsafe {
        raw::malstrink_payload_test(
            frame.as_ptr(),
            frame.len(),
            work.as_ptr(),
            work.len(),
            in_work,
            start,
            len,
        )
    };
    answer.done()?;
    let slice = if in_work { work } else { frame };
    Ok(&slice[start..start + len])
}

/// A session. It is handed to the proved calls by value, and what they hand back is kept.
///
/// Dropping it writes zeros over all of it, and [`Session::wipe`] over all but its end, by volatile writes and not by the archive's
/// wipe: that call takes a session and hands another back, so it would copy the keys once more, and the store of its answer into
/// memory about to be given up is one that a compiler may leave out. What cannot be reached from here are the copies on the stack
/// that passing by value makes.
pub struct Session {
    raw: raw::Session,
}

fn shown(b: raw::BlockAnswer) -> Result<[u8; 16], Refusal> {
    b.answer.done().map(|()| b.block)
}

impl Session {
    /// The controller's end, Disconnected, with a base key.
    pub fn new(scbk: &[u8; 16]) -> Session {
        Session::taken(&mut unsafe { raw::malstrink_session_new(sixteen(scbk)) })
    }

    /// The reader's end, Disconnected, with a base key and the reader's identity.
    pub fn new_reader(scbk: &[u8; 16], cuid: &[u8; 8]) -> Session {
        Session::taken(&mut unsafe { raw::malstrink_session_new_reader(sixteen(scbk), eight(cuid)) })
    }

    fn taken(from: &mut raw::Session) -> Session {
        let session = Session { raw: *from };
        wipe(from);
        session
    }

    /// Keeps what a call handed back, and wipes what it came in.
    fn keep(&mut self, from: &mut raw::Session) {
        self.raw = *from;
        wipe(from);
    }

    fn stepped(&mut self, mut s: raw::Stepped) -> Result<(), Refusal> {
        self.keep(&mut s.session);
        s.answer.done()
    }

    fn stepped_block(&mut self, mut s: raw::SteppedBlock) -> Result<[u8; 16], Refusal> {
        self.keep(&mut s.session);
        s.answer.done().map(|()| s.block)
    }

    /// Which end it is. No call changes it.
    pub fn end(&self) -> End {
        match self.raw.end {
            0 => End::Controller,
            _ => End::Reader,
        }
    }

    /// How far the handshake is.
    pub fn state(&self) -> State {
        match self.raw.state {
            0 => State::Disconnected,
            1 => State::Challenged,
            2 => State::Cryptogrammed,
            _ => State::Secure,
        }
    }

    /// Zeroes all but the end, whatever the state (7.7). The session is Disconnected, and its base key is zero too. It is done where
    /// the session stands, by volatile writes, and makes no copy of the keys.
    pub fn wipe(&mut self) {
        let end = self.raw.end;
        wipe(&mut self.raw);
        self.raw.end = end;
    }

    // ---- the controller's end

    /// Controller, Disconnected: keeps the RND.A to be sent, and is Challenged.
    pub fn challenge(&mut self, rnd_a: &[u8; 8]) -> Result<(), Refusal> {
        let s = unsafe { raw::malstrink_session_challenge(self.raw, eight(rnd_a)) };
        self.stepped(s)
    }

    /// Controller, Challenged: takes the reader's answer, derives the keys, and is Cryptogrammed. A wrong cryptogram:
    /// `BadCryptogram`, and the session is Disconnected with its base key.
    pub fn receive_ccrypt(
        &mut self,
        cuid: &[u8; 8],
        rnd_b: &[u8; 8],
        client_cryptogram: &[u8; 16],
    ) -> Result<(), Refusal> {
        let client = sixteen(client_cryptogram);
        let s = unsafe { raw::malstrink_session_receive_ccrypt(self.raw, eight(cuid), eight(rnd_b), client) };
        self.stepped(s)
    }

    /// Controller, Cryptogrammed: the server cryptogram to be sent.
    pub fn server_cryptogram(&self) -> Result<[u8; 16], Refusal> {
        shown(unsafe { raw::malstrink_session_server_cryptogram(self.raw) })
    }

    /// Controller, Cryptogrammed: the first chain value, which the reader has to send.
    pub fn initial_rmac(&self) -> Result<[u8; 16], Refusal> {
        shown(unsafe { raw::malstrink_session_initial_rmac(self.raw) })
    }

    /// Controller, Cryptogrammed: takes the reader's first chain value, and is Secure. A wrong one: `BadCryptogram`, and the session
    /// is Disconnected with its base key.
    pub fn confirm_rmac_i(&mut self, rmac_i: &[u8; 16]) -> Result<(), Refusal> {
        let s = unsafe { raw::malstrink_session_confirm_rmac_i(self.raw, sixteen(rmac_i)) };
        self.stepped(s)
    }

    // ---- the reader's end

    /// Reader, Disconnected: takes RND.A and the RND.B to be sent, derives the keys, answers the client cryptogram, and is
    /// Challenged.
    pub fn receive_challenge(&mut self, rnd_a: &[u8; 8], rnd_b: &[u8; 8]) -> Result<[u8; 16], Refusal> {
        let s = unsafe { raw::malstrink_session_receive_challenge(self.raw, eight(rnd_a), eight(rnd_b)) };
        self.stepped_block(s)
    }

    /// Reader, Challenged: takes the server cryptogram, answers the first chain value, and is Secure. A wrong cryptogram:
    /// `BadCryptogram`, and the session is Disconnected with its base key and identity.
    pub fn receive_scrypt(&mut self, server_cryptogram: &[u8; 16]) -> Result<[u8; 16], Refusal> {
        let s = unsafe { raw::malstrink_session_receive_scrypt(self.raw, sixteen(server_cryptogram)) };
        self.stepped_block(s)
    }

    // ---- either end, Secure

    /// The full MAC of bytes to be sent. The chain value becomes it.
    pub fn mac(&mut self, bytes: &[u8]) -> Result<[u8; 16], Refusal> {
        let s = unsafe { raw::malstrink_session_mac(self.raw, bytes.as_ptr(), bytes.len()) };
        self.stepped_block(s)
    }

    /// Checks the four bytes of MAC that came with `bytes`. The chain value becomes the full MAC; a wrong one, `BadCryptogram`,
    /// leaves the session as it was.
    pub fn verify(&mut self, bytes: &[u8], wire_mac: &[u8; 4]) -> Result<(), Refusal> {
        let mac = raw::Bytes4 { bytes: *wire_mac };
        let s = unsafe { raw::malstrink_session_verify(self.raw, bytes.as_ptr(), bytes.len(), mac) };
        self.stepped(s)
    }

    /// The session keys.
    pub fn keys(&self) -> Result<SessionKeys, Refusal> {
        let mut k = unsafe { raw::malstrink_session_keys(self.raw) };
        let keys = SessionKeys::taken(&mut k.keys);
        k.answer.done().map(|()| keys)
    }

    /// The chain value.
    pub fn last_other_mac(&self) -> Result<[u8; 16], Refusal> {
        shown(unsafe { raw::malstrink_session_last_other_mac(self.raw) })
    }

    /// Pads and enciphers from the complement of the chain value (6.6), as [`crate::encrypt_data`] does.
    pub fn seal_data<'o>(&self, data: &[u8], out: &'o mut [u8]) -> Counted<&'o [u8]> {
        lend_counted(out, |to, room| unsafe {
            raw::malstrink_session_seal_data(self.raw, data.as_ptr(), data.len(), to, room)
        })
    }

    /// Deciphers from the complement of the chain value (6.6), as [`crate::decrypt_data`] does.
    pub fn open_data<'o>(&self, data: &[u8], out: &'o mut [u8]) -> Counted<&'o [u8]> {
        lend_counted(out, |to, room| unsafe {
            raw::malstrink_session_open_data(self.raw, data.as_ptr(), data.len(), to, room)
        })
    }

    /// Seals a message into a frame at the front of `out`, and shows the frame (8.1). The chain value becomes its full MAC. Refuses by
    /// `WrongState`, `BufferOverflow` or `NoRoom`, in this order.
    pub fn seal<'o>(&mut self, message: &Message<'_>, out: &'o mut [u8]) -> Counted<&'o [u8]> {
        let p = raw::ToSeal {
            addr: message.addr.as_byte(),
            sqn: message.sqn.value(),
            from_reader: message.direction == Direction::FromReader,
            encrypt: message.encrypt,
            code: message.code,
        };
        let (data, room) = (message.data, out.len());
        let mut s = unsafe { raw::malstrink_seal(self.raw, p, data.as_ptr(), data.len(), out.as_mut_ptr(), room) };
        self.keep(&mut s.session);
        Counted {
            answer: s.answer.told().map(|n| &out[..n]),
            calls: s.calls,
        }
    }

    /// Reads the frame at the start of `frame`, checks its MAC, opens it, and shows the payload: a part of `frame` for a plain one, of
    /// `work` for an encrypted one (8.3). The chain value becomes the full MAC. Refuses by `WrongState`, as [`crate::parse`], by
    /// `NotSecure`, `NoRoom` (`work` is shorter than the encrypted data), `BadPadding` or `BadCryptogram`, in this order; the session
    /// then stays as it was. What else the frame says, [`crate::parse`] tells.
    pub fn unseal<'a>(&mut self, frame: &'a [u8], work: &'a mut [u8]) -> Counted<&'a [u8]> {
        let Counted { answer, calls } = self.unseal_place(frame, work);
        Counted {
            answer: answer.and_then(|place| payload(frame, work, place)),
            calls,
        }
    }

    /// As [`Session::unseal`], but tells the payload's place, for [`payload`] to show.
    pub fn unseal_place(&mut self, frame: &[u8], work: &mut [u8]) -> Counted<Place> {
        let room = work.len();
        let mut u = unsafe { raw::malstrink_unseal(self.raw, frame.as_ptr(), frame.len(), work.as_mut_ptr(), room) };
        self.keep(&mut u.session);
        let place = Place {
            in_work: u.in_work,
            start: u.start,
            len: u.len,
        };
        Counted {
            answer: u.answer.done().map(|()| place),
            calls: u.calls,
        }
    }
}

impl Drop for Session {
    fn drop(&mut self) {
        wipe(&mut self.raw);
    }
}

/// Shows end and state, and nothing that is secret.
impl fmt::Debug for Session {
    fn fmt(&self, f: &mut fmt::Formatter<'_>) -> fmt::Result {
        write!(f, "Session {{ end: {:?}, state: {:?}, .. }}", self.end(), self.state())
    }
}

#[cfg(test)]
mod tests {
    use super::*;

    /// Wipes in place, and has the archive wipe a copy.
    fn wiped_both_ways(mut s: Session) {
        let by_archive = unsafe { raw::malstrink_session_wipe(s.raw) };
        s.wipe();
        assert!(s.raw == by_archive);
    }

    fn secure() -> (Session, Session) {
        let (scbk, a, b, id) = (b"key of cabinet 7", b"random.A", b"random.B", b"cabinet7");
        let (mut c, mut r) = (Session::new(scbk), Session::new_reader(scbk, id));
        c.challenge(a).unwrap();
        let client = r.receive_challenge(a, b).unwrap();
        c.receive_ccrypt(id, b, &client).unwrap();
        let first = r.receive_scrypt(&c.server_cryptogram().unwrap()).unwrap();
        c.confirm_rmac_i(&first).unwrap();
        (c, r)
    }

    #[test]
    fn wipe_leaves_what_the_archive_answers() {
        let (c, r) = secure();
        wiped_both_ways(c);
        wiped_both_ways(r);
        // whatever the numbers in it
        let bytes = [0xA5; 16];
        let keys = raw::Keys {
            s_enc: bytes,
            s_mac1: bytes,
            s_mac2: bytes,
        };
        for end in [0, 1, 2, 255] {
            for state in [0, 1, 2, 3, 4, 255] {
                let (rnd_a, rnd_b, cuid) = ([1; 8], [2; 8], [3; 8]);
                wiped_both_ways(Session {
                    raw: raw::Session {
                        end,
                        state,
                        scbk: bytes,
                        rnd_a,
                        rnd_b,
                        cuid,
                        keys,
                        chain: bytes,
                    },
                });
            }
        }
    }
}
