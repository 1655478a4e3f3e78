//! A serial driver: takes frames off a line, here standard input, as they arrive, each read and parsed once, and lists them as
//! framelist does (docs/RULES.md, 11.3). Run it in bindings/rust, once include/archive has made the archive:
//!
//! ```text
//! cargo run --example driver <../../crates/driver/stdin
//! ```
//!
//! The last frame that it reads of this line is refused, so it ends with status 1, and cargo with it.
//!
//! Exit status: 0 the line ended between frames, 1 a frame was refused, 2 trouble, a frame that is too long among it. After a
//! refusal it stops: where the next frame begins is not known then.
//!
//! The line must block: no `O_NONBLOCK`, and a terminal raw, with `VMIN` 1 or more. Otherwise 0 bytes, or `EAGAIN`
//! (`ErrorKind::WouldBlock`), mean only that nothing has come yet, and this driver would take them for the line's end, or for
//! trouble. Not shown, since they are no matter of frames: setting a serial line up, and giving up on one that falls silent inside
//! a frame.
use malstrink::{parse, Head, Parsed, Refusal};
use std::fmt;
use std::fs::File;
use std::io::{self, ErrorKind, Read, Write};
use std::os::unix::io::AsFd;
use std::process::ExitCode;

/// How many bytes `Head::read` looks at.
const HEAD: usize = 5;

/// The longest frame that this driver takes. LEN can say 65,535, which is a frame to `parse` like any other: what is too long for a
/// driver is the driver's own to refuse.
const ROOM: usize = 1440;

/// What came of the line.
enum Came<'a> {
    /// No byte: the line ended between frames.
    End,
    /// A LEN that there is no room for.
    TooLong(usize),
    /// A frame, or why it is none.
    Frame(Result<Parsed<'a>, Refusal>),
}

/// Fills `room`, or as much of it as the line still has, and tells how much. A read may bring less than it is asked for, and a
/// signal may break it off. The line must block, so that 0 bytes are its end and `WouldBlock` does not come.
fn fill(line: &mut impl Read, room: &mut [u8]) -> io::Result<usize> {
    let mut have = 0;
    while have < room.len() {
        match line.read(&mut room[have..]) {
            Ok(0) => break,
            Ok(came) => have += came,
            Err(e) if e.kind() == ErrorKind::Interrupted => {}
            Err(e) => return Err(e),
        }
    }
    Ok(have)
}

/// Takes the next frame off the line: five bytes, then the LEN - 5 that are still to come, then one parse. It never waits because
/// of the parse: that refuses as `Truncated` also a whole frame, one whose block runs past its end (docs/RULES.md, 3.3), and who
/// reads on then waits for ever, or takes bytes of the next frame. `room` has 5 bytes or more.
fn frame_from<'a>(line: &mut impl Read, room: &'a mut [u8]) -> io::Result<Came<'a>> {
    let mut have = fill(line, &mut room[..HEAD])?;
    if have == 0 {
        return Ok(Came::End);
    }
    // where the head is refused nothing more is read, and the parse refuses the same way
    let len = Head::read(&room[..have]).map_or(0, |head| head.len);
    if len > room.len() {
        return Ok(Came::TooLong(len));
    }
    // LEN may be below 5; the parse refuses such a frame as BadLength
    let more = len.saturating_sub(HEAD);
    have += fill(line, &mut room[HEAD..HEAD + more])?;
    Ok(Came::Frame(parse(&room[..have])))
}

/// Why the listing stopped before the line's end.
enum Stopped {
    Refused { at: usize, number: u8 },
    TooLong { at: usize, len: usize },
    Read(io::Error),
    Write(io::Error),
}

impl Stopped {
    fn status(&self) -> u8 {
        match self {
            Stopped::Refused { .. } => 1,
            _ => 2,
        }
    }
}

impl fmt::Display for Stopped {
    fn fmt(&self, f: &mut fmt::Formatter<'_>) -> fmt::Result {
        match self {
            Stopped::Refused { at, number } => write!(f, "refused at {at} by {number}"),
            Stopped::TooLong { at, len } => {
                write!(f, "cannot hold the {len} bytes of the frame at {at}, only {ROOM}")
            }
            Stopped::Read(why) => write!(f, "cannot read: {why}"),
            Stopped::Write(why) => write!(f, "cannot write: {why}"),
        }
    }
}

/// Writes a line, so that it is out before the next frame is waited for.
fn put(out: &mut impl Write, text: fmt::Arguments<'_>) -> Result<(), Stopped> {
    writeln!(out, "{text}")
        .and_then(|()| out.flush())
        .map_err(Stopped::Write)
}

fn list(line: &mut impl Read, out: &mut impl Write) -> Result<(), Stopped> {
    let mut room = [0; ROOM];
    let mut at = 0;
    put(out, format_args!("at len addr sqn code data"))?;
    loop {
        match frame_from(line, &mut room).map_err(Stopped::Read)? {
            Came::End => return Ok(()),
            Came::TooLong(len) => return Err(Stopped::TooLong { at, len }),
            Came::Frame(Err(refusal)) => {
                let number = refusal.number();
                put(out, format_args!("{at} refused {number}"))?;
                return Err(Stopped::Refused { at, number });
            }
            Came::Frame(Ok(Parsed { packet: p, len, .. })) => {
                let (addr, sqn) = (p.addr.as_byte(), p.control.sqn.value());
                put(out, format_args!("{at} {len} {addr} {sqn} {} {}", p.code, p.data.len()))?;
                at += len;
            }
        }
    }
}

/// Standard input as a file, which a serial line is too: `io::stdin` itself reads ahead of what it is asked for.
fn standard_input() -> io::Result<File> {
    Ok(File::from(io::stdin().as_fd().try_clone_to_owned()?))
}

fn main() -> ExitCode {
    let listed = standard_input()
        .map_err(Stopped::Read)
        .and_then(|mut line| list(&mut line, &mut io::stdout().lock()));
    match listed {
        Ok(()) => ExitCode::SUCCESS,
        Err(stopped) => {
            // where standard error cannot be written, the status still tells
            let _ = writeln!(io::stderr(), "driver: {stopped}");
            ExitCode::from(stopped.status())
        }
    }
}
