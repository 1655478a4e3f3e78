//! Requests to the proved side and the layout of its answers. All numbers have their low byte first.
use std::io::{Read, Write};
use std::process::{Child, ChildStdin, ChildStdout, Command, Stdio};

/// What a lent buffer holds before a call, and how many bytes beyond it are watched.
pub const GUARD: usize = 16;
pub fn fill(n: usize) -> Vec<u8> {
    (0..n).map(|i| 0xA5 ^ (i.wrapping_mul(7) as u8)).collect()
}

pub const CHECKSUM8: u8 = 0;
pub const CRC16: u8 = 1;
pub const ADDRESS_PD: u8 = 2;
pub const ADDRESS_REPLY: u8 = 3;
pub const SQN_NEW: u8 = 4;
pub const SQN_NEXT: u8 = 5;
pub const CONTROL_DECODE: u8 = 6;
pub const CONTROL_ENCODE: u8 = 7;
pub const SCS_TYPE: u8 = 8;
pub const BLOCK: u8 = 9;
pub const HEAD: u8 = 10;
pub const PARSE: u8 = 11;
pub const BUILD: u8 = 12;
pub const BUILD_BODY: u8 = 13;
pub const AES_ENCRYPT: u8 = 14;
pub const AES_DECRYPT: u8 = 15;
pub const DERIVE: u8 = 16;
pub const CLIENT: u8 = 17;
pub const SERVER: u8 = 18;
pub const FIRST: u8 = 19;
pub const DIVERSIFY: u8 = 20;
pub const COMPLEMENT: u8 = 21;
pub const PAD_MAC: u8 = 22;
pub const PAD_DATA: u8 = 23;
pub const UNPAD: u8 = 24;
pub const CBC_MAC: u8 = 25;
pub const ENCRYPT: u8 = 26;
pub const DECRYPT: u8 = 27;
pub const NEW: u8 = 28;
pub const NEW_READER: u8 = 29;
pub const WIPE: u8 = 30;
pub const CHALLENGE: u8 = 31;
pub const RECEIVE_CCRYPT: u8 = 32;
pub const SERVER_CRYPTOGRAM: u8 = 33;
pub const INITIAL_RMAC: u8 = 34;
pub const CONFIRM_RMAC_I: u8 = 35;
pub const RECEIVE_CHALLENGE: u8 = 36;
pub const RECEIVE_SCRYPT: u8 = 37;
pub const MAC: u8 = 38;
pub const VERIFY: u8 = 39;
pub const KEYS: u8 = 40;
pub const LAST_OTHER_MAC: u8 = 41;
pub const SEAL_DATA: u8 = 42;
pub const OPEN_DATA: u8 = 43;
pub const SEAL: u8 = 44;
pub const UNSEAL: u8 = 45;
pub const PAYLOAD_TEST: u8 = 46;

/// Whether an answer starts with a refusal's number.
pub fn refuses(op: u8) -> bool {
    !matches!(op, CHECKSUM8 | CRC16 | AES_ENCRYPT..=COMPLEMENT | CBC_MAC | NEW | NEW_READER | WIPE)
}

/// Whether a call is lent a buffer.
pub fn lends(op: u8) -> bool {
    matches!(op, BUILD | BUILD_BODY | PAD_MAC | PAD_DATA | ENCRYPT | DECRYPT | SEAL_DATA..=UNSEAL)
}

pub const NAMES: [&str; 47] = [
    "checksum8", "crc16", "address pd", "address reply", "sqn new", "sqn next", "control decode", "control encode",
    "scs type", "block", "head", "parse", "build", "build body", "aes encrypt", "aes decrypt", "derive", "client cryptogram",
    "server cryptogram", "first chain value", "diversify scbk", "complement icv", "pad mac", "pad data", "unpad data", "cbc mac",
    "encrypt data", "decrypt data", "session new", "session new reader", "session wipe", "challenge", "receive ccrypt",
    "session server cryptogram", "session initial rmac", "confirm rmac_i", "receive challenge", "receive scrypt", "session mac",
    "session verify", "session keys", "last other mac", "session seal data", "session open data", "seal", "unseal", "payload test",
];

/// Some bytes of a request or an answer.
pub fn array<const N: usize>(bytes: &[u8], at: usize) -> [u8; N] {
    bytes[at..at + N].try_into().unwrap()
}
/// A length, as it travels.
pub fn u32_at(bytes: &[u8], at: usize) -> usize {
    u32::from_le_bytes(array(bytes, at)) as usize
}

/// A request, as it travels.
pub fn request(op: u8, input: &[u8]) -> Vec<u8> {
    [&[op][..], &(input.len() as u32).to_le_bytes(), input].concat()
}

/// The first 200 bytes, for a reader.
pub fn shown(bytes: &[u8]) -> String {
    bytes.iter().take(200).map(|b| format!("{b:02X}")).collect::<Vec<_>>().join(" ")
}

/// Bytes of an answer, put one after the other.
#[derive(Default, Clone, PartialEq, Eq)]
pub struct Out(pub Vec<u8>);
impl Out {
    pub fn u8(&mut self, x: u8) -> &mut Self {
        self.0.push(x);
        self
    }
    pub fn bool(&mut self, x: bool) -> &mut Self {
        self.u8(x as u8)
    }
    pub fn u16(&mut self, x: u16) -> &mut Self {
        self.0.extend_from_slice(&x.to_le_bytes());
        self
    }
    pub fn u32(&mut self, x: usize) -> &mut Self {
        self.0.extend_from_slice(&(x as u32).to_le_bytes());
        self
    }
    pub fn u64(&mut self, x: usize) -> &mut Self {
        self.0.extend_from_slice(&(x as u64).to_le_bytes());
        self
    }
    pub fn bytes(&mut self, x: &[u8]) -> &mut Self {
        self.0.extend_from_slice(x);
        self
    }
    /// A refusal's number and its two values, or 0, what was given, and 0.
    pub fn answer(&mut self, a: (u8, usize, usize)) -> &mut Self {
        self.u8(a.0).u64(a.1).u64(a.2)
    }
}

/// The other process.
pub struct Ours {
    child: Child,
    to: Option<ChildStdin>,
    from: ChildStdout,
}
impl Ours {
    pub fn start(command: &[String]) -> Self {
        let mut child = Command::new(&command[0])
            .args(&command[1..])
            .stdin(Stdio::piped())
            .stdout(Stdio::piped())
            .spawn()
            .expect("the proved side does not start");
        let to = child.stdin.take();
        let from = child.stdout.take().unwrap();
        Self { child, to, from }
    }
    pub fn send(&mut self, batch: &[u8]) {
        let to = self.to.as_mut().unwrap();
        to.write_all(&(batch.len() as u32).to_le_bytes()).expect("the proved side does not read");
        to.write_all(batch).expect("the proved side does not read");
        to.flush().unwrap();
    }
    pub fn receive(&mut self) -> Vec<u8> {
        let mut head = [0; 4];
        self.from.read_exact(&mut head).expect("the proved side does not answer");
        let mut all = vec![0; u32_at(&head, 0)];
        self.from.read_exact(&mut all).expect("the proved side does not answer");
        all
    }
    pub fn end(mut self) {
        self.to.take();
        let status = self.child.wait().unwrap();
        assert!(status.success(), "the proved side ended with {status}");
    }
}
