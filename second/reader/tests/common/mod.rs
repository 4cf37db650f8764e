//! Messages to test with, built byte by byte without the crate's writers.

#![allow(dead_code)]

use reader::Refusal;

pub const UNICODE: u32 = 0x1;
pub const OEM: u32 = 0x2;
pub const REQUEST_TARGET: u32 = 0x4;
pub const SIGN: u32 = 0x10;
pub const SEAL: u32 = 0x20;
pub const OEM_DOMAIN: u32 = 0x1000;
pub const OEM_WORK: u32 = 0x2000;
pub const TARGET_INFO: u32 = 0x80_0000;
pub const VERSION: u32 = 0x200_0000;
pub const BITS_128: u32 = 0x2000_0000;
pub const KEY_EXCH: u32 = 0x4000_0000;

/// Where the heads of an AUTHENTICATE message stand, by field number - 1.
pub const HEADS: [usize; 6] = [12, 20, 28, 36, 44, 52];

/// Field numbers.
pub const LM: usize = 1;
pub const NT: usize = 2;
pub const DOMAIN: usize = 3;
pub const USER: usize = 4;
pub const WORK: usize = 5;
pub const KEY: usize = 6;

pub fn put(message: &mut [u8], at: usize, bytes: &[u8]) {
    message[at..at + bytes.len()].copy_from_slice(bytes);
}

pub fn put_head(message: &mut [u8], at: usize, len: u16, offset: u32) {
    put(message, at, &len.to_le_bytes());
    put(message, at + 2, &len.to_le_bytes());
    put(message, at + 4, &offset.to_le_bytes());
}

pub fn utf16(text: &str) -> Vec<u8> {
    text.encode_utf16().flat_map(u16::to_le_bytes).collect()
}

/// An AUTHENTICATE message of `len` bytes with empty fields and zeros.
pub struct Auth(pub Vec<u8>);

impl Auth {
    pub fn new(flags: u32, len: usize) -> Self {
        let mut message = vec![0; len];
        put(&mut message, 0, b"NTLMSSP\0\x03\0\0\0");
        put(&mut message, 60, &flags.to_le_bytes());
        Self(message)
    }

    pub fn field(mut self, number: usize, len: u16, offset: u32) -> Self {
        put_head(&mut self.0, HEADS[number - 1], len, offset);
        self
    }

    pub fn bytes(mut self, at: usize, bytes: &[u8]) -> Self {
        put(&mut self.0, at, bytes);
        self
    }
}

/// Document 01's P1.
pub fn p1() -> Vec<u8> {
    let mut message = Vec::new();
    message.extend([0x4E, 0x54, 0x4C, 0x4D, 0x53, 0x53, 0x50, 0x00]);
    message.extend([0x03, 0x00, 0x00, 0x00]);
    message.extend([0x00, 0x00, 0x00, 0x00, 0x60, 0x00, 0x00, 0x00]);
    message.extend([0x18, 0x00, 0x18, 0x00, 0x60, 0x00, 0x00, 0x00]);
    message.extend([0x00, 0x00, 0x00, 0x00, 0x58, 0x00, 0x00, 0x00]);
    message.extend([0x08, 0x00, 0x08, 0x00, 0x58, 0x00, 0x00, 0x00]);
    message.extend([0x00, 0x00, 0x00, 0x00, 0x60, 0x00, 0x00, 0x00]);
    message.extend([0x00, 0x00, 0x00, 0x00, 0x78, 0x00, 0x00, 0x00]);
    message.extend([0x01, 0x02, 0x00, 0x00]);
    message.extend([0; 24]);
    message.extend([0x62, 0x00, 0x6F, 0x00, 0x78, 0x00, 0x37, 0x00]);
    message.extend([0xAA; 24]);
    message
}

/// P1 with another length and offset in one head.
pub fn p1_with(number: usize, len: u16, offset: u32) -> Vec<u8> {
    Auth(p1()).field(number, len, offset).0
}

/// A pair as it stands in a list.
pub fn pair(id: u16, value: &[u8]) -> Vec<u8> {
    let mut bytes = id.to_le_bytes().to_vec();
    bytes.extend((value.len() as u16).to_le_bytes());
    bytes.extend(value);
    bytes
}

/// Ids and values.
pub type Pairs<'a> = [(u16, &'a [u8])];

/// A list of pairs and the end pair.
pub fn list(pairs: &Pairs<'_>) -> Vec<u8> {
    let mut bytes: Vec<u8> = pairs
        .iter()
        .flat_map(|(id, value)| pair(*id, value))
        .collect();
    bytes.extend([0; 4]);
    bytes
}

/// A CHALLENGE message: fixed part and Version, TargetName at 56, TargetInfo
/// after it. ServerChallenge is 1 to 8.
pub fn challenge(flags: u32, target: &[u8], info: &[u8]) -> Vec<u8> {
    let mut message = vec![0; 56];
    put(&mut message, 0, b"NTLMSSP\0\x02\0\0\0");
    put_head(&mut message, 12, target.len() as u16, 56);
    put(&mut message, 20, &flags.to_le_bytes());
    put(&mut message, 24, &[1, 2, 3, 4, 5, 6, 7, 8]);
    let info_at = 56 + target.len() as u32;
    put_head(&mut message, 40, info.len() as u16, info_at);
    message.extend(target);
    message.extend(info);
    message
}

/// Where the heads of a NEGOTIATE message stand: domain, workstation.
pub const NEGOTIATE_HEADS: [(usize, u8); 2] = [(16, 1), (24, 2)];

/// A NEGOTIATE message: fixed part and a Version of zeros, domain at 40,
/// workstation after it.
pub fn negotiate(flags: u32, domain: &[u8], workstation: &[u8]) -> Vec<u8> {
    let mut message = vec![0; 40];
    put(&mut message, 0, b"NTLMSSP\0\x01\0\0\0");
    put(&mut message, 12, &flags.to_le_bytes());
    put_head(&mut message, 16, domain.len() as u16, 40);
    let workstation_at = 40 + domain.len() as u32;
    put_head(&mut message, 24, workstation.len() as u16, workstation_at);
    message.extend(domain);
    message.extend(workstation);
    message
}

/// An NL_AUTH message.
pub fn nl(message_type: u32, flags: u32, buffer: &[u8]) -> Vec<u8> {
    let mut message = message_type.to_le_bytes().to_vec();
    message.extend(flags.to_le_bytes());
    message.extend(buffer);
    message
}

/// A refusal as number and field. Only one of a pair has a place.
pub fn refused<T: std::fmt::Debug>(answer: Result<T, Refusal>) -> (u8, u8) {
    let (number, field, place) = refused_at(answer);
    assert!(place == 0 || matches!(number, 10..=13), "{number}: {place}");
    (number, field)
}

/// A refusal as number, field and place.
pub fn refused_at<T: std::fmt::Debug>(answer: Result<T, Refusal>) -> (u8, u8, usize) {
    let refusal = answer.expect_err("a refusal");
    (refusal.number(), refusal.field, refusal.place)
}

/// A line call.
pub type LineCall = fn(&[u8], &mut [u8]) -> Result<usize, Refusal>;

/// The line of a line call with room enough for any.
pub fn line(call: LineCall, message: &[u8]) -> String {
    // Each byte may stand in three names and takes up to 4 characters; a DNS
    // name, which may jump to bytes of others, has at most 255 of them. The
    // checks of a message take up to 279.
    let mut room = vec![0; 300 + 12 * message.len() + 12 * 255];
    let len = call(message, &mut room).expect("room enough");
    String::from_utf8(room[..len].to_vec()).expect("ASCII")
}

/// A DNS name without jumps: each label after its length, and the zero byte.
pub fn dns(labels: &[&[u8]]) -> Vec<u8> {
    let mut bytes = Vec::new();
    for label in labels {
        bytes.push(label.len() as u8);
        bytes.extend(*label);
    }
    bytes.push(0);
    bytes
}
