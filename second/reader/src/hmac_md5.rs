//! HMAC-MD5: RFC 2104 over RFC 1321.

use crate::md5::{md5, Md5, BLOCK};

/// "ipad = the byte 0x36 repeated B times, opad = the byte 0x5C repeated B times."
const IPAD: u8 = 0x36;
const OPAD: u8 = 0x5C;

/// `MD5(K XOR opad, MD5(K XOR ipad, text))`, of a text in parts. "Applications
/// that use keys longer than B bytes will first hash the key."
pub fn hmac_md5<'a>(key: &[u8], text: impl IntoIterator<Item = &'a [u8]>) -> [u8; 16] {
    let key = if key.len() > BLOCK {
        block_of(&md5(key))
    } else {
        block_of(key)
    };
    let mut inner = Md5::new();
    inner.feed(&key.map(|byte| byte ^ IPAD));
    for part in text {
        inner.feed(part);
    }
    let mut outer = Md5::new();
    outer.feed(&key.map(|byte| byte ^ OPAD));
    outer.feed(&inner.finish());
    outer.finish()
}

/// "Append zeros to the end of K to create a B byte string."
fn block_of(key: &[u8]) -> [u8; BLOCK] {
    let mut block = [0; BLOCK];
    for (slot, byte) in block.iter_mut().zip(key) {
        *slot = *byte;
    }
    block
}
