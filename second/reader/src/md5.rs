//! MD5: RFC 1321, with its names.

/// "The message is processed in 16-word (64-byte) blocks."
pub(crate) const BLOCK: usize = 64;

/// A, B, C and D, "Step 3. Initialize MD Buffer".
const START: [u32; 4] = [0x6745_2301, 0xEFCD_AB89, 0x98BA_DCFE, 0x1032_5476];

/// "T\[i\] ... equal to the integer part of 4294967296 times abs(sin(i))", from 1 on.
const T: [u32; 64] = [
    0xD76A_A478,
    0xE8C7_B756,
    0x2420_70DB,
    0xC1BD_CEEE,
    0xF57C_0FAF,
    0x4787_C62A,
    0xA830_4613,
    0xFD46_9501,
    0x6980_98D8,
    0x8B44_F7AF,
    0xFFFF_5BB1,
    0x895C_D7BE,
    0x6B90_1122,
    0xFD98_7193,
    0xA679_438E,
    0x49B4_0821,
    0xF61E_2562,
    0xC040_B340,
    0x265E_5A51,
    0xE9B6_C7AA,
    0xD62F_105D,
    0x0244_1453,
    0xD8A1_E681,
    0xE7D3_FBC8,
    0x21E1_CDE6,
    0xC337_07D6,
    0xF4D5_0D87,
    0x455A_14ED,
    0xA9E3_E905,
    0xFCEF_A3F8,
    0x676F_02D9,
    0x8D2A_4C8A,
    0xFFFA_3942,
    0x8771_F681,
    0x6D9D_6122,
    0xFDE5_380C,
    0xA4BE_EA44,
    0x4BDE_CFA9,
    0xF6BB_4B60,
    0xBEBF_BC70,
    0x289B_7EC6,
    0xEAA1_27FA,
    0xD4EF_3085,
    0x0488_1D05,
    0xD9D4_D039,
    0xE6DB_99E5,
    0x1FA2_7CF8,
    0xC4AC_5665,
    0xF429_2244,
    0x432A_FF97,
    0xAB94_23A7,
    0xFC93_A039,
    0x655B_59C3,
    0x8F0C_CC92,
    0xFFEF_F47D,
    0x8584_5DD1,
    0x6FA8_7E4F,
    0xFE2C_E6E0,
    0xA301_4314,
    0x4E08_11A1,
    0xF753_7E82,
    0xBD3A_F235,
    0x2AD7_D2BB,
    0xEB86_D391,
];

/// The digest of bytes that are fed one part after the other.
#[derive(Clone, Copy)]
pub(crate) struct Md5 {
    state: [u32; 4],
    /// What has been fed since the last whole block, from the start on.
    block: [u8; BLOCK],
    filled: usize,
    /// How many bytes have been fed.
    fed: u64,
}

impl Md5 {
    pub(crate) const fn new() -> Self {
        Self {
            state: START,
            block: [0; BLOCK],
            filled: 0,
            fed: 0,
        }
    }

    pub(crate) fn feed(&mut self, mut bytes: &[u8]) {
        self.fed = self.fed.wrapping_add(bytes.len() as u64);
        if self.filled > 0 {
            bytes = self.fill(bytes);
        }
        let (blocks, rest) = bytes.as_chunks::<BLOCK>();
        for block in blocks {
            self.state = mixed(self.state, block);
        }
        self.fill(rest);
    }

    /// Puts into the block what it has room for, and gives the rest. A block that
    /// is full is mixed in.
    fn fill<'a>(&mut self, bytes: &'a [u8]) -> &'a [u8] {
        let room = self.block.get_mut(self.filled..).unwrap_or_default();
        let (now, rest) = bytes.split_at(bytes.len().min(room.len()));
        for (slot, byte) in room.iter_mut().zip(now) {
            *slot = *byte;
        }
        self.filled = self.filled.saturating_add(now.len());
        if self.filled == BLOCK {
            self.state = mixed(self.state, &self.block);
            self.filled = 0;
        }
        rest
    }

    /// Steps 1, 2 and 5: a one bit, zeros "until its length is congruent to 448,
    /// modulo 512", the length in bits, then the four words, low byte first.
    pub(crate) fn finish(mut self) -> [u8; 16] {
        let bits = self.fed.wrapping_mul(8);
        self.feed(&[0x80]);
        while self.filled != BLOCK - 8 {
            self.feed(&[0]);
        }
        self.feed(&bits.to_le_bytes());
        let mut digest = [0; 16];
        for (bytes, word) in digest.as_chunks_mut().0.iter_mut().zip(self.state) {
            *bytes = word.to_le_bytes();
        }
        digest
    }
}

/// The digest of a message.
pub fn md5(message: &[u8]) -> [u8; 16] {
    let mut digest = Md5::new();
    digest.feed(message);
    digest.finish()
}

/// "Step 4. Process Message in 16-Word Blocks": one block.
#[allow(clippy::indexing_slicing)] // places of words are taken modulo 16, those of T are below 64
fn mixed(state: [u32; 4], block: &[u8; BLOCK]) -> [u32; 4] {
    let mut x = [0; 16];
    for (word, bytes) in x.iter_mut().zip(block.as_chunks().0) {
        *word = u32::from_le_bytes(*bytes);
    }
    let [mut a, mut b, mut c, mut d] = state;
    // "a = b + ((a + F(b,c,d) + X[k] + T[i]) <<< s)", four times with the letters
    // gone round, four times in a round.
    macro_rules! round {
        ($number:literal, $f:expr, $k:expr, [$s1:literal, $s2:literal, $s3:literal, $s4:literal]) => {
            for group in 0..4 {
                let at = 4 * group;
                let step = |a: u32, b: u32, c: u32, d: u32, i: usize, s: u32| {
                    let sum = a.wrapping_add($f(b, c, d));
                    let sum = sum.wrapping_add(x[$k(i) % 16]);
                    let sum = sum.wrapping_add(T[16 * $number + i]);
                    b.wrapping_add(sum.rotate_left(s))
                };
                a = step(a, b, c, d, at, $s1);
                d = step(d, a, b, c, at + 1, $s2);
                c = step(c, d, a, b, at + 2, $s3);
                b = step(b, c, d, a, at + 3, $s4);
            }
        };
    }
    round!(
        0,
        |x: u32, y: u32, z: u32| x & y | !x & z,
        |i| i,
        [7, 12, 17, 22]
    );
    round!(
        1,
        |x: u32, y: u32, z: u32| x & z | y & !z,
        |i| 5 * i + 1,
        [5, 9, 14, 20]
    );
    round!(
        2,
        |x: u32, y: u32, z: u32| x ^ y ^ z,
        |i| 3 * i + 5,
        [4, 11, 16, 23]
    );
    round!(
        3,
        |x: u32, y: u32, z: u32| y ^ (x | !z),
        |i| 7 * i,
        [6, 10, 15, 21]
    );
    let [a0, b0, c0, d0] = state;
    [
        a0.wrapping_add(a),
        b0.wrapping_add(b),
        c0.wrapping_add(c),
        d0.wrapping_add(d),
    ]
}

#[cfg(test)]
mod tests {
    use super::{md5, Md5, T};

    #[test]
    fn the_table_is_that_of_the_sine() {
        for (t, i) in T.iter().zip(1..) {
            let sine = f64::from(i).sin().abs();
            assert_eq!(*t, (4_294_967_296.0 * sine) as u32, "{i}");
        }
    }

    /// However a message is cut, and at every length around a block's end.
    #[test]
    fn parts_are_fed_as_the_whole_is() {
        let message: Vec<u8> = (0..=255).collect();
        for len in 0..=200 {
            let message = &message[..len];
            for at in 0..=len {
                let mut digest = Md5::new();
                digest.feed(&message[..at]);
                digest.feed(&message[at..]);
                assert_eq!(digest.finish(), md5(message), "{len} {at}");
            }
        }
    }
}
