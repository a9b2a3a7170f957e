//! The digest MD5 (RFC 1321).

const BLOCK: usize = 64;
const SHIFTS: [[u32; 4]; 4] = [[7, 12, 17, 22], [5, 9, 14, 20], [4, 11, 16, 23], [6, 10, 15, 21]];

pub trait Digest {
    fn new() -> Self;
    fn update(&mut self, bytes: impl AsRef<[u8]>);
    fn finalize(self) -> [u8; 16];
}

pub struct Md5 {
    state: [u32; 4],
    factors: [u32; 64],
    /// The bytes that no whole block has yet.
    rest: [u8; BLOCK],
    /// How many bytes there were.
    count: u64,
}

impl Md5 {
    fn take_block(&mut self, block: &[u8]) {
        let mut words = [0; 16];
        for (word, bytes) in words.iter_mut().zip(block.chunks_exact(4)) {
            *word = u32::from_le_bytes([bytes[0], bytes[1], bytes[2], bytes[3]]);
        }
        let [mut a, mut b, mut c, mut d] = self.state;
        for i in 0..64 {
            let (mixed, place) = match i / 16 {
                0 => ((b & c) | (!b & d), i),
                1 => ((d & b) | (!d & c), 5 * i + 1),
                2 => (b ^ c ^ d, 3 * i + 5),
                _ => (c ^ (b | !d), 7 * i),
            };
            let sum = a.wrapping_add(mixed).wrapping_add(self.factors[i]).wrapping_add(words[place % 16]);
            (a, d, c) = (d, c, b);
            b = b.wrapping_add(sum.rotate_left(SHIFTS[i / 16][i % 4]));
        }
        for (old, new) in self.state.iter_mut().zip([a, b, c, d]) {
            *old = old.wrapping_add(new);
        }
    }
}

impl Digest for Md5 {
    fn new() -> Md5 {
        let factors = std::array::from_fn(|i| (((i + 1) as f64).sin().abs() * 4294967296.0) as u32);
        Md5 { state: [0x67452301, 0xefcdab89, 0x98badcfe, 0x10325476], factors, rest: [0; BLOCK], count: 0 }
    }

    fn update(&mut self, bytes: impl AsRef<[u8]>) {
        let mut bytes = bytes.as_ref();
        let held = self.count as usize % BLOCK;
        self.count += bytes.len() as u64;
        if held > 0 {
            let count = bytes.len().min(BLOCK - held);
            self.rest[held..held + count].copy_from_slice(&bytes[..count]);
            bytes = &bytes[count..];
            if held + count < BLOCK {
                return;
            }
            let block = self.rest;
            self.take_block(&block);
        }
        let blocks = bytes.chunks_exact(BLOCK);
        let left = blocks.remainder();
        blocks.for_each(|block| self.take_block(block));
        self.rest[..left.len()].copy_from_slice(left);
    }

    fn finalize(mut self) -> [u8; 16] {
        let bits = (8 * self.count).to_le_bytes();
        self.update([0x80]);
        while self.count as usize % BLOCK != BLOCK - bits.len() {
            self.update([0]);
        }
        self.update(bits);
        let mut digest = [0; 16];
        for (bytes, word) in digest.chunks_exact_mut(4).zip(self.state) {
            bytes.copy_from_slice(&word.to_le_bytes());
        }
        digest
    }
}
