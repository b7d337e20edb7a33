// SplitMix64.
pub struct Random(pub u64);

impl Random {
    pub fn next(&mut self) -> u64 {
        self.0 = self.0.wrapping_add(0x9E37_79B9_7F4A_7C15);
        let mut z = self.0;
        z = (z ^ z >> 30).wrapping_mul(0xBF58_476D_1CE4_E5B9);
        z = (z ^ z >> 27).wrapping_mul(0x94D0_49BB_1331_11EB);
        z ^ z >> 31
    }

    pub fn below(&mut self, n: usize) -> usize {
        (self.next() % n as u64) as usize
    }

    // A code of n digits.
    pub fn code(&mut self, n: usize) -> Vec<u8> {
        let mut code: Vec<u8> = (1..n).map(|_| 1 + self.below(3) as u8).collect();
        code.push(2 + self.below(2) as u8);
        code
    }

    // One bit of some bytes the other way round.
    pub fn flip(&mut self, bytes: &mut [u8]) {
        let bit = self.below(8 * bytes.len());
        bytes[bit / 8] ^= 1 << bit % 8;
    }
}
