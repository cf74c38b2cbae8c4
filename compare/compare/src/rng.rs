/// A generator of numbers that depend on its seed alone (splitmix64).
#[derive(Debug, Clone)]
pub struct Rng {
    state: u64,
}

impl Rng {
    pub fn new(seed: u64) -> Self {
        Self { state: seed }
    }

    pub fn next_u64(&mut self) -> u64 {
        self.state = self.state.wrapping_add(0x9E37_79B9_7F4A_7C15);
        let mut z = self.state;
        z = (z ^ (z >> 30)).wrapping_mul(0xBF58_476D_1CE4_E5B9);
        z = (z ^ (z >> 27)).wrapping_mul(0x94D0_49BB_1331_11EB);
        z ^ (z >> 31)
    }

    pub fn next_u32(&mut self) -> u32 {
        (self.next_u64() >> 32) as u32
    }

    /// A number below n; 0 where there is none.
    pub fn below(&mut self, n: usize) -> usize {
        ((u128::from(self.next_u64()) * n as u128) >> 64) as usize
    }

    /// A number from first to last.
    pub fn between(&mut self, first: usize, last: usize) -> usize {
        first + self.below(last - first + 1)
    }

    /// Yes once in n times.
    pub fn once_in(&mut self, n: usize) -> bool {
        self.below(n) == 0
    }

    pub fn pick<T: Clone>(&mut self, choices: &[T]) -> T {
        choices[self.below(choices.len())].clone()
    }

    /// A number of any size class, the edges of 32 bits among them.
    pub fn any_u32(&mut self) -> u32 {
        const EDGES: [u32; 6] = [0, 1, 0x7fff_ffff, 0x8000_0000, 0xffff_fffe, 0xffff_ffff];
        match self.below(4) {
            0 => self.pick(&EDGES),
            1 => self.next_u32(),
            _ => {
                let bits = self.below(32) as u32;
                self.next_u32() >> bits
            }
        }
    }

    pub fn any_i32(&mut self) -> i32 {
        self.any_u32() as i32
    }

    pub fn bytes(&mut self, count: usize) -> Vec<u8> {
        (0..count).map(|_| self.next_u64() as u8).collect()
    }

    pub fn words(&mut self, count: usize) -> Vec<i32> {
        (0..count).map(|_| self.any_i32()).collect()
    }

    /// A length that does not fit: one more, one less, or none.
    pub fn misfit(&mut self, length: usize) -> usize {
        match self.below(3) {
            0 => length + 1,
            1 => length.saturating_sub(1),
            _ => 0,
        }
    }
}
