//! The generator of numbers: xorshift over 64 bits (left 13, right 7, left 17).

/// Its state, never 0.
#[derive(Debug, Clone)]
pub struct Rng(u64);

impl Rng {
    /// A generator for `seed`: neighbouring seeds are spread apart first.
    pub fn new(seed: u64) -> Rng {
        let state = seed.wrapping_add(1).wrapping_mul(0x9e37_79b9_7f4a_7c15);
        let mut rng = Rng(if state == 0 { 1 } else { state });
        for _ in 0..8 {
            rng.draw();
        }
        rng
    }

    /// The next state.
    pub fn draw(&mut self) -> u64 {
        let mut x = self.0;
        x ^= x << 13;
        x ^= x >> 7;
        x ^= x << 17;
        self.0 = x;
        x
    }

    /// A number below `n`, which is above 0.
    pub fn below(&mut self, n: u64) -> u64 {
        (self.draw() >> 11) % n
    }

    /// A number from `low` to `high`, both included.
    pub fn from_to(&mut self, low: u64, high: u64) -> u64 {
        low + self.below(high - low + 1)
    }

    /// True once in `n` times.
    pub fn one_in(&mut self, n: u64) -> bool {
        self.below(n) == 0
    }

    /// One of the items.
    pub fn pick<T: Copy>(&mut self, items: &[T]) -> T {
        items[self.below(items.len() as u64) as usize]
    }

    /// A 64-bit number: often small, sometimes at an end, else any.
    pub fn word(&mut self) -> u64 {
        match self.below(4) {
            0 => self.below(4),
            1 => self.below(1 << 20),
            2 => self.pick(&[u64::MAX, 1 << 63, (1 << 56) - 1, 1 << 32]),
            _ => self.draw(),
        }
    }

    /// `n` bytes.
    pub fn bytes(&mut self, n: usize) -> Vec<u8> {
        (0..n).map(|_| (self.draw() >> 32) as u8).collect()
    }
}

#[cfg(test)]
mod tests {
    use super::Rng;

    /// The first draw of state 1.
    #[test]
    fn first_draw() {
        assert_eq!(Rng(1).draw(), 1_082_269_761);
    }
}
