//! Numbers by chance, the same at every run.

const FACTOR: u64 = 48_271;
const MODULUS: u64 = 2_147_483_647;

/// A generator; its state is never 0 and is below the modulus.
pub struct Chance {
    state: u64,
}

impl Chance {
    /// The generator of a seed from 1 to 2,147,483,646.
    pub fn new(seed: u64) -> Chance {
        Chance { state: seed }
    }

    /// A number from 0 to `limit` - 1.
    pub fn pick(&mut self, limit: u64) -> u64 {
        self.state = self.state * FACTOR % MODULUS;
        self.state % limit
    }

    /// A number from `least` to `most`.
    pub fn within(&mut self, least: u64, most: u64) -> u64 {
        least + self.pick(most - least + 1)
    }

    /// A number from 0 to `limit` - 1 as a byte; the limit is at most 256.
    pub fn byte(&mut self, limit: u64) -> u8 {
        self.pick(limit) as u8
    }

    /// So many bytes below a limit.
    pub fn bytes(&mut self, count: u64, limit: u64) -> Vec<u8> {
        (0..count).map(|_| self.byte(limit)).collect()
    }

    /// A number from 0 to `limit` - 1 as a place.
    pub fn place(&mut self, limit: usize) -> usize {
        self.pick(limit as u64) as usize
    }

    /// Yes, once in so many times.
    pub fn once_in(&mut self, times: u64) -> bool {
        self.pick(times) == 0
    }

    /// One of some choices.
    pub fn among<T: Copy>(&mut self, choices: &[T]) -> T {
        choices[self.place(choices.len())]
    }
}

#[cfg(test)]
mod tests {
    use super::Chance;

    /// The C++ standard gives this value for its generator of the same factor and modulus.
    #[test]
    fn the_ten_thousandth_number() {
        let mut chance = Chance::new(1);
        let last = (0..10_000).map(|_| chance.pick(u64::MAX)).last();
        assert_eq!(last, Some(399_268_537));
    }
}
