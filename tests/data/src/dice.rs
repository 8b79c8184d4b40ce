//! Numbers that look random and hang on the seed alone.

/// A splitmix64 generator.
#[derive(Clone, Debug)]
pub struct Dice(u64);

impl Dice {
    pub fn of(seed: u64) -> Dice {
        Dice(seed)
    }

    /// Streams of one seed do not run into each other.
    pub fn new(seed: u64, stream: u64, number: u64) -> Dice {
        let mut dice = Dice(seed);
        dice.0 = dice.roll() ^ stream;
        dice.0 = dice.roll() ^ number;
        dice
    }

    pub fn roll(&mut self) -> u64 {
        self.0 = self.0.wrapping_add(0x9E37_79B9_7F4A_7C15);
        let mixed = (self.0 ^ (self.0 >> 30)).wrapping_mul(0xBF58_476D_1CE4_E5B9);
        let mixed = (mixed ^ (mixed >> 27)).wrapping_mul(0x94D0_49BB_1331_11EB);
        mixed ^ (mixed >> 31)
    }

    /// Below the limit; 0 for the limit 0.
    pub fn below(&mut self, limit: usize) -> usize {
        (self.roll() % (limit.max(1) as u64)) as usize
    }

    pub fn from(&mut self, low: usize, high: usize) -> usize {
        low + self.below(high.saturating_sub(low) + 1)
    }

    pub fn percent(&mut self, share: usize) -> bool {
        self.below(100) < share
    }

    pub fn one_in(&mut self, many: usize) -> bool {
        self.below(many) == 0
    }

    /// One of several; the default value if there are none.
    pub fn pick<T: Clone + Default>(&mut self, many: &[T]) -> T {
        self.choose(many).cloned().unwrap_or_default()
    }

    pub fn choose<'a, T>(&mut self, many: &'a [T]) -> Option<&'a T> {
        let index = self.below(many.len());
        many.get(index)
    }
}
