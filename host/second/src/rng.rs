//! A small seeded generator (splitmix64). The choices that it makes can be kept, and be made again, other ones among them.

pub struct Rng {
    state: u64,
    record: Option<Record>,
}

/// The choices that were made, and those that are still to be made again.
#[derive(Default)]
struct Record {
    made: Vec<u64>,
    given: Option<std::vec::IntoIter<u64>>,
    missing: usize,
}

/// So many choices that are not given are 0. Those after them are made by chance, for whoever waits for another one.
const MISSING: usize = 64;

impl Rng {
    pub fn new(seed: u64) -> Self {
        Rng { state: seed, record: None }
    }

    /// The generator of one numbered case of a run, so that each case can be made alone.
    pub fn of_case(seed: u64, stream: u64, number: u64) -> Self {
        let a = Rng::new(seed).advance();
        let b = Rng::new(a ^ stream.wrapping_mul(0xD6E8_FEB8_6659_FD93)).advance();
        Rng::new(b ^ number.wrapping_mul(0xA076_1D64_78BD_642F))
    }

    /// The same generator, which keeps the choices that it makes.
    pub fn recorded(self) -> Self {
        Rng { record: Some(self.record.unwrap_or_default()), state: self.state }
    }

    /// Makes these choices, each as far as its bound allows.
    pub fn of_choices(choices: Vec<u64>) -> Self {
        let record = Record { given: Some(choices.into_iter()), ..Record::default() };
        Rng { state: 0, record: Some(record) }
    }

    /// The choices that were made, where they were kept.
    pub fn choices(self) -> Vec<u64> {
        self.record.map(|record| record.made).unwrap_or_default()
    }

    fn advance(&mut self) -> u64 {
        self.state = self.state.wrapping_add(0x9E37_79B9_7F4A_7C15);
        let mut z = self.state;
        z = (z ^ (z >> 30)).wrapping_mul(0xBF58_476D_1CE4_E5B9);
        z = (z ^ (z >> 27)).wrapping_mul(0x94D0_49BB_1331_11EB);
        z ^ (z >> 31)
    }

    /// A number below `bound`, which is not 0. Every choice is made here; 0 is the plainest.
    fn choose(&mut self, bound: u64) -> u64 {
        let by_chance = self.advance() % bound;
        let Some(Record { made, given, missing }) = &mut self.record else {
            return by_chance;
        };
        let choice = match given.as_mut().map(Iterator::next) {
            Some(Some(choice)) => choice.min(bound - 1),
            Some(None) if *missing < MISSING => {
                *missing += 1;
                0
            }
            _ => by_chance,
        };
        made.push(choice);
        choice
    }

    /// A number of 64 bits, as a seed.
    pub fn next(&mut self) -> u64 {
        self.choose(u64::MAX)
    }

    pub fn word(&mut self) -> u32 {
        self.choose(1 << 32) as u32
    }

    /// A number below `bound`; 0 for the bound 0.
    pub fn below(&mut self, bound: usize) -> usize {
        match bound {
            0 => 0,
            _ => self.choose(bound as u64) as usize,
        }
    }

    /// A number from `low` to `high`, both included.
    pub fn between(&mut self, low: u32, high: u32) -> u32 {
        low + self.below((high - low) as usize + 1) as u32
    }

    pub fn percent(&mut self, chance: usize) -> bool {
        self.below(100) >= 100 - chance
    }

    /// True once in `count` times.
    pub fn once_in(&mut self, count: usize) -> bool {
        self.below(count) == count - 1
    }

    pub fn pick<T: Copy>(&mut self, choices: &[T]) -> T {
        choices[self.below(choices.len())]
    }

    pub fn shuffle<T>(&mut self, items: &mut [T]) {
        for last in (1..items.len()).rev() {
            items.swap(last, self.below(last + 1));
        }
    }

    /// The numbers below `count` in random order.
    pub fn permutation(&mut self, count: usize) -> Vec<u32> {
        let mut numbers: Vec<u32> = (0..count as u32).collect();
        self.shuffle(&mut numbers);
        numbers
    }
}
