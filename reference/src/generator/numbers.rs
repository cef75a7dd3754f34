//! A small source of numbers that is the same on every machine.

const EXTREMES: [i32; 16] = [
    i32::MIN,
    i32::MIN + 1,
    i32::MAX,
    i32::MAX - 1,
    -1,
    0,
    1,
    1 << 16,
    -(1 << 16),
    1 << 15,
    1 << 30,
    -(1 << 30),
    46_340,
    46_341,
    1_000_000,
    1_000_001,
];

#[derive(Clone, Debug, Default)]
pub struct Numbers {
    state: u64,
    /// How many literals in a hundred are extreme.
    pub extremes: usize,
}

fn mix(number: u64) -> u64 {
    let number = (number ^ (number >> 30)).wrapping_mul(0xBF58_476D_1CE4_E5B9);
    let number = (number ^ (number >> 27)).wrapping_mul(0x94D0_49BB_1331_11EB);
    number ^ (number >> 31)
}

impl Numbers {
    pub fn new(seed: u64, index: u64) -> Numbers {
        let own = mix(index.wrapping_mul(0x9E37_79B9_7F4A_7C15).wrapping_add(1));
        Numbers {
            state: mix(seed) ^ own,
            extremes: 3,
        }
    }

    pub(super) fn next(&mut self) -> u64 {
        self.state = self.state.wrapping_add(0x9E37_79B9_7F4A_7C15);
        mix(self.state)
    }

    /// A number from 0 up to a limit that is left out; 0 for limit 0.
    pub fn below(&mut self, limit: usize) -> usize {
        let limit = u64::try_from(limit).unwrap_or(u64::MAX).max(1);
        usize::try_from(self.next() % limit).unwrap_or(0)
    }

    pub fn between(&mut self, low: i32, high: i32) -> i32 {
        let span = (i64::from(high) - i64::from(low)).max(0) as usize + 1;
        low.saturating_add(i32::try_from(self.below(span)).unwrap_or(0))
    }

    pub fn chance(&mut self, percent: usize) -> bool {
        self.below(100) < percent
    }

    pub fn pick<T: Copy>(&mut self, list: &[T]) -> Option<T> {
        list.get(self.below(list.len())).copied()
    }

    /// One of a few numbers, the first if there are none.
    pub fn one_of(&mut self, list: &[i32]) -> i32 {
        self.pick(list).unwrap_or(0)
    }

    pub fn extreme(&mut self) -> i32 {
        match self.below(4) {
            0 => self.next() as i32,
            _ => self.one_of(&EXTREMES),
        }
    }

    pub fn small(&mut self) -> i32 {
        self.between(-3, 12)
    }

    /// A number for a literal of a program.
    pub fn literal(&mut self) -> i32 {
        if self.chance(self.extremes) {
            return self.extreme();
        }
        match self.below(6) {
            0 => self.between(-1000, 1000),
            _ => self.small(),
        }
    }

    /// Any word at all, small ones mostly.
    pub fn word(&mut self) -> i32 {
        match self.below(8) {
            0 => self.extreme(),
            1 => self.between(-3, 600),
            _ => self.between(0, 27),
        }
    }
}
