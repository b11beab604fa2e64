//! splitmix64: the same numbers from the same seed, everywhere.

pub struct Random {
    state: u64,
    first: Option<u64>,
}

impl Random {
    pub fn new(seed: u64) -> Random {
        Random { state: seed, first: None }
    }

    /// The first `pick` takes this place of its list.
    pub fn with_first(seed: u64, place: u64) -> Random {
        Random { state: seed, first: Some(place) }
    }

    pub fn next(&mut self) -> u64 {
        self.state = self.state.wrapping_add(0x9E37_79B9_7F4A_7C15);
        let mut z = self.state;
        z = (z ^ (z >> 30)).wrapping_mul(0xBF58_476D_1CE4_E5B9);
        z = (z ^ (z >> 27)).wrapping_mul(0x94D0_49BB_1331_11EB);
        z ^ (z >> 31)
    }

    pub fn below(&mut self, limit: u64) -> u64 {
        self.next() % limit
    }

    /// Once in so many times.
    pub fn once_in(&mut self, times: u64) -> bool {
        self.below(times) == 0
    }

    pub fn pick<T: Copy>(&mut self, from: &[T]) -> T {
        let place = self.first.take().unwrap_or_else(|| self.next());
        from[(place % from.len() as u64) as usize]
    }

    pub fn shuffle<T>(&mut self, list: &mut [T]) {
        for i in (1..list.len()).rev() {
            list.swap(i, self.below(i as u64 + 1) as usize);
        }
    }
}
