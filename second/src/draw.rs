//! Random numbers (splitmix64), each deck with a stream of its own.

pub struct Draw {
    state: u64,
    /// How often this deck's kind came before it; enumerates its variants.
    pub turn: u64,
}

fn mix(mut z: u64) -> u64 {
    z = (z ^ (z >> 30)).wrapping_mul(0xBF58_476D_1CE4_E5B9);
    z = (z ^ (z >> 27)).wrapping_mul(0x94D0_49BB_1331_11EB);
    z ^ (z >> 31)
}

impl Draw {
    pub fn new(seed: u64, index: u64, turn: u64) -> Draw {
        Draw {
            state: mix(seed).wrapping_add(mix(index ^ 0x5EED)),
            turn,
        }
    }

    fn next(&mut self) -> u64 {
        self.state = self.state.wrapping_add(0x9E37_79B9_7F4A_7C15);
        mix(self.state)
    }

    /// From least to most, both included.
    pub fn between(&mut self, least: i64, most: i64) -> i64 {
        if most <= least {
            return least;
        }
        least + (self.next() % (most - least + 1) as u64) as i64
    }

    pub fn below(&mut self, count: usize) -> usize {
        self.between(0, count as i64 - 1) as usize
    }

    pub fn chance(&mut self, percent: i64) -> bool {
        self.between(1, 100) <= percent
    }

    pub fn pick<T: Clone>(&mut self, from: &[T]) -> T {
        from[self.below(from.len())].clone()
    }

    /// The kind's variants one after another.
    pub fn variant(&mut self, count: usize) -> usize {
        let variant = self.turn % count as u64;
        self.turn /= count as u64;
        variant as usize
    }
}
