//! The generator.

pub(crate) const MODULUS: u64 = (1 << 31) - 1;

pub(crate) struct Draws {
    pub(crate) state: u64,
    pub(crate) used: usize,
}

impl Draws {
    pub(crate) fn new(seed: usize) -> Draws {
        Draws { state: seed as u64, used: 0 }
    }

    /// A draw below `limit`, which is at most 2^22: step and quotient go by shift and add.
    pub(crate) fn below(&mut self, limit: usize) -> usize {
        let product = 16807 * self.state;
        let folded = (product & MODULUS) + (product >> 31);
        self.state = if folded >= MODULUS { folded - MODULUS } else { folded };
        self.used += 1;
        let scaled = limit as u64 * self.state;
        let high = scaled >> 31;
        (high + u64::from(high + (scaled & MODULUS) >= MODULUS)) as usize
    }

    pub(crate) fn shuffle(&mut self, list: &mut [u16]) {
        for place in (1..list.len()).rev() {
            list.swap(place, self.below(place + 1));
        }
    }
}
