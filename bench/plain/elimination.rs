//! What peeling leaves, solved.

pub(crate) const NONE: usize = usize::MAX;

/// Equations in packed rows: `width` words of bits, one for each unknown, and behind them the
/// sum's bytes.
pub(crate) struct System {
    pub(crate) unknowns: usize,
    pub(crate) width: usize,
    pub(crate) span: usize,
    pub(crate) words: Vec<u64>,
    /// The rows, the pivot rows first, and how many these are.
    pub(crate) order: Vec<usize>,
    pub(crate) taken: usize,
    /// The pivot row of each unknown, or `NONE`.
    pub(crate) pivots: Vec<usize>,
}

#[inline]
pub(crate) fn add(to: &mut [u64], from: &[u64]) {
    for (to, from) in to.iter_mut().zip(from) {
        *to ^= from;
    }
}

/// The places of the bits of a byte.
pub(crate) fn bits(mut byte: u8) -> impl Iterator<Item = usize> {
    std::iter::from_fn(move || {
        let place = byte.trailing_zeros() as usize;
        byte &= byte.wrapping_sub(1);
        (place < 8).then_some(place)
    })
}

impl System {
    pub(crate) fn new(unknowns: usize, rows: usize, e: usize) -> System {
        let width = unknowns.div_ceil(64);
        let span = width + e.div_ceil(8);
        let (words, order) = (vec![0; rows * span], (0..rows).collect());
        System { unknowns, width, span, words, order, taken: 0, pivots: vec![NONE; unknowns] }
    }

    pub(crate) fn row(&self, row: usize) -> &[u64] {
        &self.words[row * self.span..][..self.span]
    }

    /// The bits of the eight unknowns from `group` on.
    #[inline]
    pub(crate) fn byte(&self, row: usize, group: usize) -> u8 {
        (self.words[row * self.span + group / 64] >> (group % 64)) as u8
    }

    pub(crate) fn add_row(&mut self, to: usize, from: usize) {
        let span = self.span;
        let (low, high) = self.words.split_at_mut(to.max(from) * span);
        let (low, high) = (&mut low[to.min(from) * span..][..span], &mut high[..span]);
        if to < from {
            add(low, high)
        } else {
            add(high, low)
        }
    }

    /// Takes eight unknowns at a time, in rising order.
    pub(crate) fn eliminate(&mut self) {
        let mut table = vec![0; 256 * self.span];
        for group in (0..self.unknowns).step_by(8) {
            let mask = self.take_pivots(group);
            let (from, span) = (group / 64, self.span);
            self.fill_table(&mut table, group, mask, from);
            for &row in &self.order[self.taken..] {
                let words = &mut self.words[row * span..][..span];
                let sum = ((words[from] >> (group % 64)) as u8 & mask) as usize;
                if sum != 0 {
                    add(&mut words[from..], &table[sum * span + from..][..span - from]);
                }
            }
        }
    }

    /// Finds pivot rows for the unknowns of a group and frees them of one another's unknowns. Each
    /// begins with its own unknown. Answers which unknowns have one.
    pub(crate) fn take_pivots(&mut self, group: usize) -> u8 {
        let whole = (1u32 << (self.unknowns - group).min(8)).wrapping_sub(1) as u8;
        let (mut own, mut mask) = ([(0, 0u8); 8], 0u8);
        for at in self.taken..self.order.len() {
            if mask == whole {
                break;
            }
            let row = self.order[at];
            let found = self.byte(row, group);
            let byte = bits(found & mask).fold(found, |byte, place| byte ^ own[place].1);
            if byte == 0 {
                continue;
            }
            bits(found & mask).for_each(|place| self.add_row(row, own[place].0));
            let new = byte.trailing_zeros() as usize;
            for place in bits(mask).filter(|&place| own[place].1 >> new & 1 == 1) {
                self.add_row(own[place].0, row);
            }
            bits(mask).for_each(|place| own[place].1 = self.byte(own[place].0, group));
            own[new] = (row, byte);
            mask |= 1 << new;
            self.pivots[group + new] = row;
            self.order.swap(at, self.taken);
            self.taken += 1;
        }
        mask
    }

    /// Fills the table, from the word `from` on, with the sums of the pivot rows of a group.
    pub(crate) fn fill_table(&self, table: &mut [u64], group: usize, mask: u8, from: usize) {
        let span = self.span;
        for sum in (1..=255u8).filter(|sum| sum & !mask == 0) {
            let pivot = self.row(self.pivots[group + sum.trailing_zeros() as usize]);
            let (less, rest) = table.split_at_mut(sum as usize * span);
            let less = &less[(sum & (sum - 1)) as usize * span..][..span];
            let sums = less[from..].iter().zip(&pivot[from..]);
            for (to, (one, other)) in rest[from..span].iter_mut().zip(sums) {
                *to = one ^ other;
            }
        }
    }

    pub(crate) fn is_contradicted(&self) -> bool {
        let sums = |&row: &usize| self.row(row)[self.width..].iter().any(|&word| word != 0);
        self.order[self.taken..].iter().any(sums)
    }

    /// The sums of the pivot rows become the unknowns' values, eight from the last ones down at a
    /// time.
    pub(crate) fn substitute(&mut self) {
        let mut table = vec![0; 256 * self.span];
        for group in (0..self.unknowns).step_by(8).rev() {
            let mask = ((1u32 << (self.unknowns - group).min(8)) - 1) as u8;
            let (from, span) = (self.width, self.span);
            self.fill_table(&mut table, group, mask, from);
            for &row in &self.pivots[..group] {
                let sum = self.byte(row, group) as usize;
                if sum != 0 {
                    let words = &mut self.words[row * span + from..][..span - from];
                    add(words, &table[sum * span + from..][..span - from]);
                }
            }
        }
    }

    /// The null word whose last unknown is the first free one.
    pub(crate) fn null_word(&self, free: usize) -> Vec<usize> {
        let mut word = vec![0u64; self.width];
        word[free / 64] |= 1 << (free % 64);
        for unknown in (0..free).rev() {
            let row = self.row(self.pivots[unknown]).iter();
            let sum = row.zip(&word).fold(0, |sum, (one, other)| sum ^ (one & other));
            word[unknown / 64] |= u64::from(sum.count_ones() & 1) << (unknown % 64);
        }
        (0..=free).filter(|&number| word[number / 64] >> (number % 64) & 1 == 1).collect()
    }
}
