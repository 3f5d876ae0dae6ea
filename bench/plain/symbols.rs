//! Symbols in memory.

/// Where the source symbols of a block begin, and where repair symbols would begin were they
/// counted from 0.
#[derive(Clone, Copy)]
pub(crate) struct Place {
    pub(crate) k: usize,
    pub(crate) source: usize,
    pub(crate) repair: usize,
}

impl Place {
    pub(crate) fn new(k: usize, e: usize, source: usize, repair: usize) -> Place {
        Place { k, source: source * e, repair: (repair - k) * e }
    }

    #[inline]
    pub(crate) fn of(&self, column: usize, e: usize) -> usize {
        column * e + if column < self.k { self.source } else { self.repair }
    }
}

/// All symbols, the source symbols of all blocks first, and room to work.
pub(crate) struct Store {
    pub(crate) e: usize,
    pub(crate) all: Vec<u8>,
    pub(crate) sum: Vec<u8>,
    pub(crate) places: Vec<usize>,
    pub(crate) stack: Vec<u16>,
}

impl Store {
    pub(crate) fn new(e: usize, all: Vec<u8>) -> Store {
        Store { e, all, sum: vec![0; e], places: Vec::new(), stack: Vec::new() }
    }

    /// The sum of the symbols of these columns, many into one.
    #[inline]
    pub(crate) fn add_row(&mut self, columns: impl Iterator<Item = usize>, place: Place) {
        let e = self.e;
        self.places.clear();
        self.places.extend(columns.map(|column| place.of(column, e)));
        let mut done = 0;
        while done + 128 <= e {
            self.add_tile::<16>(done);
            done += 128;
        }
        while done + 16 <= e {
            self.add_tile::<2>(done);
            done += 16;
        }
        for at in done..e {
            self.sum[at] = self.places.iter().fold(0, |sum, &place| sum ^ self.all[place + at]);
        }
    }

    #[inline(always)]
    pub(crate) fn add_tile<const LANES: usize>(&mut self, at: usize) {
        let mut sum = [0u64; LANES];
        for &place in &self.places {
            let bytes = &self.all[place + at..][..LANES * 8];
            for lane in 0..LANES {
                sum[lane] ^= u64::from_ne_bytes(bytes[lane * 8..][..8].try_into().unwrap());
            }
        }
        for lane in 0..LANES {
            self.sum[at + lane * 8..][..8].copy_from_slice(&sum[lane].to_ne_bytes());
        }
    }

    #[inline]
    pub(crate) fn keep_sum(&mut self, place: usize) {
        copy(&mut self.all[place..][..self.e], &self.sum);
    }
}

/// Symbols of 16 bytes are copied and compared inline.
#[inline]
pub(crate) fn copy(to: &mut [u8], from: &[u8]) {
    match (<&mut [u8; 16]>::try_from(&mut *to), <&[u8; 16]>::try_from(from)) {
        (Ok(to), Ok(from)) => *to = *from,
        _ => to.copy_from_slice(from),
    }
}

#[inline]
pub(crate) fn same(one: &[u8], other: &[u8]) -> bool {
    match (<[u8; 16]>::try_from(one), <[u8; 16]>::try_from(other)) {
        (Ok(one), Ok(other)) => u128::from_ne_bytes(one) == u128::from_ne_bytes(other),
        _ => one == other,
    }
}
