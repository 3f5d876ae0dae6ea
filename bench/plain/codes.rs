//! The codes, as flat rows and columns.
use super::*;

/// What a block's matrix goes by.
#[derive(Clone, Copy)]
pub(crate) struct Shape {
    pub(crate) triangle: bool,
    pub(crate) n1: usize,
    pub(crate) seed: usize,
}

impl Shape {
    pub(crate) fn read(options: &Options) -> Answer<Shape> {
        Ok(Shape {
            triangle: options.choice("codec", &["staircase", "triangle"])? == 1,
            n1: options.number("n1", 3, 10, 3)?,
            seed: options.number("seed", 1, 2147483646, 1)?,
        })
    }
}

/// Lists one behind the other: the list `i` is `items[starts[i]..starts[i + 1]]`.
pub(crate) struct Lists {
    pub(crate) starts: Vec<u32>,
    pub(crate) items: Vec<u16>,
}

impl Lists {
    pub(crate) fn new(count: usize, pairs: impl Iterator<Item = (u16, u16)> + Clone) -> Lists {
        let mut starts = vec![0u32; count + 1];
        for (list, _) in pairs.clone() {
            starts[list as usize + 1] += 1;
        }
        for list in 0..count {
            starts[list + 1] += starts[list];
        }
        let (mut next, mut items) = (starts.clone(), vec![0; starts[count] as usize]);
        for (list, item) in pairs {
            items[next[list as usize] as usize] = item;
            next[list as usize] += 1;
        }
        Lists { starts, items }
    }

    pub(crate) fn of(&self, list: usize) -> &[u16] {
        &self.items[self.starts[list] as usize..self.starts[list + 1] as usize]
    }
}

/// A code with its matrix: the columns of each row and the rows of each column, in no particular
/// order.
pub(crate) struct Code {
    pub(crate) k: usize,
    pub(crate) n: usize,
    pub(crate) rows: Lists,
    pub(crate) columns: Lists,
    /// Of each row, where nothing is known yet: the number of its columns less one in the upper 16
    /// bits, which leaves room for 65,536, and the XOR of its columns in the lower.
    pub(crate) open: Vec<u32>,
    pub(crate) draws: usize,
}

impl Code {
    pub(crate) fn new(k: usize, n: usize, shape: Shape) -> Code {
        let (m, mut draws) = (n - k, Draws::new(shape.seed));
        let mut entries = Vec::new();
        if m > 0 {
            left_side(k, m, shape.n1, &mut draws, &mut entries);
            extras(k, m, &mut draws, &mut entries);
        }
        for row in 0..m {
            entries.push((row as u16, (k + row) as u16));
            if row > 0 {
                entries.push((row as u16, (k + row - 1) as u16));
            }
            let start = if shape.triangle { row.saturating_sub(1) } else { 0 };
            let (mut place, mut links) = (start, 0);
            while links < place {
                place = draws.below(place);
                entries.push((row as u16, (k + place) as u16));
                links += 1;
            }
        }
        let rows = Lists::new(m, entries.iter().copied());
        let columns = Lists::new(n, entries.iter().map(|&(row, column)| (column, row)));
        let open = |row| {
            let columns: &[u16] = rows.of(row);
            (columns.len() as u32 - 1) << 16 | columns.iter().fold(0, |sum, &c| sum ^ c as u32)
        };
        let open = (0..m).map(open).collect();
        Code { k, n, rows, columns, open, draws: draws.used }
    }

    /// Forms the repair symbols of the block at `place`.
    pub(crate) fn fill(&self, store: &mut Store, place: Place) {
        for row in 0..self.n - self.k {
            let own = self.k + row;
            let columns = self.rows.of(row).iter().map(|&c| c as usize);
            store.add_row(columns.filter(|&c| c != own), place);
            store.keep_sum(place.of(own, store.e));
        }
    }
}

pub(crate) fn left_side(
    k: usize,
    m: usize,
    n1: usize,
    draws: &mut Draws,
    entries: &mut Vec<(u16, u16)>,
) {
    let mut choices: Vec<u16> = (0..n1 * k).map(|place| (place % m) as u16).collect();
    let mut first = 0;
    for column in 0..k {
        let start = entries.len();
        for _ in 0..n1.min(m) {
            let own = &entries[start..];
            let has = |row: u16| own.iter().any(|&(other, _)| other == row);
            let row = if choices[first..].iter().all(|&row| has(row)) {
                loop {
                    let row = draws.below(m) as u16;
                    if !has(row) {
                        break row;
                    }
                }
            } else {
                let place = loop {
                    let place = first + draws.below(choices.len() - first);
                    if !has(choices[place]) {
                        break place;
                    }
                };
                let row = choices[place];
                choices[place] = choices[first];
                first += 1;
                row
            };
            entries.push((row, column as u16));
        }
    }
}

pub(crate) fn extras(k: usize, m: usize, draws: &mut Draws, entries: &mut Vec<(u16, u16)>) {
    let (mut counts, mut last) = (vec![0u32; m], vec![0u16; m]);
    for &(row, column) in entries.iter() {
        counts[row as usize] += 1;
        last[row as usize] = column;
    }
    for row in 0..m {
        if counts[row] == 0 {
            counts[row] = 1;
            last[row] = draws.below(k) as u16;
            entries.push((row as u16, last[row]));
        }
        while counts[row] == 1 && k >= 2 {
            let column = draws.below(k) as u16;
            if column != last[row] {
                entries.push((row as u16, column));
                counts[row] = 2;
            }
        }
    }
}
