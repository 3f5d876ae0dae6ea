//! A source block: peeling.
use super::*;

pub(crate) enum Verdict {
    Peeled,
    Solved,
    Undetermined(Vec<usize>),
    Contradicted,
}

/// The decoder of a block.
pub(crate) struct Block {
    pub(crate) place: Place,
    pub(crate) open: Vec<u32>,
    pub(crate) known: Vec<u64>,
    pub(crate) missing: usize,
    pub(crate) clash: bool,
}

impl Block {
    pub(crate) fn new(code: &Code, place: Place) -> Block {
        let known = vec![0; code.n.div_ceil(64)];
        Block { place, open: code.open.clone(), known, missing: code.k, clash: false }
    }

    pub(crate) fn restart(&mut self, code: &Code) {
        self.open.copy_from_slice(&code.open);
        self.known.fill(0);
        self.missing = code.k;
    }

    #[inline]
    pub(crate) fn knows(&self, column: usize) -> bool {
        self.known[column / 64] >> (column % 64) & 1 == 1
    }

    #[inline]
    pub(crate) fn learn(&mut self, store: &mut Store, column: usize) {
        self.known[column / 64] |= 1 << (column % 64);
        self.missing -= usize::from(column < self.place.k);
        store.stack.push(column as u16);
    }

    /// Takes a packet in, peels, and answers how many symbols it made known beside its own.
    #[inline]
    pub(crate) fn arrive(
        &mut self,
        code: &Code,
        store: &mut Store,
        column: usize,
        bytes: &[u8],
    ) -> usize {
        let at = self.place.of(column, store.e);
        if self.knows(column) {
            self.clash |= !same(&store.all[at..][..store.e], bytes);
            return 0;
        }
        copy(&mut store.all[at..][..store.e], bytes);
        self.learn(store, column);
        let mut fresh = 0;
        while let Some(column) = store.stack.pop() {
            for &row in code.columns.of(column as usize) {
                let open = &mut self.open[row as usize];
                *open = (*open ^ column as u32).wrapping_sub(1 << 16);
                let last = *open as usize;
                if last >> 16 == 0 {
                    fresh += usize::from(self.complete(code, store, row as usize, last));
                }
            }
        }
        fresh
    }

    /// All of the row but `last` is known. Gives `last`, or tests the row where another row gave
    /// it.
    pub(crate) fn complete(
        &mut self,
        code: &Code,
        store: &mut Store,
        row: usize,
        last: usize,
    ) -> bool {
        let columns = code.rows.of(row).iter().map(|&c| c as usize).filter(|&c| c != last);
        store.add_row(columns, self.place);
        let at = self.place.of(last, store.e);
        if self.knows(last) {
            self.clash |= !same(&store.all[at..][..store.e], &store.sum);
            return false;
        }
        store.keep_sum(at);
        self.learn(store, last);
        true
    }

    /// What the arrivals determine. Symbols that elimination gives are kept.
    pub(crate) fn finish(&self, code: &Code, store: &mut Store) -> Verdict {
        if self.clash || self.missing == 0 {
            return if self.clash { Verdict::Contradicted } else { Verdict::Peeled };
        }
        let unknown: Vec<usize> = (0..code.n).filter(|&column| !self.knows(column)).collect();
        let mut system = self.residue(code, store, &unknown);
        system.eliminate();
        if system.is_contradicted() {
            return Verdict::Contradicted;
        }
        if let Some(free) = system.pivots.iter().position(|&row| row == NONE) {
            let word = system.null_word(free).into_iter();
            return Verdict::Undetermined(word.map(|number| unknown[number]).collect());
        }
        system.substitute();
        for (number, &column) in unknown.iter().enumerate() {
            let at = self.place.of(column, store.e);
            let words = system.row(system.pivots[number])[system.width..].iter();
            for (bytes, word) in store.all[at..][..store.e].chunks_mut(8).zip(words) {
                bytes.copy_from_slice(&word.to_le_bytes()[..bytes.len()]);
            }
        }
        Verdict::Solved
    }

    /// The rows that still have unknown columns, as equations between these.
    pub(crate) fn residue(&self, code: &Code, store: &mut Store, unknown: &[usize]) -> System {
        let mut numbers = vec![0; code.n];
        for (number, &column) in unknown.iter().enumerate() {
            numbers[column] = number;
        }
        let is_open = |&row: &usize| code.rows.of(row).iter().any(|&c| !self.knows(c as usize));
        let rows: Vec<usize> = (0..code.n - code.k).filter(is_open).collect();
        let mut system = System::new(unknown.len(), rows.len(), store.e);
        for (at, &row) in rows.iter().enumerate() {
            let columns = code.rows.of(row).iter().map(|&c| c as usize);
            store.add_row(columns.clone().filter(|&c| self.knows(c)), self.place);
            let words = &mut system.words[at * system.span..][..system.span];
            for number in columns.filter(|&c| !self.knows(c)).map(|c| numbers[c]) {
                words[number / 64] |= 1 << (number % 64);
            }
            for (word, bytes) in words[system.width..].iter_mut().zip(store.sum.chunks(8)) {
                let mut whole = [0; 8];
                whole[..bytes.len()].copy_from_slice(bytes);
                *word = u64::from_le_bytes(whole);
            }
        }
        system
    }
}
