//! Lists of literal sets in two arrays of masks, none within another: tables, and the clauses of a picture.

use super::masks::{below, consistent, within, Literals};

/// The list is full.
pub struct Full;

/// The sets of a list, in two slices of the same length.
#[derive(Clone, Copy)]
pub struct View<'a> {
    trues: &'a [u32],
    falses: &'a [u32],
}

impl<'a> View<'a> {
    /// The first count sets of two slices.
    pub fn new(trues: &'a [u32], falses: &'a [u32], count: usize) -> View<'a> {
        View { trues: &trues[..count], falses: &falses[..count] }
    }

    pub fn len(self) -> usize {
        self.trues.len()
    }

    pub fn get(self, i: usize) -> Literals {
        Literals { trues: self.trues[i], falses: self.falses[i] }
    }

    pub fn iter(self) -> impl Iterator<Item = Literals> + 'a {
        self.trues.iter().zip(self.falses).map(|(&trues, &falses)| Literals { trues, falses })
    }

    pub fn same(self, other: View) -> bool {
        self.trues == other.trues && self.falses == other.falses
    }

    /// The last set that lies in l; the scan starts with the newest.
    fn last_singly(self, l: Literals) -> Option<usize> {
        (0..self.len()).rev().find(|&i| within(self.get(i), l))
    }

    /// Some set lies in l. As below, for short lists.
    #[cfg(blocks)]
    pub fn some_within(self, l: Literals) -> bool {
        self.iter().fold(false, |some, e| some | within(e, l))
    }

    /// Some set contains l. There is no way out before the last of them, so that the compiler compares several at once.
    #[cfg(blocks)]
    fn some_above(self, l: Literals) -> bool {
        self.iter().fold(false, |some, e| some | within(l, e))
    }

    /// Each set is consistent and below n, and none lies in another.
    pub fn described(self, n: usize) -> bool {
        self.iter().all(|e| consistent(e) && below(n, e)) && self.apart()
    }

    fn apart(self) -> bool {
        for i in 0..self.len() {
            let a = self.get(i);
            for j in i + 1..self.len() {
                let b = self.get(j);
                if within(a, b) || within(b, a) {
                    return false;
                }
            }
        }
        true
    }
}

/// Some of four sets lies in l. There is no way out before the last of them, so that the compiler compares the four at once.
#[cfg(blocks)]
fn some_of_four(trues: &[u32; 4], falses: &[u32; 4], l: Literals) -> bool {
    trues.iter().zip(falses).fold(false, |some, (&trues, &falses)| some | within(Literals { trues, falses }, l))
}

/// A list of at most N sets, in the first count slots; the slots after them are zero.
#[derive(Clone)]
pub struct List<const N: usize> {
    count: usize,
    pub trues: [u32; N],
    pub falses: [u32; N],
}

/// A belief state.
pub type Table = List<128>;

impl<const N: usize> List<N> {
    pub const EMPTY: List<N> = List { count: 0, trues: [0; N], falses: [0; N] };

    pub fn len(&self) -> usize {
        self.count
    }

    /// How many sets more there is room for.
    #[cfg(blocks)]
    pub fn room(&self) -> usize {
        N - self.count
    }

    pub fn view(&self) -> View<'_> {
        View::new(&self.trues, &self.falses, self.count)
    }

    pub fn clear(&mut self) {
        self.trues[..self.count].fill(0);
        self.falses[..self.count].fill(0);
        self.count = 0;
    }

    /// Adds a set that is known to lie apart from the others.
    pub fn push(&mut self, l: Literals) -> Result<(), Full> {
        if self.count == N {
            return Err(Full);
        }
        self.trues[self.count] = l.trues;
        self.falses[self.count] = l.falses;
        self.count += 1;
        Ok(())
    }

    /// The last set that lies in l; the scan starts with the newest.
    #[cfg(not(blocks))]
    fn last_within(&self, l: Literals) -> Option<usize> {
        self.view().last_singly(l)
    }

    /// The same by blocks of four; the sets that they leave over are the oldest.
    #[cfg(blocks)]
    fn last_within(&self, l: Literals) -> Option<usize> {
        let (old_trues, trues) = self.trues[..self.count].as_rchunks();
        let (old_falses, falses) = self.falses[..self.count].as_rchunks();
        let old = View { trues: old_trues, falses: old_falses };
        for (block, (t, f)) in trues.iter().zip(falses).enumerate().rev() {
            if some_of_four(t, f, l) {
                let last = View { trues: t, falses: f }.last_singly(l);
                return last.map(|i| old.len() + 4 * block + i);
            }
        }
        old.last_singly(l)
    }

    /// The sets that contain l go; the others move up in order, and the slots that come free are zero. Without blocks the compiler makes the
    /// search for the first of them compare several at once; with blocks it does not, and a scan comes before it, as in the library.
    fn remove(&mut self, l: Literals) {
        let n = self.count;
        #[cfg(blocks)]
        if !self.view().some_above(l) {
            return;
        }
        let Some(first) = self.view().iter().position(|e| within(l, e)) else {
            return;
        };
        let (trues, falses) = (&mut self.trues[..n], &mut self.falses[..n]);
        let mut k = first;
        for i in first..n {
            let e = Literals { trues: trues[i], falses: falses[i] };
            trues[i] = 0;
            falses[i] = 0;
            if !within(l, e) {
                trues[k] = e.trues;
                falses[k] = e.falses;
                k += 1;
            }
        }
        self.count = k;
    }

    /// Puts a candidate.
    pub fn put(&mut self, l: Literals) -> Result<(), Full> {
        if self.last_within(l).is_some() {
            return Ok(());
        }
        self.remove(l);
        self.push(l)
    }

    /// Puts a piece. With blocks the newest set is tested before the others, as in the library: it most often lies in the next piece.
    pub fn put_piece(&mut self, l: Literals) -> Result<(), Full> {
        #[cfg(blocks)]
        if self.count > 0 && within(self.view().get(self.count - 1), l) {
            return Ok(());
        }
        self.put(l)
    }

    /// Puts a candidate if it is consistent.
    pub fn admit(&mut self, l: Literals) -> Result<(), Full> {
        if consistent(l) {
            self.put(l)
        } else {
            Ok(())
        }
    }
}
