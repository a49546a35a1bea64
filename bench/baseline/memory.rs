//! What a search remembers, in slots of 258 numbers that are lent: a mark, how many entries, 128 masks of true and 128 of false propositions.
//! A slot with mark m says that no plan of fewer than m moves from its table has an answer; mark 0 says nothing. A table is looked for in two
//! slots.

use super::lists::View;
use super::masks::Literals;

type Slot = [u32; 258];

/// One entry more in a digest.
fn stir(digest: u64, e: Literals) -> u64 {
    ((digest & 0xffff_ffff) + u64::from(e.trues) + u64::from(e.falses) * 2) * 663_608_941 / 65_536
}

/// The slot has this table, and a mark above `left`.
fn holds(slot: &Slot, table: View, left: usize) -> bool {
    let n = table.len();
    slot[0] as usize > left && slot[1] as usize == n && View::new(&slot[2..130], &slot[130..258], n).same(table)
}

fn fill(slot: &mut Slot, table: View, mark: usize) {
    slot[0] = mark as u32;
    slot[1] = table.len() as u32;
    for (i, e) in table.iter().enumerate() {
        slot[2 + i] = e.trues;
        slot[130 + i] = e.falses;
    }
}

pub struct Memory<'a> {
    slots: &'a mut [Slot],
}

impl<'a> Memory<'a> {
    /// As many slots as fit in the numbers. Nothing is remembered, whatever stood there.
    pub fn new(numbers: &'a mut [u32]) -> Memory<'a> {
        let (slots, _) = numbers.as_chunks_mut();
        for slot in slots.iter_mut() {
            slot[0] = 0;
        }
        Memory { slots }
    }

    /// The two slots for a table, if there are any: the one that its digest names, and the one after it, the first after the last.
    fn places(&self, table: View) -> Option<(usize, usize)> {
        let count = self.slots.len();
        if count == 0 {
            return None;
        }
        let first = table.iter().fold(0, stir) as usize % count;
        let second = if first + 1 < count { first + 1 } else { 0 };
        Some((first, second))
    }

    /// One of its two slots has the table, with a mark above `left`.
    pub fn remembers(&self, table: View, left: usize) -> bool {
        let held = |place: usize| holds(&self.slots[place], table, left);
        self.places(table).is_some_and(|(first, second)| held(first) || held(second))
    }

    /// The table with this mark takes the place of the lesser mark, if the mark is of use.
    pub fn remember(&mut self, table: View, mark: usize) {
        if mark < 2 {
            return;
        }
        if let Some((first, second)) = self.places(table) {
            let second_is_less = self.slots[second][0] < self.slots[first][0];
            fill(&mut self.slots[if second_is_less { second } else { first }], table, mark);
        }
    }
}
