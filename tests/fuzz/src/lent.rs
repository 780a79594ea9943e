//! A caller's buffers between guards, so that a write before or after one is seen.

use reference::generate::Random;

const GUARD: usize = 64;

pub struct Lent<T> {
    cells: Vec<T>,
    start: usize,
    end: usize,
}

impl<T: Copy + PartialEq + From<u8>> Lent<T> {
    pub fn new() -> Lent<T> {
        Lent { cells: Vec::new(), start: 0, end: 0 }
    }

    /// Holds these contents from now on, at an address that is aligned to nothing but T.
    pub fn hold(&mut self, random: &mut Random, contents: &[T]) {
        self.start = GUARD + random.below(16);
        self.end = self.start + contents.len();
        self.cells.resize((self.end + GUARD).max(self.cells.len()), T::from(0));
        let guards = self.guards();
        guards.for_each(|place| self.cells[place] = guard(place));
        self.cells[self.start..self.end].copy_from_slice(contents);
    }

    pub fn contents(&mut self) -> &mut [T] {
        &mut self.cells[self.start..self.end]
    }

    /// Whether nothing was written outside.
    pub fn guarded(&self) -> bool {
        self.guards().all(|place| self.cells[place] == guard(place))
    }

    fn guards(&self) -> impl Iterator<Item = usize> {
        (self.start - GUARD..self.start).chain(self.end..self.end + GUARD)
    }
}

fn guard<T: From<u8>>(place: usize) -> T {
    T::from(0xc3 ^ place as u8)
}
