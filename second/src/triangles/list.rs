//! A short list in a fixed array, so that nothing here asks for memory.

#[derive(Clone, Copy, Debug)]
pub struct List<T, const N: usize> {
    items: [T; N],
    count: usize,
}

impl<T: Copy, const N: usize> List<T, N> {
    /// Empty; `filler` stands in the array until an item is pushed over it.
    pub fn new(filler: T) -> Self {
        List { items: [filler; N], count: 0 }
    }

    pub fn push(&mut self, item: T) {
        self.items[self.count] = item;
        self.count += 1;
    }

    pub fn reverse(&mut self) {
        self.items[..self.count].reverse();
    }

    pub fn len(&self) -> usize {
        self.count
    }

    pub fn is_empty(&self) -> bool {
        self.count == 0
    }

    pub fn as_slice(&self) -> &[T] {
        &self.items[..self.count]
    }
}
