use cases::Random;

/// What random entries are drawn by.
pub trait Draw {
    /// Whether it falls on one of so many.
    fn once_in(&mut self, count: u64) -> bool;

    /// One of some items, where there are any.
    fn choose<T: Copy>(&mut self, items: &[T]) -> Option<T>;
}

impl Draw for Random {
    fn once_in(&mut self, count: u64) -> bool {
        self.below(count) == 0
    }

    fn choose<T: Copy>(&mut self, items: &[T]) -> Option<T> {
        if items.is_empty() {
            return None;
        }
        let place = self.below(items.len() as u64);
        items.get(place as usize).copied()
    }
}
