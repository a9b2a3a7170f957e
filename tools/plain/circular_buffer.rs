//! The last items of a sequence.
use super::alloc::{AllocError, Global};
use std::collections::VecDeque;

pub struct HeapCircularBuffer<T> {
    items: VecDeque<T>,
    most: usize,
}

impl<T> HeapCircularBuffer<T> {
    pub fn with_capacity(_: Global, most: usize) -> Result<Self, AllocError> {
        let mut items = VecDeque::new();
        items.try_reserve_exact(most)?;
        Ok(HeapCircularBuffer { items, most })
    }

    /// Adds an item at the end: the first one, where there is no room beside it.
    pub fn push_back(&mut self, item: T) -> Option<T> {
        let first = if self.items.len() >= self.most { self.items.pop_front() } else { None };
        self.items.push_back(item);
        first
    }

    pub fn back(&self) -> Option<&T> {
        self.items.back()
    }

    pub fn as_slices(&self) -> (&[T], &[T]) {
        self.items.as_slices()
    }
}
