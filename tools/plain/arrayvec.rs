//! A vector with room for so many items, which takes no memory of its own.
use super::alloc::AllocError;
use std::fmt;
use std::mem::{MaybeUninit, needs_drop};
use std::ops::{Deref, DerefMut};

pub struct ArrayVec<T, const N: usize> {
    items: [MaybeUninit<T>; N],
    /// How many of them there are: the first ones.
    length: usize,
}

impl<T, const N: usize> ArrayVec<T, N> {
    pub fn new() -> Self {
        const { assert!(!needs_drop::<T>()) };
        ArrayVec { items: [const { MaybeUninit::uninit() }; N], length: 0 }
    }

    pub fn as_slice(&self) -> &[T] {
        unsafe { std::slice::from_raw_parts(self.items.as_ptr() as *const T, self.length) }
    }

    pub fn as_mut_slice(&mut self) -> &mut [T] {
        unsafe { std::slice::from_raw_parts_mut(self.items.as_mut_ptr() as *mut T, self.length) }
    }

    pub fn is_full(&self) -> bool {
        self.length == N
    }

    #[inline]
    pub fn push(&mut self, item: T) {
        self.items[self.length].write(item);
        self.length += 1;
    }

    pub fn pop(&mut self) -> Option<T> {
        self.length = self.length.checked_sub(1)?;
        Some(unsafe { self.items[self.length].assume_init_read() })
    }

    pub fn insert(&mut self, place: usize, item: T) {
        self.push(item);
        self.as_mut_slice()[place..].rotate_right(1);
    }

    pub fn remove(&mut self, place: usize) -> T {
        self.as_mut_slice()[place..].rotate_left(1);
        self.pop().unwrap()
    }

    pub fn retain(&mut self, mut stays: impl FnMut(&T) -> bool) {
        let mut kept = 0;
        for place in 0..self.length {
            if stays(&self.as_slice()[place]) {
                self.as_mut_slice().swap(kept, place);
                kept += 1;
            }
        }
        self.length = kept;
    }

    pub fn truncate(&mut self, count: usize) {
        self.length = self.length.min(count);
    }

    pub fn clear(&mut self) {
        self.length = 0;
    }
}

impl<T: Clone, const N: usize> ArrayVec<T, N> {
    pub fn try_extend_from_slice(&mut self, items: &[T]) -> Result<(), AllocError> {
        if items.len() > N - self.length {
            return Err(AllocError);
        }
        for item in items {
            self.push(item.clone());
        }
        Ok(())
    }
}

impl<T: Clone, const N: usize> Clone for ArrayVec<T, N> {
    fn clone(&self) -> Self {
        let mut copy = ArrayVec::new();
        for item in self.as_slice() {
            copy.push(item.clone());
        }
        copy
    }
}

impl<T: PartialEq, const N: usize> PartialEq for ArrayVec<T, N> {
    fn eq(&self, other: &Self) -> bool {
        self.as_slice() == other.as_slice()
    }
}

impl<T: Eq, const N: usize> Eq for ArrayVec<T, N> {}

impl<T: fmt::Debug, const N: usize> fmt::Debug for ArrayVec<T, N> {
    fn fmt(&self, f: &mut fmt::Formatter<'_>) -> fmt::Result {
        self.as_slice().fmt(f)
    }
}

impl<T, const N: usize> Default for ArrayVec<T, N> {
    fn default() -> Self {
        Self::new()
    }
}

impl<T, const N: usize> Deref for ArrayVec<T, N> {
    type Target = [T];

    fn deref(&self) -> &[T] {
        self.as_slice()
    }
}

impl<T, const N: usize> DerefMut for ArrayVec<T, N> {
    fn deref_mut(&mut self) -> &mut [T] {
        self.as_mut_slice()
    }
}

impl<'a, T, const N: usize> IntoIterator for &'a ArrayVec<T, N> {
    type Item = &'a T;
    type IntoIter = std::slice::Iter<'a, T>;

    fn into_iter(self) -> Self::IntoIter {
        self.as_slice().iter()
    }
}

impl<'a, T, const N: usize> IntoIterator for &'a mut ArrayVec<T, N> {
    type Item = &'a mut T;
    type IntoIter = std::slice::IterMut<'a, T>;

    fn into_iter(self) -> Self::IntoIter {
        self.as_mut_slice().iter_mut()
    }
}

impl<T, const N: usize> IntoIterator for ArrayVec<T, N> {
    type Item = T;
    type IntoIter = std::iter::Map<std::iter::Take<std::array::IntoIter<MaybeUninit<T>, N>>, fn(MaybeUninit<T>) -> T>;

    fn into_iter(self) -> Self::IntoIter {
        self.items.into_iter().take(self.length).map(|item| unsafe { item.assume_init() })
    }
}
