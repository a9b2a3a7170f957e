//! A vector that is short for the most part, over Rust's own.
use super::alloc::{AllocError, Global};
use std::ops::Deref;

#[derive(Debug, Clone)]
pub struct SmallVec<T, const N: usize>(Vec<T>);

impl<T, const N: usize> SmallVec<T, N> {
    pub fn new(_: Global) -> Self {
        SmallVec(Vec::new())
    }

    pub fn push(&mut self, item: T) -> Result<(), AllocError> {
        self.0.try_reserve(1)?;
        self.0.push(item);
        Ok(())
    }

    pub fn as_slice(&self) -> &[T] {
        &self.0
    }
}

impl<T, const N: usize> Deref for SmallVec<T, N> {
    type Target = [T];

    fn deref(&self) -> &[T] {
        &self.0
    }
}
