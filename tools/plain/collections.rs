//! A queue whose growth can be refused.
use super::alloc::{AllocError, Global};
use std::ops::Deref;

pub struct VecDeque<T>(std::collections::VecDeque<T>);

impl<T> VecDeque<T> {
    pub fn new(_: Global) -> VecDeque<T> {
        VecDeque(std::collections::VecDeque::new())
    }

    pub fn push_back(&mut self, item: T) -> Result<(), AllocError> {
        self.0.try_reserve(1)?;
        self.0.push_back(item);
        Ok(())
    }

    pub fn pop_front(&mut self) -> Option<T> {
        self.0.pop_front()
    }
}

impl<T> Deref for VecDeque<T> {
    type Target = std::collections::VecDeque<T>;

    fn deref(&self) -> &std::collections::VecDeque<T> {
        &self.0
    }
}
