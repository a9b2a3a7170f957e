//! A cell whose loan can be refused.
use std::cell::{Ref, RefMut};
use std::io;

/// The cell is lent to another.
#[derive(Debug)]
pub struct Lent;

impl From<Lent> for io::Error {
    fn from(_: Lent) -> io::Error {
        io::Error::from(io::ErrorKind::ResourceBusy)
    }
}

pub struct RefCell<T>(std::cell::RefCell<T>);

impl<T> RefCell<T> {
    pub fn new(value: T) -> RefCell<T> {
        RefCell(std::cell::RefCell::new(value))
    }

    pub fn try_borrow(&self) -> Result<Ref<'_, T>, Lent> {
        self.0.try_borrow().map_err(|_| Lent)
    }

    pub fn try_borrow_mut(&self) -> Result<RefMut<'_, T>, Lent> {
        self.0.try_borrow_mut().map_err(|_| Lent)
    }
}
