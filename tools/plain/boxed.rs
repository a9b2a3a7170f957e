//! A box whose memory can be refused.
use super::alloc::{AllocError, Global};
use std::alloc::Layout;
use std::ops::{Deref, DerefMut};

pub struct Box<T>(std::boxed::Box<T>);

impl<T> Box<T> {
    pub fn new(_: Global, value: T) -> Result<Box<T>, AllocError> {
        let place = unsafe { std::alloc::alloc(Layout::new::<T>()) } as *mut T;
        if place.is_null() {
            return Err(AllocError);
        }
        unsafe { place.write(value) };
        Ok(Box(unsafe { std::boxed::Box::from_raw(place) }))
    }

    /// The box that `into_raw` gave away.
    ///
    /// # Safety
    /// The pointer is one of `into_raw`, and no other box has it.
    pub unsafe fn from_raw(_: Global, place: *mut T) -> Box<T> {
        Box(unsafe { std::boxed::Box::from_raw(place) })
    }

    pub fn into_raw(it: Box<T>) -> *mut T {
        std::boxed::Box::into_raw(it.0)
    }
}

impl<T> Deref for Box<T> {
    type Target = T;

    fn deref(&self) -> &T {
        &self.0
    }
}

impl<T> DerefMut for Box<T> {
    fn deref_mut(&mut self) -> &mut T {
        &mut self.0
    }
}
