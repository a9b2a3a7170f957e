//! Types that hold nothing.
pub use std::marker::PhantomData;

/// A type of the program's own, where the sources ask for any.
#[derive(Clone, Copy)]
pub struct Brand;
