//! Vectors and texts whose growth can be refused, over Rust's own.
use std::alloc::Layout;
use std::collections::TryReserveError;
use std::fmt;
use std::io;
use std::ops::{Deref, DerefMut};

/// The memory of the program.
#[derive(Clone, Copy, Debug, PartialEq, Eq)]
pub struct Global;

/// A growth was refused.
#[derive(Clone, Copy, Debug, PartialEq, Eq)]
pub struct AllocError;

/// What a vector did not take, where the sources let go of it: it is gone by then.
pub struct Untaken {
    pub value: (),
}

impl Deref for AllocError {
    type Target = Untaken;

    fn deref(&self) -> &Untaken {
        &Untaken { value: () }
    }
}

impl From<TryReserveError> for AllocError {
    fn from(_: TryReserveError) -> AllocError {
        AllocError
    }
}

impl From<AllocError> for io::Error {
    fn from(_: AllocError) -> io::Error {
        io::Error::from(io::ErrorKind::OutOfMemory)
    }
}

#[derive(Debug, Clone, PartialEq)]
pub struct Vec<T>(std::vec::Vec<T>);

/// Whether an item is one byte, which is 0.
fn is_zero_byte<T>(item: &T) -> bool {
    size_of::<T>() == 1 && !std::mem::needs_drop::<T>() && unsafe { std::mem::transmute_copy::<T, u8>(item) } == 0
}

/// `vec![in alloc; item; count]`. The system gives bytes that are 0, and takes their memory only once they are used.
pub fn filled<T: Clone>(item: T, count: usize) -> Result<Vec<T>, AllocError> {
    if count > 0 && is_zero_byte(&item) {
        let place = unsafe { std::alloc::alloc_zeroed(Layout::array::<T>(count).map_err(|_| AllocError)?) } as *mut T;
        if place.is_null() {
            return Err(AllocError);
        }
        return Ok(Vec(unsafe { std::vec::Vec::from_raw_parts(place, count, count) }));
    }
    let mut items = std::vec::Vec::new();
    items.try_reserve_exact(count)?;
    items.resize(count, item);
    Ok(Vec(items))
}

impl<T> Vec<T> {
    pub fn new(_: Global) -> Vec<T> {
        Vec(std::vec::Vec::new())
    }

    pub fn with_capacity(_: Global, count: usize) -> Result<Vec<T>, AllocError> {
        let mut items = std::vec::Vec::new();
        items.try_reserve_exact(count)?;
        Ok(Vec(items))
    }

    #[inline]
    pub fn push(&mut self, item: T) -> Result<(), AllocError> {
        if self.0.len() == self.0.capacity() {
            self.0.try_reserve(1)?;
        }
        self.0.push(item);
        Ok(())
    }

    #[inline]
    pub fn push_reserved(&mut self, item: T) {
        self.0.push(item);
    }

    pub fn reserve(&mut self, count: usize) -> Result<(), AllocError> {
        Ok(self.0.try_reserve(count)?)
    }

    pub fn reserve_exact(&mut self, count: usize) -> Result<(), AllocError> {
        Ok(self.0.try_reserve_exact(count)?)
    }

    #[inline]
    pub fn as_slice(&self) -> &[T] {
        &self.0
    }

    #[inline]
    pub fn as_mut_slice(&mut self) -> &mut [T] {
        &mut self.0
    }

    pub fn allocator(&self) -> &Global {
        &Global
    }

    pub fn clear(&mut self) {
        self.0.clear();
    }

    pub fn truncate(&mut self, count: usize) {
        self.0.truncate(count);
    }

    pub fn pop(&mut self) -> Option<T> {
        self.0.pop()
    }

    pub fn remove(&mut self, place: usize) -> T {
        self.0.remove(place)
    }
}

impl<T: Clone> Vec<T> {
    #[inline]
    pub fn extend_from_slice(&mut self, items: &[T]) -> Result<(), AllocError> {
        self.0.try_reserve(items.len())?;
        self.0.extend_from_slice(items);
        Ok(())
    }

    pub fn resize(&mut self, count: usize, item: T) -> Result<(), AllocError> {
        self.0.try_reserve(count.saturating_sub(self.0.len()))?;
        self.0.resize(count, item);
        Ok(())
    }
}

impl<T> Deref for Vec<T> {
    type Target = [T];

    #[inline(always)]
    fn deref(&self) -> &[T] {
        &self.0
    }
}

impl<T> DerefMut for Vec<T> {
    #[inline(always)]
    fn deref_mut(&mut self) -> &mut [T] {
        &mut self.0
    }
}

impl<T> IntoIterator for Vec<T> {
    type Item = T;
    type IntoIter = std::vec::IntoIter<T>;

    fn into_iter(self) -> Self::IntoIter {
        self.0.into_iter()
    }
}

impl<'a, T> IntoIterator for &'a Vec<T> {
    type Item = &'a T;
    type IntoIter = std::slice::Iter<'a, T>;

    fn into_iter(self) -> Self::IntoIter {
        self.0.iter()
    }
}

/// A vector of bytes takes what is written to it.
impl io::Write for Vec<u8> {
    fn write(&mut self, bytes: &[u8]) -> io::Result<usize> {
        self.extend_from_slice(bytes)?;
        Ok(bytes.len())
    }

    fn flush(&mut self) -> io::Result<()> {
        Ok(())
    }
}

#[derive(Debug, PartialEq, Eq, PartialOrd, Ord)]
pub struct String(std::string::String);

impl String {
    pub fn new(_: Global) -> String {
        String(std::string::String::new())
    }

    pub fn from_str(alloc: Global, text: &str) -> Result<String, AllocError> {
        let mut copy = String::new(alloc);
        copy.push_str(text)?;
        Ok(copy)
    }

    pub fn as_str(&self) -> &str {
        &self.0
    }

    pub fn clear(&mut self) {
        self.0.clear();
    }

    pub fn push(&mut self, c: char) -> Result<(), AllocError> {
        self.0.try_reserve(c.len_utf8())?;
        self.0.push(c);
        Ok(())
    }

    pub fn push_str(&mut self, text: &str) -> Result<(), AllocError> {
        self.0.try_reserve(text.len())?;
        self.0.push_str(text);
        Ok(())
    }

    /// What `write!` calls: it fails where a growth is refused.
    pub fn write_fmt(&mut self, form: fmt::Arguments<'_>) -> Result<(), AllocError> {
        fmt::Write::write_fmt(&mut Growing(self), form).map_err(|_| AllocError)
    }
}

/// A text to which a form is written.
struct Growing<'a>(&'a mut String);

impl fmt::Write for Growing<'_> {
    fn write_str(&mut self, text: &str) -> fmt::Result {
        self.0.push_str(text).map_err(|_| fmt::Error)
    }
}

impl Deref for String {
    type Target = str;

    fn deref(&self) -> &str {
        &self.0
    }
}

impl fmt::Display for String {
    fn fmt(&self, f: &mut fmt::Formatter) -> fmt::Result {
        f.pad(&self.0)
    }
}

/// `format!(in alloc; "{name}")`
pub fn formatted(alloc: Global, form: fmt::Arguments<'_>) -> Result<String, AllocError> {
    let mut text = String::new(alloc);
    text.write_fmt(form)?;
    Ok(text)
}

macro_rules! format {
    (in $alloc:expr; $($form:tt)*) => {
        $crate::rt::alloc::formatted($alloc, ::std::format_args!($($form)*))
    };
    ($($form:tt)*) => {
        ::std::format!($($form)*)
    };
}
