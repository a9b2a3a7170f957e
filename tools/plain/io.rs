//! Standard streams, and a writer that holds back what is written.
use super::alloc::Global;
use super::runtime::HostRuntime;
use std::fmt;
use std::fs::File;
pub use std::io::{Error, ErrorKind, Read, Result, Write};
use std::mem::ManuallyDrop;
use std::os::fd::FromRawFd;

/// How many bytes a writer holds back at most.
const CAPACITY: usize = 8192;

/// An output that the program was given open. Nothing is held back.
#[derive(Clone, Copy)]
pub struct Stream(i32);

impl Stream {
    pub const OUTPUT: Stream = Stream(1);
    pub const ERROR: Stream = Stream(2);
}

/// Standard output.
pub fn writer(_: &HostRuntime) -> Stream {
    Stream::OUTPUT
}

impl Write for Stream {
    fn write(&mut self, bytes: &[u8]) -> Result<usize> {
        // It stays open: the system closes it at the end.
        let mut file = ManuallyDrop::new(unsafe { File::from_raw_fd(self.0) });
        file.write(bytes)
    }

    fn flush(&mut self) -> Result<()> {
        Ok(())
    }

    /// A line goes out in one piece.
    fn write_fmt(&mut self, form: fmt::Arguments<'_>) -> Result<()> {
        let text = super::alloc::formatted(Global, form)?;
        self.write_all(text.as_bytes())
    }
}

/// Holds back what is written until it is flushed or has no room for it.
pub struct BufWriter<W: Write> {
    inner: W,
    held: Vec<u8>,
}

impl<W: Write> BufWriter<W> {
    pub fn new(_: Global, inner: W) -> Result<BufWriter<W>> {
        let mut held = Vec::new();
        if held.try_reserve_exact(CAPACITY).is_err() {
            return Err(Error::from(ErrorKind::OutOfMemory));
        }
        Ok(BufWriter { inner, held })
    }

    /// Writes what it holds. What a failure leaves unwritten stays.
    fn write_held(&mut self) -> Result<()> {
        let mut written = 0;
        let mut result = Ok(());
        while written < self.held.len() && result.is_ok() {
            match self.inner.write(&self.held[written..]) {
                Ok(0) => result = Err(Error::from(ErrorKind::WriteZero)),
                Ok(count) => written += count,
                Err(error) if error.kind() == ErrorKind::Interrupted => {}
                Err(error) => result = Err(error),
            }
        }
        self.held.drain(..written);
        result
    }
}

impl<W: Write> Write for BufWriter<W> {
    fn write(&mut self, bytes: &[u8]) -> Result<usize> {
        if bytes.len() > CAPACITY - self.held.len() {
            self.write_held()?;
        }
        if bytes.len() >= CAPACITY {
            return self.inner.write(bytes);
        }
        self.held.extend_from_slice(bytes);
        Ok(bytes.len())
    }

    fn flush(&mut self) -> Result<()> {
        self.write_held()?;
        self.inner.flush()
    }
}

impl<W: Write> Drop for BufWriter<W> {
    fn drop(&mut self) {
        let _ = self.write_held();
    }
}
