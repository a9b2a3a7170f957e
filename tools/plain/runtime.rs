//! What the system gives a program.
use super::alloc::Global;
use super::io::Stream;
use super::process::Process;
use std::ffi::{CStr, c_char};

/// The words of the command line, and all that is asked of the system.
pub struct HostRuntime {
    count: usize,
    words: *const *const c_char,
}

impl HostRuntime {
    /// # Safety
    /// These have to be the count and the words that the system gives to the C function `main`.
    pub unsafe fn new(count: usize, words: *const *const c_char) -> HostRuntime {
        HostRuntime { count, words }
    }

    /// A word of the command line.
    pub fn word(&self, place: usize) -> Option<&[u8]> {
        if place >= self.count {
            return None;
        }
        // The words live as long as the program.
        Some(unsafe { CStr::from_ptr(*self.words.add(place)) }.to_bytes())
    }

    pub fn alloc(&self) -> Global {
        Global
    }

    pub fn stderr(&self) -> Stream {
        Stream::ERROR
    }

    pub fn process(&self) -> &Process {
        &Process
    }
}
