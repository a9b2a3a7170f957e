//! The program of the plain build: the C function `main`, round the crates and what stands for the kit's libraries, which plain.py puts in as modules.
#![feature(portable_simd, alloc_error_hook, io_error_more)]
#![allow(warnings)]
#![no_main]
@MODULES@
use std::ffi::{CStr, c_char};
use std::io::Write;

const SIGPIPE: i32 = 13;
const IGNORE: usize = 1;
const MEMORY: i32 = 3;

unsafe extern "C" {
    fn _exit(status: i32) -> !;
    fn signal(number: i32, action: usize) -> usize;
}

/// Answers a refused allocation of Rust's own, where no Result tells it: on standard error where `ERROR` is set, else on standard output.
fn memory<const ERROR: bool>(_: std::alloc::Layout) {
    let mut out = if ERROR { rt::io::Stream::ERROR } else { rt::io::Stream::OUTPUT };
    let _ = out.write_all(b"memory\n");
    unsafe { _exit(MEMORY) }
}

/// The C function, so that nothing of Rust's own runs before it, which would open closed streams.
#[unsafe(no_mangle)]
extern "C" fn main(count: i32, words: *const *const c_char) -> i32 {
    let system = unsafe { rt::runtime::HostRuntime::new(count.max(0) as usize, words) };
    let answers_aside = matches!(system.word(1), Some(b"decode" | b"report"));
    std::alloc::set_alloc_error_hook(if answers_aside { memory::<true> } else { memory::<false> });
    unsafe { signal(SIGPIPE, IGNORE) };
    let _ = writeln!(system.stderr(), "h264v-quick: {}", rt::NOT_PROVED);
    h264v::main(system).0.into()
}
