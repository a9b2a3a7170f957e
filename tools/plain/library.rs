//! The library for C of the plain build: the crates and what stands for the kit's libraries, which plain.py puts in as modules.
#![feature(portable_simd, io_error_more)]
#![allow(warnings)]
@MODULES@
use std::alloc::{GlobalAlloc, Layout};
use std::ffi::c_void;

/// What `malloc` aligns to.
const ALIGNED: usize = 16;

unsafe extern "C" {
    fn malloc(size: usize) -> *mut c_void;
    fn realloc(place: *mut c_void, size: usize) -> *mut c_void;
    fn free(place: *mut c_void);
}

/// The memory of the library for C: `malloc`, `realloc` and `free`, and no others (include/h264v.h).
struct Malloc;

unsafe impl GlobalAlloc for Malloc {
    unsafe fn alloc(&self, layout: Layout) -> *mut u8 {
        if layout.align() > ALIGNED {
            return std::ptr::null_mut();
        }
        unsafe { malloc(layout.size()) as *mut u8 }
    }

    unsafe fn dealloc(&self, place: *mut u8, _: Layout) {
        unsafe { free(place as *mut c_void) }
    }

    unsafe fn realloc(&self, place: *mut u8, _: Layout, size: usize) -> *mut u8 {
        unsafe { realloc(place as *mut c_void, size) as *mut u8 }
    }
}

#[global_allocator]
static MEMORY: Malloc = Malloc;
