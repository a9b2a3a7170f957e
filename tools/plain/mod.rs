//! What the sources use of the kit's libraries, over Rust's own (plain.py).
#[macro_use]
pub mod alloc;
pub mod arrayvec;
pub mod aside;
pub mod base64;
pub mod boxed;
pub mod cell;
pub mod circular_buffer;
pub mod clap;
pub mod collections;
pub mod env;
pub mod fs;
pub mod hex;
pub mod io;
pub mod marker;
pub mod md5;
pub mod process;
pub mod runtime;
pub mod smallvec;
pub mod strsim;
pub mod time;

/// What the program says of itself.
pub const NOT_PROVED: &str = "a plain build, of which nothing is proved";

/// What each module has without a word.
pub mod prelude {
    pub use super::alloc::{String, Vec};
    pub use super::boxed::Box;
    pub use super::runtime::HostRuntime;
}
