//! Words of a command line: what the sources use of clap, with its texts.
mod arg;
mod command;
mod errors;
mod help;
mod matches;
mod parser;
mod usage;

pub use arg::{Arg, ArgAction};
pub use command::Command;
pub use errors::Error;
pub use matches::ArgMatches;

pub mod error {
    pub use super::errors::ErrorKind;
}
