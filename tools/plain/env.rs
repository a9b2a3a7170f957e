//! The words of the command line, as bytes, and the variables of the environment.
use super::runtime::HostRuntime;
use std::env::VarError;

/// Why a word is not given.
pub enum FillError {
    NotPresent,
    TooLong,
}

pub trait Env {
    /// The bytes of a word, the program's name first among them, and how many they are.
    fn arg(&self, place: usize, bytes: &mut [u8]) -> Result<usize, FillError>;
}

impl Env for HostRuntime {
    fn arg(&self, place: usize, bytes: &mut [u8]) -> Result<usize, FillError> {
        let Some(word) = self.word(place) else {
            return Err(FillError::NotPresent);
        };
        let Some(room) = bytes.get_mut(..word.len()) else {
            return Err(FillError::TooLong);
        };
        room.copy_from_slice(word);
        Ok(word.len())
    }
}

/// The value of a variable.
pub fn var(_: &HostRuntime, name: &str) -> Result<std::string::String, VarError> {
    std::env::var(name)
}
