//! Bytes as hexadecimal digits.
use super::alloc::{AllocError, Global, String};

pub fn encode(alloc: Global, bytes: impl AsRef<[u8]>) -> Result<String, AllocError> {
    let mut text = String::new(alloc);
    for byte in bytes.as_ref() {
        write!(text, "{byte:02x}")?;
    }
    Ok(text)
}
