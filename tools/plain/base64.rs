//! Bytes as base64 (RFC 4648).
use super::alloc::{AllocError, Global, String};

const DIGITS: &[u8; 64] = b"ABCDEFGHIJKLMNOPQRSTUVWXYZabcdefghijklmnopqrstuvwxyz0123456789+/";

/// With the characters + and /, and padded.
pub struct Standard;

impl Standard {
    pub fn encode(&self, alloc: Global, bytes: impl AsRef<[u8]>) -> Result<String, AllocError> {
        let mut text = String::new(alloc);
        for three in bytes.as_ref().chunks(3) {
            let word = three.iter().fold(0u32, |word, byte| word << 8 | u32::from(*byte)) << (8 * (3 - three.len()));
            for k in 0..4 {
                let digit = DIGITS[(word >> (18 - 6 * k)) as usize % 64] as char;
                text.push(if k <= three.len() { digit } else { '=' })?;
            }
        }
        Ok(text)
    }
}

pub mod engine {
    pub mod general_purpose {
        pub const STANDARD: super::super::Standard = super::super::Standard;
    }
}
