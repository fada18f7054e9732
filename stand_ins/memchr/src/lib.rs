//! The calls of `memchr` that the repository makes, byte by byte.
#![no_std]

pub fn memchr(one: u8, bytes: &[u8]) -> Option<usize> {
    bytes.iter().position(|byte| *byte == one)
}

pub fn memchr2(one: u8, two: u8, bytes: &[u8]) -> Option<usize> {
    bytes.iter().position(|byte| [one, two].contains(byte))
}

pub fn memchr3(one: u8, two: u8, three: u8, bytes: &[u8]) -> Option<usize> {
    bytes.iter().position(|byte| [one, two, three].contains(byte))
}

pub fn memrchr(one: u8, bytes: &[u8]) -> Option<usize> {
    bytes.iter().rposition(|byte| *byte == one)
}

pub mod memmem {
    pub fn find(bytes: &[u8], part: &[u8]) -> Option<usize> {
        (0..=bytes.len().checked_sub(part.len())?).find(|at| bytes[*at..].starts_with(part))
    }
}
