//! Document 01, "Records": "Each record has a two-byte mark of its own kind". Reading asks the questions in
//! sequence; writing asks the same but the mark's, and question 1 of the buffer's length.

pub mod ballot_message;
pub mod checkpoint;
pub(crate) mod envelope;
pub mod event;
pub mod form;
pub mod message;
pub mod telegram;

/// "Numbers of several bytes are big-endian."
pub(crate) fn read_u16(bytes: &[u8], at: usize) -> u16 {
    u16::from_be_bytes([bytes[at], bytes[at + 1]])
}

pub(crate) fn read_u32(bytes: &[u8], at: usize) -> u32 {
    u32::from_be_bytes([bytes[at], bytes[at + 1], bytes[at + 2], bytes[at + 3]])
}

pub(crate) fn write_u32(bytes: &mut [u8], at: usize, value: u32) {
    bytes[at..at + 4].copy_from_slice(&value.to_be_bytes());
}
