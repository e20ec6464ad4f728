//! Second implementations of what the Rust does not have, written from the paper's words and never from the proved
//! code: the calls are held against these instead. They are plain rather than fast.

pub mod parcel;
pub mod total;
pub mod walk;
