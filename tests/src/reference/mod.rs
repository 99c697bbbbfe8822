//! The second implementation, a file for each piece: plain, slow, and written from the papers
//! without a look at the library's code.

pub mod check;
pub mod choose;
pub mod create;
pub mod inode;
pub mod input;
pub mod itable;
pub mod large;
pub mod many;
pub mod memory;
pub mod server;
pub mod sha256;
pub mod standing;
pub mod store;
pub mod version;

/// A refusal: its number and its two positions.
#[derive(Clone, Copy, Debug, PartialEq, Eq)]
pub struct Refusal(pub u8, pub u32, pub u32);
