//! The second implementation's comparison as a library for C, to be a contender; by itself, as reference_server.rs is.

#[allow(dead_code)]
#[path = "../src/reference/mod.rs"]
mod reference;

use reference::standing::standing;
use reference::version::USERS;

/// The standing's number.
#[no_mangle]
pub extern "C" fn reference_compare(x: &[u32; USERS], y: &[u32; USERS]) -> u8 {
    standing(x, y) as u8
}
