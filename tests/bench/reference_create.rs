//! The second implementation's making step as a library for C, to be a contender; by itself, as reference_server.rs is.

#[allow(dead_code)]
#[path = "../src/reference/mod.rs"]
mod reference;

use reference::create::create_file;
use reference::memory::FILE;
use reference::version::{RECORD, USERS};

/// The making step.
#[no_mangle]
pub extern "C" fn reference_create(
    users: u8,
    user: u8,
    file: &[u8; FILE],
    counts: &[u32; USERS],
    handle: &[u8; 32],
    out: &mut [u8; RECORD],
) -> u8 {
    match create_file(users, user, file, counts, handle, out.len()) {
        Ok(new) => {
            *out = new;
            0
        }
        Err(refusal) => refusal.0,
    }
}
