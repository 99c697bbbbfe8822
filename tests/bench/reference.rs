//! The second implementation as a library for C, to be a contender.

#[allow(dead_code)]
#[path = "../src/reference/mod.rs"]
mod reference;

use reference::check::{check_file, Verdict};
use reference::memory::FILE;
use reference::server::Server;
use reference::version::{RECORD, USERS};
use std::slice::from_raw_parts;

/// The check of a list that has a record of each user.
#[no_mangle]
pub extern "C" fn reference_check(
    users: u8,
    user: u8,
    file: &[u8; FILE],
    list: &[u8; RECORD * USERS],
    marks: &[u8; USERS],
    counts: &mut [u32; USERS],
    again: &mut [u8; RECORD],
) -> u8 {
    let records = usize::from(users);
    match check_file(users, user, file, &list[..RECORD * records], &marks[..records], counts.len(), again.len()) {
        Ok(Verdict::Next(new)) => {
            *counts = new;
            0
        }
        Ok(Verdict::Again(pending)) => {
            *again = pending;
            255
        }
        Err(refusal) => refusal.0,
    }
}

#[no_mangle]
pub unsafe extern "C" fn reference_commit(server: *mut Server, record: *const u8, record_len: usize, mark: u8) -> u8 {
    match (*server).commit(from_raw_parts(record, record_len), mark) {
        Ok(()) => 0,
        Err(refusal) => refusal.0,
    }
}
