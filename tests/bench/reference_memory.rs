//! The second implementation's four calls on a memory file as a library for C, to be contenders; by themselves, as
//! reference_server.rs is.

#[allow(dead_code)]
#[path = "../src/reference/mod.rs"]
mod reference;

use reference::memory::{back, over, pend, sent, FILE};
use reference::version::RECORD;
use reference::Refusal;

/// Writes what is due, and gives 0, or the refusal's number.
fn leave<const LEN: usize>(due: Result<[u8; LEN], Refusal>, out: &mut [u8; LEN]) -> u8 {
    match due {
        Ok(written) => {
            *out = written;
            0
        }
        Err(refusal) => refusal.0,
    }
}

#[no_mangle]
pub extern "C" fn reference_pend(users: u8, user: u8, version: &[u8; RECORD], file: &mut [u8; FILE]) -> u8 {
    leave(pend(users, user, version, file.len()), file)
}

#[no_mangle]
pub extern "C" fn reference_sent(users: u8, user: u8, file: &mut [u8; FILE]) -> u8 {
    leave(sent(users, user, file), file)
}

#[no_mangle]
pub extern "C" fn reference_over(users: u8, user: u8, old: &[u8; RECORD], file: &mut [u8; FILE]) -> u8 {
    leave(over(users, user, old, file.len()), file)
}

#[no_mangle]
pub extern "C" fn reference_back(users: u8, user: u8, file: &[u8; FILE], old: &mut [u8; RECORD]) -> u8 {
    match back(users, user, file, old.len()) {
        Ok(None) => 0,
        Ok(Some(remembered)) => leave(Ok(remembered), old),
        Err(refusal) => refusal.0,
    }
}
