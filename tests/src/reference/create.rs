//! A client's next version structure, made of counts that a check gave: 02's request h, on i's memory file. It judges no
//! list and no order.

use super::memory::{is_user, own_structure, Memory, FILE};
use super::version::{Version, RECORD, USERS};
use super::Refusal;

/// The new version structure by a memory file, sent or pending alike, or the first refusal that the order 1, 2, 3, 3, 6,
/// 16 comes to. There is room for `out_len` bytes.
pub fn create_file(
    users: u8,
    user: u8,
    file: &[u8],
    counts: &[u32],
    handle: &[u8],
    out_len: usize,
) -> Result<[u8; RECORD], Refusal> {
    is_user(users, user)?;
    if (file.len(), counts.len(), handle.len(), out_len) != (FILE, USERS, 32, RECORD) {
        return Err(Refusal(2, 0, 0));
    }
    let remembered = Memory::read(users, user, file)?.remembered();
    made(users, user, remembered, counts.try_into().unwrap(), handle)
}

/// By a remembered structure, or none, as it was before there were files.
pub fn create(
    users: u8,
    user: u8,
    memory: &[u8],
    counts: &[u32],
    handle: &[u8],
    out_len: usize,
) -> Result<[u8; RECORD], Refusal> {
    is_user(users, user)?;
    let lengths = (counts.len(), handle.len(), out_len);
    if ![0, RECORD].contains(&memory.len()) || lengths != (USERS, 32, RECORD) {
        return Err(Refusal(2, 0, 0));
    }
    let remembered = if memory.is_empty() { None } else { Some(own_structure(users, user, memory)?) };
    made(users, user, remembered, counts.try_into().unwrap(), handle)
}

/// Refusal 3 of the counts, and all behind it.
fn made(
    users: u8,
    user: u8,
    remembered: Option<Version>,
    counts: [u32; USERS],
    handle: &[u8],
) -> Result<[u8; RECORD], Refusal> {
    if counts[usize::from(users)..].iter().any(|&count| count != 0) {
        return Err(Refusal(3, 0, 0));
    }
    // The own count that is remembered, 0 for none.
    let last = remembered.map_or(0, |m| m.own());
    if last == u32::MAX {
        return Err(Refusal(6, 0, 0));
    }
    if counts[usize::from(user)] != last + 1 {
        return Err(Refusal(16, 0, 0));
    }
    Ok(Version::new(user, handle.try_into().unwrap(), counts).write())
}
