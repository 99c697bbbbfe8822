//! A client's check of the server's list: 01, "The desk's verdict", with 02's requests h and i.

use super::memory::{is_user, own_structure, Memory, FILE};
use super::version::{Version, RECORD, USERS};
use super::Refusal;

/// What a check says that refuses nothing: the sixteen counts of the new version structure, or that the pending one is to
/// be sent again.
#[derive(Clone, Copy, Debug, PartialEq, Eq)]
pub enum Verdict {
    Next([u32; USERS]),
    Again([u8; RECORD]),
}

/// The check by a memory file: a verdict, or the first refusal that the order 1, 2, 3, 3, 4, 5, 6, 7 comes to; "send
/// again" stands at 5's place. There is room for `counts_len` counts, and for `again_len` bytes to send again.
pub fn check_file(
    users: u8,
    user: u8,
    file: &[u8],
    list: &[u8],
    marks: &[u8],
    counts_len: usize,
    again_len: usize,
) -> Result<Verdict, Refusal> {
    is_user(users, user)?;
    let rooms = (counts_len, again_len);
    if file.len() != FILE || !lengths_fit(users, list, marks) || rooms != (USERS, RECORD) {
        return Err(Refusal(2, 0, 0));
    }
    let memory = Memory::read(users, user, file)?;
    let listed = read(users, list, marks)?;
    let (entry, remembered) = (entry_of(user, &listed), memory.remembered());
    if entry != remembered.as_ref() {
        // By own count alone: the one before need not be the bytes that were signed. No entry counts none.
        let shown = entry.map_or(0, Version::own);
        return match memory {
            Memory::Pending(version) if version.own() - 1 == shown => Ok(Verdict::Again(version.write())),
            _ => Err(Refusal(5, 0, 0)),
        };
    }
    next(user, remembered, &listed).map(Verdict::Next)
}

/// The check by a remembered structure, or none, as it was before there were files: the counts, or the first refusal.
pub fn check(
    users: u8,
    user: u8,
    memory: &[u8],
    list: &[u8],
    marks: &[u8],
    counts_len: usize,
) -> Result<[u32; USERS], Refusal> {
    is_user(users, user)?;
    if ![0, RECORD].contains(&memory.len()) || !lengths_fit(users, list, marks) || counts_len != USERS {
        return Err(Refusal(2, 0, 0));
    }
    let remembered = if memory.is_empty() { None } else { Some(own_structure(users, user, memory)?) };
    let listed = read(users, list, marks)?;
    if entry_of(user, &listed) != remembered.as_ref() {
        return Err(Refusal(5, 0, 0));
    }
    next(user, remembered, &listed)
}

/// A list of whole records, not more than there are users, and a mark for each.
fn lengths_fit(users: u8, list: &[u8], marks: &[u8]) -> bool {
    list.len() % RECORD == 0 && list.len() / RECORD <= usize::from(users) && marks.len() == list.len() / RECORD
}

/// The list's structures: refusals 3 and 4.
fn read(users: u8, list: &[u8], marks: &[u8]) -> Result<Vec<Version>, Refusal> {
    let listed: Vec<Version> = list.chunks(RECORD).map(Version::read).collect();
    for (i, entry) in listed.iter().enumerate() {
        if !entry.well_formed(users) || (i > 0 && entry.owner <= listed[i - 1].owner) {
            return Err(Refusal(3, i as u32, 0));
        }
    }
    match marks.iter().position(|&mark| mark != 1) {
        Some(i) => Err(Refusal(4, i as u32, 0)),
        None => Ok(listed),
    }
}

/// The user's own. Equal structures are equal byte for byte, and so are two that are not there.
fn entry_of(user: u8, listed: &[Version]) -> Option<&Version> {
    listed.iter().find(|entry| entry.owner == user)
}

/// The counts after a list that shows what is remembered: refusals 6 and 7.
fn next(user: u8, remembered: Option<Version>, listed: &[Version]) -> Result<[u32; USERS], Refusal> {
    let last = remembered.map_or(0, |m| m.own());
    if last == u32::MAX {
        return Err(Refusal(6, 0, 0));
    }

    let n = listed.len();
    let mut counts = [0; USERS];
    for entry in listed {
        counts[usize::from(entry.owner)] = entry.own();
    }
    counts[usize::from(user)] = last + 1;
    // i-handles are not compared: any will do.
    let new = Version::new(user, [0; 32], counts);
    for i in 0..n {
        for j in i + 1..n {
            if !listed[i].at_or_before(&listed[j]) && !listed[j].at_or_before(&listed[i]) {
                return Err(Refusal(7, i as u32, j as u32));
            }
        }
        if !listed[i].strictly_before(&new) {
            return Err(Refusal(7, i as u32, n as u32));
        }
    }
    Ok(counts)
}
