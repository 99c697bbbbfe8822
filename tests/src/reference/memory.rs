//! A client's memory file: 02's request i. Kind 7, a state, and what is remembered; how it is moved over, back, marked as
//! sent, and made of a new structure.

use super::version::{Version, RECORD, USERS};
use super::Refusal;

/// The bytes of a file.
pub const FILE: usize = 100;

/// Its kind byte, and the states that its second byte may tell.
pub const KIND: u8 = 7;
pub const SENT: u8 = 0;
pub const PENDING: u8 = 1;
pub const NONE: u8 = 2;

/// What a file that is well formed says.
#[derive(Clone, Copy, Debug, PartialEq, Eq)]
pub enum Memory {
    Nothing,
    Sent(Version),
    Pending(Version),
}

/// The refusal of what is not so formed, a file or what is to go into one.
const NOT_FORMED: Refusal = Refusal(3, 16, 0);

/// A well-formed structure of this user's.
pub fn own_structure(users: u8, user: u8, record: &[u8]) -> Result<Version, Refusal> {
    let version = Version::read(record);
    if version.well_formed(users) && version.owner == user {
        Ok(version)
    } else {
        Err(NOT_FORMED)
    }
}

impl Memory {
    /// What 100 bytes say, if they are a file of this user's.
    pub fn read(users: u8, user: u8, file: &[u8]) -> Result<Memory, Refusal> {
        let [KIND, state, behind @ ..] = file else { return Err(NOT_FORMED) };
        match *state {
            SENT => Ok(Memory::Sent(own_structure(users, user, behind)?)),
            PENDING => Ok(Memory::Pending(own_structure(users, user, behind)?)),
            NONE if behind.iter().all(|&byte| byte == 0) => Ok(Memory::Nothing),
            _ => Err(NOT_FORMED),
        }
    }

    /// The file that says so; it judges nothing.
    pub fn write(&self) -> [u8; FILE] {
        let mut file = [0; FILE];
        file[0] = KIND;
        let (state, version) = match self {
            Memory::Nothing => (NONE, None),
            Memory::Sent(version) => (SENT, Some(version)),
            Memory::Pending(version) => (PENDING, Some(version)),
        };
        file[1] = state;
        if let Some(version) = version {
            file[2..].copy_from_slice(&version.write());
        }
        file
    }

    /// What the check and the making step go by.
    pub fn remembered(&self) -> Option<Version> {
        match *self {
            Memory::Nothing => None,
            Memory::Sent(version) | Memory::Pending(version) => Some(version),
        }
    }
}

/// What was remembered before there were files, as a file: nothing is judged, and what has another length than 98 becomes
/// a file that has another length than 100.
pub fn file_of(old: &[u8]) -> Vec<u8> {
    match old {
        [] => Memory::Nothing.write().to_vec(),
        _ => [&[KIND, SENT], old].concat(),
    }
}

/// Refusal 1: there are 1 to 16 users, and this is one of them.
pub fn is_user(users: u8, user: u8) -> Result<(), Refusal> {
    if (1..=USERS).contains(&usize::from(users)) && user < users {
        Ok(())
    } else {
        Err(Refusal(1, 0, 0))
    }
}

/// Refusal 2, unless these are the lengths.
fn lengths(fit: bool) -> Result<(), Refusal> {
    if fit {
        Ok(())
    } else {
        Err(Refusal(2, 0, 0))
    }
}

/// The file of what was remembered before there were files. The order is 1, 2, 3, and so it is below; there is room for
/// so many bytes.
pub fn over(users: u8, user: u8, old: &[u8], file_len: usize) -> Result<[u8; FILE], Refusal> {
    is_user(users, user)?;
    lengths([0, RECORD].contains(&old.len()) && file_len == FILE)?;
    if old.is_empty() {
        return Ok(Memory::Nothing.write());
    }
    Ok(Memory::Sent(own_structure(users, user, old)?).write())
}

/// And back: what was remembered, or none. While a file is pending there is no way back, 17.
pub fn back(users: u8, user: u8, file: &[u8], old_len: usize) -> Result<Option<[u8; RECORD]>, Refusal> {
    is_user(users, user)?;
    lengths((file.len(), old_len) == (FILE, RECORD))?;
    match Memory::read(users, user, file)? {
        Memory::Nothing => Ok(None),
        Memory::Sent(version) => Ok(Some(version.write())),
        Memory::Pending(_) => Err(Refusal(17, 0, 0)),
    }
}

/// The server has accepted what was pending. Any other file stays as it is.
pub fn sent(users: u8, user: u8, file: &[u8]) -> Result<[u8; FILE], Refusal> {
    is_user(users, user)?;
    lengths(file.len() == FILE)?;
    Ok(match Memory::read(users, user, file)? {
        Memory::Pending(version) => Memory::Sent(version).write(),
        other => other.write(),
    })
}

/// The pending file of a structure that was made.
pub fn pend(users: u8, user: u8, version: &[u8], file_len: usize) -> Result<[u8; FILE], Refusal> {
    is_user(users, user)?;
    lengths((version.len(), file_len) == (RECORD, FILE))?;
    Ok(Memory::Pending(own_structure(users, user, version)?).write())
}
