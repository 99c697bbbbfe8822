//! An honest server's list: 01, "The keeper".

use super::version::{Version, RECORD, USERS};
use super::Refusal;

/// The bytes of a server.
pub const SERVER: usize = 1 + USERS * RECORD;

/// The number of users, and a slot for each user's last record. A slot that counts no operation of
/// its user holds nothing.
#[derive(Clone, Debug, PartialEq, Eq)]
#[repr(C)]
pub struct Server {
    pub users: u8,
    pub slots: [[u8; RECORD]; USERS],
}

impl Server {
    /// An empty list.
    pub fn make(users: u8) -> Result<Server, Refusal> {
        if users == 0 || usize::from(users) > USERS {
            return Err(Refusal(1, 0, 0));
        }
        Ok(Server { users, slots: [[0; RECORD]; USERS] })
    }

    pub fn bytes(&self) -> Vec<u8> {
        [&[self.users], self.slots.as_flattened()].concat()
    }

    /// How many operations of a user its record counts, 0 if none is held.
    pub fn own(&self, user: usize) -> u32 {
        Version::read(&self.slots[user]).counts[user]
    }

    /// Writes the held records to the front, owners ascending, and gives their number.
    pub fn list(&self, out: &mut [u8]) -> Result<u32, Refusal> {
        let held: Vec<&[u8; RECORD]> = (0..USERS).filter(|&v| self.own(v) != 0).map(|v| &self.slots[v]).collect();
        if out.len() < RECORD * held.len() {
            return Err(Refusal(12, 0, 0));
        }
        for (i, record) in held.iter().enumerate() {
            out[RECORD * i..RECORD * (i + 1)].copy_from_slice(*record);
        }
        Ok(held.len() as u32)
    }

    /// The record replaces its owner's, or is refused in the order 2, 3, 4, 5, 7.
    pub fn commit(&mut self, record: &[u8], mark: u8) -> Result<(), Refusal> {
        if record.len() != RECORD {
            return Err(Refusal(2, 0, 0));
        }
        let new = Version::read(record);
        if !new.well_formed(self.users) {
            return Err(Refusal(3, 0, 0));
        }
        if mark != 1 {
            return Err(Refusal(4, 0, 0));
        }
        let owner = usize::from(new.owner);
        if u64::from(new.own()) != u64::from(self.own(owner)) + 1 {
            return Err(Refusal(5, 0, 0));
        }
        for user in 0..USERS {
            let held = Version::read(&self.slots[user]);
            let count = self.own(user);
            if (count != 0 && !held.strictly_before(&new)) || (user != owner && new.counts[user] != count) {
                return Err(Refusal(7, user as u32, 0));
            }
        }
        self.slots[owner].copy_from_slice(record);
        Ok(())
    }
}
