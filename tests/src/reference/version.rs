//! Version structures: their layout, their form, and the two orders of TR2002-826, section 4.2.

/// The users that a version structure has room for, and its bytes.
pub const USERS: usize = 16;
pub const RECORD: usize = 98;

/// The kind byte of a version structure.
const KIND: u8 = 1;

#[derive(Clone, Copy, Debug, PartialEq, Eq)]
pub struct Version {
    pub kind: u8,
    pub owner: u8,
    pub handle: [u8; 32],
    /// How many operations of each user it counts.
    pub counts: [u32; USERS],
}

impl Version {
    pub fn new(owner: u8, handle: [u8; 32], counts: [u32; USERS]) -> Version {
        Version { kind: KIND, owner, handle, counts }
    }

    /// Any 98 bytes: kind, owner, i-handle, then the counts, each of four bytes, big-endian.
    pub fn read(record: &[u8]) -> Version {
        assert_eq!(record.len(), RECORD);
        let mut handle = [0; 32];
        handle.copy_from_slice(&record[2..34]);
        let mut counts = [0; USERS];
        for (user, count) in counts.iter_mut().enumerate() {
            let at = 34 + 4 * user;
            *count = u32::from_be_bytes([record[at], record[at + 1], record[at + 2], record[at + 3]]);
        }
        Version { kind: record[0], owner: record[1], handle, counts }
    }

    pub fn write(&self) -> [u8; RECORD] {
        let mut record = [0; RECORD];
        record[0] = self.kind;
        record[1] = self.owner;
        record[2..34].copy_from_slice(&self.handle);
        for (user, count) in self.counts.iter().enumerate() {
            record[34 + 4 * user..38 + 4 * user].copy_from_slice(&count.to_be_bytes());
        }
        record
    }

    /// How many operations of its owner it counts; none if no count is the owner's.
    pub fn own(&self) -> u32 {
        self.counts.get(usize::from(self.owner)).copied().unwrap_or(0)
    }

    pub fn well_formed(&self, users: u8) -> bool {
        self.kind == KIND
            && self.owner < users
            && self.own() != 0
            && self.counts.iter().enumerate().all(|(user, &count)| user < usize::from(users) || count == 0)
    }

    pub fn at_or_before(&self, other: &Version) -> bool {
        self.counts.iter().zip(&other.counts).all(|(mine, others)| mine <= others)
    }

    pub fn strictly_before(&self, other: &Version) -> bool {
        self.at_or_before(other) && self.counts != other.counts
    }
}
