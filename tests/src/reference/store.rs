//! A server's block store: 000, section 3, and 02, request e.

use super::sha256::Remembered;
use super::Refusal;
use std::array;

/// "A lent store has 64 places, each with a length (2 bytes), sixteen users' counts (2 bytes each) and 8,192 bytes:
/// 526,464 in all"
pub const PLACES: usize = 64;
pub const USERS: usize = 16;
pub const ROOM: usize = 8_192;
pub const PLACE: usize = 2 + 2 * USERS + ROOM;
pub const STORE: usize = PLACES * PLACE;

/// A place: the length of its block, how often each user counts it, and its bytes, of which the block is the first.
#[derive(Clone, Debug, PartialEq, Eq)]
pub struct Place {
    pub length: u16,
    pub counts: [u16; USERS],
    pub bytes: Vec<u8>,
}

impl Place {
    pub fn read(bytes: &[u8]) -> Place {
        let number = |at: usize| u16::from_be_bytes([bytes[at], bytes[at + 1]]);
        Place {
            length: number(0),
            counts: array::from_fn(|user| number(2 + 2 * user)),
            bytes: bytes[2 + 2 * USERS..].to_vec(),
        }
    }

    pub fn write(&self) -> Vec<u8> {
        let mut written = self.length.to_be_bytes().to_vec();
        written.extend(self.counts.iter().flat_map(|count| count.to_be_bytes()));
        written.extend(&self.bytes);
        written
    }

    /// "a place whose counts are all zero is free"
    pub fn is_free(&self) -> bool {
        self.counts == [0; USERS]
    }

    /// What its length makes of its bytes, be it free or not.
    pub fn block(&self) -> &[u8] {
        &self.bytes[..usize::from(self.length)]
    }

    /// "is free, holds nothing"
    pub fn holds(&self, hash: &[u8], hashes: &mut Remembered) -> bool {
        !self.is_free() && hashes.digest(self.block()) == hash
    }
}

/// What is lent as a store: its places; none where the bytes are not as many as a store's.
#[derive(Clone, Debug, PartialEq, Eq)]
pub struct Store {
    pub places: Vec<Place>,
}

impl Store {
    pub fn read(bytes: &[u8]) -> Store {
        let whole = bytes.len() == STORE;
        Store { places: bytes.chunks(PLACE).filter(|_| whole).map(Place::read).collect() }
    }

    pub fn write(&self) -> Vec<u8> {
        self.places.iter().map(Place::write).collect::<Vec<_>>().concat()
    }

    /// "2; 3 for a place whose length is over 8,192, lowest first", where the lengths of other things are due too.
    fn check(&self, lengths: bool) -> Result<(), Refusal> {
        if self.places.is_empty() || !lengths {
            return Err(Refusal(2, 0, 0));
        }
        match self.places.iter().position(|place| usize::from(place.length) > ROOM) {
            None => Ok(()),
            Some(place) => Err(Refusal(3, place as u32, 0)),
        }
    }

    /// "The lowest place that holds a hash is meant in every call"
    fn holder(&self, hash: &[u8], hashes: &mut Remembered) -> Option<usize> {
        self.places.iter().position(|place| place.holds(hash, hashes))
    }

    /// STORE: "the server keeps a count for each user of how many times the user has stored the block". Gives the place.
    pub fn store(&mut self, user: u8, block: &[u8], hashes: &mut Remembered) -> Result<usize, Refusal> {
        let user = known(user)?;
        self.check(block.len() <= ROOM)?;
        // "Storing a block of 0 to 8,192 bytes whose hash is held adds one to that user's count"
        if let Some(held) = self.holder(&hashes.digest(block), hashes) {
            let count = &mut self.places[held].counts[user];
            *count = count.checked_add(1).ok_or(Refusal(14, 0, 0))?;
            return Ok(held);
        }
        // "otherwise it takes the lowest free place with that user's count 1"
        let free = self.places.iter().position(Place::is_free).ok_or(Refusal(13, 0, 0))?;
        let place = &mut self.places[free];
        place.length = block.len() as u16;
        place.counts[user] = 1;
        place.bytes[..block.len()].copy_from_slice(block);
        Ok(free)
    }

    /// RETRIEVE "retrieves a block by its collision-resistant cryptographic hash", to the front of a buffer. Gives its
    /// length.
    pub fn retrieve(&self, hash: &[u8], out: &mut [u8], hashes: &mut Remembered) -> Result<u32, Refusal> {
        self.check(hash.len() == 32)?;
        let held = self.holder(hash, hashes).ok_or(Refusal(15, 0, 0))?;
        let block = self.places[held].block();
        out.get_mut(..block.len()).ok_or(Refusal(12, 0, 0))?.copy_from_slice(block);
        Ok(block.len() as u32)
    }

    /// UNREFERENCE "decrements a user's reference count (if not already zero)". Gives the place if it takes one.
    pub fn unreference(&mut self, user: u8, hash: &[u8], hashes: &mut Remembered) -> Result<Option<usize>, Refusal> {
        let user = known(user)?;
        self.check(hash.len() == 32)?;
        let held = self.holder(hash, hashes).ok_or(Refusal(15, 0, 0))?;
        let count = &mut self.places[held].counts[user];
        let some = *count > 0;
        *count = count.saturating_sub(1);
        Ok(some.then_some(held))
    }
}

/// "1 for a user above 15"
fn known(user: u8) -> Result<usize, Refusal> {
    match usize::from(user) {
        user if user < USERS => Ok(user),
        _ => Err(Refusal(1, 0, 0)),
    }
}
