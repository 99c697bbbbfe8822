//! Calls of a block store, made up by chance: by users who store what others have stored, and unreference what they have.

use crate::lists::pick;
use crate::random::Random;
use crate::reference::sha256::digest;
use crate::reference::store::{Store, PLACES, ROOM, USERS};
use crate::stores::{Call, Judge};

/// Blocks of these lengths, each the beginning of the next.
pub fn prefixes(lengths: &[usize], random: &mut Random) -> Vec<Vec<u8>> {
    let longest = random.bytes(lengths.iter().copied().max().unwrap_or(0));
    lengths.iter().map(|&len| longest[..len].to_vec()).collect()
}

/// How calls are made up: of which blocks, by how many users, and how many of ten store or unreference.
pub struct Habit {
    pub blocks: Vec<Vec<u8>>,
    pub users: usize,
    pub stores: usize,
    pub unreferences: usize,
}

impl Habit {
    fn user(&self, random: &mut Random) -> u8 {
        match random.below(30) {
            0 => pick(random, &[15, 16, 17, 31, 128, 255]),
            _ => random.below(self.users) as u8,
        }
    }

    fn block(&self, random: &mut Random) -> Vec<u8> {
        match random.below(40) {
            0 => vec![7; ROOM + 1],
            _ => self.blocks[random.below(self.blocks.len())].clone(),
        }
    }

    /// A hash: mostly of one of the blocks.
    fn hash(&self, judge: &mut Judge) -> Vec<u8> {
        let block = &self.blocks[judge.random.below(self.blocks.len())];
        let mut hash = judge.hashes.digest(block).to_vec();
        match judge.random.below(40) {
            0 => hash.resize(pick(&mut judge.random, &[0, 1, 31, 33, 64]), 0),
            1 => hash[judge.random.below(32)] ^= 1 << judge.random.below(8),
            2 => hash = digest(&[]).to_vec(),
            3 => hash = vec![0; 32],
            _ => (),
        }
        hash
    }

    /// A user who counts a block, and the block, if there is one.
    fn counted(store: &Store, random: &mut Random) -> Option<(u8, Vec<u8>)> {
        let from = random.below(PLACES);
        let place = (0..PLACES).map(|i| &store.places[(from + i) % PLACES]).find(|place| !place.is_free())?;
        let from = random.below(USERS);
        let user = (0..USERS).map(|i| (from + i) % USERS).find(|&user| place.counts[user] > 0)?;
        Some((user as u8, place.bytes[..ROOM.min(place.length.into())].to_vec()))
    }

    /// Room about the length of the block that the hash is of.
    fn room(&self, hash: &[u8], judge: &mut Judge) -> usize {
        let due = self.blocks.iter().find(|block| judge.hashes.digest(block) == *hash).map_or(0, Vec::len);
        pick(&mut judge.random, &[0, due.saturating_sub(1), due, due, due + 1, due + 60, 300])
    }

    /// The next call of this store.
    pub fn call(&self, store: &Store, judge: &mut Judge) -> Call {
        let which = judge.random.below(10);
        // Some by one who has stored the block, so that places are given back.
        let counted = if judge.random.below(2) == 0 { Habit::counted(store, &mut judge.random) } else { None };
        if which < self.stores {
            let anyone = |random: &mut Random| (self.user(random), self.block(random));
            let (user, block) =
                counted.filter(|_| judge.random.below(2) == 0).unwrap_or_else(|| anyone(&mut judge.random));
            Call::Store { user, block }
        } else if which < self.stores + self.unreferences {
            let counted = counted.map(|(user, block)| (user, judge.hashes.digest(&block).to_vec()));
            let (user, hash) = counted.unwrap_or_else(|| (self.user(&mut judge.random), self.hash(judge)));
            Call::Unreference { user, hash }
        } else {
            let hash = self.hash(judge);
            let room = self.room(&hash, judge);
            Call::Retrieve { hash, room }
        }
    }
}
