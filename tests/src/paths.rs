//! Paths of an i-table for the tests to lend: honest ones, ones forged so that their hashes fit,
//! and damaged ones.

use crate::random::Random;
use crate::reference::itable::{Slot, BLOCK, LEAF, SLOTS};
use crate::reference::sha256::digest;
use std::collections::BTreeSet;

/// What a lookup is given.
#[derive(Clone)]
pub struct Request {
    pub handle: Vec<u8>,
    pub number: u64,
    pub path: Vec<u8>,
    pub out_len: usize,
}

/// A block made by hand: any bytes may stand in it.
#[derive(Clone)]
pub struct Draft(pub [u8; BLOCK]);

impl Draft {
    pub fn new(kind: u8, numbers: &BTreeSet<u64>, random: &mut Random) -> Draft {
        let mut block = Draft([0; BLOCK]);
        block.0[0] = kind;
        block.0[1] = numbers.len() as u8;
        for (slot, &number) in numbers.iter().enumerate() {
            block.set_number(slot, number);
            let value = if random.below(10) == 0 { [0; 32] } else { random.bytes(32).try_into().unwrap() };
            block.set_value(slot, value);
        }
        block
    }

    pub fn used(&self) -> usize {
        usize::from(self.0[1]).min(SLOTS)
    }

    pub fn number(&self, slot: usize) -> u64 {
        u64::from_be_bytes(self.0[2 + 40 * slot..][..8].try_into().unwrap())
    }

    /// The used slots.
    pub fn slots(&self) -> Vec<Slot> {
        let value = |slot| self.0[10 + 40 * slot..][..32].try_into().unwrap();
        (0..self.used()).map(|slot| (self.number(slot), value(slot))).collect()
    }

    pub fn set_number(&mut self, slot: usize, number: u64) {
        self.0[2 + 40 * slot..][..8].copy_from_slice(&number.to_be_bytes());
    }

    pub fn set_value(&mut self, slot: usize, value: [u8; 32]) {
        self.0[10 + 40 * slot..][..32].copy_from_slice(&value);
    }

    /// The slot that leads on.
    fn led(&self, number: u64) -> Option<usize> {
        (0..self.used()).rev().find(|&slot| self.number(slot) <= number)
    }

    /// The number in the next used slot: a bound of all below the one that leads on.
    fn bound(&self, number: u64) -> Option<u64> {
        let next = self.led(number)? + 1;
        (next < self.used()).then(|| self.number(next))
    }

    /// One slot more with this number, or, where all are used, this number in the last.
    pub fn put(&mut self, number: u64) {
        let slot = self.used().min(SLOTS - 1);
        self.0[1] = slot as u8 + 1;
        self.set_number(slot, number);
    }

    fn swap(&mut self, a: usize, b: usize) {
        for i in 0..40 {
            self.0.swap(2 + 40 * a + i, 2 + 40 * b + i);
        }
    }

    /// One fault, or none that is one: zero values may stand in used slots.
    fn forge(&mut self, random: &mut Random) {
        let used = self.used();
        let slot = random.below(used.max(1));
        match random.below(15) {
            0 => self.0[0] = random.below(8) as u8,
            1 => self.0[0] = random.next() as u8,
            2 => self.0[1] = [used as u8 + 1, 0, 15, 16, 17, 18, 255][random.below(7)],
            3 => self.0[1] = used.saturating_sub(1) as u8,
            4 => self.0[1..].fill(0),
            5 => self.set_number(slot, self.number(slot.saturating_sub(1))),
            6 => self.swap(slot, random.below(used.max(1))),
            7 if used > 1 => self.set_number(used - 1, self.number(used - 2)),
            8 if used < SLOTS => self.0[2 + 40 * used + random.below(40 * (SLOTS - used))] |= 1 << random.below(8),
            9 if used < SLOTS => self.0[BLOCK - 1 - random.below(40)] = 1,
            10 => self.set_number(0, self.number(0).wrapping_add(random.next() % 5).wrapping_sub(2)),
            11 => (0..used).for_each(|slot| self.set_value(slot, [0; 32])),
            12 => (0..used).for_each(|slot| self.set_number(slot, self.number(slot).swap_bytes())),
            13 => {
                let mut numbers: Vec<u64> = (0..used).map(|slot| self.number(slot)).collect();
                numbers.sort_by_key(|&number| number as i64);
                numbers.iter().enumerate().for_each(|(slot, &number)| self.set_number(slot, number));
            }
            _ => self.0[random.below(BLOCK)] ^= 1 << random.below(8),
        }
    }
}

/// A number near an end, near 2^63, whole in its upper bytes, or any.
pub fn some_number(random: &mut Random) -> u64 {
    let near = random.next() % 40;
    match random.below(8) {
        0 => 0,
        1 => u64::MAX,
        2 => near,
        3 => u64::MAX - near,
        4 => (1 << 63) - 20 + near,
        5 => near << (8 * random.below(8)),
        _ => random.next(),
    }
}

/// Up to sixteen numbers near this number and others, from `first` on and below `bound` where there is one.
fn some_numbers(number: u64, first: Option<u64>, bound: Option<u64>, random: &mut Random) -> BTreeSet<u64> {
    let lowest = first.unwrap_or(0);
    let mut numbers: BTreeSet<u64> = first.into_iter().collect();
    for _ in 0..1 + random.below(24) {
        let near = random.next() % 40;
        numbers.insert(match random.below(6) {
            0 => number,
            1 => number.saturating_sub(near),
            2 => number.saturating_add(near),
            3 => lowest.saturating_add(near),
            4 => some_number(random),
            _ => random.next(),
        });
    }
    let within = |&n: &u64| n >= lowest && bound.is_none_or(|bound| n < bound);
    numbers.into_iter().filter(within).take(SLOTS).collect()
}

/// The blocks that a number leads along, root first.
#[derive(Clone)]
pub struct Path {
    pub number: u64,
    pub blocks: Vec<Draft>,
}

impl Path {
    /// A path that answers, once it is sealed.
    pub fn any(random: &mut Random) -> Path {
        let levels = [1, 2, 2, 3, 3, 3][random.below(6)];
        Path::of(levels, some_number(random), random)
    }

    /// A path of so many blocks, fewer if the root does not lead on; the number is in one of three not there.
    pub fn of(levels: usize, number: u64, random: &mut Random) -> Path {
        let absent = random.below(3) == 0;
        let mut blocks: Vec<Draft> = Vec::new();
        let mut first = None;
        let mut bound = None;
        for kind in (LEAF..LEAF + levels as u8).rev() {
            let mut numbers = some_numbers(number, first, bound, random);
            numbers.retain(|&n| n != number || !absent);
            let block = Draft::new(kind, &numbers, random);
            first = block.led(number).map(|slot| block.number(slot));
            // It is below the bound from above, as all numbers of the block are.
            bound = block.bound(number).or(bound);
            blocks.push(block);
            if first.is_none() {
                break;
            }
        }
        Path { number, blocks }
    }

    /// A path of just so many blocks.
    pub fn leading(levels: usize, number: u64, random: &mut Random) -> Path {
        loop {
            let path = Path::of(levels, number, random);
            if path.blocks.len() == levels {
                return path;
            }
        }
    }

    /// Faults that will stand under fitting hashes.
    pub fn forge(&mut self, random: &mut Random) {
        let depth = random.below(self.blocks.len());
        match random.below(30) {
            0 if self.blocks.len() == 3 => self.skip_the_middle(),
            1 => self.blocks.iter_mut().for_each(|block| block.0[0] = block.0[0].wrapping_add(1)),
            2 => self.blocks.iter_mut().for_each(|block| block.0[0] = block.0[0].wrapping_sub(1)),
            3 => self.blocks.last_mut().unwrap().0[1..].fill(0),
            4..=13 if self.blocks.len() > 1 => self.reach_a_bound(random),
            _ => self.blocks[depth].forge(random),
        }
    }

    /// A child gets the number in the next slot of a block above, or one beside it.
    fn reach_a_bound(&mut self, random: &mut Random) {
        let child = 1 + random.below(self.blocks.len() - 1);
        let bounds: Vec<u64> = self.blocks[..child].iter().filter_map(|block| block.bound(self.number)).collect();
        if !bounds.is_empty() {
            let bound = bounds[random.below(bounds.len())];
            self.blocks[child].put(bound.wrapping_add(random.next() % 3).wrapping_sub(1));
        }
    }

    /// A block of kind 5 over a leaf, which starts with the number that leads to it.
    fn skip_the_middle(&mut self) {
        if let Some(slot) = self.blocks[0].led(self.number) {
            let first = self.blocks[0].number(slot);
            self.blocks.remove(1);
            self.blocks[1].set_number(0, first);
        }
    }

    /// With each block's hash in its parent, and the root's as the handle.
    pub fn sealed(mut self) -> Request {
        for depth in (1..self.blocks.len()).rev() {
            if let Some(slot) = self.blocks[depth - 1].led(self.number) {
                let hash = digest(&self.blocks[depth].0);
                self.blocks[depth - 1].set_value(slot, hash);
            }
        }
        let handle = digest(&self.blocks[0].0).to_vec();
        let path = self.blocks.iter().flat_map(|block| block.0).collect();
        Request { handle, number: self.number, path, out_len: 32 }
    }
}

impl Request {
    /// Changes after the hashes were taken.
    pub fn damage(&mut self, random: &mut Random) {
        let blocks = self.path.len() / BLOCK;
        let some_length = [0, 1, 31, 33, 64, random.below(300)][random.below(6)];
        match random.below(14) {
            0 if blocks > 0 => {
                let at = random.below(self.path.len());
                self.path[at] ^= 1 << random.below(8);
            }
            1 if !self.handle.is_empty() => {
                let at = random.below(self.handle.len());
                self.handle[at] ^= 1 << random.below(8);
            }
            2 if blocks > 1 => {
                let at = BLOCK * random.below(blocks - 1);
                self.path[at..at + 2 * BLOCK].rotate_left(BLOCK);
            }
            3 if blocks > 1 => self.path.truncate((blocks - 1) * BLOCK),
            4 if blocks > 1 => drop(self.path.drain(..BLOCK)),
            5 => self.path.extend(random.bytes(BLOCK)),
            6 => self.path.extend([0; BLOCK]),
            7 if blocks > 0 => self.path.extend_from_within(..BLOCK),
            8 => self.number = some_number(random),
            9 => self.number = self.number.wrapping_add(random.next() % 7).wrapping_sub(3),
            10 if blocks > 0 => {
                let at = BLOCK * random.below(blocks);
                self.path[at..at + BLOCK].copy_from_slice(&random.bytes(BLOCK));
            }
            11 if random.below(2) == 0 => self.path.resize(random.below(5) * BLOCK + random.below(3), 0),
            12 if random.below(3) == 0 => self.handle.resize(some_length, 0),
            13 if random.below(3) == 0 => self.out_len = some_length,
            _ => {}
        }
    }
}
