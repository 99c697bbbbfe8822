//! Faults of a check of a large file's block: by chance, and those whose refusal is known, every set of them.

use crate::files::{File, Request};
use crate::inode::flip;
use crate::large::Judge;
use crate::random::Random;
use crate::reference::inode::FILE_BLOCK;
use crate::reference::large::{DIRECT, INDIRECT, LARGEST, LARGE_INODE};
use crate::reference::sha256::Remembered;
use crate::reference::Refusal;
use crate::runner::{Outcome, Runner};

/// Kinds of what is stored, and any.
fn some_kind(random: &mut Random) -> u8 {
    [0, 3, 6, 7, 10, 11, 12, 13, random.next() as u8][random.below(9)]
}

fn some_file_length(random: &mut Random) -> u32 {
    match random.below(5) {
        0 => LARGEST as u32 + random.below(3) as u32,
        1 => (random.below(150) * FILE_BLOCK + random.below(3)) as u32,
        2 => u32::MAX - random.below(2) as u32 * random.below(8_200) as u32,
        3 => random.next() as u32,
        _ => random.below(LARGEST) as u32,
    }
}

impl Request {
    fn file_length(&self) -> u32 {
        u32::from_be_bytes(self.inode[1..5].try_into().unwrap())
    }

    /// How many hashes of the inode and of the indirect block are used.
    fn used(&self) -> (usize, usize) {
        let blocks = (self.file_length() as usize).div_ceil(FILE_BLOCK);
        (blocks.min(DIRECT), blocks.saturating_sub(DIRECT))
    }

    /// A fault of inode, indirect block or block by chance, which the hashes then fit.
    pub fn forge(&mut self, random: &mut Random, hashes: &mut Remembered) {
        let (direct, through_it) = self.used();
        let len = self.file_length();
        match random.below(16) {
            0 => self.inode[0] = some_kind(random),
            1 => self.set_length(some_file_length(random)),
            2 => self.set_length(len.wrapping_add(2 * random.below(2) as u32).wrapping_sub(1)),
            3 => self.set_length(len.swap_bytes()),
            4 => flip(&mut self.inode[5 + 32 * direct..LARGE_INODE - 32], random),
            5 => flip(&mut self.inode, random),
            6 => self.block_name().unwrap_or(&mut []).fill(0),
            7 | 8 => *self.indirect.first_mut().unwrap_or(&mut 0) = some_kind(random),
            9 | 10 => flip(self.indirect.get_mut(1 + 32 * through_it..).unwrap_or(&mut []), random),
            11 => flip(&mut self.indirect, random),
            12 => self.indirect.resize([0, 1, INDIRECT - 1, INDIRECT + 1][random.below(4)], 0),
            13 => {
                // The indirect block's hash alone.
                let name = &mut self.inode[LARGE_INODE - 32..];
                if random.below(2) == 0 {
                    name.fill(0);
                } else {
                    flip(name, random);
                }
                return self.name_inode(hashes);
            }
            _ => {
                self.damage_block(random);
                return self.name_block(hashes);
            }
        }
        self.name_indirect(hashes);
    }

    fn damage_block(&mut self, random: &mut Random) {
        let len = self.block.len();
        match random.below(7) {
            0 => self.block.resize(FILE_BLOCK, 0),
            1 => self.block.truncate(len.saturating_sub(1)),
            2 => self.block.push(0),
            3 => self.block.clear(),
            4 => self.block.resize(random.below(300), 7),
            _ => flip(&mut self.block, random),
        }
    }

    /// A change by chance after the hashes were taken.
    pub fn damage(&mut self, random: &mut Random) {
        match random.below(12) {
            0 => flip(&mut self.handle, random),
            1 => flip(&mut self.inode, random),
            2 | 3 => flip(&mut self.indirect, random),
            4 => self.handle.resize([0, 31, 33, 64][random.below(4)], 0),
            5 => self.inode.resize([0, 517, 548, 550, 1_098][random.below(5)], 0),
            6 => self.indirect.resize([0, 1, INDIRECT - 1, INDIRECT, INDIRECT + 1][random.below(5)], 0),
            7 => self.index = self.index.wrapping_add([1, u32::MAX, 16, 128, 1 << 16, 1 << 31][random.below(6)]),
            8 => self.index = [16, 143, 144, 1 << 16, u32::MAX, random.next() as u32][random.below(6)],
            9 => self.index = random.below(DIRECT) as u32,
            _ => self.damage_block(random),
        }
    }
}

/// The refusals, in their order, by which the faults below go.
pub const REFUSALS: [Refusal; 9] = [
    Refusal(2, 0, 0),
    Refusal(8, 0, 0),
    Refusal(3, 0, 0),
    Refusal(10, 0, 0),
    Refusal(2, 2, 0),
    Refusal(8, 2, 0),
    Refusal(3, 2, 0),
    Refusal(2, 1, 0),
    Refusal(8, 1, 0),
];

/// Makes a check that had no fault one that each of these refusals would be due of, if none of those before it were; the
/// indirect block's 8 and 3 only where one is due. The file has so many blocks.
fn with_faults(request: &mut Request, blocks: usize, faults: [bool; 9], random: &mut Random, hashes: &mut Remembered) {
    let through_it = blocks.saturating_sub(DIRECT);
    let direct = (request.index as usize) < DIRECT;
    // First what the hashes are to fit: the indirect block before the inode that names it.
    if faults[6] && !direct {
        match random.below(3) {
            0 => request.indirect[0] = [6, 10, 11, 13][random.below(4)],
            1 if through_it < 128 => flip(&mut request.indirect[1 + 32 * through_it..], random),
            _ => request.indirect[0] ^= 1 << random.below(8),
        }
        request.name_indirect(hashes);
    }
    if faults[2] {
        match random.below(4) {
            0 => request.inode[0] = [6, 10, 12, 1][random.below(4)],
            1 => request.set_length([LARGEST as u32 + 1, u32::MAX, 1 << 31][random.below(3)]),
            2 if blocks > DIRECT => request.inode[LARGE_INODE - 32..].fill(0),
            2 if blocks < DIRECT => flip(&mut request.inode[5 + 32 * blocks..LARGE_INODE - 32], random),
            _ if blocks > DIRECT => request.inode[0] ^= 1 << random.below(8),
            _ => flip(&mut request.inode[LARGE_INODE - 32..], random),
        }
        request.name_inode(hashes);
    }
    if faults[8] {
        match request.block.len() {
            0 => request.block.push(0),
            len => request.block[random.below(len)] ^= 1 << random.below(8),
        }
    }
    if faults[7] {
        let len = request.block.len();
        request.block.resize([len.saturating_sub(1), len + 1, len + FILE_BLOCK][random.below(3)], 0);
    }
    if faults[5] && !direct {
        flip(&mut request.indirect, random);
    }
    if faults[4] {
        let others =
            if direct { [1, INDIRECT - 1, INDIRECT, INDIRECT + 1] } else { [0, 1, INDIRECT - 1, INDIRECT + 1] };
        request.indirect.resize(others[random.below(4)], 0);
    }
    if faults[3] {
        let above = [0, 1, 16, 128, 1 << 16][random.below(5)];
        request.index = if random.below(4) == 0 { u32::MAX } else { (blocks + above) as u32 };
    }
    if faults[1] {
        flip(&mut request.handle, random);
    }
    if faults[0] {
        let which = if random.below(2) == 0 { &mut request.handle } else { &mut request.inode };
        let len = which.len();
        which.resize([0, len - 1, len + 1, 517][random.below(4)], 0);
    }
}

/// Every set of faults, one for each refusal, of direct reads and others: the first of them, in the order, is told.
fn every_set_of_faults() -> Outcome {
    let mut judge = Judge::new(512);
    for file in File::all(&mut judge.random).iter().filter(|file| file.blocks() > 0) {
        let last = file.blocks() - 1;
        for index in [last, last.min(DIRECT - 1)] {
            for set in 0..512 {
                let has: [bool; 9] = std::array::from_fn(|fault| set & (1 << fault) != 0);
                if index < DIRECT && (has[5] || has[6]) {
                    continue;
                }
                let mut request = file.request(index);
                let due = has.iter().position(|&fault| fault);
                let due = due.map_or(request.accepted(), |first| Err(REFUSALS[first]));
                with_faults(&mut request, file.blocks(), has, &mut judge.random, &mut judge.hashes);
                judge.judge_as(due, &request)?;
            }
        }
    }
    Ok(())
}

pub fn checks(runner: &mut Runner) {
    runner.check("large: every set of faults, of which the first is told", every_set_of_faults);
}
