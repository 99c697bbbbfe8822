//! sundr_large_block_check against the second implementation.

use crate::faults::REFUSALS;
use crate::ffi::{sundr_large_block_check, Answer};
use crate::files::{File, Request, LENGTHS};
use crate::guarded::Guarded;
use crate::random::Random;
use crate::reference::inode::FILE_BLOCK;
use crate::reference::large::{large_block_check, Checked, DIRECT, INDIRECT, LARGEST, LARGE_INODE, THROUGH_IT};
use crate::reference::sha256::Remembered;
use crate::reference::Refusal;
use crate::runner::{equal, hex, Outcome, Runner};
use std::collections::BTreeMap;
use std::ptr::null;

/// How often each answer was due.
#[derive(Default)]
struct Seen {
    calls: usize,
    /// Of blocks that the inode names, and of others.
    accepted: [usize; 2],
    refused: BTreeMap<(u8, u32), usize>,
}

impl Seen {
    fn add(&mut self, index: u32, due: Checked) {
        self.calls += 1;
        match due {
            Ok(_) => self.accepted[usize::from(index as usize >= DIRECT)] += 1,
            Err(Refusal(number, first, _)) => *self.refused.entry((number, first)).or_default() += 1,
        }
    }

    /// An error unless there were so many calls, and each answer was due so often.
    fn at_least(&self, calls: usize, times: usize) -> Outcome {
        let refused =
            REFUSALS.map(|Refusal(number, first, _)| self.refused.get(&(number, first)).copied().unwrap_or(0));
        if self.calls >= calls && refused.iter().chain(&self.accepted).all(|&count| count >= times) {
            Ok(())
        } else {
            Err(format!("{} calls, accepted {:?}, refused {:?}", self.calls, self.accepted, self.refused))
        }
    }
}

/// Makes calls and judges them.
pub struct Judge {
    pub random: Random,
    pub hashes: Remembered,
    seen: Seen,
}

impl Judge {
    pub fn new(seed: u64) -> Judge {
        Judge { random: Random::new(seed), hashes: Remembered::default(), seen: Seen::default() }
    }

    /// One call, judged: the answer, and every byte, none of which is to change. Gives what is due.
    fn judged(&mut self, request: &Request) -> Result<Checked, String> {
        // What was hashed long ago is forgotten: it would fill the memory.
        if self.seen.calls % 1_024 == 0 {
            self.hashes = Remembered::default();
        }
        let Request { handle, inode, index, indirect, block } = request;
        let lent = [handle, inode, indirect, block].map(|bytes| Guarded::new(bytes, &mut self.random));
        // Where there are no bytes, sometimes at NULL.
        let nowhere = self.random.below(2) == 0;
        let [h, i, n, b] = lent.each_ref().map(|buffer| {
            let pointer = if nowhere && buffer.len() == 0 { null() } else { buffer.pointer() };
            (pointer, buffer.len())
        });
        let answer = unsafe { sundr_large_block_check(h.0, h.1, i.0, i.1, *index, n.0, n.1, b.0, b.1) };
        let due = large_block_check(handle, inode, *index, indirect, block, &mut self.hashes);
        self.seen.add(*index, due);
        let judged = || {
            equal("the answer", Answer::from(answer), Answer::from(due))?;
            lent.iter().try_for_each(Guarded::unaltered)
        };
        judged().map_err(|e| {
            let lent = [handle, inode, indirect, block].map(|bytes| format!("{} {}", bytes.len(), hex(bytes)));
            format!("{e}; index {index}, handle, inode, indirect block, block {lent:?}")
        })?;
        Ok(due)
    }

    /// The same where only the second implementation knows what is due.
    fn judge(&mut self, request: &Request) -> Outcome {
        self.judged(request).map(|_| ())
    }

    /// The same where it is known what is due, of both implementations.
    pub fn judge_as(&mut self, due: Checked, request: &Request) -> Outcome {
        equal("the second implementation's answer", self.judged(request)?, due)
    }
}

/// Indices by every boundary of every length, and far above.
pub fn indices(blocks: usize) -> Vec<usize> {
    let mut indices: Vec<usize> = (0..3).chain(13..20).chain(126..131).chain(141..147).collect();
    indices.extend(blocks.saturating_sub(2)..blocks + 3);
    indices.extend([255, 256, 272, 65_535, 65_536, 65_552, 1 << 19, (1 << 19) + 16, 1 << 31, u32::MAX as usize]);
    indices.sort();
    indices.dedup();
    indices
}

/// Each file, at each index by a boundary: its block is accepted, with its offset and its length, if it has one, and else
/// the index is refused. The longest one at each index.
fn every_block() -> Outcome {
    let mut judge = Judge::new(144);
    for file in File::all(&mut judge.random) {
        let blocks = file.blocks();
        let longest = if file.content.len() == LARGEST { 0..150 } else { 0..0 };
        for index in indices(blocks).into_iter().chain(longest) {
            let due = if index < blocks {
                Ok(((FILE_BLOCK * index) as u32, file.block(index).len() as u32))
            } else {
                Err(Refusal(10, 0, 0))
            };
            judge.judge_as(due, &file.request(index))?;
        }
    }
    Ok(())
}

/// A bit of each byte of the inode and of the indirect block, after the hashes were taken and before.
fn every_byte() -> Outcome {
    let mut judge = Judge::new(4_097);
    for len in [0, 1, 122_881, 131_073, 1_171_457] {
        let file = File::of(len, &mut judge.random);
        let good = file.last();
        for at in 0..LARGE_INODE {
            let mut request = good.clone();
            request.inode[at] ^= 1 << judge.random.below(8);
            judge.judge_as(Err(Refusal(8, 0, 0)), &request)?;
            request.name_inode(&mut judge.hashes);
            judge.judge(&request)?;
        }
        for at in 0..good.indirect.len() {
            let mut request = good.clone();
            request.indirect[at] ^= 1 << judge.random.below(8);
            judge.judge_as(Err(Refusal(8, 2, 0)), &request)?;
            request.name_indirect(&mut judge.hashes);
            // Its kind, the hash of the block that is read, any other that is used, or a hash beyond the last block.
            let place = (at + 31) / 32;
            let read = file.blocks() - DIRECT;
            let due = match place {
                0 => Err(Refusal(3, 2, 0)),
                _ if place == read => Err(Refusal(8, 1, 0)),
                _ if place < read => good.accepted(),
                _ => Err(Refusal(3, 2, 0)),
            };
            judge.judge_as(due, &request)?;
        }
    }
    Ok(())
}

/// Each byte of the zero rest of the inode and of the indirect block of each file, under fitting hashes.
fn every_byte_of_the_rest() -> Outcome {
    let mut judge = Judge::new(32);
    let mut changed = [0; 2];
    for file in File::all(&mut judge.random) {
        let blocks = file.blocks();
        // The hash of an indirect block, too, is to be zero where sixteen blocks suffice.
        let inode_end = if blocks <= DIRECT { LARGE_INODE } else { LARGE_INODE - 32 };
        for at in 5 + 32 * blocks.min(DIRECT)..inode_end {
            let mut request = file.request(judge.random.below(blocks + 2));
            request.inode[at] = 1 << judge.random.below(8);
            request.name_inode(&mut judge.hashes);
            judge.judge_as(Err(Refusal(3, 0, 0)), &request)?;
            changed[0] += 1;
        }
        for at in 1 + 32 * blocks.saturating_sub(DIRECT)..file.indirect.len() {
            let mut request = file.request(DIRECT + judge.random.below(blocks - DIRECT));
            request.indirect[at] = 1 << judge.random.below(8);
            request.name_indirect(&mut judge.hashes);
            judge.judge_as(Err(Refusal(3, 2, 0)), &request)?;
            changed[1] += 1;
        }
    }
    // Of no blocks, one twice, two, and sixteen twice; of seventeen blocks twice, eighteen, and 143.
    equal("the bytes of both rests", changed, [32 * (17 + 2 * 16 + 15 + 2), 32 * (2 * 127 + 126 + 1)])
}

/// Each length to 600, by that of an indirect block and of a block, and above, of each argument, direct and not.
fn every_length() -> Outcome {
    let mut judge = Judge::new(549);
    for (len, index) in [(0, 0), (1, 0), (8_193, 1), (131_073, 16), (1_171_457, 143), (1_171_457, 15)] {
        let good = File::of(len, &mut judge.random).request(index);
        let most = if index == 15 { 40 } else { 600 };
        for other in (0..=most).chain(INDIRECT - 8..=INDIRECT + 8).chain([1_098, 8_191, 8_192, 8_193, 8_194, 65_537]) {
            for which in 0..4 {
                let mut request = good.clone();
                [&mut request.handle, &mut request.inode, &mut request.indirect, &mut request.block][which]
                    .resize(other, 0);
                judge.judge(&request)?;
            }
        }
    }
    Ok(())
}

/// Each kind of inode and indirect block, and lengths of the file that are not its own, under fitting hashes.
fn every_kind_and_file_length() -> Outcome {
    let mut judge = Judge::new(11);
    for file in File::all(&mut judge.random) {
        let good = file.last();
        for kind in 0..=255 {
            let mut request = good.clone();
            request.inode[0] = kind;
            request.name_inode(&mut judge.hashes);
            let due = judge.judged(&request)?;
            equal("whether 3 is due of the inode's kind", due == Err(Refusal(3, 0, 0)), kind != 11)?;
            if !file.indirect.is_empty() {
                let mut request = good.clone();
                request.indirect[0] = kind;
                request.name_indirect(&mut judge.hashes);
                let due = judge.judged(&request)?;
                equal("whether 3 is due of the indirect block's kind", due == Err(Refusal(3, 2, 0)), kind != 12)?;
            }
        }
        let len = file.content.len() as u32;
        let off_by_one = [len.wrapping_sub(1), len + 1];
        let above = [LARGEST as u32 + 1, u32::MAX, u32::MAX - 8_190, u32::MAX - 8_191, 1 << 31, 1 << 24];
        for other in LENGTHS.map(|len| len as u32).into_iter().chain(off_by_one).chain(above) {
            for index in [0, 15, 16, file.blocks().saturating_sub(1), file.blocks()] {
                let mut request = file.request(index);
                request.set_length(other);
                request.name_inode(&mut judge.hashes);
                let due = judge.judged(&request)?;
                if other as usize > LARGEST {
                    equal("what is due of the length", due, Err(Refusal(3, 0, 0)))?;
                }
            }
        }
    }
    Ok(())
}

/// Checks without a fault, with up to two faults under fitting hashes, and up to two damages.
fn random_checks() -> Outcome {
    let mut judge = Judge::new(100_000);
    let mut files = File::all(&mut judge.random);
    // Most have a last block of a few bytes, and half of these no indirect block, for the time's sake.
    for most in [DIRECT, DIRECT + THROUGH_IT].repeat(20) {
        let whole = judge.random.below(most);
        let few = 1 + judge.random.below(200);
        files.push(File::of(FILE_BLOCK * whole + few, &mut judge.random));
    }
    for _ in 0..100_000 {
        let file = &files[judge.random.below(files.len())];
        let mut request = match judge.random.below(8) {
            0 => file.request(judge.random.below(file.blocks() + 2)),
            1 => file.request(judge.random.below(20)),
            _ => file.last(),
        };
        for _ in 0..judge.random.below(6).saturating_sub(3) {
            request.forge(&mut judge.random, &mut judge.hashes);
        }
        for _ in 0..judge.random.below(5).saturating_sub(2) {
            request.damage(&mut judge.random);
        }
        judge.judge(&request)?;
    }
    judge.seen.at_least(100_000, 1_000)
}

/// The index is the lower half of its register: a C caller leaves anything in the upper one.
fn upper_half_of_the_index() -> Outcome {
    type Lent = *const u8;
    type Wide = unsafe extern "C" fn(Lent, usize, Lent, usize, u64, Lent, usize, Lent, usize) -> u64;
    let call: Wide = unsafe { std::mem::transmute(sundr_large_block_check as *const ()) };
    let mut random = Random::new(64);
    let file = File::of(20 * FILE_BLOCK + 100, &mut random);
    for index in 0..25 {
        let Request { handle, inode, index, indirect, block } = file.request(index);
        let wide = random.next() << 32 | u64::from(index);
        let ask = |index: u64| {
            let [h, i, n, b] = [&handle, &inode, &indirect, &block].map(|bytes| (bytes.as_ptr(), bytes.len()));
            Answer::from(unsafe { call(h.0, h.1, i.0, i.1, index, n.0, n.1, b.0, b.1) })
        };
        equal(&format!("the answer for index {wide:#x}"), ask(wide), ask(u64::from(index)))?;
        let is_accepted = matches!(ask(wide), Answer::Accepted(..));
        equal("whether it is accepted", is_accepted, (index as usize) < file.blocks())?;
    }
    Ok(())
}

pub fn checks(runner: &mut Runner) {
    runner.check("large: files of 0 to 1,179,648 bytes, indices by every boundary, to 2^32 - 1", every_block);
    runner
        .check("large: 100,000 checks, forged under fitting hashes, damaged; each refusal 1,000 times", random_checks);
    runner.check("large: every byte of an inode and of an indirect block changed", every_byte);
    runner.check("large: every byte of the zero rest of both, of every file", every_byte_of_the_rest);
    runner.check("large: every kind of both; lengths off by one, 1,179,649, 2^32 - 1", every_kind_and_file_length);
    runner.check("large: every length to 600, and by 4,097 and 8,192, of each argument", every_length);
    runner.check("large: anything in the upper half of the index's register", upper_half_of_the_index);
}
