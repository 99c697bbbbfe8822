//! sundr_large_block_check where it is known what is due: by the last direct block, by the last block, with and without
//! an indirect block.

use crate::files::{File, Request};
use crate::large::{indices, Judge};
use crate::reference::inode::FILE_BLOCK;
use crate::reference::large::{Checked, DIRECT, INDIRECT, LARGE_INODE};
use crate::reference::sha256::digest;
use crate::reference::Refusal;
use crate::runner::{Outcome, Runner};

const NO_BLOCK: Checked = Err(Refusal(10, 0, 0));
const INODE_LENGTH: Checked = Err(Refusal(2, 0, 0));
const INODE_MALFORMED: Checked = Err(Refusal(3, 0, 0));
const INDIRECT_LENGTH: Checked = Err(Refusal(2, 2, 0));
const INDIRECT_HASH: Checked = Err(Refusal(8, 2, 0));
const INDIRECT_MALFORMED: Checked = Err(Refusal(3, 2, 0));
const BLOCK_LENGTH: Checked = Err(Refusal(2, 1, 0));
const BLOCK_HASH: Checked = Err(Refusal(8, 1, 0));

/// Where the hash of this block is in the indirect block.
fn place(index: usize) -> usize {
    1 + 32 * (index - DIRECT)
}

/// Indirect blocks: none, one of another length, the file's own or any of kind 12, one of zeros.
fn indirect_blocks(file: &File) -> Vec<Vec<u8>> {
    let mut own = file.indirect.clone();
    own.resize(INDIRECT, 0);
    own[0] = 12;
    let lengths = [0, 1, INDIRECT - 1, INDIRECT, INDIRECT + 1];
    let mut all: Vec<Vec<u8>> = lengths.map(|len| own.iter().copied().cycle().take(len).collect()).into();
    all.push(vec![0; INDIRECT]);
    all
}

/// An index at or above the number of blocks is 10, before anything of the indirect block and of the block: also where an
/// indirect block is given for a short file, and where none is given, or a wrong one, for a long one.
fn beyond_the_last_block() -> Outcome {
    let mut judge = Judge::new(10);
    for file in File::all(&mut judge.random) {
        for index in indices(file.blocks()).into_iter().filter(|&index| index >= file.blocks()) {
            for indirect in indirect_blocks(&file) {
                let block = file.block(judge.random.below(file.blocks() + 1)).to_vec();
                judge.judge_as(NO_BLOCK, &Request { indirect, block, ..file.request(index) })?;
            }
        }
    }
    Ok(())
}

/// The block at this index of a file of this length has so many bytes, and no other number, also under its hash.
fn has_length(len: usize, index: usize, due: usize, judge: &mut Judge) -> Outcome {
    let good = File::of(len, &mut judge.random).request(index);
    judge.judge_as(Ok(((FILE_BLOCK * index) as u32, due as u32)), &good)?;
    for other in [0, 1, 2, len % FILE_BLOCK, due - 1, due + 1, 8_191, FILE_BLOCK, 8_193] {
        if other != due {
            let mut request = good.clone();
            request.block.resize(other, 0x5a);
            judge.judge_as(BLOCK_LENGTH, &request)?;
            request.name_block(&mut judge.hashes);
            judge.judge_as(BLOCK_LENGTH, &request)?;
        }
    }
    Ok(())
}

fn block_15_is_whole() -> Outcome {
    let mut judge = Judge::new(15);
    for len in [131_073, 139_264, 139_265, 1_171_457, 1_179_648] {
        has_length(len, 15, 8_192, &mut judge)?;
        has_length(len, 0, 8_192, &mut judge)?;
    }
    has_length(131_071, 15, 8_191, &mut judge)
}

fn block_16_is_one_byte() -> Outcome {
    let mut judge = Judge::new(16);
    has_length(131_073, 16, 1, &mut judge)?;
    has_length(139_264, 16, 8_192, &mut judge)?;
    has_length(139_265, 16, 8_192, &mut judge)?;
    has_length(139_265, 17, 1, &mut judge)?;
    has_length(1_171_457, 143, 1, &mut judge)?;
    has_length(1_179_647, 143, 8_191, &mut judge)
}

/// The indirect block's hash is zero in a file of sixteen blocks, as in shorter ones: any other is malformed, also that
/// of an indirect block of kind 12 without a hash.
fn sixteen_blocks_suffice() -> Outcome {
    let mut judge = Judge::new(131_072);
    let mut empty = vec![0; INDIRECT];
    empty[0] = 12;
    for len in [0, 1, 8_193, 131_071, 131_072] {
        let file = File::of(len, &mut judge.random);
        let last = file.last();
        judge.judge_as(if len == 0 { NO_BLOCK } else { last.accepted() }, &last)?;
        for bit in 0..256 {
            let mut request = last.clone();
            request.inode[LARGE_INODE - 32 + bit / 8] = 1 << (bit % 8);
            request.name_inode(&mut judge.hashes);
            judge.judge_as(INODE_MALFORMED, &request)?;
        }
        for (index, indirect) in [(15, &empty[..]), (15, &empty[..0]), (16, &empty[..]), (16, &empty[..0])] {
            let mut request = Request { indirect: indirect.to_vec(), ..file.request(index) };
            request.inode[LARGE_INODE - 32..].copy_from_slice(&digest(&empty));
            request.name_inode(&mut judge.hashes);
            judge.judge_as(INODE_MALFORMED, &request)?;
        }
    }
    Ok(())
}

/// The indirect block's hash is not zero in a file of more blocks: else the inode is malformed, for a direct read too.
fn seventeen_need_an_indirect_block() -> Outcome {
    let mut judge = Judge::new(131_073);
    for file in File::long(&mut judge.random) {
        for index in [0, 15, 16, file.blocks() - 1, file.blocks(), 144] {
            for indirect in indirect_blocks(&file) {
                let mut request = Request { indirect, ..file.request(index) };
                request.inode[LARGE_INODE - 32..].fill(0);
                request.name_inode(&mut judge.hashes);
                judge.judge_as(INODE_MALFORMED, &request)?;
                // One bit of it, and it is well formed, and the hash of no indirect block.
                request.inode[LARGE_INODE - 1] = 1;
                request.name_inode(&mut judge.hashes);
                let due = match index {
                    _ if index >= file.blocks() => NO_BLOCK,
                    _ if index < DIRECT && request.indirect.is_empty() => request.accepted(),
                    _ if index >= DIRECT && request.indirect.len() == INDIRECT => INDIRECT_HASH,
                    _ => INDIRECT_LENGTH,
                };
                judge.judge_as(due, &request)?;
            }
        }
    }
    Ok(())
}

/// Hashes of the indirect block that no block of the file has are to be zero, whichever block is read; those that one has
/// may be anything, but for the block that is read.
fn formed_for_the_file() -> Outcome {
    let mut judge = Judge::new(12);
    for file in File::long(&mut judge.random) {
        let blocks = file.blocks();
        for index in [16, 17, 18, blocks / 2, blocks - 2, blocks - 1] {
            let good = file.request(index);
            if index < DIRECT || index >= blocks {
                continue;
            }
            // By the one that is read, by the last, and by the place where hash 16 would be if it were counted from 0.
            for other in [index - 1, index, index + 1, blocks - 1, blocks, blocks + 1, blocks + 15, blocks + 16, 143] {
                if !(DIRECT..144).contains(&other) {
                    continue;
                }
                let mut request = good.clone();
                request.indirect[place(other) + judge.random.below(32)] ^= 1 << judge.random.below(8);
                request.name_indirect(&mut judge.hashes);
                let due = match other {
                    _ if other >= blocks => INDIRECT_MALFORMED,
                    _ if other == index => BLOCK_HASH,
                    _ => request.accepted(),
                };
                judge.judge_as(due, &request)?;
            }
        }
    }
    Ok(())
}

/// A direct read, in a long file too, is given no indirect block, not even the right one, and does not look at it: not at
/// one whose hash is another, nor at what is wrong with the one that the inode names.
fn direct_read() -> Outcome {
    let mut judge = Judge::new(2);
    for file in File::all(&mut judge.random) {
        for index in [0, 1, 14, 15].into_iter().filter(|&index| index < file.blocks()) {
            let good = file.request(index);
            for indirect in indirect_blocks(&file).into_iter().chain([file.indirect.clone()]) {
                let due = if indirect.is_empty() { good.accepted() } else { INDIRECT_LENGTH };
                judge.judge_as(due, &Request { indirect, ..good.clone() })?;
            }
            if !file.indirect.is_empty() {
                let mut request = good.clone();
                request.inode[LARGE_INODE - 32..].copy_from_slice(&digest(&[]));
                request.name_inode(&mut judge.hashes);
                judge.judge_as(good.accepted(), &request)?;
            }
        }
    }
    Ok(())
}

/// An indirect read is given one of 4,097 bytes, whatever the inode names.
fn indirect_read() -> Outcome {
    let mut judge = Judge::new(4_097);
    for file in File::long(&mut judge.random) {
        for index in [16, 17, file.blocks() - 1].into_iter().filter(|&index| index < file.blocks()) {
            let good = file.request(index);
            judge.judge_as(good.accepted(), &good)?;
            for len in [0, 1, 32, 517, LARGE_INODE, INDIRECT - 32, INDIRECT - 1, INDIRECT + 1, 2 * INDIRECT, 65_537] {
                let mut request = good.clone();
                request.indirect.resize(len, 0);
                judge.judge_as(INDIRECT_LENGTH, &request)?;
                request.inode[LARGE_INODE - 32..].copy_from_slice(&digest(&request.indirect));
                request.name_inode(&mut judge.hashes);
                judge.judge_as(INDIRECT_LENGTH, &request)?;
            }
            // Another file's, which is well formed.
            let other = File::of(file.content.len(), &mut judge.random).indirect;
            judge.judge_as(INDIRECT_HASH, &Request { indirect: other, ..good })?;
        }
    }
    Ok(())
}

/// A hash of zeros that is used names a block that nobody has: it is refused with 8, and no other block is.
fn a_used_hash_of_zeros() -> Outcome {
    let mut judge = Judge::new(8);
    for file in File::all(&mut judge.random) {
        let blocks = file.blocks();
        let near: Vec<usize> = indices(blocks).into_iter().filter(|&index| index < blocks).collect();
        for &zero in &near {
            for &index in &near {
                let mut request = file.request(index);
                match zero.checked_sub(DIRECT) {
                    None => request.inode[5 + 32 * zero..][..32].fill(0),
                    Some(_) if index < DIRECT => continue,
                    Some(_) => request.indirect[place(zero)..][..32].fill(0),
                }
                // Whole blocks take their time: those by the one of zeros, and the last.
                if zero.abs_diff(index) > 1 && index + 1 < blocks {
                    continue;
                }
                request.name_indirect(&mut judge.hashes);
                judge.judge_as(if index == zero { BLOCK_HASH } else { request.accepted() }, &request)?;
            }
        }
        // All of them.
        for index in near {
            let mut request = file.request(index);
            request.inode[5..LARGE_INODE - 32].fill(0);
            request.indirect.iter_mut().skip(1).for_each(|byte| *byte = 0);
            request.name_indirect(&mut judge.hashes);
            judge.judge_as(BLOCK_HASH, &request)?;
        }
    }
    Ok(())
}

/// An inode of kind 6 is not taken: in 517 bytes it is 2, in 549 it is 3; nor are kinds 10 and 12, and one of kind 11 in
/// 517 bytes. An indirect block is of kind 12 alone.
fn kinds() -> Outcome {
    let mut judge = Judge::new(6);
    for file in File::all(&mut judge.random) {
        for kind in [6, 10, 11, 12] {
            let good = if file.blocks() == 0 { NO_BLOCK } else { file.last().accepted() };
            for (len, due) in [(517, INODE_LENGTH), (549, if kind == 11 { good } else { INODE_MALFORMED })] {
                let mut request = file.last();
                request.inode[0] = kind;
                request.inode.truncate(len);
                request.name_inode(&mut judge.hashes);
                judge.judge_as(due, &request)?;
            }
            if !file.indirect.is_empty() {
                let mut request = file.last();
                request.indirect[0] = kind;
                request.name_indirect(&mut judge.hashes);
                judge.judge_as(if kind == 12 { good } else { INDIRECT_MALFORMED }, &request)?;
            }
        }
    }
    Ok(())
}

pub fn checks(runner: &mut Runner) {
    runner.check("large: beyond the last block it is 10, whatever the indirect block", beyond_the_last_block);
    runner.check("large: block 15 of a file of seventeen is whole", block_15_is_whole);
    runner.check("large: block 16 of 131,073 bytes is one byte", block_16_is_one_byte);
    runner.check("large: sixteen blocks have a zero indirect hash", sixteen_blocks_suffice);
    runner.check("large: seventeen blocks have none", seventeen_need_an_indirect_block);
    runner.check("large: the indirect block is formed for the file, whichever block is read", formed_for_the_file);
    runner.check("large: a direct read is given no indirect block, and looks at none", direct_read);
    runner.check("large: an indirect read is given 4,097 bytes", indirect_read);
    runner.check("large: a used hash of zeros", a_used_hash_of_zeros);
    runner.check("large: kind 6 in 549 bytes is 3, in 517 bytes 2; kinds 10, 11 and 12", kinds);
}
