//! sundr_large_block_check answers a short file as sundr_block_check does: an inode of kind 6, formed well or not, and the
//! one of kind 11 with the same length and hashes and 32 zeros behind them, each under its own hash, and no indirect block.

use crate::ffi::{sundr_block_check, Answer};
use crate::files::{File, Request};
use crate::inode::flip;
use crate::large::{indices, Judge};
use crate::reference::inode::{block_check, FILE_BLOCK, HASHES, INODE};
use crate::reference::large::{Checked, LARGEST};
use crate::reference::sha256::digest;
use crate::runner::{equal, Outcome, Runner};
use std::collections::BTreeMap;

/// How often each answer was due: 0 if accepted.
type Seen = BTreeMap<(u8, u32), usize>;

/// One block under both inodes; the request has that of kind 11, from which the other is made.
fn judge(mut request: Request, judge: &mut Judge, seen: &mut Seen) -> Outcome {
    request.indirect.clear();
    request.inode[0] = 6;
    request.inode.truncate(INODE);
    let short = request.inode.clone();
    let handle = digest(&short);
    let Request { index, block, .. } = &request;
    let (at, len) = (short.as_ptr(), short.len());
    let answer = unsafe { sundr_block_check(handle.as_ptr(), 32, at, len, *index, block.as_ptr(), block.len()) };
    let due: Checked = block_check(&handle, &short, *index, block);
    equal("the answer under kind 6", Answer::from(answer), Answer::from(due))?;
    *seen.entry(due.map_or_else(|refusal| (refusal.0, refusal.1), |_| (0, 0))).or_default() += 1;

    request.inode[0] = 11;
    request.inode.extend([0; 32]);
    request.name_inode(&mut judge.hashes);
    judge.judge_as(due, &request).map_err(|e| format!("otherwise than under kind 6: {e}"))
}

/// Files of every boundary, at each index by one; each byte of their inodes changed; any length of the file.
fn every_boundary() -> Outcome {
    let mut all = Judge::new(517);
    let mut seen = Seen::new();
    for file in File::all(&mut all.random) {
        for index in indices(file.blocks()) {
            judge(file.request(index), &mut all, &mut seen)?;
            let mut other = file.request(index);
            flip(&mut other.block, &mut all.random);
            judge(other, &mut all, &mut seen)?;
        }
    }
    // With a last block of a few bytes, for the time's sake.
    for len in [0, 1, 100, 8_193, 24_577, 122_881, 131_073] {
        let file = File::of(len, &mut all.random);
        for at in 1..INODE {
            let mut request = file.last();
            request.inode[at] ^= 1 << all.random.below(8);
            judge(request, &mut all, &mut seen)?;
        }
        for _ in 0..500 {
            let mut request = file.last();
            let other =
                [0, 1, 131_071, 131_072, 131_073, LARGEST, LARGEST + 1, u32::MAX as usize, all.random.below(LARGEST)];
            request.set_length(other[all.random.below(9)] as u32);
            request.index = [0, 1, 15, 16, 17, 143][all.random.below(6)];
            request.block.resize([0, 1, 100, FILE_BLOCK][all.random.below(4)], 0);
            judge(request, &mut all, &mut seen)?;
        }
    }
    Ok(())
}

/// Files of up to sixteen blocks by chance, with up to three faults under fitting hashes.
fn random_files() -> Outcome {
    let mut all = Judge::new(6);
    let mut seen = Seen::new();
    let lengths = [(); 30].map(|()| FILE_BLOCK * all.random.below(HASHES) + all.random.below(200));
    let files = lengths.map(|len| File::of(len, &mut all.random));
    for _ in 0..15_000 {
        let file = &files[all.random.below(files.len())];
        let mut request = file.last();
        if all.random.below(6) == 0 {
            request.index = all.random.below(20) as u32;
        }
        for _ in 0..all.random.below(4) {
            request.forge(&mut all.random, &mut all.hashes);
        }
        judge(request, &mut all, &mut seen)?;
    }
    let answers = [(0, 0), (3, 0), (10, 0), (2, 1), (8, 1)];
    if answers.iter().all(|answer| seen.get(answer).is_some_and(|&count| count >= 500)) {
        Ok(())
    } else {
        Err(format!("too few: {seen:?}"))
    }
}

pub fn checks(runner: &mut Runner) {
    runner.check("large: short files by every boundary are answered as under kind 6", every_boundary);
    runner.check("large: 15,000 short files, forged, are answered as under kind 6", random_files);
}
