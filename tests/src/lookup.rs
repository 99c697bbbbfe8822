//! sundr_lookup against the second implementation, and against the tables themselves.

use crate::ffi::{sundr_lookup, Answer};
use crate::guarded::Guarded;
use crate::itable::NUMBERINGS;
use crate::paths::{some_number, Path, Request};
use crate::random::Random;
use crate::reference::itable::{lookup, lookup_before, Found, BLOCK, LEAF, MOST_FILES};
use crate::reference::Refusal;
use crate::runner::{equal, hex, Outcome, Runner};
use crate::tables::{refusal_of, wrong_paths, Table, CHANGES};
use std::collections::BTreeSet;

/// How often each answer was due, by the blocks of the path and the position.
#[derive(Default)]
pub struct Seen {
    found: [usize; 4],
    found_zero: usize,
    absent: [usize; 4],
    /// A root that is not a leaf, below whose first number nothing is.
    absent_at_root: usize,
    /// By number and first position.
    refused: [[usize; 4]; 10],
    too_short: [usize; 4],
    /// Refused since 02's request c and not before, by first position.
    pub over_a_bound: [usize; 4],
}

impl Seen {
    fn count(&mut self, due: &Found, before: &Found, request: &Request) {
        let blocks = request.path.len() / BLOCK;
        match due {
            Ok(Some(handle)) => {
                self.found[blocks] += 1;
                self.found_zero += usize::from(*handle == [0; 32]);
            }
            Ok(None) if blocks == 1 && request.path[0] != LEAF => self.absent_at_root += 1,
            Ok(None) => self.absent[blocks] += 1,
            Err(Refusal(number, first, _)) => {
                self.refused[usize::from(*number)][*first as usize] += 1;
                self.too_short[*first as usize] += usize::from(*number == 9 && *first as usize == blocks);
                self.over_a_bound[*first as usize] += usize::from(before != due);
            }
        }
    }

    /// An error unless each answer was due this often.
    fn at_least(&self, times: usize) -> Outcome {
        let mut counts = vec![("zero handle found", self.found_zero), ("absent at the root", self.absent_at_root)];
        for blocks in 1..=3 {
            counts.push(("found", self.found[blocks]));
            counts.push(("absent", self.absent[blocks]));
            counts.push(("8", self.refused[8][blocks - 1]));
            counts.push(("3", self.refused[3][blocks - 1]));
        }
        for consulted in 1..=2 {
            counts.push(("9, too short", self.too_short[consulted]));
            counts.push(("9, too long", self.refused[9][consulted] - self.too_short[consulted]));
            counts.push(("3, over a bound", self.over_a_bound[consulted]));
        }
        counts.push(("2", self.refused[2][0]));
        if counts.iter().all(|count| count.1 >= times) {
            Ok(())
        } else {
            Err(format!("answers this often: {counts:?}"))
        }
    }
}

/// One call, judged: the answer, the handle, and every byte that is not to change; the second implementation's answer,
/// against the one before 02's request c. Gives the second implementation's answer.
fn call(request: &Request, seen: &mut Seen, random: &mut Random) -> Result<Found, String> {
    let Request { handle, number, path, out_len } = request;
    let lent_handle = Guarded::new(handle, random);
    let lent_path = Guarded::new(path, random);
    let mut out = Guarded::new(&random.bytes(*out_len), random);
    let answer = unsafe {
        sundr_lookup(
            lent_handle.pointer(),
            lent_handle.len(),
            *number,
            lent_path.pointer(),
            lent_path.len(),
            out.pointer_mut(),
            out.len(),
        )
    };
    let due = lookup(handle, *number, path, *out_len);
    let before = lookup_before(handle, *number, path, *out_len);
    seen.count(&due, &before, request);

    let judged = || {
        lent_handle.unaltered().map_err(|e| format!("handle: {e}"))?;
        lent_path.unaltered().map_err(|e| format!("path: {e}"))?;
        if !matches!(due, Err(Refusal(3, 1 | 2, 0))) {
            equal("the answer before 02's request c", before, due)?;
        }
        let results = due.map(|found| (u32::from(found.is_some()), 0));
        equal("the answer", Answer::from(answer), Answer::from(results))?;
        if let Ok(Some(found)) = due {
            out.kept_guards().map_err(|e| format!("out: {e}"))?;
            return equal("the handle", hex(out.content()), hex(&found));
        }
        out.unaltered().map_err(|e| format!("out, nothing found: {e}"))
    };
    judged().map_err(|e: String| {
        let blocks: Vec<String> = path.chunks(BLOCK).map(hex).collect();
        format!("{e}; number {number:x} in {blocks:?}, handle {}, out of {out_len} bytes", hex(handle))
    })?;
    Ok(due)
}

fn judge(request: &Request, seen: &mut Seen, random: &mut Random) -> Outcome {
    call(request, seen, random).map(drop)
}

/// The same where it is known what is due, of both implementations.
pub fn judge_as(due: Found, request: &Request, seen: &mut Seen, random: &mut Random) -> Outcome {
    equal("the second implementation's answer", call(request, seen, random)?, due)
}

/// Blocks that the library wrote answer as the table does: for each file, both numbers beside it, and numbers at
/// the ends and in the middle.
fn written_tables() -> Outcome {
    let mut random = Random::new(273);
    let mut seen = Seen::default();
    let mut files = 0;
    for count in [0, 1, 2, 15, 16, 17, 31, 32, 33, 255, 256, 257, 258, 513, 4_095, MOST_FILES] {
        for numbering in 0..NUMBERINGS {
            let table = Table::any(numbering, count, &mut random)?;
            let mut asked = BTreeSet::from([0, 1, 1 << 63, u64::MAX - 1, u64::MAX]);
            for &file in &table.files {
                asked.extend([file.saturating_sub(1), file, file.saturating_add(1)]);
            }
            for number in asked {
                let request = table.request(number, &table.path(number));
                judge_as(Ok(table.says(number)), &request, &mut seen, &mut random)?;
            }
            files += table.files.len();
        }
    }
    let absent = seen.absent.iter().sum::<usize>() + seen.absent_at_root;
    equal(
        "files, files found, and numbers that are none",
        [files, seen.found.iter().sum(), absent],
        [59_262, 59_262, 58_742],
    )
}

/// Written blocks at wrong places: every path differs from the right one, and is refused for that.
fn wrong_blocks() -> Outcome {
    let mut random = Random::new(8);
    let mut seen = Seen::default();
    let mut made = [0; 5];
    for count in [1, 16, 17, 256, 257, 1_000, MOST_FILES] {
        let table = Table::any(random.below(NUMBERINGS), count, &mut random)?;
        // The same files with other handles: no block is a block of the first.
        let other = Table::of(table.files.clone(), table.handles.iter().map(|byte| !byte).collect(), &mut random)?;
        let mut asked = vec![table.files[0], table.files[count - 1]];
        asked.extend((0..4).map(|_| table.files[random.below(count)]));
        asked.extend((0..4).map(|_| some_number(&mut random)));
        for number in asked {
            let right = table.path(number);
            for (change, paths) in wrong_paths(number, &table, &other).iter().enumerate() {
                for path in paths {
                    if *path == right {
                        return Err(format!("{} left the path as it was", CHANGES[change]));
                    }
                    let request = table.request(number, path);
                    judge_as(Err(refusal_of(path, &right)), &request, &mut seen, &mut random)?;
                    made[change] += 1;
                }
            }
        }
    }
    equal("paths by change", made, [10_380, 132, 84, 132, 14_342])
}

/// Paths made by hand, with faults under fitting hashes, and with damages.
fn random_paths() -> Outcome {
    let mut random = Random::new(300_000);
    let mut seen = Seen::default();
    for _ in 0..300_000 {
        let mut path = Path::any(&mut random);
        for _ in 0..random.below(6).saturating_sub(3) {
            path.forge(&mut random);
        }
        let mut request = path.sealed();
        for _ in 0..random.below(5).saturating_sub(2) {
            request.damage(&mut random);
        }
        judge(&request, &mut seen, &mut random)?;
    }
    seen.at_least(2_000)
}

/// Each byte of each block changed in one bit, before and after its hash was taken. After it, the hash shows it.
fn every_byte() -> Outcome {
    let mut random = Random::new(642);
    let mut seen = Seen::default();
    for levels in 1..=3 {
        let path = loop {
            let path = Path::leading(levels, some_number(&mut random), &mut random);
            if path.blocks.iter().all(|block| (4..12).contains(&block.0[1])) {
                break path;
            }
        };
        for depth in 0..levels {
            for at in 0..BLOCK {
                let change = 1 << random.below(8);
                let mut forged = path.clone();
                forged.blocks[depth].0[at] ^= change;
                judge(&forged.sealed(), &mut seen, &mut random)?;
                let mut damaged = path.clone().sealed();
                damaged.path[BLOCK * depth + at] ^= change;
                judge_as(Err(Refusal(8, depth as u32, 0)), &damaged, &mut seen, &mut random)?;
            }
        }
    }
    Ok(())
}

/// Each kind, each number of used slots, and no used slots in a block of each kind, at each place, under fitting hashes.
fn every_kind_and_use() -> Outcome {
    let mut random = Random::new(256);
    let mut seen = Seen::default();
    for levels in 1..=3 {
        for depth in 0..levels {
            for byte in 0..=255 {
                let path = Path::leading(levels, u64::MAX - 500, &mut random);
                let mut judged = |alter: &dyn Fn(&mut [u8; BLOCK])| {
                    let mut altered = path.clone();
                    alter(&mut altered.blocks[depth].0);
                    judge(&altered.sealed(), &mut seen, &mut random)
                };
                judged(&|block| block[0] = byte)?;
                judged(&|block| block[1] = byte)?;
                judged(&|block| {
                    block.fill(0);
                    block[0] = byte;
                })?;
            }
        }
    }
    Ok(())
}

/// Each length of each argument, around the right ones, alone and with another fault.
fn every_length() -> Outcome {
    let mut random = Random::new(32);
    let mut seen = Seen::default();
    let good = Path::leading(3, 77, &mut random).sealed();
    let lengths = (0..=4 * BLOCK + 3).chain([5 * BLOCK, 65_536, 256 * BLOCK, 65_537 * BLOCK]);
    for len in lengths {
        for which in 0..3 {
            let mut request = good.clone();
            match which {
                0 => request.path.resize(len, 0),
                1 if len < 400 => request.handle.resize(len, 0),
                2 if len < 400 => request.out_len = len,
                _ => continue,
            }
            judge(&request, &mut seen, &mut random)?;
            request.damage(&mut random);
            judge(&request, &mut seen, &mut random)?;
        }
    }
    Ok(())
}

pub fn checks(runner: &mut Runner) {
    runner.check(
        "lookup: tables of 16 sizes from 0 to 4,096 files as written, every file and both numbers beside it",
        written_tables,
    );
    runner.check("lookup: 25,070 paths with written blocks at wrong places, none of them the right path", wrong_blocks);
    runner.check("lookup: 300,000 paths made by hand, forged under fitting hashes, damaged", random_paths);
    runner.check("lookup: every byte of every block changed, before and after hashing", every_byte);
    runner.check("lookup: every kind and every number of used slots, at every place", every_kind_and_use);
    runner.check("lookup: every length of a path to 2,571, of a handle and a result to 399", every_length);
}
