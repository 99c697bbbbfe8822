//! sundr_table_write against the second implementation.

use crate::ffi::{sundr_table_write, Answer};
use crate::guarded::Guarded;
use crate::random::Random;
use crate::reference::itable::{write, BLOCK, MOST_FILES};
use crate::reference::Refusal;
use crate::runner::{equal, hex, Outcome, Runner};
use std::collections::BTreeSet;
use std::ptr::{null, null_mut};

/// Ways to number files.
pub const NUMBERINGS: usize = 6;

/// Ascending i-numbers: from 0 on, up to 2^64 - 1, across 2^63, multiples of 256, spread over all,
/// or any with both ends among them (of one number, the lower).
pub fn numbers(numbering: usize, count: usize, random: &mut Random) -> Vec<u64> {
    let count = count as u64;
    match numbering {
        0 => (0..count).collect(),
        1 => (0..count).rev().map(|i| u64::MAX - i).collect(),
        2 => (0..count).map(|i| (1 << 63) - count / 2 + i).collect(),
        3 => (0..count).map(|i| i << 8).collect(),
        4 => (0..count).map(|i| i << 52 | random.next() >> 12).collect(),
        _ => {
            let mut numbers = BTreeSet::from([0, u64::MAX]);
            while numbers.len() < count as usize {
                let shift = random.below(64);
                numbers.insert(random.next() >> shift);
            }
            numbers.into_iter().take(count as usize).collect()
        }
    }
}

/// A handle of 32 bytes for each file, all zero now and then.
pub fn handles(count: usize, random: &mut Random) -> Vec<u8> {
    (0..count).flat_map(|_| if random.below(20) == 0 { vec![0; 32] } else { random.bytes(32) }).collect()
}

/// How often each answer was due.
#[derive(Default)]
struct Seen {
    accepted: usize,
    refused: [usize; 13],
}

impl Seen {
    fn at_least(&self, times: usize) -> Outcome {
        let counts = [self.accepted, self.refused[2], self.refused[11], self.refused[12]];
        if counts.iter().all(|&count| count >= times) {
            Ok(())
        } else {
            Err(format!("accepted, refused with 2, 11, 12 this often: {counts:?}"))
        }
    }
}

/// One call, judged: the answer, the blocks, and every byte that is not to change. Gives the
/// blocks that the library wrote, if it accepted.
fn judge(
    numbers: &[u64],
    handles: &[u8],
    out_len: usize,
    seen: &mut Seen,
    random: &mut Random,
) -> Result<Option<Vec<u8>>, String> {
    let lent_numbers = Guarded::numbers(numbers, random);
    let lent_handles = Guarded::new(handles, random);
    let mut out = Guarded::new(&random.bytes(out_len), random);
    let before = out.content().to_vec();
    let answer = unsafe {
        sundr_table_write(
            lent_numbers.pointer().cast(),
            numbers.len(),
            lent_handles.pointer(),
            lent_handles.len(),
            out.pointer_mut(),
            out.len(),
        )
    };
    let due = write(numbers, handles, out_len);
    match &due {
        Ok(_) => seen.accepted += 1,
        Err(refusal) => seen.refused[usize::from(refusal.0)] += 1,
    }

    let judged = || {
        lent_numbers.unaltered().map_err(|e| format!("numbers: {e}"))?;
        lent_handles.unaltered().map_err(|e| format!("handles: {e}"))?;
        let results = due.as_ref().map(|blocks| ((blocks.len() / BLOCK) as u32, 0)).map_err(|refusal| *refusal);
        equal("the answer", Answer::from(answer), Answer::from(results))?;
        match &due {
            Err(_) => {
                out.unaltered().map_err(|e| format!("out, refused: {e}"))?;
                Ok(None)
            }
            Ok(blocks) => {
                out.kept_guards().map_err(|e| format!("out: {e}"))?;
                let (written, after) = out.content().split_at(blocks.len());
                for (i, (got, due)) in written.chunks(BLOCK).zip(blocks.chunks(BLOCK)).enumerate() {
                    if got != due {
                        equal(&format!("block {i}"), hex(got), hex(due))?;
                    }
                }
                if *after != before[blocks.len()..] {
                    return Err("out was written after the last block".to_string());
                }
                Ok(Some(written.to_vec()))
            }
        }
    };
    judged().map_err(|e: String| {
        let few = &numbers[..numbers.len().min(40)];
        format!("{e}; {} numbers {few:x?}, handles of {} bytes, out of {out_len}", numbers.len(), handles.len())
    })
}

/// The blocks that the library writes for this table, judged.
pub fn written(numbers: &[u64], handles: &[u8], random: &mut Random) -> Result<Vec<u8>, String> {
    let room = BLOCK * blocks_due(numbers.len()) + random.below(3);
    let blocks = judge(numbers, handles, room, &mut Seen::default(), random)?;
    blocks.ok_or("a table that is due a refusal".to_string())
}

/// The number of blocks, added up from 01's sentence.
fn blocks_due(files: usize) -> usize {
    let leaves = files.div_ceil(16).max(1);
    let above = if leaves > 1 { leaves.div_ceil(16) } else { 0 };
    leaves + above + usize::from(above > 1)
}

/// Every size to 300 and by the limit, in each numbering: buffers that fit, are longer, and are a byte short.
fn every_size() -> Outcome {
    let mut random = Random::new(4_096);
    let mut seen = Seen::default();
    for count in (0..=300).chain([511, 512, 513, 2_047, 4_079]).chain(4_080..=MOST_FILES) {
        for numbering in 0..NUMBERINGS {
            let numbers = numbers(numbering, count, &mut random);
            let handles = handles(count, &mut random);
            let exact = BLOCK * blocks_due(count);
            let longer = exact + 1 + random.below(2 * BLOCK);
            for out_len in [exact, exact - 1, longer] {
                let blocks = judge(&numbers, &handles, out_len, &mut seen, &mut random)?;
                equal("the room for the blocks", blocks.is_some(), out_len >= exact)?;
            }
        }
    }
    Ok(())
}

/// Numbers that do not ascend at a place and do before it: equal, lower, swapped, or ascending as signed numbers only.
fn not_ascending(place: usize, count: usize, fault: usize, random: &mut Random) -> Vec<u64> {
    let mut numbers = numbers(random.below(NUMBERINGS), count, random);
    match fault {
        0 => numbers[place] = numbers[place - 1],
        1 => numbers[place] = numbers[place - 1].saturating_sub(1 + random.next() % 300),
        2 => numbers.swap(place, place - 1),
        // The first `place` of them are 2^63 and above.
        _ => {
            let first = (1u64 << 63) - (count - place) as u64;
            numbers = (0..count as u64).map(|i| first + i).collect();
            numbers.sort_by_key(|&number| number as i64);
        }
    }
    numbers
}

/// A fault of order at every place of small tables and of one of three levels, and at some places of the largest;
/// then a second fault, with which the first of them is told.
fn every_fault_of_order() -> Outcome {
    let mut random = Random::new(11);
    let mut seen = Seen::default();
    for count in (2..=40).chain([257, MOST_FILES]) {
        let places: Vec<usize> =
            if count > 257 { (0..300).map(|_| 1 + random.below(count - 1)).collect() } else { (1..count).collect() };
        for place in places {
            for fault in 0..4 {
                let mut numbers = not_ascending(place, count, fault, &mut random);
                let handles = handles(count, &mut random);
                let out_len = if random.below(2) == 0 { random.below(BLOCK) } else { BLOCK * blocks_due(count) };
                judge(&numbers, &handles, out_len, &mut seen, &mut random)?;
                let refusal = write(&numbers, &handles, out_len).err();
                equal("the second implementation's refusal", refusal, Some(Refusal(11, place as u32, 0)))?;
                let other = random.below(count);
                numbers[other] = numbers[random.below(count)];
                judge(&numbers, &handles, out_len, &mut seen, &mut random)?;
            }
        }
    }
    Ok(())
}

/// Handles that are not 32 bytes for each number, and more than 4,096 numbers, whatever else is wrong.
fn other_lengths() -> Outcome {
    let mut random = Random::new(2);
    let mut seen = Seen::default();
    for count in [0, 1, 2, 15, 16, 17, 255, 256, 257, 258, 4_095, MOST_FILES] {
        let numbers = numbers(random.below(NUMBERINGS), count, &mut random);
        let exact = 32 * count;
        for len in (exact.saturating_sub(34)..=exact + 34).chain([2 * exact, 8 * count, 31 * count, exact + 256]) {
            let out_len = [BLOCK * blocks_due(count), 0][random.below(2)];
            judge(&numbers, &random.bytes(len), out_len, &mut seen, &mut random)?;
        }
    }
    for count in [MOST_FILES + 1, MOST_FILES + 2, 4_112, 5_000, 8_192, 65_536, 65_537] {
        for len in [32 * count, 32 * MOST_FILES, 0] {
            for sorted in [true, false] {
                let mut numbers = numbers(0, count, &mut random);
                if !sorted {
                    numbers.swap(3, 5);
                }
                for out_len in [0, 642 * 273, 642 * 274, 642 * blocks_due(count)] {
                    judge(&numbers, &random.bytes(len), out_len, &mut seen, &mut random)?;
                }
            }
        }
    }
    Ok(())
}

/// Tables of any size, mostly small, with faults of every kind together.
fn random_tables() -> Outcome {
    let mut random = Random::new(20_000);
    let mut seen = Seen::default();
    for _ in 0..20_000 {
        let most = [8, 40, 40, 300][random.below(4)];
        let count = random.below(most);
        let mut numbers = numbers(random.below(NUMBERINGS), count, &mut random);
        let mut handles = handles(count, &mut random);
        let mut out_len = BLOCK * blocks_due(count) + random.below(700);
        if count > 1 && random.below(3) == 0 {
            numbers.swap(random.below(count), random.below(count));
        }
        if random.below(6) == 0 {
            handles.resize(random.below(32 * count + 64), 0);
        }
        if random.below(3) == 0 {
            out_len = random.below(BLOCK * blocks_due(count));
        }
        judge(&numbers, &handles, out_len, &mut seen, &mut random)?;
    }
    seen.at_least(1_000)
}

/// No numbers, no handles and no room, each at NULL.
fn nothing_at_null() -> Outcome {
    let mut out = Guarded::new(&[7; BLOCK], &mut Random::new(0));
    let room = |out: *mut u8, len| Answer::from(unsafe { sundr_table_write(null(), 0, null(), 0, out, len) });
    equal("without room", room(null_mut(), 0), Answer::Refused(12, 0, 0))?;
    equal("with room", room(out.pointer_mut(), BLOCK), Answer::Accepted(1, 0))?;
    out.kept_guards()?;
    let mut leaf = [0; BLOCK];
    leaf[0] = 3;
    equal("the empty leaf", hex(out.content()), hex(&leaf))
}

pub fn checks(runner: &mut Runner) {
    runner
        .check("table: every size 0 to 300 and by 4,096, six numberings; room exact, longer, a byte short", every_size);
    runner.check(
        "table: numbers that do not ascend, at every place of 2 to 40 and 257, at 300 of 4,096",
        every_fault_of_order,
    );
    runner.check("table: handles of other lengths, and over 4,096 files", other_lengths);
    runner.check("table: 20,000 random tables, with faults together", random_tables);
    runner.check("table: nothing at NULL", nothing_at_null);
}
