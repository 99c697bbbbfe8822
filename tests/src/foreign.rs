//! The calls of a block store on bytes that no call made: one block in several places, copies in free places, counts and
//! lengths at every edge, and any bytes.

use crate::habits::{prefixes, Habit};
use crate::lists::pick;
use crate::random::Random;
use crate::reference::store::{Place, Store, PLACE, PLACES, ROOM, STORE, USERS};
use crate::reference::Refusal;
use crate::runner::{equal, Outcome, Runner};
use crate::stores::{Judge, Pair};
use crate::tally::FOREIGN;
use std::array;

/// Lengths that no place may have: just over 8,192, at the edges of the high byte, of a single bit, and the greatest.
pub const UNFIT: [u16; 8] = [8_193, 8_194, 8_447, 8_448, 16_384, 32_768, 65_280, 65_535];

/// Counts by each edge of a byte and of two.
const EDGES: [u16; 12] = [1, 1, 1, 2, 255, 256, 257, 512, 32_768, 65_280, 65_534, 65_535];

/// The counts of a place that is not free.
fn some_counts(random: &mut Random) -> [u16; USERS] {
    let mut counts = [0; USERS];
    match random.below(8) {
        0 => return [pick(random, &EDGES); USERS],
        1 => return array::from_fn(|_| pick(random, &EDGES)),
        2 => counts[pick(random, &[0, 15])] = pick(random, &EDGES),
        3 => {
            counts[random.below(USERS)] = 65_535;
            counts[random.below(USERS)] = pick(random, &EDGES);
        }
        _ => counts[random.below(USERS)] = pick(random, &EDGES),
    }
    counts
}

/// A place with one of the blocks, of which each begins the next: behind it are the bytes of the longest.
fn some_place(blocks: &[Vec<u8>], random: &mut Random) -> Place {
    let block = &blocks[random.below(blocks.len())];
    let mut bytes = vec![pick(random, &[0, 0, 0x5a, 0xff]); ROOM];
    for block in [blocks.last().unwrap_or(block), block] {
        bytes[..block.len()].copy_from_slice(block);
    }
    Place { length: block.len() as u16, counts: [0; USERS], bytes }
}

/// A store of which so many of eight places are free; one of five has a place of a wrong length, or two.
fn some_store(blocks: &[Vec<u8>], free: usize, random: &mut Random) -> Vec<u8> {
    let mut places: Vec<Place> = (0..PLACES).map(|_| some_place(blocks, random)).collect();
    for place in &mut places {
        if random.below(8) >= free {
            place.counts = some_counts(random);
        }
    }
    if random.below(5) == 0 {
        for _ in 0..=random.below(2) {
            places[random.below(PLACES)].length = pick(random, &UNFIT);
        }
    }
    Store { places }.write()
}

/// Stores by chance: few blocks, so that many places have the same one, held or not.
fn any_store() -> Outcome {
    let mut judge = Judge::new(4_000);
    for _ in 0..4_000 {
        let all = prefixes(&[0, 1, 3, 32, 40, 55], &mut judge.random);
        // Some blocks are in no place.
        let there = 1 + judge.random.below(all.len());
        let free = pick(&mut judge.random, &[0, 1, 4, 7, 8]);
        let mut pair = Pair::of(some_store(&all[..there], free, &mut judge.random), &mut judge.random);
        let habit = Habit { blocks: all, users: USERS, stores: 4, unreferences: 4 };
        for _ in 0..24 {
            let call = habit.call(&pair.reference, &mut judge);
            pair.judge(&call, &mut judge)?;
        }
    }
    equal("the number of calls", judge.calls, 96_000)?;
    judge.tally.at_least(100, &FOREIGN)
}

/// Any bytes, and all bytes 0, 1 or 255: 3 is due where a place of theirs has a wrong length, and nowhere else.
fn any_bytes() -> Outcome {
    let mut judge = Judge::new(526_464);
    for _ in 0..20 {
        let any = judge.random.bytes(STORE);
        for bytes in [any, vec![0; STORE], vec![1; STORE], vec![255; STORE]] {
            let length = |p: usize| 256 * u32::from(bytes[PLACE * p]) + u32::from(bytes[PLACE * p + 1]);
            let unfit = (0..PLACES).find(|&p| length(p) > 8_192).map(|p| Refusal(3, p as u32, 0));
            let mut pair = Pair::of(bytes, &mut judge.random);
            let blocks = vec![Vec::new(), b"abc".to_vec(), vec![1; 257]];
            let habit = Habit { blocks, users: USERS, stores: 4, unreferences: 4 };
            for _ in 0..20 {
                let call = habit.call(&pair.reference, &mut judge);
                match pair.judged(STORE, &call, &mut judge)? {
                    Err(Refusal(1 | 2, ..)) => (),
                    due => equal("3, if it is due", due.err().filter(|refusal| refusal.0 == 3), unfit)?,
                }
            }
        }
    }
    Ok(())
}

/// Any bytes with lengths that fit: every place is held, most of them with some hundred bytes and one with more.
fn any_blocks() -> Outcome {
    let mut judge = Judge::new(64);
    for longer in 0..PLACES {
        let mut bytes = judge.random.bytes(STORE);
        for p in 0..PLACES {
            bytes[PLACE * p] = if p == longer { judge.random.below(32) as u8 } else { 0 };
        }
        let mut pair = Pair::of(bytes, &mut judge.random);
        let blocks = [0, 1, longer, 63].map(|p| pair.reference.places[p].block().to_vec()).to_vec();
        let habit = Habit { blocks, users: USERS, stores: 4, unreferences: 4 };
        for _ in 0..20 {
            let call = habit.call(&pair.reference, &mut judge);
            pair.judge(&call, &mut judge)?;
        }
    }
    Ok(())
}

/// The places of any bytes, written, are these bytes.
fn written_as_read() -> Outcome {
    let mut random = Random::new(34);
    for _ in 0..20 {
        let bytes = random.bytes(STORE);
        equal("that they are the same", Store::read(&bytes).write() == bytes, true)?;
    }
    Ok(())
}

pub fn checks(runner: &mut Runner) {
    runner.check("foreign: 4,000 stores that no call made, 24 calls each; each kind of call 100 times", any_store);
    runner.check("foreign: any bytes as a store, all 0, all 1, all 255", any_bytes);
    runner.check("foreign: any bytes as blocks, in every place", any_blocks);
    runner.check("foreign: the second implementation writes any bytes as it read them", written_as_read);
}
