//! The calls of a block store where it is known what is due: each place with each user, byte of its counts, and length.

use crate::foreign::UNFIT;
use crate::lists::pick;
use crate::reference::sha256::digest;
use crate::reference::store::{Place, Store, PLACES, ROOM, USERS};
use crate::reference::Refusal;
use crate::runner::{equal, Outcome, Runner};
use crate::stores::{Call, Due, Judge, Pair};

pub const NO_PLACE: Due = Err(Refusal(13, 0, 0));
pub const LAST_REFERENCE: Due = Err(Refusal(14, 0, 0));
pub const NOT_HELD: Due = Err(Refusal(15, 0, 0));

pub fn unfit(place: usize) -> Due {
    Err(Refusal(3, place as u32, 0))
}

pub fn stores(user: u8, block: &[u8]) -> Call {
    Call::Store { user, block: block.to_vec() }
}

pub fn retrieves(block: &[u8]) -> Call {
    Call::Retrieve { hash: digest(block).to_vec(), room: ROOM }
}

pub fn unreferences(user: u8, block: &[u8]) -> Call {
    Call::Unreference { user, hash: digest(block).to_vec() }
}

/// A place of this block, which one user counts so often; behind it are bytes that belong to no block.
pub fn place(block: &[u8], user: usize, count: u16) -> Place {
    let mut bytes = vec![0x5a; ROOM];
    bytes[..block.len()].copy_from_slice(block);
    let mut counts = [0; USERS];
    counts[user] = count;
    Place { length: block.len() as u16, counts, bytes }
}

/// The block that place p of a full store holds.
pub fn own(p: usize) -> Vec<u8> {
    vec![p as u8, 0, 1]
}

/// Every place is held, by one reference of one user.
fn full(judge: &mut Judge) -> Pair {
    let places = (0..PLACES).map(|p| place(&own(p), p % USERS, 1)).collect();
    Pair::of(Store { places }.write(), &mut judge.random)
}

/// Each place is the lowest free one, and the one that holds a block, for each user.
fn every_place_and_user() -> Outcome {
    let mut judge = Judge::new(1_024);
    let mut pair = full(&mut judge);
    for p in 0..PLACES {
        for user in 0..USERS as u8 {
            let other = (user + 1 + judge.random.below(15) as u8) % 16;
            let len = pick(&mut judge.random, &[0, 1, 5, 55, 64]);
            let block = judge.random.bytes(len);
            pair.put(p, place(&own(p), 0, 0));
            pair.judge_as(NOT_HELD, &retrieves(&own(p)), &mut judge)?;
            pair.judge_as(Ok(0), &stores(user, &block), &mut judge)?;
            equal("the user's count", pair.reference.places[p].counts[usize::from(user)], 1)?;
            pair.judge_as(Ok(block.len() as u32), &retrieves(&block), &mut judge)?;
            pair.judge_as(Ok(0), &unreferences(other, &block), &mut judge)?;
            pair.judge_as(Ok(0), &stores(other, &block), &mut judge)?;
            pair.judge_as(NO_PLACE, &stores(user, b"neither held nor free"), &mut judge)?;
            pair.judge_as(Ok(1), &unreferences(user, &block), &mut judge)?;
            pair.judge_as(Ok(0), &unreferences(user, &block), &mut judge)?;
            pair.judge_as(Ok(1), &unreferences(other, &block), &mut judge)?;
            pair.judge_as(NOT_HELD, &unreferences(other, &block), &mut judge)?;
        }
        pair.put(p, place(&own(p), p % USERS, 1));
    }
    Ok(())
}

/// Each byte of each place's counts: where it alone is not zero, the place is held, and is that user's.
fn every_byte_of_the_counts() -> Outcome {
    let mut judge = Judge::new(2_048);
    let mut pair = full(&mut judge);
    for p in 0..PLACES {
        for at in 0..2 * USERS {
            let user = at / 2;
            let count = u16::from(1 + judge.random.below(255) as u8) << (8 * (1 - at % 2));
            pair.put(p, place(&own(p), user, count));
            pair.judge_as(NO_PLACE, &stores(user as u8, b"no place is free"), &mut judge)?;
            pair.judge_as(Ok(3), &retrieves(&own(p)), &mut judge)?;
            pair.judge_as(Ok(0), &unreferences((user as u8 + 1) % 16, &own(p)), &mut judge)?;
            pair.judge_as(Ok(1), &unreferences(user as u8, &own(p)), &mut judge)?;
            equal("the count", pair.reference.places[p].counts[user], count - 1)?;
        }
        pair.put(p, place(&own(p), p % USERS, 1));
    }
    Ok(())
}

/// Each place with a wrong length, free and held, alone and with one more above it; and the greatest that is right.
fn every_wrong_length() -> Outcome {
    let mut judge = Judge::new(8_193);
    for held in [0, 1] {
        let mut pair = full(&mut judge);
        for p in 0..PLACES {
            for length in UNFIT {
                let mut wrong = place(&own(p), 3, held);
                wrong.length = length;
                pair.put(p, wrong.clone());
                let above = p + 1 + judge.random.below(PLACES);
                if above < PLACES {
                    pair.put(above, Place { counts: [1 - held; USERS], ..wrong });
                }
                let block = own(judge.random.below(PLACES));
                for call in [stores(3, &block), retrieves(&block), unreferences(3, &block)] {
                    pair.judge_as(unfit(p), &call, &mut judge)?;
                }
                if above < PLACES {
                    pair.put(above, place(&own(above), above % USERS, 1));
                }
            }
            let whole = judge.random.bytes(ROOM);
            pair.put(p, place(&whole, 3, 1));
            pair.judge_as(Ok(ROOM as u32), &retrieves(&whole), &mut judge)?;
            pair.put(p, place(&own(p), p % USERS, 1));
        }
    }
    Ok(())
}

/// The same block in two places, with each count of user 4 in each: the lower one is meant, and the higher one left alone.
fn every_two_counts() -> Outcome {
    let mut judge = Judge::new(2);
    let counts = [0, 1, 2, 255, 256, 65_534, 65_535];
    for (low, high) in counts.iter().flat_map(|&low| counts.map(|high| (low, high))) {
        for (p, q) in [(0, 1), (0, 63), (7, 9), (62, 63)] {
            for call in [stores(4, b"abc"), unreferences(4, b"abc"), retrieves(b"abc")] {
                let mut pair = full(&mut judge);
                // User 5's references keep both held.
                for (at, count) in [(p, low), (q, high)] {
                    let mut held = place(b"abc", 5, 9);
                    held.counts[4] = count;
                    pair.put(at, held);
                }
                let due = match call {
                    Call::Store { .. } if low == 65_535 => LAST_REFERENCE,
                    Call::Store { .. } => Ok(0),
                    Call::Retrieve { .. } => Ok(3),
                    Call::Unreference { .. } => Ok(u32::from(low > 0)),
                };
                pair.judge_as(due, &call, &mut judge)?;
                equal("the higher place's count", pair.reference.places[q].counts[4], high)?;
            }
        }
    }
    Ok(())
}

/// A block is stored, retrieved, shared and given back, by every two users; then its place is taken again.
fn round_trips() -> Outcome {
    let mut judge = Judge::new(240);
    let mut pair = Pair::made(&mut judge)?;
    for (one, other) in (0..16).flat_map(|one| (0..16).map(move |other| (one, other))).filter(|(u, w)| u != w) {
        let len = pick(&mut judge.random, &[0, 1, 33, 200, ROOM]);
        let block = judge.random.bytes(len);
        pair.judge_as(Ok(0), &stores(one, &block), &mut judge)?;
        pair.judge_as(Ok(block.len() as u32), &retrieves(&block), &mut judge)?;
        pair.judge_as(Ok(0), &stores(other, &block), &mut judge)?;
        equal("the references, all in place 0", pair.reference.places[0].counts.iter().sum::<u16>(), 2)?;
        pair.judge_as(Ok(1), &unreferences(one, &block), &mut judge)?;
        pair.judge_as(Ok(block.len() as u32), &retrieves(&block), &mut judge)?;
        pair.judge_as(Ok(1), &unreferences(other, &block), &mut judge)?;
        equal("that place 0 is free", pair.reference.places[0].is_free(), true)?;
        pair.judge_as(NOT_HELD, &retrieves(&block), &mut judge)?;
    }
    Ok(())
}

pub fn checks(runner: &mut Runner) {
    runner.check("places: each free and held, for each user", every_place_and_user);
    runner.check("places: each byte of the counts of each by itself", every_byte_of_the_counts);
    runner.check("places: each of a wrong length, free and held, alone and not", every_wrong_length);
    runner.check("places: a block in two, every two counts of a user", every_two_counts);
    runner.check("places: stored, shared and given back, by every two users", round_trips);
}
