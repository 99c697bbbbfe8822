//! The calls of a block store where it is known what is due: each bit and length of an argument, and every set of faults.

use crate::ffi::{sundr_store, sundr_unreference, Answer};
use crate::foreign::UNFIT;
use crate::lists::pick;
use crate::places::{own, place, retrieves, stores, unfit, unreferences, LAST_REFERENCE, NOT_HELD, NO_PLACE};
use crate::reference::sha256::digest;
use crate::reference::store::{Place, Store, PLACE, PLACES, ROOM, STORE};
use crate::reference::Refusal;
use crate::runner::{equal, Outcome, Runner};
use crate::stores::{Call, Due, Judge, Pair};

const NO_USER: Due = Err(Refusal(1, 0, 0));
const WRONG_LENGTH: Due = Err(Refusal(2, 0, 0));
const NO_ROOM: Due = Err(Refusal(12, 0, 0));

/// Each bit of a hash counts.
fn every_bit_of_the_hash() -> Outcome {
    let mut judge = Judge::new(256);
    let mut pair = Pair::made(&mut judge)?;
    pair.judge_as(Ok(0), &stores(1, b"abc"), &mut judge)?;
    for bit in 0..256 {
        let mut hash = digest(b"abc").to_vec();
        hash[bit / 8] ^= 1 << (bit % 8);
        pair.judge_as(NOT_HELD, &Call::Retrieve { hash: hash.clone(), room: ROOM }, &mut judge)?;
        pair.judge_as(NOT_HELD, &Call::Unreference { user: 1, hash }, &mut judge)?;
    }
    Ok(())
}

/// Each length of a hash to 70; lengths of a block about 8,192 and 65,536; each user; all else being right.
fn every_argument() -> Outcome {
    let mut judge = Judge::new(32);
    let mut pair = Pair::made(&mut judge)?;
    pair.judge_as(Ok(0), &stores(1, b"abc"), &mut judge)?;
    for len in (0..=70).chain([255, 256, 288, 512, 65_568]) {
        let mut hash = digest(b"abc").to_vec();
        hash.resize(len, 0);
        let due = |accepted: u32| if len == 32 { Ok(accepted) } else { WRONG_LENGTH };
        pair.judge_as(due(3), &Call::Retrieve { hash: hash.clone(), room: 3 }, &mut judge)?;
        pair.judge_as(due(1), &Call::Unreference { user: 1, hash }, &mut judge)?;
        pair.judge_as(Ok(0), &stores(1, b"abc"), &mut judge)?;
    }
    for len in [8_190, 8_191, 8_192, 8_193, 8_194, 16_384, 65_535, 65_536, 65_537, 65_539, 73_728, 131_072] {
        let block = vec![3; len];
        let due = |accepted: u32| if len <= ROOM { Ok(accepted) } else { WRONG_LENGTH };
        pair.judge_as(due(0), &stores(2, &block), &mut judge)?;
        if len <= ROOM {
            pair.judge_as(due(len as u32), &retrieves(&block), &mut judge)?;
        }
    }
    for user in 0..=255 {
        let due = |accepted: u32| if user < 16 { Ok(accepted) } else { NO_USER };
        pair.judge_as(due(0), &stores(user, b"each user"), &mut judge)?;
        pair.judge_as(due(1), &unreferences(user, b"each user"), &mut judge)?;
    }
    Ok(())
}

/// Blocks of every length to 300, and of the longest: stored, retrieved and given back.
fn every_length_of_a_block() -> Outcome {
    let mut judge = Judge::new(300);
    let mut pair = Pair::made(&mut judge)?;
    for len in (0..=300).chain(ROOM - 100..=ROOM) {
        let block = judge.random.bytes(len);
        pair.judge_as(Ok(0), &stores(0, &block), &mut judge)?;
        let hash = digest(&block).to_vec();
        pair.judge_as(Ok(len as u32), &Call::Retrieve { hash, room: len }, &mut judge)?;
        pair.judge_as(Ok(1), &unreferences(0, &block), &mut judge)?;
    }
    Ok(())
}

/// Every room to 140 for blocks of no bytes, one and a hundred; about 8,192 for the longest; and more.
fn every_room() -> Outcome {
    let mut judge = Judge::new(140);
    let mut pair = Pair::made(&mut judge)?;
    for len in [0, 1, 100, ROOM] {
        let block = judge.random.bytes(len);
        pair.judge_as(Ok(0), &stores(9, &block), &mut judge)?;
        for room in (0..=140).chain(ROOM - 70..=ROOM + 70).chain([65_535, 65_536, 65_636, 100_000]) {
            let due = if room < len { NO_ROOM } else { Ok(len as u32) };
            pair.judge_as(due, &Call::Retrieve { hash: digest(&block).to_vec(), room }, &mut judge)?;
        }
    }
    Ok(())
}

/// Stores of other lengths, to each call: cut off, or with bytes behind them.
fn other_lengths() -> Outcome {
    let mut judge = Judge::new(526_465);
    let whole = Store { places: (0..PLACES).map(|p| place(&own(p), 3, 1)).collect() }.write();
    for len in [0, 1, 2, 33, PLACE, STORE - PLACE, STORE - 2, STORE - 1, STORE + 1, STORE + PLACE, 2 * STORE] {
        for byte in [0, 255] {
            let mut bytes = whole.clone();
            bytes.resize(len, byte);
            let mut pair = Pair::of(bytes, &mut judge.random);
            pair.make()?;
            for p in [0, 62, 63] {
                for call in [stores(3, &own(p)), retrieves(&own(p)), unreferences(3, &own(p))] {
                    pair.judge_as(WRONG_LENGTH, &call, &mut judge)?;
                }
                for call in [stores(16, &own(p)), unreferences(255, &own(p))] {
                    pair.judge_as(NO_USER, &call, &mut judge)?;
                }
            }
        }
    }
    // Any bytes can be made a store.
    for byte in [0, 1, 255] {
        Pair::of(vec![byte; STORE], &mut judge.random).make()?;
    }
    Ok(())
}

/// Every set of faults, one for each refusal that a call has: the first in the order is told.
fn every_set_of_faults() -> Outcome {
    let mut judge = Judge::new(31);
    for (set, wrong, place_free) in (0..64).flat_map(|set| [(set, 0, true), (set, 40, false), (set, 63, true)]) {
        let fault = |bit: usize| set >> bit & 1 == 1;
        let first = |steps: &[(bool, Due)], accepted: u32| {
            steps.iter().find(|(fails, _)| *fails).map_or(Ok(accepted), |(_, due)| *due)
        };
        // Every place is held by user 3, whose count of one is the last; or place 61 is free.
        let mut places: Vec<Place> = (0..PLACES).map(|p| place(&own(p), 3, 1)).collect();
        places[5] = place(&own(5), 3, 65_535);
        places[61].counts[3] = u16::from(fault(5));
        if fault(2) {
            places[wrong].length = pick(&mut judge.random, &UNFIT);
            places[wrong].counts[3] = u16::from(!place_free);
        }
        let mut bytes = Store { places }.write();
        bytes.truncate(if fault(1) { STORE - 1 } else { STORE });
        let mut pair = Pair::of(bytes, &mut judge.random);
        let user = if fault(0) { 16 } else { 3 };
        let early = [(fault(0), NO_USER), (fault(1), WRONG_LENGTH)];
        let late = (fault(2), unfit(wrong));

        // A block that is too long; the one whose count is the last; and one that is not held.
        let too_long = [&early[..], &[(true, WRONG_LENGTH)]].concat();
        pair.judge_as(first(&too_long, 0), &stores(user, &[0; ROOM + 1]), &mut judge)?;
        let last = [&early[..], &[late, (true, LAST_REFERENCE)]].concat();
        pair.judge_as(first(&last, 0), &stores(user, &own(5)), &mut judge)?;
        let full = [&early[..], &[late, (fault(5), NO_PLACE)]].concat();
        pair.judge_as(first(&full, 0), &stores(user, b"not held"), &mut judge)?;

        let mut hash = digest(&own(if fault(3) { 99 } else { 7 })).to_vec();
        hash.truncate(if fault(4) { 31 } else { 32 });
        let held = [(fault(4), WRONG_LENGTH), late, (fault(3), NOT_HELD)];
        let room = if fault(5) { 2 } else { 3 };
        let steps = [&early[1..], &held, &[(fault(5), NO_ROOM)]].concat();
        pair.judge_as(first(&steps, 3), &Call::Retrieve { hash: hash.clone(), room }, &mut judge)?;
        let steps = [&early[..], &held].concat();
        pair.judge_as(first(&steps, 1), &Call::Unreference { user, hash }, &mut judge)?;
    }
    Ok(())
}

/// The user is a byte of its register: a C caller leaves anything above it.
fn rest_of_the_users_register() -> Outcome {
    type Wide = unsafe extern "C" fn(*mut u8, usize, u64, *const u8, usize) -> u64;
    let store: Wide = unsafe { std::mem::transmute(sundr_store as *const ()) };
    let unreference: Wide = unsafe { std::mem::transmute(sundr_unreference as *const ()) };
    let mut judge = Judge::new(56);
    let mut bytes = vec![0; STORE];
    let hash = digest(b"abc");
    for user in 0..20 {
        for _ in 0..10 {
            let wide = judge.random.next() << 8 | user;
            let mut ask = |call: Wide, lent: &[u8]| {
                Answer::from(unsafe { call(bytes.as_mut_ptr(), STORE, wide, lent.as_ptr(), lent.len()) })
            };
            let due = |first: u32| if user < 16 { Answer::Accepted(first, 0) } else { Answer::Refused(1, 0, 0) };
            equal(&format!("the answer to a store by {wide:#x}"), ask(store, b"abc"), due(0))?;
            equal(&format!("the answer to an unreference by {wide:#x}"), ask(unreference, &hash), due(1))?;
        }
    }
    Ok(())
}

pub fn checks(runner: &mut Runner) {
    runner.check("arguments: each bit of a hash", every_bit_of_the_hash);
    runner.check("arguments: each length of a hash, blocks by 8,192 and 65,536, each user", every_argument);
    runner.check("arguments: every length of a block to 300, and to 8,192", every_length_of_a_block);
    runner.check("arguments: every room to 140, by 8,192 and above", every_room);
    runner.check("arguments: stores of 0 to 1,052,928 bytes", other_lengths);
    runner.check("arguments: every set of faults, of which the first in the order is told", every_set_of_faults);
    runner.check("arguments: anything in the rest of the user's register", rest_of_the_users_register);
}
