//! sundr_store, sundr_retrieve and sundr_unreference against the second implementation: long lists of calls on stores that
//! sundr_store_make made, each getting what the last one left.

use crate::habits::{prefixes, Habit};
use crate::lists::pick;
use crate::reference::sha256::digest;
use crate::reference::store::{Place, PLACE, PLACES, ROOM, STORE, USERS};
use crate::reference::Refusal;
use crate::runner::{equal, Outcome, Runner};
use crate::stores::{Call, Judge, Pair};
use crate::tally::{FULL, MADE};

/// A call of one of the stores; one of fifty is lent fewer bytes.
fn some_call(pairs: &mut [Pair], habit: &Habit, judge: &mut Judge) -> Outcome {
    let pair = &mut pairs[judge.random.below(pairs.len())];
    let call = habit.call(&pair.reference, judge);
    let len = match judge.random.below(50) {
        0 => pick(&mut judge.random, &[0, 1, PLACE, STORE - PLACE, STORE - 1]),
        _ => STORE,
    };
    pair.judged(len, &call, judge).map(|_| ())
}

/// Few blocks and many users, on three stores in turn: nothing is kept between calls.
fn few_blocks() -> Outcome {
    let mut judge = Judge::new(16);
    for list in 0..100 {
        let mut pairs = [Pair::made(&mut judge)?, Pair::made(&mut judge)?, Pair::made(&mut judge)?];
        let mut blocks = prefixes(&[0, 1, 2, 31, 32, 55, 56, 64], &mut judge.random);
        blocks.push(digest(&blocks[1]).to_vec());
        blocks.push(vec![0]);
        blocks.truncate(2 + list % 9);
        let users = pick(&mut judge.random, &[1, 2, 3, USERS, USERS]);
        for phase in 0..10 {
            let stores = [5, 3][phase % 2];
            let habit = Habit { blocks: blocks.clone(), users, stores, unreferences: 8 - stores };
            for _ in 0..80 {
                some_call(&mut pairs, &habit, &mut judge)?;
            }
        }
    }
    equal("the number of calls", judge.calls, 80_000)?;
    judge.tally.at_least(300, &MADE)
}

/// 64 places full, one freed and taken again, by twice as many blocks: many of them find no place.
fn full_stores() -> Outcome {
    let mut judge = Judge::new(64);
    for _ in 0..50 {
        let mut pairs = [Pair::made(&mut judge)?];
        let blocks: Vec<Vec<u8>> = (0..128)
            .map(|i| {
                let len = judge.random.below(50);
                [vec![i], judge.random.bytes(len)].concat()
            })
            .collect();
        for (p, block) in blocks[..PLACES].iter().enumerate() {
            let user = judge.random.below(USERS) as u8;
            pairs[0].judge_as(Ok(0), &Call::Store { user, block: block.clone() }, &mut judge)?;
            equal("the place that is taken", pairs[0].reference.places[p].block() == block, true)?;
        }
        let block = blocks[PLACES].clone();
        pairs[0].judge_as(Err(Refusal(13, 0, 0)), &Call::Store { user: 0, block }, &mut judge)?;
        let users = pick(&mut judge.random, &[1, 2, USERS]);
        for phase in 0..8 {
            let stores = [5, 6][phase % 2];
            let habit = Habit { blocks: blocks.clone(), users, stores, unreferences: 9 - stores };
            for _ in 0..100 {
                some_call(&mut pairs, &habit, &mut judge)?;
            }
        }
    }
    equal("the number of calls", judge.calls, 50 * (65 + 800))?;
    judge.tally.at_least(1_000, &FULL)
}

/// Blocks of no bytes to one more than are taken, each the beginning of the next.
fn long_blocks() -> Outcome {
    let mut judge = Judge::new(8_192);
    let mut held = [0; 7];
    for _ in 0..50 {
        let mut pairs = [Pair::made(&mut judge)?];
        let lengths = [0, 1, 255, 256, ROOM - 1, ROOM, ROOM + 1];
        let blocks = prefixes(&lengths, &mut judge.random);
        let habit = Habit { blocks, users: 3, stores: 5, unreferences: 3 };
        for _ in 0..200 {
            some_call(&mut pairs, &habit, &mut judge)?;
            for (times, &len) in held.iter_mut().zip(&lengths) {
                let holds = |place: &Place| !place.is_free() && place.block().len() == len;
                *times += usize::from(pairs[0].reference.places.iter().any(holds));
            }
        }
    }
    let often = held.map(|times| times > 1_000);
    equal("after how many calls each length was held", often, [true, true, true, true, true, true, false])
        .map_err(|e| format!("{e}: {held:?}"))
}

/// One user's count of one block from none to 65,535, and to none again; another user's stays.
fn every_count() -> Outcome {
    let mut judge = Judge::new(65_535);
    let mut pair = Pair::made(&mut judge)?;
    let block = b"abc".to_vec();
    let hash = digest(&block).to_vec();
    let store = |user: u8| Call::Store { user, block: block.clone() };
    let unreference = Call::Unreference { user: 7, hash: hash.clone() };
    pair.judge_as(Ok(0), &store(8), &mut judge)?;
    for count in 1..=65_535 {
        pair.judge_as(Ok(0), &store(7), &mut judge)?;
        equal("the count", pair.reference.places[0].counts[7], count)?;
    }
    pair.judge_as(Err(Refusal(14, 0, 0)), &store(7), &mut judge)?;
    pair.judge_as(Ok(0), &store(6), &mut judge)?;
    for count in (0..65_535).rev() {
        pair.judge_as(Ok(1), &unreference, &mut judge)?;
        equal("the count", pair.reference.places[0].counts[7], count)?;
    }
    pair.judge_as(Ok(0), &unreference, &mut judge)?;
    for user in [6, 8] {
        pair.judge_as(Ok(1), &Call::Unreference { user, hash: hash.clone() }, &mut judge)?;
    }
    pair.judge_as(Err(Refusal(15, 0, 0)), &unreference, &mut judge)
}

pub fn checks(runner: &mut Runner) {
    runner.check(
        "blockstore: 100 lists of 800 calls, few blocks, three stores in turn; each kind of call 300 times",
        few_blocks,
    );
    runner.check("blockstore: 50 lists of 865 calls, 64 places full, freed and taken again 1,000 times", full_stores);
    runner.check("blockstore: 50 lists of 200 calls, blocks of 0 to 8,193 bytes, each in the next", long_blocks);
    runner.check("blockstore: a count from none to 65,535 and to none again", every_count);
}
