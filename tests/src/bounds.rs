//! sundr_lookup at the bounds of 02's request c: trees under fitting hashes, in which one number reaches its bound or
//! stays just below it, so that it is known what is due.

use crate::ffi::{sundr_lookup, Answer};
use crate::lookup::{judge_as, Seen};
use crate::paths::{Draft, Path, Request};
use crate::random::Random;
use crate::reference::itable::{BLOCK, LEAF, SLOTS};
use crate::reference::Refusal;
use crate::runner::{equal, Outcome, Runner};
use std::cmp::Reverse;
use std::collections::{BTreeMap, BTreeSet};

/// How many blocks the path has; the block whose next used slot has the bound; the child that the number is put into.
/// Of a block between these two, the last used slot leads on.
type Place = (usize, usize, usize);
const LEAF_OF_TWO: Place = (2, 0, 1);
const MIDDLE: Place = (3, 0, 1);
const LEAF_BY_MIDDLE: Place = (3, 1, 2);
const LEAF_BY_ROOT: Place = (3, 0, 2);

/// What a tree is made of.
struct Tree {
    place: Place,
    /// None if last used slots lead on all the way.
    bound: Option<u64>,
    put: u64,
    /// Whether each block has sixteen used slots.
    full: bool,
    /// Whether there are used slots after the bound, and next ones above the block that has it.
    farther: bool,
}

impl Tree {
    fn any(place: Place, random: &mut Random) -> Tree {
        let bound = match random.below(4) {
            0 => None,
            1 => Some(u64::MAX - random.next() % 2),
            2 => Some((1 << 63) - 10 + random.next() % 20),
            _ => Some(random.next() | 1 << 20),
        };
        let put = match (bound, random.below(4)) {
            (None, _) => u64::MAX,
            (Some(bound), 0) => bound - 1,
            (Some(bound), 1) => bound,
            (Some(bound), 2) => bound.saturating_add(1),
            (Some(bound), _) => bound.saturating_add(random.next() >> random.below(64)),
        };
        Tree { place, bound, put, full: random.below(4) == 0, farther: random.below(2) == 0 }
    }

    /// Whether the child is faulty.
    fn over(&self) -> bool {
        self.bound.is_some_and(|bound| self.put >= bound)
    }

    /// The path of a number not far below the bound, which about half of the leaves hold.
    fn path(&self, random: &mut Random) -> Path {
        let (levels, above, child) = self.place;
        let highest = self.bound.map_or(u64::MAX, |bound| bound - 1);
        // Where the highest may be put into a block that is not a leaf, it is not to lead on.
        let number = highest - u64::from(child + 1 < levels) - random.next() % 40;
        let mut blocks = Vec::new();
        let mut first = None;
        for depth in 0..levels {
            // So far above the block's first number that all the others can be between.
            let led = number - 100 * (levels - 1 - depth) as u64 - random.next() % 2;
            let mut numbers = BTreeSet::from([led]);
            numbers.extend(first);
            if depth == above {
                numbers.extend(self.bound);
            }
            if depth <= above && self.farther {
                let more = 2 + random.next() % 1_000 + 1_000 * (above - depth) as u64;
                numbers.extend(self.bound.and_then(|bound| bound.checked_add(more)));
            }
            if depth == child {
                numbers.insert(self.put);
            }
            let used = if self.full { SLOTS } else { numbers.len() + random.below(4) };
            while numbers.len() < used {
                numbers.insert(led - random.next() % 90);
            }
            blocks.push(Draft::new(LEAF + (levels - 1 - depth) as u8, &numbers, random));
            first = Some(led);
        }
        Path { number, blocks }
    }

    /// What is to be tried often enough, and whether this tree tries it.
    fn tries(&self, number: u64) -> [(&'static str, bool); 9] {
        let put = Some(self.put);
        let at_bound = put == self.bound;
        let last_slot = self.bound.is_some() && self.full && !self.farther;
        [
            ("the neighbour's first number", at_bound),
            ("one less", put == self.bound.map(|bound| bound - 1)),
            ("one more", put == self.bound.and_then(|bound| bound.checked_add(1))),
            ("the root's next number in a block of kind 4", at_bound && self.place == MIDDLE),
            ("over the root's next number, from the last slot of kind 4", self.over() && self.place == LEAF_BY_ROOT),
            ("2^64 - 1, last used slots all the way", self.bound.is_none() && self.place != MIDDLE),
            ("slot 15 has the bound", last_slot),
            ("slot 15 leads on", self.full && self.place == LEAF_BY_ROOT),
            ("both sides of 2^63", number < 1 << 63 && self.put >= 1 << 63),
        ]
    }
}

/// The request, and all that one damage makes of it after its hashes were taken, each with what the damage alone is
/// refused with: another hash of each block, each block missing with those after it, and a block left over.
fn damaged(request: &Request, random: &mut Random) -> Vec<(Request, Option<Refusal>)> {
    let blocks = request.path.len() / BLOCK;
    let mut all = vec![(request.clone(), None)];
    let mut add = |number: u8, depth: usize, alter: &dyn Fn(&mut Vec<u8>)| {
        let mut other = request.clone();
        alter(&mut other.path);
        all.push((other, Some(Refusal(number, depth as u32, 0))));
    };
    for depth in 0..blocks {
        let (at, bit) = (BLOCK * depth + random.below(BLOCK), 1 << random.below(8));
        add(8, depth, &|path| path[at] ^= bit);
        if depth > 0 {
            add(9, depth, &|path| path.truncate(BLOCK * depth));
        }
    }
    if blocks < 3 {
        add(9, blocks, &|path| path.extend_from_within(..BLOCK));
    }
    all
}

/// Along a path that was accepted, each number of its leaf is found with its handle.
fn ask_again(request: &Request) -> Outcome {
    let Request { handle, path, .. } = request;
    let leaf = Draft(path[path.len() - BLOCK..].try_into().unwrap());
    for (number, value) in leaf.slots() {
        let mut out = [0x5a; 32];
        let answer = unsafe {
            sundr_lookup(handle.as_ptr(), handle.len(), number, path.as_ptr(), path.len(), out.as_mut_ptr(), out.len())
        };
        equal("what a leaf's number gives", (Answer::from(answer), out), (Answer::Accepted(1, 0), value))?;
    }
    Ok(())
}

/// Trees of each place, each undamaged and with every damage; what is accepted is asked again.
fn numbers_at_bounds() -> Outcome {
    let mut random = Random::new(15);
    let mut seen = Seen::default();
    let mut tried = BTreeMap::new();
    let mut faults = [0; 4];
    let mut lookups = 0;
    for _ in 0..13_100 {
        for place in [LEAF_OF_TWO, MIDDLE, LEAF_BY_MIDDLE, LEAF_BY_ROOT] {
            let tree = Tree::any(place, &mut random);
            let path = tree.path(&mut random);
            for (what, tries) in tree.tries(path.number) {
                *tried.entry(what).or_insert(0) += usize::from(tries);
            }
            let (levels, _, child) = place;
            let found = path.blocks[levels - 1].slots().into_iter().find(|slot| slot.0 == path.number);
            let fault = tree.over().then_some(Refusal(3, child as u32, 0));
            for (request, damage) in damaged(&path.sealed(), &mut random) {
                // Of each block in its turn: whether it is there, then its hash, then all else.
                let refusal = fault.into_iter().chain(damage).min_by_key(|of| (of.1, Reverse(of.0)));
                let due = refusal.map_or(Ok(found.map(|slot| slot.1)), Err);
                judge_as(due, &request, &mut seen, &mut random)?;
                if due.is_ok() {
                    ask_again(&request)?;
                }
                faults[child] += usize::from(fault.is_some() && refusal == fault);
                lookups += 1;
            }
        }
    }
    equal("lookups", lookups, 301_300)?;
    equal("refused since 02's request c and not before, by position", seen.over_a_bound, faults)?;
    if tried.values().chain(&faults[1..=2]).all(|&times| times >= 2_000) {
        Ok(())
    } else {
        Err(format!("tried this often: {tried:?}; refused, by position: {faults:?}"))
    }
}

pub fn checks(runner: &mut Runner) {
    runner.check(
        "lookup: 301,300 paths with a number at a bound or beside it; what accepted leaves hold, asked again",
        numbers_at_bounds,
    );
}
