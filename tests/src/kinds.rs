//! Kinds of calls of sundr_lookup_many, and how often each was made: a check by chance has to make them all.

use crate::asked::MISFITS;
use crate::reference::itable::{Found, BLOCK, LEAF};
use crate::reference::Refusal;
use crate::runner::Outcome;
use crate::trees::Question;
use std::collections::BTreeMap;

/// A kind of call or question, with what tells it from others of its name.
type Kind = (&'static str, u32, u32);

/// The kind of a refusal at this place in a path of so many blocks.
fn name(number: u8, place: u32, blocks: usize) -> &'static str {
    match (number, blocks) {
        (2, 0) => "2, no blocks",
        (2, 4) => "2, four blocks",
        (2, 255) => "2, 255 blocks",
        (2, _) => "2, five or six blocks",
        (3, _) => "3",
        (8, _) => "8",
        _ if blocks == place as usize => "9, too short",
        _ => "9, too long",
    }
}

/// The kinds that are told by their name alone, but for the misfits.
const SINGLE: [&str; 14] = [
    "over 64 questions",
    "a misfit, and a question that would be refused",
    "ascending",
    "descending",
    "in no order, none twice",
    "one twice, right after itself",
    "one twice, others between",
    "found, a handle of zeros",
    "absent at the root",
    "after one of fewer blocks",
    "after one of more blocks",
    "over 255 blocks, and refused after the first question",
    "the right blocks, counted otherwise",
    "refused, the number of the question before",
];

/// How often each kind was made.
#[derive(Default)]
pub struct Seen(BTreeMap<Kind, usize>);

impl Seen {
    pub fn add(&mut self, kind: Kind, holds: bool) {
        if holds {
            *self.0.entry(kind).or_default() += 1;
        }
    }

    /// A call that is answered, and each of its answers.
    pub fn answered(&mut self, asked: &[(&Question, Vec<u8>)]) {
        self.add(("answered, of so many questions", asked.len() as u32, 0), true);
        let mut numbers: Vec<u64> = asked.iter().map(|(question, _)| question.number).collect();
        let pairs = |holds: &dyn Fn(u64, u64) -> bool| numbers.windows(2).all(|two| holds(two[0], two[1]));
        let (ascending, descending) = (pairs(&|one, next| one < next), pairs(&|one, next| one > next));
        let twice_in_a_row = !pairs(&|one, next| one != next);
        numbers.sort();
        numbers.dedup();
        let twice = numbers.len() < asked.len();
        self.add(("ascending", 0, 0), asked.len() > 2 && ascending);
        self.add(("descending", 0, 0), asked.len() > 2 && descending);
        self.add(("in no order, none twice", 0, 0), !ascending && !descending && !twice);
        self.add(("one twice, right after itself", 0, 0), twice_in_a_row);
        self.add(("one twice, others between", 0, 0), twice && !twice_in_a_row);
        for (question, path) in asked {
            let blocks = question.blocks() as u32;
            match question.due {
                Ok(Some(handle)) => {
                    self.add(("found, along so many blocks", blocks, 0), true);
                    self.add(("found, a handle of zeros", 0, 0), handle == [0; 32]);
                }
                Ok(None) if path[0] != LEAF && blocks == 1 => self.add(("absent at the root", 0, 0), true),
                _ => self.add(("absent in a leaf, along so many blocks", blocks, 0), true),
            }
        }
        self.add(("after one of fewer blocks", 0, 0), asked.windows(2).any(|two| two[0].1.len() < two[1].1.len()));
        self.add(("after one of more blocks", 0, 0), asked.windows(2).any(|two| two[0].1.len() > two[1].1.len()));
    }

    /// A call that is refused at this question, with this number and place.
    pub fn refused(
        &mut self,
        asked: &[(&Question, Vec<u8>)],
        dues: &[Found],
        at: usize,
        Refusal(number, place, _): Refusal,
    ) {
        let blocks = asked[at].1.len() / BLOCK;
        let position = match at {
            0 => 0,
            _ if at + 1 < asked.len() => 1,
            _ => 2,
        };
        self.add((name(number, place, blocks), place, position), true);
        for later in dues[at + 1..].iter().filter_map(|due| due.err()) {
            self.add(("the first and a later one", number.into(), later.0.into()), true);
        }
        let right = asked.iter().flat_map(|(question, _)| question.path.chunks(BLOCK));
        let lent = asked.iter().flat_map(|(_, path)| path.chunks(BLOCK));
        self.add(("the right blocks, counted otherwise", 0, 0), number != 3 && lent.eq(right));
        let all: usize = asked.iter().map(|(_, path)| path.len() / BLOCK).sum();
        self.add(("over 255 blocks, and refused after the first question", 0, 0), all > 255 && at > 0);
        if at > 0 {
            self.refused_after(&asked[at - 1], &asked[at], number, place);
        }
    }

    /// A question that is refused, beside the one before it.
    fn refused_after(
        &mut self,
        (before, path_before): &(&Question, Vec<u8>),
        (question, path): &(&Question, Vec<u8>),
        number: u8,
        place: u32,
    ) {
        self.add(("refused, the number of the question before", 0, 0), before.number == question.number);
        let block = |path: &[u8]| path.chunks(BLOCK).nth(place as usize).map(<[u8]>::to_vec);
        if let (Some(block), Some(same_place)) = (block(path), block(path_before)) {
            let unlike = block.iter().zip(&same_place).filter(|(one, other)| one != other).count();
            self.add(("3, at the block of the question before", place, 0), number == 3 && unlike == 0);
            self.add(
                ("8, at the block of the question before, one byte changed", place, 0),
                number == 8 && unlike == 1,
            );
        }
    }

    /// An error unless each kind that is to be tried was seen this often.
    pub fn at_least(&self, times: usize) -> Outcome {
        let mut due: Vec<Kind> = Vec::new();
        due.extend([0, 1, 2, 63, 64].map(|number| ("answered, of so many questions", number, 0)));
        due.extend(MISFITS.map(|(name, _)| (name, 0, 0)));
        due.extend(SINGLE.map(|name| (name, 0, 0)));
        for blocks in 1..=3 {
            due.push(("found, along so many blocks", blocks, 0));
            due.push(("absent in a leaf, along so many blocks", blocks, 0));
            due.push(("8, at the block of the question before, one byte changed", blocks - 1, 0));
        }
        for position in 0..=2 {
            due.extend(["2, no blocks", "2, four blocks", "2, 255 blocks"].map(|name| (name, 0, position)));
            due.extend([0, 1, 2].map(|place| ("8", place, position)));
            for place in 1..=2 {
                due.extend(["3", "9, too short", "9, too long"].map(|name| (name, place, position)));
            }
        }
        due.extend([1, 2].map(|place| ("3, at the block of the question before", place, 0)));
        // Under a malformed root no question is answered: the first is refused.
        due.push(("3", 0, 0));
        due.extend(
            [2, 3, 8, 9].iter().flat_map(|&n| [2, 3, 8, 9].map(|later| ("the first and a later one", n, later))),
        );
        let few: Vec<_> =
            due.iter().map(|kind| (kind, self.0.get(kind).unwrap_or(&0))).filter(|of| *of.1 < times).collect();
        if few.is_empty() {
            Ok(())
        } else {
            Err(format!("too few: {few:?}"))
        }
    }
}
