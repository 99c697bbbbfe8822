//! What sundr_lookup_many is given, for the tests to lend: questions to one tree in several orders, along their right
//! paths or wrong ones; and lengths that do not fit.

use crate::random::Random;
use crate::reference::itable::{Found, BLOCK};
use crate::reference::many::{ENTRY, MOST_QUESTIONS};
use crate::trees::{Question, Tree};

/// What a call is given.
#[derive(Clone)]
pub struct Asked {
    pub handle: Vec<u8>,
    pub numbers: Vec<u64>,
    pub counts: Vec<u8>,
    pub paths: Vec<u8>,
    pub out_len: usize,
}

impl Asked {
    /// Whether the five lengths are the stated ones, so that the questions are judged.
    pub fn fits(&self) -> bool {
        let questions = self.numbers.len();
        let blocks: usize = self.counts.iter().map(|&count| usize::from(count)).sum();
        (self.handle.len(), self.counts.len()) == (32, questions)
            && questions <= MOST_QUESTIONS
            && (self.paths.len(), self.out_len) == (BLOCK * blocks, ENTRY * questions)
    }
}

/// Questions to one tree, each with the path that is lent for it.
#[derive(Clone)]
pub struct Questions<'a> {
    pub tree: &'a Tree,
    pub asked: Vec<(&'a Question, Vec<u8>)>,
}

/// A byte of a block: its kind, its number of used slots, its last one, one where the hash's own blocks meet, or any.
pub fn some_byte(random: &mut Random) -> usize {
    match random.below(8) {
        0 => random.below(2),
        1 => BLOCK - 1,
        2 => 64 * (1 + random.below(10)) - random.below(2),
        _ => random.below(BLOCK),
    }
}

/// A path, with one bit changed in one block.
pub fn changed(path: &[u8], depth: usize, byte: usize, random: &mut Random) -> Vec<u8> {
    let mut path = path.to_vec();
    path[BLOCK * depth + byte] ^= 1 << random.below(8);
    path
}

impl<'a> Questions<'a> {
    /// So many questions that are answered: ascending, descending, neighbours, any, or a few over and over. None where
    /// the tree has none.
    pub fn some(tree: &'a Tree, count: usize, random: &mut Random) -> Questions<'a> {
        let answered: Vec<&Question> = tree.questions.iter().filter(|question| question.due.is_ok()).collect();
        let all = answered.len();
        if all == 0 {
            return Questions { tree, asked: Vec::new() };
        }
        let any: Vec<usize> = (0..count).map(|_| random.below(all)).collect();
        let places: Vec<usize> = match random.below(5) {
            // No two alike, if there are so many.
            order @ 0..=1 => {
                let mut spread = |i: usize| i * all / count + random.below((all / count).max(1));
                let ascending = (0..count).map(&mut spread);
                if order == 0 {
                    ascending.collect()
                } else {
                    ascending.rev().collect()
                }
            }
            2 => (0..count).map(|i| (any[0] + i) % all).collect(),
            3 => {
                let few = count.min(1 + random.below(3));
                any.iter().map(|place| any[place % few]).collect()
            }
            _ => any,
        };
        let asked = places.into_iter().map(|place| (answered[place], answered[place].path.clone())).collect();
        Questions { tree, asked }
    }

    /// The question at this place gets a wrong path, or is another, which leads to a malformed block. What is due may
    /// still be an answer.
    pub fn go_wrong(&mut self, place: usize, random: &mut Random) {
        let question = self.asked[place].0;
        let right = &question.path;
        let before = place.checked_sub(1).map(|before| self.asked[before].clone());
        let depth = random.below(question.blocks());
        let path = match (random.below(16), before) {
            (0, _) => Vec::new(),
            (1, _) => right.repeat(4)[..4 * BLOCK].to_vec(),
            (2, _) if random.below(10) == 0 => right.repeat(255)[..255 * BLOCK].to_vec(),
            (2 | 3, _) => changed(right, depth, some_byte(random), random),
            // The question before once more, or its path, but for one bit.
            (4 | 5, Some((question, path))) if !path.is_empty() => {
                self.asked[place].0 = question;
                changed(&path, random.below(path.len() / BLOCK), some_byte(random), random)
            }
            (6, Some((_, path))) => path,
            // The last block of the question before is counted as the first of this one.
            (11, Some((_, path))) if !path.is_empty() => {
                let (kept, last) = path.split_at(path.len() - BLOCK);
                self.asked[place - 1].1 = kept.to_vec();
                [last, right].concat()
            }
            (7, _) => {
                let other = &self.tree.questions[random.below(self.tree.questions.len())].path;
                let block = &other[BLOCK * random.below(other.len() / BLOCK)..][..BLOCK];
                [&right[..BLOCK * depth], block, &right[BLOCK * (depth + 1)..]].concat()
            }
            (8 | 9, _) => right[..BLOCK * (1 + depth)].to_vec(),
            (10, _) => [right, &right[BLOCK * depth..]].concat(),
            _ => return self.lead_to_malformed(place, random),
        };
        self.asked[place].1 = path;
    }

    /// A question that leads to a malformed block, where there is one. If there is another that is answered along the
    /// same path, it comes right before.
    fn lead_to_malformed(&mut self, place: usize, random: &mut Random) {
        let malformed: Vec<&Question> = self.tree.questions.iter().filter(|question| question.due.is_err()).collect();
        if malformed.is_empty() {
            return;
        }
        let question = malformed[random.below(malformed.len())];
        self.asked[place] = (question, question.path.clone());
        let alike = self.tree.questions.iter().find(|other| other.due.is_ok() && other.path == question.path);
        if let (Some(alike), Some(before)) = (alike, place.checked_sub(1)) {
            self.asked[before] = (alike, alike.path.clone());
        }
    }

    /// What is due of each by itself.
    pub fn dues(&self) -> Vec<Found> {
        self.asked.iter().map(|(question, path)| question.along(path)).collect()
    }

    /// The call.
    pub fn call(&self) -> Asked {
        Asked {
            handle: self.tree.handle.clone(),
            numbers: self.asked.iter().map(|(question, _)| question.number).collect(),
            counts: self.asked.iter().map(|(_, path)| (path.len() / BLOCK) as u8).collect(),
            paths: self.asked.iter().map(|(_, path)| path.as_slice()).collect::<Vec<_>>().concat(),
            out_len: ENTRY * self.asked.len(),
        }
    }
}

/// One length that is then not the stated one, or lengths that no longer fit together.
type Misfit = (&'static str, fn(&mut Asked));

/// Of any call with a question, whose counts are from 1 to 127.
pub const MISFITS: [Misfit; 35] = [
    ("no handle", |asked| asked.handle.clear()),
    ("a handle of 31 bytes", |asked| asked.handle.truncate(31)),
    ("a handle of 33 bytes", |asked| asked.handle.push(0)),
    ("a handle of 288 bytes", |asked| asked.handle.resize(288, 0)),
    ("a handle of 65,568 bytes", |asked| asked.handle.resize(65_568, 0)),
    ("no numbers", |asked| asked.numbers.clear()),
    ("a number less", |asked| asked.numbers.truncate(asked.numbers.len() - 1)),
    ("a number less, and the answers by it", |asked| {
        asked.numbers.pop();
        asked.out_len -= ENTRY;
    }),
    ("a number more", |asked| asked.numbers.push(0)),
    ("a number more, and the answers by it", |asked| {
        asked.numbers.push(asked.numbers[0]);
        asked.out_len += ENTRY;
    }),
    ("256 numbers more", |asked| asked.numbers.resize(asked.numbers.len() + 256, 0)),
    ("no counts", |asked| asked.counts.clear()),
    ("a count less", |asked| asked.counts.truncate(asked.counts.len() - 1)),
    ("a count less, and the paths by it", |asked| {
        let count = usize::from(asked.counts.pop().unwrap());
        asked.paths.truncate(asked.paths.len() - BLOCK * count);
    }),
    ("a count more, of 0", |asked| asked.counts.push(0)),
    ("a count more, and the paths by it", |asked| {
        asked.counts.push(1);
        asked.paths.extend_from_within(..BLOCK);
    }),
    ("256 counts more, of 0", |asked| asked.counts.resize(asked.counts.len() + 256, 0)),
    ("65,536 numbers more, with counts of 0", |asked| {
        asked.numbers.resize(asked.numbers.len() + 65_536, 0);
        asked.counts.resize(asked.numbers.len(), 0);
    }),
    ("the last count is one less", |asked| *asked.counts.last_mut().unwrap() -= 1),
    ("the last count is one more", |asked| *asked.counts.last_mut().unwrap() += 1),
    ("the first count is one less", |asked| asked.counts[0] -= 1),
    ("the first count is one more", |asked| asked.counts[0] += 1),
    ("counts of 256 blocks more", |asked| asked.counts.iter_mut().take(2).for_each(|count| *count += 128)),
    ("no paths", |asked| asked.paths.clear()),
    ("a byte of the paths less", |asked| asked.paths.truncate(asked.paths.len() - 1)),
    ("a byte of the paths more", |asked| asked.paths.push(0)),
    ("a block of the paths less", |asked| asked.paths.truncate(asked.paths.len() - BLOCK)),
    ("a block of the paths more", |asked| asked.paths.extend_from_within(..BLOCK)),
    ("65,536 bytes of the paths more", |asked| asked.paths.resize(asked.paths.len() + 65_536, 0)),
    ("no answers", |asked| asked.out_len = 0),
    ("a byte of the answers less", |asked| asked.out_len -= 1),
    ("a byte of the answers more", |asked| asked.out_len += 1),
    ("an answer less", |asked| asked.out_len -= ENTRY),
    ("an answer more", |asked| asked.out_len += ENTRY),
    ("65,536 bytes of the answers more", |asked| asked.out_len += 65_536),
];
