//! Tables for many questions: those that the library wrote, and trees made by hand under fitting hashes, in which some
//! blocks are malformed, and some stand under two slots. Of each question it is known what is due, along any path.

use crate::itable::{numbers, NUMBERINGS};
use crate::paths::Draft;
use crate::random::Random;
use crate::reference::itable::{Found, BLOCK, LEAF, SLOTS};
use crate::reference::sha256::digest;
use crate::reference::Refusal;
use crate::tables::Table;

/// An i-number, the blocks that it leads along, and what is due along these.
#[derive(Clone)]
pub struct Question {
    pub number: u64,
    pub path: Vec<u8>,
    pub due: Found,
}

impl Question {
    pub fn blocks(&self) -> usize {
        self.path.len() / BLOCK
    }

    /// What is due along any path: the first block that is not right has another hash, or is missing, or is left over.
    pub fn along(&self, path: &[u8]) -> Found {
        let blocks = path.len() / BLOCK;
        let alike = path.chunks(BLOCK).zip(self.path.chunks(BLOCK)).take_while(|(one, right)| one == right).count();
        let consulted = match self.due {
            Ok(_) => self.blocks(),
            Err(Refusal(_, malformed, _)) => malformed as usize + 1,
        };
        match blocks {
            0 | 4.. => Err(Refusal(2, 0, 0)),
            _ if alike < consulted.min(blocks) => Err(Refusal(8, alike as u32, 0)),
            _ if blocks < consulted => Err(Refusal(9, blocks as u32, 0)),
            _ if self.due.is_ok() && blocks > consulted => Err(Refusal(9, consulted as u32, 0)),
            _ => self.due,
        }
    }
}

/// A table's i-handle, and questions to it in the order of their numbers.
pub struct Tree {
    pub handle: Vec<u8>,
    pub questions: Vec<Question>,
}

/// How a tree is made: the kind of its root, how many files a leaf has and how many children a block of kind 4, and, of a
/// hundred children, how many are malformed, and how many are the child before once more.
struct Shape {
    root: u8,
    files: usize,
    children: usize,
    malformed: usize,
    twins: usize,
}

/// A block, and the questions that lead to it, whose paths begin below it.
struct Grown {
    block: Draft,
    questions: Vec<Question>,
}

impl Grown {
    /// All questions are refused at the block, as malformed.
    fn refused(&mut self, depth: u8) {
        self.questions.iter_mut().for_each(|question| question.due = Err(Refusal(3, u32::from(depth), 0)));
    }
}

/// A change that makes a child malformed, or leaves it in a place where it may not stand.
fn spoil(block: &mut Draft, bound: Option<u64>, random: &mut Random) {
    let used = block.used();
    match (random.below(9), bound) {
        (0, _) => block.0[0] = block.0[0].wrapping_add(1 + random.below(255) as u8),
        (1, _) => block.0[1..].fill(0),
        (2, _) => block.0[1] = [17, 18, 128, 255][random.below(4)],
        (3, _) => block.0[1] -= 1,
        (4, _) if used < SLOTS => block.0[BLOCK - 1 - random.below(40)] = 1,
        (5, _) => block.set_number(0, block.number(0) ^ 1),
        (6, _) if used > 1 => block.set_number(used - 1, block.number(used - 2)),
        (7 | 8, Some(bound)) => block.put(bound.saturating_add(random.next() % 3)),
        _ => block.0[0] ^= 0x80,
    }
}

impl Shape {
    /// The block of this kind over these files; `after` is the file that follows them.
    fn grow(&self, kind: u8, files: &[u64], after: Option<u64>, random: &mut Random) -> Grown {
        if kind == LEAF {
            return leaf(files, after, random);
        }
        let below = if kind == LEAF + 1 { self.files } else { self.files * self.children };
        let parts: Vec<&[u64]> = files.chunks(below).collect();
        let mut block = Draft::new(kind, &parts.iter().map(|part| part[0]).collect(), random);
        let mut questions = Vec::new();
        // The last child that may stand where it does.
        let mut before: Option<Grown> = None;
        for (slot, part) in parts.iter().enumerate() {
            let next = parts.get(slot + 1).map(|part| part[0]).or(after);
            let mut child = self.grow(kind - 1, part, next, random);
            let twin = before.as_ref().filter(|_| random.below(100) < self.twins);
            let malformed = random.below(100) < self.malformed;
            if let Some(twin) = twin {
                // It does not start with the number in this slot.
                child.block = twin.block.clone();
                child.questions.iter_mut().for_each(|question| question.path = twin.questions[0].path.clone());
            } else if malformed {
                spoil(&mut child.block, next, random);
            }
            let refused = twin.is_some() || malformed;
            if refused {
                child.refused(self.root - kind + 1);
            }
            block.set_value(slot, digest(&child.block.0));
            for question in &child.questions {
                let path = [&child.block.0[..], &question.path].concat();
                questions.push(Question { path, ..*question });
            }
            before = if refused { before } else { Some(child) };
        }
        Grown { block, questions }
    }
}

/// A leaf of these files: each is asked for, and the number after it, where that is no file.
fn leaf(files: &[u64], after: Option<u64>, random: &mut Random) -> Grown {
    let block = Draft::new(LEAF, &files.iter().copied().collect(), random);
    let mut questions = Vec::new();
    for (slot, (number, handle)) in block.slots().into_iter().enumerate() {
        questions.push(Question { number, path: Vec::new(), due: Ok(Some(handle)) });
        let next = files.get(slot + 1).copied().or(after);
        let absent = number.checked_add(1).filter(|&number| next != Some(number));
        questions.extend(absent.map(|number| Question { number, path: Vec::new(), due: Ok(None) }));
    }
    Grown { block, questions }
}

impl Tree {
    /// A tree of this many levels made by hand, of up to about a hundred files. In some all children are well formed, in
    /// some most; and in a few the root is not.
    pub fn grown(levels: u8, random: &mut Random) -> Tree {
        let root = LEAF + levels - 1;
        let files = [1, 2, 3, 5, 16][random.below(5)];
        let children = 2 + random.below(2);
        let count = match levels {
            1 => random.below(SLOTS + 1),
            2 => files * (1 + random.below(5)) + 1 + random.below(files),
            _ => files * children * (1 + random.below(2)) + 1 + random.below(files * children),
        };
        let (malformed, twins) = [(0, 0), (15, 0), (10, 20), (0, 30)][random.below(4)];
        let shape = Shape { root, files, children, malformed, twins };
        let all = numbers(random.below(NUMBERINGS), count, random);
        let mut grown = shape.grow(root, &all, None, random);
        // Below the first file, the root alone is asked.
        let least = all.first().map_or(Some(u64::MAX), |first| first.checked_sub(1));
        let below = least.into_iter().flat_map(|least| [0, least / 2, least]);
        grown.questions.splice(0..0, below.map(|number| Question { number, path: Vec::new(), due: Ok(None) }));
        if random.below(25) == 0 {
            grown.block.0[random.below(2)] ^= 0xc0;
            grown.refused(0);
        }
        let Grown { block: Draft(root), mut questions } = grown;
        questions.dedup_by_key(|question| question.number);
        for question in &mut questions {
            question.path = [&root, &question.path[..]].concat();
        }
        Tree { handle: digest(&root).to_vec(), questions }
    }

    /// A table that the library wrote, and questions at and beside some of its files.
    pub fn written(table: &Table, asked: usize, random: &mut Random) -> Tree {
        let mut numbers: Vec<u64> = (0..asked)
            .map(|_| table.files[random.below(table.files.len())].saturating_add(random.next() % 3).saturating_sub(1))
            .collect();
        numbers.sort();
        numbers.dedup();
        let question = |&number| {
            let path = table.path(number).concat();
            Question { number, path, due: Ok(table.says(number)) }
        };
        Tree { handle: table.root.clone(), questions: numbers.iter().map(question).collect() }
    }
}
