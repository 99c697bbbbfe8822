//! sundr_lookup_many where blocks of a question stand in the paths before it, byte for byte or nearly so. Of such a block
//! no more is known than its hash: what else it is judged by depends on the slot that leads to it.

use crate::asked::{changed, Questions};
use crate::many::{written, Judge};
use crate::random::Random;
use crate::reference::itable::BLOCK;
use crate::reference::many::together;
use crate::reference::Refusal;
use crate::runner::{equal, Outcome, Runner};
use crate::trees::{Question, Tree};

/// Questions along their right paths.
fn right<'a>(tree: &'a Tree, questions: &[&'a Question]) -> Questions<'a> {
    Questions { tree, asked: questions.iter().map(|question| (*question, question.path.clone())).collect() }
}

/// A path, with one byte of a block and another that is unlike it in each other's place: sums of the bytes stay.
fn swapped(path: &[u8], depth: usize, byte: usize, random: &mut Random) -> Vec<u8> {
    let mut path = path.to_vec();
    let block = &mut path[BLOCK * depth..][..BLOCK];
    let unlike: Vec<usize> = (0..BLOCK).filter(|&other| block[other] != block[byte]).collect();
    block.swap(byte, unlike[random.below(unlike.len())]);
    path
}

/// A question once more, and another one along the same path, but for one bit, or for two bytes: each byte of each
/// block, in tables of one, two and three levels.
fn every_byte() -> Outcome {
    let mut judge = Judge::new(642);
    let mut others = 0;
    for (levels, tree) in (1..).zip(&written(&mut judge.random)?) {
        let full: Vec<&Question> = tree.questions.iter().filter(|question| question.blocks() == levels).collect();
        for (depth, byte) in (0..levels).flat_map(|depth| (0..BLOCK).map(move |byte| (depth, byte))) {
            let first = full[judge.random.below(full.len())];
            let alike: Vec<&Question> = full.iter().copied().filter(|other| other.path == first.path).collect();
            let other = alike[judge.random.below(alike.len())];
            others += usize::from(other.number != first.number);
            for (second, alter) in [(first, changed as fn(&_, _, _, &mut _) -> _), (other, changed), (other, swapped)] {
                let mut questions = right(tree, &[first, second]);
                questions.asked[1].1 = alter(&second.path, depth, byte, &mut judge.random);
                judge.judge(&questions.call(), &Err(Refusal(8, 1, depth as u32)))?;
            }
        }
    }
    equal("whether over half of the second questions are others", others > 3 * BLOCK, true)
}

/// Two slots of a block have the same child, which starts with the number of the first one: under the second it is
/// refused, by itself and after the question that it answers.
fn two_slots() -> Outcome {
    let mut judge = Judge::new(3);
    // By the child's depth.
    let mut made = [0; 3];
    for _ in 0..800 {
        let tree = Tree::grown(2 + judge.random.below(2) as u8, &mut judge.random);
        judge.forget();
        for second in &tree.questions {
            let Err(Refusal(3, depth, 0)) = second.due else { continue };
            let alike = tree.questions.iter().filter(|other| other.due.is_ok() && other.path == second.path);
            let Some(first) = alike.last() else { continue };
            let refused = |question| Err(Refusal(3, question, depth));
            judge.judge(&right(&tree, &[second]).call(), &refused(0))?;
            judge.judge(&right(&tree, &[first, second]).call(), &refused(1))?;
            judge.judge(&right(&tree, &[first, first, second, first]).call(), &refused(2))?;
            made[depth as usize] += 1;
        }
    }
    if made[0] == 0 && made[1..].iter().all(|&count| count >= 400) {
        Ok(())
    } else {
        Err(format!("by the child's depth, this often: {made:?}"))
    }
}

/// A tree with questions that lead down to leaves, and one that the root answers.
fn tree_with_both(levels: u8, random: &mut Random) -> Tree {
    loop {
        let tree = Tree::grown(levels, random);
        let answered = |blocks| tree.questions.iter().filter(|q| q.due.is_ok() && q.blocks() == blocks).count();
        if answered(1) > 0 && answered(levels.into()) > 8 {
            return tree;
        }
    }
}

/// Questions of which some lead down to a leaf and some end at the root, so that one comes after another of fewer blocks
/// or more. In the last one's path, each block is replaced by each that stands anywhere in the call, its own others too.
fn blocks_of_the_call() -> Outcome {
    const ORDERS: [&[usize]; 8] =
        [&[1, 2], &[1, 0, 1], &[1, 0, 2], &[0, 1], &[1, 2, 0, 1], &[1, 0, 0, 2], &[2, 1, 0, 0, 1], &[1, 1, 0, 2, 2]];
    let mut judge = Judge::new(1_926);
    // By whether it is answered, and by the place of the refusal.
    let (mut answered, mut refused) = (0, [0; 3]);
    for levels in [2, 3].repeat(12) {
        let tree = tree_with_both(levels, &mut judge.random);
        judge.forget();
        let of = |blocks| -> Vec<&Question> {
            tree.questions.iter().filter(|question| question.due.is_ok() && question.blocks() == blocks).collect()
        };
        let (ends, leads) = (of(1), of(levels.into()));
        for order in ORDERS {
            let three = [ends[0], leads[0], leads[1 + judge.random.below(leads.len() - 1)]];
            let asked: Vec<&Question> = order.iter().map(|&which| three[which]).collect();
            let all: Vec<u8> = asked.iter().flat_map(|question| question.path.clone()).collect();
            for (depth, block) in
                (0..levels.into()).flat_map(|depth| all.chunks(BLOCK).map(move |block| (depth, block)))
            {
                let mut questions = right(&tree, &asked);
                questions.asked.last_mut().unwrap().1[BLOCK * depth..][..BLOCK].copy_from_slice(block);
                let due = together(&questions.dues());
                judge.judge(&questions.call(), &due)?;
                match due {
                    Ok(_) => answered += 1,
                    Err(refusal) => {
                        equal("the refusal", refusal, Refusal(8, order.len() as u32 - 1, depth as u32))?;
                        refused[depth] += 1;
                    }
                }
            }
        }
    }
    if answered >= 500 && refused.iter().all(|&count| count >= 500) {
        Ok(())
    } else {
        Err(format!("{answered} answered, and refused by the place {refused:?}"))
    }
}

pub fn checks(runner: &mut Runner) {
    runner.check("many: every byte of every block of the path before, changed and in another's place", every_byte);
    runner.check("many: a child under two slots, right after the question that it answers", two_slots);
    runner.check(
        "many: every block of a call in each place of its last path, after fewer blocks and more",
        blocks_of_the_call,
    );
}
