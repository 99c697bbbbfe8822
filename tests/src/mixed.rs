//! sundr_lookup_many by chance, over trees of one to three levels; and every two refusals in one call.

use crate::asked::{changed, some_byte, Questions, MISFITS};
use crate::itable::NUMBERINGS;
use crate::kinds::Seen;
use crate::many::{Judge, WHOLE_CALL};
use crate::random::Random;
use crate::reference::itable::BLOCK;
use crate::reference::many::{together, MOST_QUESTIONS};
use crate::reference::Refusal;
use crate::runner::{equal, Outcome, Runner};
use crate::tables::Table;
use crate::trees::{Question, Tree};
use std::collections::BTreeSet;

/// Each way in which a question to this tree can be refused: number and place, the question, and its path.
fn refusals<'a>(tree: &'a Tree, random: &mut Random) -> Vec<((u8, u32), &'a Question, Vec<u8>)> {
    let mut all = Vec::new();
    let most = tree.questions.iter().map(Question::blocks).max().unwrap_or(0);
    for blocks in 1..=most {
        let answered: Vec<&Question> =
            tree.questions.iter().filter(|question| question.due.is_ok() && question.blocks() == blocks).collect();
        if answered.is_empty() {
            continue;
        }
        let mut add = |number, place: usize, path: &dyn Fn(&[u8], &mut Random) -> Vec<u8>| {
            let question = answered[random.below(answered.len())];
            all.push(((number, place as u32), question, path(&question.path, random)));
        };
        for count in [0, 4, 5, 255] {
            add(2, 0, &|path, _| path.repeat(255)[..BLOCK * count].to_vec());
        }
        for depth in 0..blocks {
            add(8, depth, &|path, random| changed(path, depth, some_byte(random), random));
        }
        for depth in 1..blocks {
            add(9, depth, &|path, _| path[..BLOCK * depth].to_vec());
        }
        for more in blocks..3 {
            add(9, blocks, &|path, _| [path, &path.repeat(2)[..BLOCK * (1 + more - blocks)]].concat());
        }
    }
    for depth in 0..3 {
        let malformed = tree.questions.iter().find(|question| question.due == Err(Refusal(3, depth, 0)));
        all.extend(malformed.map(|question| ((3, depth), question, question.path.clone())));
    }
    all
}

/// A tree of this many levels with questions that are answered, and with a malformed block at each depth below its root.
fn tree_with_malformed(levels: u8, random: &mut Random) -> Tree {
    loop {
        let tree = Tree::grown(levels, random);
        let refused = |depth| tree.questions.iter().any(|question| question.due == Err(Refusal(3, depth, 0)));
        let answered = tree.questions.iter().filter(|question| question.due.is_ok()).count();
        if answered > 4 && (1..levels.into()).all(refused) {
            return tree;
        }
    }
}

/// Each refusal of a question, at the first of five, in the middle and at the last; then every two: the first of them
/// refuses the call.
fn every_two_refusals() -> Outcome {
    let mut judge = Judge::new(5);
    let mut made = BTreeSet::new();
    for levels in [1, 2, 3].repeat(4) {
        let tree = tree_with_malformed(levels, &mut judge.random);
        judge.forget();
        let refusals = refusals(&tree, &mut judge.random);
        for first in &refusals {
            let alone = [0, 2, 4].map(|place| vec![(place, first)]).into_iter();
            let both = refusals.iter().flat_map(|second| {
                [[0, 2], [0, 4], [2, 4]].map(|[place, later]| vec![(place, first), (later, second)])
            });
            for wrong in alone.chain(both) {
                let mut questions = Questions::some(&tree, 5, &mut judge.random);
                for (place, (_, question, path)) in &wrong {
                    questions.asked[*place] = (question, path.clone());
                }
                let (number, place) = first.0;
                judge.judge(&questions.call(), &Err(Refusal(number, wrong[0].0 as u32, place)))?;
            }
            made.insert(first.0);
        }
    }
    // A malformed root refuses every question, and so the first.
    let due = [(2, 0), (3, 1), (3, 2), (8, 0), (8, 1), (8, 2), (9, 1), (9, 2)];
    equal("the refusals", made, BTreeSet::from(due))
}

/// How many questions a call has: mostly a few, the fewer the longer paths are, more rarely as many as there may be, or
/// more.
fn some_number_of_questions(tree: &Tree, random: &mut Random) -> usize {
    let few = [44, 12, 5][tree.questions.last().map_or(0, |question| question.blocks() - 1)];
    match random.below(100) {
        0..=1 => 0,
        2..=7 => 1,
        8..=15 => 2,
        16..=92 => 3 + random.below(few),
        93..=94 => 3 + random.below(60),
        95..=96 => MOST_QUESTIONS - 1,
        97..=98 => MOST_QUESTIONS,
        _ => MOST_QUESTIONS + 1 + random.below(3),
    }
}

/// A tree made by hand, or a table that the library wrote, of one level, two or, more rarely, three.
fn some_tree(tables: &[Table], random: &mut Random) -> Tree {
    let levels = [1, 1, 1, 2, 2, 2, 3, 3][random.below(8)];
    match random.below(4) {
        0 => Tree::written(&tables[levels - 1], 100, random),
        _ => Tree::grown(levels as u8, random),
    }
}

/// Questions that are answered, of which up to two go then wrong; to a tree with a malformed root, any.
fn some_questions<'a>(tree: &'a Tree, random: &mut Random) -> Questions<'a> {
    let number = some_number_of_questions(tree, random);
    let mut questions = Questions::some(tree, number, random);
    while questions.asked.len() < number {
        let question = &tree.questions[random.below(tree.questions.len())];
        questions.asked.push((question, question.path.clone()));
    }
    for _ in 0..[0, 0, 1, 1, 2][random.below(5)].min(number) {
        let place = [0, number - 1, random.below(number), random.below(number)][random.below(4)];
        questions.go_wrong(place, random);
    }
    questions
}

/// One call by chance, now and then with lengths that do not fit.
fn one_call(tree: &Tree, judge: &mut Judge, seen: &mut Seen) -> Outcome {
    let random = &mut judge.random;
    let questions = some_questions(tree, random);
    let dues = questions.dues();
    let first = dues.iter().enumerate().find_map(|(at, due)| Some((at, due.err()?)));
    let mut asked = questions.call();
    let number = asked.numbers.len();
    let short = asked.counts.iter().all(|count| (1..=4).contains(count));
    if number > MOST_QUESTIONS {
        seen.add(("over 64 questions", 0, 0), true);
    } else if number > 0 && short && random.below(10) == 0 {
        let (name, alter) = MISFITS[random.below(MISFITS.len())];
        alter(&mut asked);
        seen.add((name, 0, 0), true);
        seen.add(("a misfit, and a question that would be refused", 0, 0), first.is_some());
    } else {
        match first {
            None => seen.answered(&questions.asked),
            Some((at, refusal)) => seen.refused(&questions.asked, &dues, at, refusal),
        }
        return judge.judge(&asked, &together(&dues));
    }
    judge.judge(&asked, &WHOLE_CALL)
}

fn random_calls() -> Outcome {
    let mut judge = Judge::new(1_000_000);
    let mut seen = Seen::default();
    let mut tables = Vec::new();
    for files in [16, 250, 4_096] {
        tables.push(Table::any(NUMBERINGS - 1, files, &mut judge.random)?);
    }
    for _ in 0..500 {
        let tree = some_tree(&tables, &mut judge.random);
        judge.forget();
        for _ in 0..200 {
            one_call(&tree, &mut judge, &mut seen)?;
        }
    }
    let Judge { calls, judged, .. } = judge;
    if calls < 100_000 || judged < 1_000_000 {
        return Err(format!("{calls} calls, in which {judged} questions were judged"));
    }
    seen.at_least(50)
}

pub fn checks(runner: &mut Runner) {
    runner.check(
        "many: every two refusals in one call, at the first, the middle and the last question",
        every_two_refusals,
    );
    runner.check("many: 100,000 calls by chance, in which over 1,000,000 questions are judged", random_calls);
}
