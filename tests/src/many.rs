//! sundr_lookup_many against the second implementation, against what is known to be due, and against sundr_lookup.

use crate::asked::{changed, Asked, Questions, MISFITS};
use crate::ffi::{sundr_lookup, sundr_lookup_many, Answer};
use crate::guarded::Guarded;
use crate::itable::NUMBERINGS;
use crate::random::Random;
use crate::reference::itable::BLOCK;
use crate::reference::many::{many, together, Answers, ENTRY, MOST_QUESTIONS};
use crate::reference::sha256::Remembered;
use crate::reference::Refusal;
use crate::runner::{equal, hex, Outcome, Runner};
use crate::tables::Table;
use crate::trees::Tree;
use std::ptr::null;

/// The refusal of the whole call, and of a first question with a count of 0 or above 3.
pub const WHOLE_CALL: Answers = Err(Refusal(2, 0, 0));

/// How many questions are judged in a call of which this is due. The lengths tell whether any is: what is due may be the
/// same for a first question's own count.
fn judged(asked: &Asked, due: &Answers) -> usize {
    match due {
        _ if !asked.fits() => 0,
        Ok(_) => asked.numbers.len(),
        Err(refusal) => refusal.1 as usize + 1,
    }
}

/// Where bytes are lent: where there are none, sometimes at NULL.
fn pointer(lent: &Guarded, random: &mut Random) -> *const u8 {
    if lent.len() == 0 && random.below(2) == 0 {
        null()
    } else {
        lent.pointer()
    }
}

/// What a call is lent.
struct Lent {
    handle: Guarded,
    numbers: Guarded,
    counts: Guarded,
    paths: Guarded,
    out: Guarded,
}

impl Lent {
    fn new(asked: &Asked, random: &mut Random) -> Lent {
        Lent {
            handle: Guarded::new(&asked.handle, random),
            numbers: Guarded::numbers(&asked.numbers, random),
            counts: Guarded::new(&asked.counts, random),
            paths: Guarded::new(&asked.paths, random),
            out: Guarded::new(&random.bytes(asked.out_len), random),
        }
    }

    fn call(&self, asked: &Asked, random: &mut Random) -> Answer {
        Answer::from(unsafe {
            sundr_lookup_many(
                pointer(&self.handle, random),
                asked.handle.len(),
                pointer(&self.numbers, random).cast(),
                asked.numbers.len(),
                pointer(&self.counts, random),
                asked.counts.len(),
                pointer(&self.paths, random),
                asked.paths.len(),
                pointer(&self.out, random).cast_mut(),
                asked.out_len,
            )
        })
    }

    /// After the call: the answers that are due, and every byte that is not to change.
    fn is_left(&self, due: &Answers) -> Outcome {
        let Lent { handle, numbers, counts, paths, out } = self;
        for (name, lent) in [("handle", handle), ("numbers", numbers), ("counts", counts), ("paths", paths)] {
            lent.unaltered().map_err(|e| format!("{name}: {e}"))?;
        }
        let Ok(answers) = due else {
            return out.unaltered().map_err(|e| format!("out, refused: {e}"));
        };
        out.kept_guards().map_err(|e| format!("out: {e}"))?;
        for (question, (got, due)) in out.content().chunks(ENTRY).zip(answers.chunks(ENTRY)).enumerate() {
            if got != due {
                equal(&format!("answer {question}"), hex(got), hex(due))?;
            }
        }
        Ok(())
    }
}

/// Makes calls and judges them.
pub struct Judge {
    pub random: Random,
    hashes: Remembered,
    /// How many calls were made, and how many questions were judged in them.
    pub calls: usize,
    pub judged: usize,
}

impl Judge {
    pub fn new(seed: u64) -> Judge {
        Judge { random: Random::new(seed), hashes: Remembered::default(), calls: 0, judged: 0 }
    }

    /// What was hashed is forgotten: another tree has other blocks.
    pub fn forget(&mut self) {
        self.hashes = Remembered::default();
    }

    /// One call, judged by what is due: the second implementation's answer; the library's, and every byte that is not
    /// to change; and the library's to each question by itself.
    pub fn judge(&mut self, asked: &Asked, due: &Answers) -> Outcome {
        let lent = Lent::new(asked, &mut self.random);
        let answer = lent.call(asked, &mut self.random);
        let Asked { handle, numbers, counts, paths, out_len } = asked;
        let second = many(handle, numbers, counts, paths, *out_len, &mut self.hashes);
        let as_due = || {
            equal("the second implementation's answer", &second, due)?;
            equal("the answer", answer, Answer::from(due.as_ref().map(|_| (0, 0)).map_err(|e| *e)))?;
            lent.is_left(due)?;
            singly(asked, due, lent.handle.pointer(), lent.paths.pointer())
        };
        as_due().map_err(|e| {
            format!("{e}; numbers {numbers:x?}, counts {counts:?}, {} bytes of paths, out of {out_len}", paths.len())
        })?;
        self.calls += 1;
        self.judged += judged(asked, due);
        Ok(())
    }
}

/// Each question by itself, through sundr_lookup, from where its path lies: what is due is what it says. After a refusal,
/// this holds of the question that is refused, and those before it are answered.
fn singly(asked: &Asked, due: &Answers, handle: *const u8, paths: *const u8) -> Outcome {
    let judged = judged(asked, due);
    let mut at = 0;
    for question in 0..judged {
        let path_len = BLOCK * usize::from(asked.counts[question]);
        let mut out = [0; ENTRY];
        let number = asked.numbers[question];
        let to = out[1..].as_mut_ptr();
        let answer = unsafe { sundr_lookup(handle, asked.handle.len(), number, paths.add(at), path_len, to, 32) };
        at += path_len;
        match (due, Answer::from(answer)) {
            (Ok(answers), Answer::Accepted(found, 0)) => {
                out[0] = found as u8;
                if out != answers[ENTRY * question..][..ENTRY] {
                    return Err(format!("question {question} by itself has another answer, {}", hex(&out)));
                }
            }
            (Err(_), Answer::Accepted(..)) if question + 1 < judged => {}
            (Err(Refusal(n, _, p)), Answer::Refused(number, place, 0)) if question + 1 == judged => {
                equal("the refusal of the question by itself", (number, place), (*n, *p))?;
            }
            (_, answer) => return Err(format!("question {question} by itself gets {answer:?}")),
        }
    }
    Ok(())
}

/// Tables of one, two and three levels, with questions to them.
pub fn written(random: &mut Random) -> Result<Vec<Tree>, String> {
    let mut trees = Vec::new();
    for files in [16, 70, 300] {
        let table = Table::any(4 + random.below(NUMBERINGS - 4), files, random)?;
        trees.push(Tree::written(&table, 150, random));
    }
    Ok(trees)
}

/// Each number of questions to 70, and numbers around those of 7, 8 and 9 bits; none of them 64 times, so that NULL and
/// other pointers come together.
fn every_number_of_questions() -> Outcome {
    let mut judge = Judge::new(64);
    let trees = written(&mut judge.random)?;
    let more = [127, 128, 129, 255, 256, 257, 258, 320, 321, 576];
    for number in [0; 64].into_iter().chain(1..=70).chain(more) {
        for tree in &trees {
            let questions = Questions::some(tree, number, &mut judge.random);
            let due = if number > MOST_QUESTIONS { WHOLE_CALL } else { together(&questions.dues()) };
            equal("whether it is accepted", due.is_ok(), number <= MOST_QUESTIONS)?;
            judge.judge(&questions.call(), &due)?;
        }
    }
    Ok(())
}

/// Each misfit of a call that would be answered, and of one that would be refused at its first question: both are
/// refused whole. And each length that no question allows.
fn every_misfit() -> Outcome {
    let mut judge = Judge::new(2);
    let trees = written(&mut judge.random)?;
    for (number, tree) in
        [1, 2, 3, 63, MOST_QUESTIONS].iter().flat_map(|number| trees.iter().map(move |tree| (*number, tree)))
    {
        for (_, alter) in MISFITS {
            let mut questions = Questions::some(tree, number, &mut judge.random);
            for wrong in [false, true] {
                if wrong {
                    let path = &mut questions.asked[0].1;
                    *path = changed(path, 0, judge.random.below(BLOCK), &mut judge.random);
                }
                let mut asked = questions.call();
                judge.judge(&asked, &together(&questions.dues()))?;
                alter(&mut asked);
                judge.judge(&asked, &WHOLE_CALL)?;
            }
        }
    }
    for len in (0..=100).chain([255, 256, 288, 642, 65_568]) {
        let none = Questions::some(&trees[0], 0, &mut judge.random).call();
        let mut lengths: [Asked; 5] = std::array::from_fn(|_| none.clone());
        lengths[0].handle.resize(len, 0);
        lengths[1].numbers.resize(len, 0);
        lengths[2].counts.resize(len, 0);
        lengths[3].paths.resize(len, 0);
        lengths[4].out_len = len;
        for (which, asked) in lengths.iter().enumerate() {
            let fits = len == if which == 0 { 32 } else { 0 };
            judge.judge(asked, &if fits { Ok(Vec::new()) } else { WHOLE_CALL })?;
        }
    }
    Ok(())
}

/// Each count of blocks, at the first of five questions, in the middle and at the last, with the paths by it; alone, and
/// after a question that is refused. Then counts of 255 all but one.
fn every_count() -> Outcome {
    let mut judge = Judge::new(255);
    let trees = written(&mut judge.random)?;
    for (count, place) in (0..=255).flat_map(|count| [0, 2, 4].map(|place| (count, place))) {
        let mut questions = Questions::some(&trees[1], 5, &mut judge.random);
        let path = &mut questions.asked[place].1;
        *path = path.repeat(255)[..BLOCK * count].to_vec();
        let due = together(&questions.dues());
        if count == 0 || count > 3 {
            equal("what is due of the count", &due, &Err(Refusal(2, place as u32, 0)))?;
        }
        judge.judge(&questions.call(), &due)?;
        if place > 0 {
            let path = &mut questions.asked[place - 1].1;
            let depth = judge.random.below(path.len() / BLOCK);
            *path = changed(path, depth, judge.random.below(BLOCK), &mut judge.random);
            judge.judge(&questions.call(), &Err(Refusal(8, place as u32 - 1, depth as u32)))?;
        }
    }
    let mut questions = Questions::some(&trees[0], MOST_QUESTIONS, &mut judge.random);
    questions.asked[1..].iter_mut().for_each(|(_, path)| *path = path.repeat(255));
    judge.judge(&questions.call(), &Err(Refusal(2, 1, 0)))
}

pub fn checks(runner: &mut Runner) {
    runner.check(
        "many: every number of questions to 70, and to 576; none of them also at NULL",
        every_number_of_questions,
    );
    runner.check(
        "many: 35 misfits of calls of 1, 2, 3, 63 and 64 questions, and lengths without questions",
        every_misfit,
    );
    runner.check("many: every count of blocks, at the first question, in the middle and at the last", every_count);
}
