//! sundr_memory_check against the second implementation.

use crate::ffi::{sundr_memory_check, Answer};
use crate::guarded::Guarded;
use crate::histories::History;
use crate::lists::{pick, some_handle, Draft, Request};
use crate::none_counts_more;
use crate::random::Random;
use crate::reference::check::{check_file, Verdict};
use crate::reference::version::{Version, RECORD, USERS};
use crate::reference::Refusal;
use crate::runner::{enough, equal, hex, Outcome, Runner};
use crate::verdicts::{kinds, Seen};
use std::collections::BTreeMap;

/// What a check comes to: sixteen counts, what is to be sent again, or a refusal.
pub type Due = Result<Verdict, Refusal>;

/// The second implementation's answer.
pub fn due(request: &Request) -> Due {
    let Request { users, user, file, list, marks, counts_len, again_len } = request;
    check_file(*users, *user, file, list, marks, *counts_len, *again_len)
}

/// The counts, if the second implementation gives some.
pub fn counts_due(request: &Request) -> Option<[u32; USERS]> {
    match due(request) {
        Ok(Verdict::Next(counts)) => Some(counts),
        _ => None,
    }
}

/// The answer that says so.
pub fn answer_of(due: &Due) -> Answer {
    match due {
        Ok(Verdict::Next(_)) => Answer::Accepted(0, 0),
        Ok(Verdict::Again(_)) => Answer::Again(0, 0),
        Err(Refusal(number, first, second)) => Answer::Refused(*number, *first, *second),
    }
}

/// What a call says: the answer, and what sixteen and 98 zeros are then.
pub struct Said {
    pub answer: Answer,
    pub counts: [u32; USERS],
    pub again: [u8; RECORD],
}

/// One call, on the library alone.
pub fn ask(request: &Request) -> Said {
    let Request { users, user, file, list, marks, .. } = request;
    let [f, l, k] = [file, list, marks].map(|bytes| (bytes.as_ptr(), bytes.len()));
    let (mut counts, mut again) = ([0; USERS], [0; RECORD]);
    let (c, a) = (counts.as_mut_ptr(), again.as_mut_ptr());
    let answer =
        unsafe { sundr_memory_check(*users, *user, f.0, f.1, l.0, l.1, k.0, k.1, c, counts.len(), a, again.len()) };
    let answer = Answer::from(answer);
    none_counts_more::judge(request, answer).unwrap_or_else(|e| panic!("{e}"));
    Said { answer, counts, again }
}

/// One call, judged by what is due: the answer, the counts, what is to be sent again, and every byte that is not to change.
pub fn judge_as(due: Due, request: &Request, random: &mut Random) -> Outcome {
    let Request { users, user, file, list, marks, counts_len, again_len } = request;
    let lent = [file, list, marks].map(|bytes| Guarded::new(bytes, random));
    let before: Vec<u32> = (0..*counts_len).map(|_| random.next() as u32).collect();
    let mut counts = Guarded::counts(&before, random);
    let mut again = Guarded::new(&random.bytes(*again_len), random);
    let [f, l, k] = lent.each_ref().map(|buffer| (buffer.pointer(), buffer.len()));
    let (c, a) = (counts.pointer_mut().cast(), again.pointer_mut());
    let answer =
        unsafe { sundr_memory_check(*users, *user, f.0, f.1, l.0, l.1, k.0, k.1, c, *counts_len, a, *again_len) };

    let judged = || {
        equal("the answer", Answer::from(answer), answer_of(&due))?;
        none_counts_more::judge_compared(request, Answer::from(answer))?;
        match due {
            Ok(Verdict::Next(new)) => {
                counts.kept_guards().map_err(|e| format!("counts: {e}"))?;
                equal("the counts", counts.content_counts(), new.to_vec())?;
            }
            _ => counts.unaltered().map_err(|e| format!("counts, of which none are given: {e}"))?,
        }
        match due {
            Ok(Verdict::Again(pending)) => {
                again.kept_guards().map_err(|e| format!("again: {e}"))?;
                equal("what is to be sent again", hex(again.content()), hex(&pending))?;
            }
            _ => again.unaltered().map_err(|e| format!("again, and nothing is to be sent: {e}"))?,
        }
        for (name, buffer) in ["file", "list", "marks"].iter().zip(&lent) {
            buffer.unaltered().map_err(|e| format!("{name}: {e}"))?;
        }
        Ok(())
    };
    judged().map_err(|e: String| {
        let lists = [file, list, marks].map(|bytes| format!("{} {}", bytes.len(), hex(bytes)));
        let rooms = format!("room for {counts_len} counts and {again_len} bytes");
        format!("{e}; user {user} of {users}, file, list, marks {lists:?}, {rooms}")
    })
}

/// One call, judged by the second implementation, whose answer it gives.
pub fn judge(request: &Request, seen: &mut Seen, random: &mut Random) -> Result<Due, String> {
    let due = due(request);
    seen.count(&due, request);
    judge_as(due, request, random)?;
    Ok(due)
}

/// Honest lists, with up to three lies and two damages in each.
fn random_lists() -> Outcome {
    let mut random = Random::new(700_000);
    let mut seen = Seen::default();
    let mut files: BTreeMap<&str, usize> = BTreeMap::new();
    for _ in 0..700_000 {
        let request = Request::any(&mut random);
        let due = judge(&request, &mut seen, &mut random)?;
        for (kind, is) in kinds(&request, &due) {
            *files.entry(kind).or_default() += usize::from(is);
        }
    }
    seen.at_least(5_000)?;
    equal("the kinds", files.len(), 34)?;
    enough(files.into_iter().map(|(kind, times)| (kind.to_string(), times)), 1_000)
}

/// Every number of users with every user, without a memory, and with one that is the list's only record.
fn every_user() -> Outcome {
    let mut random = Random::new(65_536);
    let mut seen = Seen::default();
    for users in 0..=255 {
        for user in 0..=255 {
            let mut counts = [0; USERS];
            counts[usize::from(user) % USERS] = 1;
            for memory in [None, Some(Version::new(user, some_handle(&mut random), counts))] {
                let list: Vec<Version> = memory.into_iter().collect();
                let pending = random.below(2) == 0;
                let _ = judge(&Draft { users, user, memory, pending, list }.request(), &mut seen, &mut random)?;
            }
        }
    }
    equal("acceptances", seen.accepted, 2 * 136)
}

/// Every value of a mark, at every place.
fn every_mark() -> Outcome {
    let mut random = Random::new(256);
    let mut seen = Seen::default();
    for place in 0..USERS {
        for mark in 0..=255 {
            let users = place + 1 + random.below(USERS - place);
            let list: Vec<Version> = (0..users as u8)
                .map(|v| {
                    let counts = std::array::from_fn(|user| u32::from(user < users));
                    Version::new(v, some_handle(&mut random), counts)
                })
                .collect();
            let mut request = Draft::whole(list, random.below(users), &mut random).request();
            request.marks[place] = mark;
            let _ = judge(&request, &mut seen, &mut random)?;
        }
    }
    equal(
        "acceptances, and refusals 4 by place",
        (seen.accepted, seen.refused[4][..USERS].to_vec()),
        (16, vec![255; USERS]),
    )
}

/// Every length around the right one, of each argument, with each number of records.
fn every_length() -> Outcome {
    let mut random = Random::new(98);
    let mut seen = Seen::default();
    for records in 0..=USERS {
        let counts = std::array::from_fn(|user| u32::from(user < records));
        let list: Vec<Version> = (0..records as u8).map(|v| Version::new(v, [v; 32], counts)).collect();
        let users = pick(&mut random, &[records.clamp(1, USERS), USERS]) as u8;
        let pending = random.below(2) == 0;
        let draft = Draft { users, user: 0, memory: list.first().copied(), pending, list };
        let good = draft.request();
        let mut lengths: Vec<usize> = (0..=200).collect();
        lengths.extend([256, 65_536, 65_634]);
        lengths.extend((good.list.len().saturating_sub(99)..=good.list.len() + 99).filter(|&len| len > 200));
        for len in lengths {
            for which in 0..5 {
                let mut request = good.clone();
                match which {
                    0 => request.file.resize(len, 0),
                    1 => request.list.resize(len, 0),
                    2 => request.marks.resize(len, 1),
                    3 => request.counts_len = len,
                    _ => request.again_len = len,
                }
                let _ = judge(&request, &mut seen, &mut random)?;
            }
        }
    }
    Ok(())
}

/// A server that rolls back, forks and hides, and users that go on from what they accept.
fn histories() -> Outcome {
    let mut random = Random::new(250_000);
    let mut seen = Seen::default();
    for _ in 0..5_000 {
        let users = 1 + random.below(USERS);
        let mut history = History::new(users, [true; USERS]);
        for _ in 0..60 {
            let user = random.below(users);
            let draft = history.send(user, &mut random);
            let mut request = draft.request();
            if random.below(20) == 0 {
                request.damage(&mut random);
            }
            if let Ok(Verdict::Next(counts)) = judge(&request, &mut seen, &mut random)? {
                let new = Version::new(request.user, some_handle(&mut random), counts);
                history.accept(user, &draft.list, new, &mut random);
            }
        }
    }
    let (records, new) = (seen.firsts.iter().sum::<usize>(), seen.new_structure.iter().sum());
    let forks = records.min(new).min(seen.number(5)).min(seen.accepted);
    if forks < 5_000 {
        return Err(format!("few forks, hidden users, rollbacks or acceptances: {forks}"));
    }
    enough([("send again".to_string(), seen.again.iter().sum())], 2_000)
}

pub fn checks(runner: &mut Runner) {
    runner.check("check: 700,000 lists of an honest server, with up to five lies and damages in each", random_lists);
    runner.check("check: 5,000 histories of 60 lists of a server that rolls back, forks and hides", histories);
    runner.check("check: every number of users with every user, with and without a memory", every_user);
    runner.check("check: every mark at every place", every_mark);
    runner.check("check: lengths 0 to 200 and by the list's, for each argument and number of records", every_length);
}
