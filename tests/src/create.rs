//! sundr_memory_create against the second implementation.

use crate::check;
use crate::ffi::{sundr_memory_create, Answer};
use crate::guarded::Guarded;
use crate::lists::Request;
use crate::makings::{Making, Source};
use crate::random::Random;
use crate::reference::create::create_file;
use crate::reference::memory::{FILE, KIND, NONE, PENDING, SENT};
use crate::reference::version::{Version, RECORD, USERS};
use crate::reference::Refusal;
use crate::runner::{enough, equal, hex, Outcome, Runner};
use std::collections::BTreeMap;

/// What a making step comes to: a version structure, or a refusal.
type Due = Result<[u8; RECORD], Refusal>;

/// The second implementation's answer.
fn due(making: &Making) -> Due {
    let Making { users, user, file, counts, handle, out_len } = making;
    create_file(*users, *user, file, counts, handle, *out_len)
}

/// One call, on the library alone: the answer, and what out has then.
pub fn answer(making: &Making) -> (Answer, Vec<u8>) {
    let Making { users, user, file, counts, handle, out_len } = making;
    let [f, h] = [file, handle].map(|bytes| (bytes.as_ptr(), bytes.len()));
    let c = (counts.as_ptr(), counts.len());
    let mut out = vec![0; *out_len];
    let o = out.as_mut_ptr();
    let answer = unsafe { sundr_memory_create(*users, *user, f.0, f.1, c.0, c.1, h.0, h.1, o, *out_len) };
    (Answer::from(answer), out)
}

/// One call, judged by what is due: the answer, the new structure, and every byte that is not to change.
fn judge_as(due: Due, making: &Making, random: &mut Random) -> Outcome {
    let Making { users, user, file, counts, handle, out_len } = making;
    let lent = [Guarded::new(file, random), Guarded::counts(counts, random), Guarded::new(handle, random)];
    let mut out = Guarded::new(&random.bytes(*out_len), random);
    let [f, c, h] = lent.each_ref().map(Guarded::pointer);
    let (c, o) = (c.cast(), out.pointer_mut());
    let [f, h] = [(f, file.len()), (h, handle.len())];
    let answer = unsafe { sundr_memory_create(*users, *user, f.0, f.1, c, counts.len(), h.0, h.1, o, *out_len) };

    let judged = || {
        equal("the answer", Answer::from(answer), Answer::from(due.map(|_| (0, 0))))?;
        match due {
            Err(_) => out.unaltered().map_err(|e| format!("out, refused: {e}"))?,
            Ok(new) => {
                out.kept_guards().map_err(|e| format!("out: {e}"))?;
                equal("the new structure", hex(out.content()), hex(&new))?;
            }
        }
        for (name, buffer) in ["file", "counts", "handle"].iter().zip(&lent) {
            buffer.unaltered().map_err(|e| format!("{name}: {e}"))?;
        }
        Ok(())
    };
    judged().map_err(|e: String| {
        let bytes = [file, handle].map(|bytes| format!("{} {}", bytes.len(), hex(bytes)));
        format!("{e}; user {user} of {users}, file, handle {bytes:?}, counts {counts:?}, out of {out_len} bytes")
    })
}

/// One call, judged by the second implementation.
pub fn judge(making: &Making, random: &mut Random) -> Result<Due, String> {
    let due = due(making);
    judge_as(due, making, random)?;
    Ok(due)
}

/// The kinds of making steps that are told apart, and whether this is one. The source is of counts and a memory that
/// nothing has changed.
fn kinds(making: &Making, source: Option<Source>, due: Due) -> Vec<(&'static str, bool)> {
    let Making { users, user, file, counts, handle, out_len } = making;
    let lengths = [file.len() != FILE, counts.len() != USERS, handle.len() != 32, *out_len != RECORD];
    let alone = |which: usize| (0..4).all(|length| lengths[length] == (length == which));
    let own = counts.get(usize::from(*user)).copied().unwrap_or(0);
    let remembered = making.remembered();
    let state = file.get(1).copied().unwrap_or(NONE);
    match due {
        Ok(new) => {
            let new = Version::read(&new);
            let less = |memory: Version| (0..USERS).any(|v| new.counts[v] < memory.counts[v]);
            vec![
                ("accepted", true),
                ("accepted, the counts of the latest check", source == Some(Source::Latest)),
                ("accepted, the counts of an older check", source == Some(Source::Older)),
                ("accepted, none", state == NONE),
                ("accepted, sent", state == SENT),
                ("accepted, pending", state == PENDING),
                ("accepted, another handle than remembered", remembered.is_some_and(|m| m.handle != new.handle)),
                ("accepted, another's count lower than remembered", remembered.is_some_and(less)),
                ("accepted, up to the last count", own == u32::MAX),
            ]
        }
        Err(Refusal(1, ..)) => {
            vec![("1, the users", !(1..=16).contains(users)), ("1, the user", (1..=16).contains(users))]
        }
        Err(Refusal(2, ..)) => vec![
            ("2, the file alone", alone(0)),
            ("2, the structure alone, without a file", alone(0) && file.len() == RECORD),
            ("2, the counts alone", alone(1)),
            ("2, fifteen counts", alone(1) && counts.len() == 15),
            ("2, the handle alone", alone(2)),
            ("2, the room alone", alone(3)),
        ],
        Err(Refusal(3, 16, 0)) => {
            let another = remembered.is_some_and(|memory| memory.well_formed(*users));
            let kind = file[0] == KIND;
            vec![
                ("3 of the file, its kind", !kind),
                ("3 of the file, its state", kind && state > NONE),
                ("3 of the file, none and more behind it", kind && state == NONE),
                ("3 of the file, another user's", kind && state < NONE && another),
                ("3 of the file, malformed", kind && state < NONE && !another),
            ]
        }
        Err(Refusal(3, ..)) => vec![
            ("3 of the counts", true),
            ("3 of the counts, and the own one is not next", own.wrapping_sub(1) != making.last()),
            ("3 of the counts, at the last count", making.last() == u32::MAX),
        ],
        Err(Refusal(6, ..)) => {
            vec![
                ("6, sent", state == SENT),
                ("6, pending", state == PENDING),
                ("6, the sum would wrap to 0", own == 0),
                ("6, the own count stays", own == u32::MAX),
            ]
        }
        Err(_) => vec![
            ("16, the counts of an older check", source == Some(Source::Older)),
            ("16, the counts of another desk", source == Some(Source::OtherDesk)),
            ("16, none", state == NONE),
            ("16, pending", state == PENDING),
            ("16, pending, the count that is pending", state == PENDING && own == making.last()),
            ("16, below the next", own <= making.last()),
            ("16, the one remembered", own == making.last() && own != 0),
            ("16, above the next", own > making.last()),
            ("16, what a refused check gives", counts.iter().all(|&count| count == 0)),
        ],
    }
}

/// Making steps after honest checks, with up to two mistakes and two damages in each. Of another desk's counts nothing is
/// made.
fn random_makings() -> Outcome {
    let mut random = Random::new(500_000);
    let mut seen: BTreeMap<&str, usize> = BTreeMap::new();
    for _ in 0..500_000 {
        let (making, source) = Making::any(&mut random);
        let due = judge(&making, &mut random)?;
        if source == Some(Source::OtherDesk) && due.is_ok() {
            return Err(format!("made of another desk's counts: {making:?}"));
        }
        for (kind, is) in kinds(&making, source, due) {
            *seen.entry(kind).or_default() += usize::from(is);
        }
    }
    equal("the kinds", seen.len(), 38)?;
    enough(seen.into_iter().map(|(kind, times)| (kind.to_string(), times)), 5_000)
}

/// What a check leaves in sixteen zeros that is refused, or says to send again, makes nothing: 16, if nothing else is wrong.
fn after_refused_checks() -> Outcome {
    let mut random = Random::new(16);
    let mut seen = [0; 17];
    for _ in 0..100_000 {
        let request = Request::any(&mut random);
        let said = check::ask(&request);
        if let Answer::Accepted(..) = said.answer {
            continue;
        }
        equal("the counts of a check that gives none", said.counts, [0; USERS])?;
        match judge(&Making::after(&request, said.counts, &mut random), &mut random)? {
            Ok(_) => return Err(format!("made of a check that said {:?}", said.answer)),
            Err(refusal) => seen[usize::from(refusal.0)] += 1,
        }
    }
    enough([1, 2, 3, 6, 16].map(|number| (format!("refusal {number}"), seen[number])), 1_000)
}

pub fn checks(runner: &mut Runner) {
    runner.check("create: 500,000 after checks, with up to four mistakes and damages in each", random_makings);
    runner.check(
        "create: of the zeros that 100,000 checks leave where they give no counts, nothing",
        after_refused_checks,
    );
}
