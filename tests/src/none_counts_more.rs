//! No entry of an accepted list counts more operations of the client's user than the client remembers. Each answer that
//! `ask` and `judge_as` get is judged by this, whichever piece asked; how many they were is known once all are done.

use crate::check;
use crate::ffi::Answer;
use crate::lists::{Draft, Request};
use crate::makings::asks;
use crate::random::Random;
use crate::reference::check::Verdict;
use crate::reference::standing::{standing, Standing};
use crate::reference::version::{Version, RECORD, USERS};
use crate::runner::{enough, equal, Outcome, Runner};
use crate::turns::ACCEPTED;
use crate::verdicts::Seen;
use std::sync::atomic::{AtomicUsize, Ordering};

/// How many of the client's operations a list's entries count, beside how many the client remembers, 0 for none.
#[derive(Clone, Copy, PartialEq)]
enum Bound {
    Kept,
    /// Another's entry counts as many as are remembered, and not none.
    Met,
    /// Some entry counts more.
    Exceeded,
}

fn bound(request: &Request) -> Bound {
    let remembered = request.remembered().map_or(0, |version| version.own());
    let mut bound = Bound::Kept;
    for entry in request.list.chunks_exact(RECORD).map(Version::read) {
        let count = entry.counts.get(usize::from(request.user)).copied().unwrap_or(0);
        if count > remembered {
            return Bound::Exceeded;
        }
        if count == remembered && count != 0 && entry.owner != request.user {
            bound = Bound::Met;
        }
    }
    bound
}

/// The lists that were judged, by all pieces: accepted ones that keep the bound and that meet it; ones that exceed it,
/// refused with 7, and not accepted for what is asked before.
static JUDGED: [AtomicUsize; 4] = [const { AtomicUsize::new(0) }; 4];

/// Of the accepted ones, those whose whole answer was held to what is due.
static COMPARED: AtomicUsize = AtomicUsize::new(0);

/// An answer that is the due one.
pub fn judge_compared(request: &Request, answer: Answer) -> Outcome {
    COMPARED.fetch_add(usize::from(answer == ACCEPTED), Ordering::Relaxed);
    judge(request, answer)
}

/// One answer of the library: what is accepted does not exceed the bound.
pub fn judge(request: &Request, answer: Answer) -> Outcome {
    let kind = match (answer, bound(request)) {
        (Answer::Accepted(..), Bound::Exceeded) => {
            return Err("accepted, and an entry counts more of the client's operations than it remembers".into())
        }
        (Answer::Accepted(..), Bound::Kept) => 0,
        (Answer::Accepted(..), Bound::Met) => 1,
        (Answer::Refused(7, ..), Bound::Exceeded) => 2,
        (_, Bound::Exceeded) => 3,
        _ => return Ok(()),
    };
    JUDGED[kind].fetch_add(1, Ordering::Relaxed);
    Ok(())
}

/// Whether they were enough, once all pieces are done.
pub fn sums(runner: &mut Runner) {
    runner.check("bound: of 800,000 lists accepted above, none exceeds what is remembered", || {
        let [kept, met, ordered, earlier] = JUDGED.each_ref().map(|lists| lists.load(Ordering::Relaxed));
        enough([("lists accepted".to_string(), kept + met)], 800_000)?;
        enough([("lists accepted that were due".to_string(), COMPARED.load(Ordering::Relaxed))], 300_000)?;
        let due = [
            ("lists accepted that meet the bound", met),
            ("lists that exceed it, refused with 7", ordered),
            ("lists that exceed it, refused for less or to be sent again", earlier),
        ];
        enough(due.map(|(what, times)| (what.to_string(), times)), 100_000)
    });
}

/// All that a list may have of one of three users, with counts of at most 2: nothing, or one of eighteen structures.
fn small(owner: u8) -> Vec<Option<Version>> {
    let counts = |n: u32| std::array::from_fn(|v| if v < 3 { n / 3_u32.pow(v as u32) % 3 } else { 0 });
    let structures = (0..27).map(|n| Version::new(owner, [0; 32], counts(n))).filter(|version| version.own() != 0);
    [None].into_iter().chain(structures.map(Some)).collect()
}

/// The order that is asked of a list and the new structure; by a wrong check without pairs, or where an entry may equal
/// the new structure's counts.
fn fits(list: &[Version], new: &Version, pairs: bool, strict: bool) -> bool {
    let apart = |x: &Version, y: &Version| standing(&x.counts, &y.counts) == Standing::Apart;
    let before = |x: &Version| if strict { x.strictly_before(new) } else { x.at_or_before(new) };
    list.iter().all(|x| before(x) && !(pairs && list.iter().any(|y| apart(x, y))))
}

/// Every list of three users with counts of at most 2, checked by each of them, who remembers the own entry or none.
/// Each wrong check, which is this test's own, would accept some that exceed the bound.
fn every_small_list() -> Outcome {
    let mut random = Random::new(1_179);
    let mut seen = Seen::default();
    let (mut met, mut without_pairs, mut not_strict) = (0, 0, 0);
    let entries = [0, 1, 2].map(small);
    for n in 0..19_usize.pow(3) {
        let list = entries.iter().enumerate().filter_map(|(v, all)| all[n / 19_usize.pow(v as u32) % 19]).collect();
        let at = Draft { users: 3, user: 0, memory: None, pending: false, list };
        for user in 0..3 {
            let request = asks(user, &at);
            let accepted = check::judge(&request, &mut seen, &mut random)?.is_ok();
            let mut new = Version::new(user as u8, [0; 32], [0; USERS]);
            at.list.iter().for_each(|entry| new.counts[usize::from(entry.owner)] = entry.own());
            new.counts[user] += 1;
            let by = |pairs: bool, strict: bool| fits(&at.list, &new, pairs, strict);
            equal("a list that is ordered", by(true, true), accepted)?;
            let bound = bound(&request);
            met += usize::from(accepted && bound == Bound::Met);
            without_pairs += usize::from(by(false, true) && bound == Bound::Exceeded);
            not_strict += usize::from(by(true, false) && bound == Bound::Exceeded);
        }
    }
    equal("the lists accepted, and those that meet the bound", (seen.accepted, met), (1_179, 870))?;
    equal("those that exceed it, without pairs and not strictly", (without_pairs, not_strict), (1_557, 771))
}

/// Accepted lists in which one entry, each in turn, is made to count the client's next operation. Said to be accepted,
/// each is told as a violation. The library refuses it with 7, and with 5 where the entry is the client's own.
fn forged_lists() -> Outcome {
    let mut random = Random::new(300_000);
    let (mut seen, mut forged) = (Seen::default(), 0);
    for _ in 0..20_000 {
        let mut draft = Draft::honest(&mut random);
        let Ok(Verdict::Next(next)) = check::judge(&draft.request(), &mut seen, &mut random)? else { continue };
        let user = usize::from(draft.user);
        for i in 0..draft.list.len() {
            let entry = draft.list[i];
            draft.list[i].counts[user] = next[user];
            let request = draft.request();
            equal("whether a forged list is told", judge(&request, ACCEPTED).is_err(), true)?;
            let due = if entry.owner == draft.user { 5 } else { 7 };
            let answer = check::ask(&request).answer;
            equal("a forged list's refusal", matches!(answer, Answer::Refused(number, ..) if number == due), true)?;
            draft.list[i] = entry;
            forged += 1;
        }
    }
    enough([("forged lists".to_string(), forged)], 50_000)
}

pub fn checks(runner: &mut Runner) {
    runner.check("bound: every list of three users with counts up to 2, of which 1,179 are accepted", every_small_list);
    runner.check(
        "bound: 50,000 lists, good but for one entry that counts the client's next operation, are refused",
        forged_lists,
    );
}
