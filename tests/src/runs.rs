//! What is claimed of whole runs, tried on the library by itself, without the second implementation.

use crate::desks::{Desk, Write};
use crate::ffi::Answer;
use crate::histories::History;
use crate::lists::{ordered, other_than, pick, some_handle};
use crate::one_number::Pairs;
use crate::random::Random;
use crate::reference::version::{Version, RECORD, USERS};
use crate::runner::{enough, equal, Outcome, Runner};
use crate::turns::{Honest, ACCEPTED};
use std::collections::BTreeSet;

/// x counts fewer operations of y's owner than y does, and y fewer of x's owner than x does.
fn forked(x: &Version, y: &Version) -> bool {
    let (a, b) = (usize::from(x.owner), usize::from(y.owner));
    x.counts[b] < y.counts[b] && y.counts[a] < x.counts[a]
}

/// The list has x or a later one, and y or a later one.
fn joins(list: &[Version], x: &Version, y: &Version) -> bool {
    let has = |due: &Version| list.iter().any(|entry| entry.owner == due.owner && entry.own() >= due.own());
    has(x) && has(y)
}

/// What a client has open: the list of a check that it accepted, and the counts that the check gave.
#[derive(Clone)]
struct Open {
    list: Vec<Version>,
    counts: [u32; USERS],
}

/// What a touch gives to the making step: counts of a check of its own, or what is to be refused.
#[derive(Clone, Copy)]
enum Given {
    Own,
    OtherDesk,
    Damaged,
    Beyond,
}

/// What came up in runs, to be seen often enough.
#[derive(Default)]
struct Seen {
    forks: usize,
    accepted: usize,
    joining_refused: usize,
    /// The touches that were refused, by what was given.
    not_made: [usize; 4],
    /// Made, but the machine died before the write; and then another was made with the same own count.
    lost: usize,
    made_anew: usize,
    /// Send again, and lists that show what is pending.
    again: usize,
    shown_pending: usize,
    /// Sent writes that came whole, and absent ones.
    sent: [usize; 2],
}

/// A run, as it goes on: what the honest users' pending writes brought to their disks, and which lists their checks
/// accepted and refused.
struct Run {
    users: usize,
    honest: [bool; USERS],
    history: History,
    desks: Vec<Desk>,
    /// Of each client, all its accepted checks. A touch may come late, twice or never.
    open: [Vec<Open>; USERS],
    /// What each client wrote and has not brought to the server, since it died before, and the list that it was made on.
    unsent: [Option<(Vec<Version>, Version)>; USERS],
    /// What each client made last and did not write.
    lost: [Option<Version>; USERS],
    /// Those whose pending write came whole.
    counted: Vec<Version>,
    accepted: Vec<Vec<Version>>,
    refused: Vec<Vec<Version>>,
}

impl Run {
    /// A server and some users that lie to at least two that do not.
    fn new(random: &mut Random) -> Result<Run, String> {
        let users = pick(random, &[2, 2, 3, 3, 4, 5, 8, 16]);
        let mut honest: [bool; USERS] = std::array::from_fn(|user| user < users && random.below(4) != 0);
        (honest[0], honest[users - 1]) = (true, true);
        Ok(Run {
            users,
            honest,
            history: History::new(users, honest),
            desks: (0..users).map(|user| Desk::new(users, user)).collect::<Result<_, _>>()?,
            open: Default::default(),
            unsent: Default::default(),
            lost: [None; USERS],
            counted: Vec::new(),
            accepted: Vec::new(),
            refused: Vec::new(),
        })
    }

    /// A client checks a list. Its file stays, whatever the check says. Where it says to send again, the same bytes are
    /// sent, which may come too late for the server's list, or be lost once more.
    fn check(&mut self, user: usize, seen: &mut Seen, random: &mut Random) -> Outcome {
        let list = self.history.send(user, random).list;
        let desk = &self.desks[user];
        let entry = list.iter().find(|entry| usize::from(entry.owner) == user);
        let said = desk.check(list.iter().flat_map(Version::write).collect());
        match said.answer {
            Answer::Accepted(0, 0) => {
                let premise = |entry: &Version| !self.honest[usize::from(entry.owner)] || self.counted.contains(entry);
                assert!(list.iter().all(premise), "the server forged a signature");
                equal("the entry of an accepted list", entry, self.history.memories[user].as_ref())?;
                seen.shown_pending += usize::from(desk.pending());
                self.accepted.push(list.clone());
                self.open[user].push(Open { list, counts: said.counts });
            }
            Answer::Again(0, 0) => {
                assert!(desk.pending(), "a file that is not pending was to be sent again");
                let last = self.history.memories[user].ok_or("nothing was made, and is to be sent again")?;
                equal("what is to be sent again", Version::read(&said.again), last)?;
                equal("the count before it", entry.map_or(0, |entry| entry.own()) + 1, last.own())?;
                seen.again += 1;
                if random.below(4) != 0 {
                    if let Some((list, new)) = self.unsent[user].take() {
                        self.history.receive(user, &list, new, random);
                    }
                }
                self.refused.push(list);
            }
            _ => self.refused.push(list),
        }
        Ok(())
    }

    /// A client's card is touched, and a structure is made of the counts that an accepted check gave: mostly the last
    /// one, at times any earlier one, made of before or not. Of another desk's counts, or damaged ones, none is made. Only
    /// what is written as pending takes the memory's place, and nothing else leaves the desk.
    fn touch(&mut self, user: usize, seen: &mut Seen, random: &mut Random) -> Outcome {
        let open = &self.open[user];
        let Some(last) = open.len().checked_sub(1) else { return Ok(()) };
        let Open { list, mut counts } =
            open[if random.below(3) == 0 { random.below(open.len()) } else { last }].clone();
        let next = self.history.memories[user].map_or(0, |memory| memory.own()) + 1;
        let desks: Vec<&Open> = (0..self.users).filter(|&v| v != user).flat_map(|v| &self.open[v]).collect();
        let given = match random.below(12) {
            0 | 1 if !desks.is_empty() => Given::OtherDesk,
            2 => Given::Damaged,
            3 | 4 if self.users < USERS => Given::Beyond,
            _ => Given::Own,
        };
        match given {
            Given::Own => (),
            Given::OtherDesk => counts = pick(random, &desks).counts,
            Given::Damaged => {
                counts[random.below(self.users)] ^= 1 << random.below(32);
                counts[user] = next ^ 1 << random.below(32);
            }
            Given::Beyond => counts[self.users + random.below(USERS - self.users)] = 1 << random.below(32),
        }
        // No other desk's check counts what this user has not signed yet.
        let due = match given {
            Given::Own if counts[user] == next => Answer::Accepted(0, 0),
            Given::Beyond => Answer::Refused(3, 0, 0),
            _ => Answer::Refused(16, 0, 0),
        };
        let made = self.desks[user].make(&counts, some_handle(random));
        let said = made.err().unwrap_or(Answer::Accepted(0, 0));
        equal("a touch", said, due).map_err(|e| format!("{e}: user {user}, {counts:?} at number {next}"))?;
        let Ok(record) = made else {
            seen.not_made[given as usize] += 1;
            return Ok(());
        };
        let new = Version::read(&record);
        assert!(self.open[user].iter().any(|open| open.counts == new.counts), "what is made is of no accepted check");
        // A cut before the write, after it, or none.
        let write = if random.below(3) == 0 { Write::Absent } else { Write::Whole };
        self.desks[user].write_pending(&record, write)?;
        if write == Write::Absent {
            seen.lost += 1;
            self.lost[user] = Some(new);
            return Ok(());
        }
        let lost = self.lost[user].take();
        seen.made_anew += usize::from(lost.is_some_and(|lost| lost.own() == new.own() && lost != new));
        self.counted.push(new);
        self.history.sign(user, new);
        self.unsent[user] = Some((list, new));
        if random.below(3) != 0 {
            self.send(user, seen, random)?;
        }
        Ok(())
    }

    /// What is pending is brought to the server; the sent write comes whole, not at all, or is missing.
    fn send(&mut self, user: usize, seen: &mut Seen, random: &mut Random) -> Outcome {
        if let Some((list, new)) = self.unsent[user].take() {
            self.history.receive(user, &list, new, random);
        }
        self.mark(user, seen, random)
    }

    /// The sent write, if it is not left out. Now and then a caller marks as sent what is not, and stays out.
    fn mark(&mut self, user: usize, seen: &mut Seen, random: &mut Random) -> Outcome {
        let write = match random.below(3) {
            _ if self.unsent[user].is_some() && random.below(16) != 0 => return Ok(()),
            0 => return Ok(()),
            1 => Write::Absent,
            _ => Write::Whole,
        };
        seen.sent[usize::from(write == Write::Absent)] += 1;
        self.desks[user].write_sent(write)
    }

    /// Each file holds the last structure that its desk counted, sent or pending, and no own count is counted twice.
    fn one_per_count(&self) -> Outcome {
        for (user, desk) in self.desks.iter().enumerate() {
            let of_user: Vec<&Version> =
                self.counted.iter().filter(|version| usize::from(version.owner) == user).collect();
            equal("what a file holds", desk.held().as_ref(), of_user.last().copied())?;
            let own: Vec<u32> = of_user.iter().map(|version| version.own()).collect();
            equal("the own counts of what was counted", own, (1..=of_user.len() as u32).collect())?;
        }
        Ok(())
    }
}

/// Clients that have several checks open, whose cards are touched late, twice or never, or for counts of no check of
/// theirs, which are refused; and whose machines die between any two steps. What is marked as an honest user's, that user
/// wrote as pending; what an honest user makes is of counts that a check gave it. No two counted structures of a user have
/// one own count, and no check accepts a list that joins a fork among the counted ones. Of any two of these one number
/// tells how they stand.
fn lied_to(steps: usize, seen: &mut Seen, pairs: &mut Pairs) -> Outcome {
    let mut random = Random::new(3);
    for number in 0..5_000 {
        let mut run = Run::new(&mut random)?;
        let clients: Vec<usize> = (0..run.users).filter(|&user| run.honest[user]).collect();
        for _ in 0..steps {
            let user = pick(&mut random, &clients);
            match random.below(7) {
                0..=2 => run.check(user, seen, &mut random)?,
                3..=5 => run.touch(user, seen, &mut random)?,
                // The server has answered long ago.
                _ => run.mark(user, seen, &mut random)?,
            }
        }
        let judged = run.one_per_count().and_then(|()| pairs.judge(&run.counted));
        judged.map_err(|e| format!("run {number}: {e}"))?;
        let forged = run.accepted.iter().flatten().filter(|entry| !run.honest[usize::from(entry.owner)]);
        pairs.mislead(&run.counted, forged);
        let mut forks: Vec<(&Version, &Version)> = Vec::new();
        for (i, x) in run.counted.iter().enumerate() {
            forks.extend(run.counted[..i].iter().filter(|y| forked(x, y)).map(|y| (x, y)));
        }
        let joined = |list: &&Vec<Version>| forks.iter().find(|(x, y)| joins(list, x, y));
        if let Some(list) = run.accepted.iter().find(|list| joined(list).is_some()) {
            return Err(format!("run {number}: {:?} are joined by the accepted {list:?}", joined(&list)));
        }
        seen.forks += forks.len();
        seen.accepted += run.accepted.len();
        seen.joining_refused += run.refused.iter().filter(|list| joined(list).is_some()).count();
    }
    Ok(())
}

/// Such runs, of 200 steps each, have a million pairs.
fn one_number_tells() -> Outcome {
    let mut pairs = Pairs::default();
    lied_to(200, &mut Seen::default(), &mut pairs)?;
    pairs.at_least(1_000_000)
}

/// Such runs, of 70 steps each, have each kind of step often enough.
fn no_fork_is_joined() -> Outcome {
    let mut seen = Seen::default();
    lied_to(70, &mut seen, &mut Pairs::default())?;
    let [own, other, damaged, beyond] = seen.not_made;
    let due = [
        ("forks", seen.forks),
        ("lists accepted", seen.accepted),
        ("joining lists refused", seen.joining_refused),
        ("refusals 16 of a check's counts", own),
        ("refusals 16 of another desk's", other),
        ("refusals 16 of damaged ones", damaged),
        ("refusals 3 of counts beyond the users", beyond),
        ("structures made and never written", seen.lost),
        ("send again", seen.again),
        ("lists accepted that show what is pending", seen.shown_pending),
        ("sent writes", seen.sent[0]),
        ("sent writes that are absent", seen.sent[1]),
    ];
    enough(due.map(|(what, times)| (what.to_string(), times)), 10_000)?;
    enough([("structures made anew with the count of a lost one".to_string(), seen.made_anew)], 5_000)
}

/// Honest users who take turns at an honest server are refused at the last number alone, and never told to send again,
/// whether their files are marked as sent or not. The server starts empty, or, to come by last numbers, with the
/// structures that its users have.
fn turns_are_refused_at_the_last_number_alone() -> Outcome {
    let mut random = Random::new(4_294_967_295);
    let (mut refused, mut accepted, mut pairs) = ([0; 2], [0; 2], Pairs::default());
    for run in 0..1_600 {
        let users = run % USERS + 1;
        let mut honest = Honest::new(users)?;
        if run % 3 != 0 {
            for version in ordered(users, &mut random) {
                let slot = usize::from(version.owner);
                honest.server[1 + RECORD * slot..1 + RECORD * (slot + 1)].copy_from_slice(&version.write());
                honest.desks[slot] = Desk::moved(users, slot, &version.write())?;
                if random.below(2) == 0 {
                    honest.desks[slot].write_pending(&version.write(), Write::Whole)?;
                }
            }
        }
        for _ in 0..40 {
            let user = random.below(users);
            let (own, pending) = (honest.desks[user].own(), usize::from(honest.desks[user].pending()));
            match honest.turn(user, &mut random) {
                Err(Answer::Refused(6, 0, 0)) if own == u32::MAX => refused[pending] += 1,
                Ok(()) if own != u32::MAX => accepted[pending] += 1,
                outcome => return Err(format!("run {run}: user {user} at number {own} has {outcome:?}")),
            }
        }
        pairs.judge(&honest.counted).map_err(|e| format!("run {run}: {e}"))?;
    }
    equal("the pairs that stand apart", pairs.apart, 0)?;
    enough([("pairs of what was signed".to_string(), pairs.all)], 1_000_000)?;
    enough([("refused turns".to_string(), refused[0]), ("refused turns, pending".to_string(), refused[1])], 500)?;
    enough([("accepted turns".to_string(), accepted[0]), ("accepted turns, pending".to_string(), accepted[1])], 15_000)
}

/// A touch after others' turns, at an honest server: the structure is made and written, and the server refuses it with 7
/// at the lowest of them. From then on that client is told to send the same bytes again, which the server refuses again;
/// if the caller has marked them as sent all the same, its checks are 5. The others go on. Where no turn is between, or the
/// client checks again right before the touch, nothing is refused.
fn late_touches() -> Outcome {
    let (mut random, mut pairs) = (Random::new(16), Pairs::default());
    for run in 0..3_000 {
        let users = 2 + run % (USERS - 1);
        let mut honest = Honest::new(users)?;
        let refused = |what: &str, answer: Answer| format!("run {run}: {what} of {users} users has {answer:?}");
        for _ in 0..random.below(20) {
            honest.turn(random.below(users), &mut random).map_err(|e| refused("a turn", e))?;
        }
        let late = random.below(users);
        let mut checked = honest.check(late, &mut random)?;
        let mut between: BTreeSet<usize> =
            (0..random.below(4)).map(|_| other_than(&[late], users, &mut random)).collect();
        for &user in &between {
            honest.turn(user, &mut random).map_err(|e| refused("a turn between", e))?;
        }
        let again = random.below(3) == 0;
        if again {
            checked = honest.check(late, &mut random)?;
            between.clear();
        }
        equal("the check before the touch", checked.answer, ACCEPTED)?;
        let locked_out = !between.is_empty();
        let due = |between: &BTreeSet<usize>| between.first().map_or(ACCEPTED, |&v| Answer::Refused(7, v as u32, 0));
        let last = honest.desks[late].own();
        let record = honest.make(late, &checked.counts, &mut random).map_err(|e| refused("the late touch", e))?;
        equal("the commit of the late touch", honest.commit(&record), due(&between))?;
        equal("its number", honest.desks[late].own(), last + 1)?;
        let marked = locked_out && random.below(2) == 0;
        if marked {
            honest.desks[late].write_sent(Write::Whole)?;
        }
        for _ in 0..5 {
            let user = random.below(users);
            if user != late || !locked_out {
                equal("a turn afterwards", honest.turn(user, &mut random), Ok(()))?;
                between.insert(user);
                continue;
            }
            let said = honest.check(late, &mut random)?;
            if marked {
                equal("a check afterwards", said.answer, Answer::Refused(5, 0, 0))?;
                continue;
            }
            equal("a check afterwards", said.answer, Answer::Again(0, 0))?;
            equal("what is to be sent again", said.again, record)?;
            equal("the commit of what is sent again", honest.commit(&said.again), due(&between))?;
        }
        pairs.judge(&honest.counted).map_err(|e| format!("run {run}: {e}"))?;
    }
    enough([("pairs that stand apart".to_string(), pairs.apart)], 10_000)
}

pub fn checks(runner: &mut Runner) {
    runner.check(
        "runs: 5,000 with a server and users that lie, touches late, twice, with others' counts, cuts: no fork is joined",
        no_fork_is_joined,
    );
    runner.check("runs: 5,000 longer ones of the same: one number tells", one_number_tells);
    runner.check(
        "runs: 1,600 of honest turns, marked as sent or not, refused at 4,294,967,295 alone",
        turns_are_refused_at_the_last_number_alone,
    );
    runner.check("runs: 3,000 late touches at an honest server, which then refuses what is made", late_touches);
}
