//! Turns at an honest server, on the library by itself, that are cut off between any two steps.

use crate::check::Said;
use crate::desks::{Desk, Write};
use crate::ffi::{sundr_server_commit, sundr_server_list_at, sundr_server_make_at, Answer};
use crate::lists::{pick, some_handle};
use crate::random::Random;
use crate::reference::server::SERVER;
use crate::reference::version::{Version, RECORD, USERS};
use crate::runner::{enough, equal, Outcome, Runner};
use std::collections::{BTreeMap, BTreeSet};

pub const ACCEPTED: Answer = Answer::Accepted(0, 0);

/// An honest server, and its users' desks.
pub struct Honest {
    pub desks: Vec<Desk>,
    pub server: [u8; SERVER],
    /// What `make` wrote as pending.
    pub counted: Vec<Version>,
}

impl Honest {
    pub fn new(users: usize) -> Result<Honest, String> {
        let mut server = [0xa5; SERVER];
        unsafe { sundr_server_make_at(users as u8, server.as_mut_ptr(), server.len()) };
        let desks = (0..users).map(|user| Desk::new(users, user)).collect::<Result<_, _>>()?;
        Ok(Honest { desks, server, counted: Vec::new() })
    }

    /// What the server lists, and a client's check of it.
    pub fn check(&self, user: usize, random: &mut Random) -> Result<Said, String> {
        let mut list = vec![0; RECORD * USERS + random.below(3)];
        let answer = unsafe { sundr_server_list_at(self.server.as_ptr(), SERVER, list.as_mut_ptr(), list.len()) };
        let Answer::Accepted(records, _) = Answer::from(answer) else { return Err("the server lists nothing".into()) };
        list.truncate(RECORD * records as usize);
        Ok(self.desks[user].check(list))
    }

    /// A structure is made of a check's counts, and written as pending.
    pub fn make(&mut self, user: usize, counts: &[u32; USERS], random: &mut Random) -> Result<[u8; RECORD], Answer> {
        let record = self.desks[user].make(counts, some_handle(random))?;
        self.desks[user].write_pending(&record, Write::Whole).expect("a pending write");
        self.counted.push(Version::read(&record));
        Ok(record)
    }

    pub fn commit(&mut self, record: &[u8; RECORD]) -> Answer {
        Answer::from(unsafe { sundr_server_commit(self.server.as_mut_ptr(), record.as_ptr(), RECORD, 1) })
    }

    /// One turn: the list, the check of it, the structure made of that check's counts, the pending write, the commit, and
    /// the sent write, which may come whole, not at all, or be missing. Gives what was not accepted.
    pub fn turn(&mut self, user: usize, random: &mut Random) -> Result<(), Answer> {
        let said = self.check(user, random).expect("a list");
        if said.answer != ACCEPTED {
            return Err(said.answer);
        }
        let record = self.make(user, &said.counts, random)?;
        match self.commit(&record) {
            ACCEPTED => self.mark(user, random),
            refused => return Err(refused),
        }
        Ok(())
    }

    fn mark(&mut self, user: usize, random: &mut Random) {
        match random.below(3) {
            0 => (),
            1 => self.desks[user].write_sent(Write::Absent).expect("a sent write"),
            _ => self.desks[user].write_sent(Write::Whole).expect("a sent write"),
        }
    }
}

/// Where the machine dies in a turn.
#[derive(Clone, Copy, Debug, PartialEq)]
enum Cut {
    BeforeMaking,
    BeforeWriting,
    BeforeSending,
    BeforeTheAnswer,
    BeforeMarking,
    Never,
}

/// Turns at an honest server, each cut off anywhere, another handle at each attempt. What is written and was not sent is
/// to be sent again, the same bytes; the server takes them unless others came between. All else goes on as if there had
/// been no cut. No two structures with one own count reach the server.
fn cut_turns() -> Outcome {
    const CUTS: [Cut; 6] = [
        Cut::BeforeMaking,
        Cut::BeforeWriting,
        Cut::BeforeSending,
        Cut::BeforeTheAnswer,
        Cut::BeforeMarking,
        Cut::Never,
    ];
    let mut random = Random::new(17);
    let (mut taken, mut too_late, mut went_on) = (0, 0, 0);
    for run in 0..2_000 {
        let users = 1 + run % USERS;
        let mut honest = Honest::new(users)?;
        let mut reached: BTreeMap<(usize, u32), [u8; RECORD]> = BTreeMap::new();
        // What was written and the server has not, and who has committed since it was made.
        let mut unsent: [Option<[u8; RECORD]>; USERS] = [None; USERS];
        let mut since: [BTreeSet<usize>; USERS] = Default::default();
        // The same user goes on at once, mostly, so that a cut is not always too late.
        let mut user = 0;
        for _ in 0..60 {
            if random.below(3) == 0 || unsent[user].is_some() && !since[user].is_empty() {
                user = random.below(users);
            }
            let cut = pick(&mut random, &CUTS);
            let fails = |e: String| format!("run {run}, user {user} of {users}, {cut:?}: {e}");
            let said = honest.check(user, &mut random)?;
            let record = match unsent[user] {
                Some(record) => {
                    equal("the check", said.answer, Answer::Again(0, 0)).map_err(fails)?;
                    equal("what is to be sent again", said.again, record).map_err(fails)?;
                    equal("the counts", said.counts, [0; USERS]).map_err(fails)?;
                    record
                }
                None => {
                    equal("the check", said.answer, ACCEPTED).map_err(fails)?;
                    equal("what is to be sent again", said.again, [0; RECORD]).map_err(fails)?;
                    went_on += usize::from(honest.desks[user].pending());
                    if cut == Cut::BeforeMaking {
                        continue;
                    }
                    let made = honest.desks[user].make(&said.counts, random.bytes(32).try_into().unwrap());
                    let record = made.map_err(|e| format!("a making step says {e:?}")).map_err(fails)?;
                    let write = if cut == Cut::BeforeWriting { Write::Absent } else { Write::Whole };
                    honest.desks[user].write_pending(&record, write).map_err(fails)?;
                    if write == Write::Absent {
                        continue;
                    }
                    since[user].clear();
                    unsent[user] = Some(record);
                    record
                }
            };
            if cut == Cut::BeforeSending {
                continue;
            }
            let first = *reached.entry((user, Version::read(&record).own())).or_insert(record);
            equal("what reaches the server with one own count", record, first).map_err(fails)?;
            let due = since[user].first().map_or(ACCEPTED, |&v| Answer::Refused(7, v as u32, 0));
            equal("the commit", honest.commit(&record), due).map_err(fails)?;
            if due != ACCEPTED {
                too_late += 1;
                continue;
            }
            taken += usize::from(said.answer == Answer::Again(0, 0));
            unsent[user] = None;
            for v in (0..users).filter(|&v| v != user) {
                since[v].insert(user);
            }
            match cut {
                Cut::BeforeTheAnswer => (),
                Cut::BeforeMarking => honest.desks[user].write_sent(Write::Absent).map_err(fails)?,
                _ => honest.desks[user].write_sent(Write::Whole).map_err(fails)?,
            }
        }
    }
    let seen = [("sent again, and taken", taken), ("sent again too late", too_late), ("pending, and shown", went_on)];
    enough(seen.map(|(what, times)| (what.to_string(), times)), 5_000)
}

/// A run by hand, two users: A's machine dies between making and writing, and again between writing and sending.
fn a_run_with_two_cuts() -> Outcome {
    let two = |a: u32, b: u32| std::array::from_fn(|user| [a, b].get(user).copied().unwrap_or(0));
    let (mut a, mut b) = (Desk::new(2, 0)?, Desk::new(2, 1)?);
    let empty = a.check(vec![]);
    equal("A's first check", (empty.answer, empty.counts), (ACCEPTED, two(1, 0)))?;
    let lost = a.make(&empty.counts, [1; 32]).map_err(|e| format!("A's first making step says {e:?}"))?;
    a.write_pending(&lost, Write::Absent)?;
    let kept = a.make(&empty.counts, [2; 32]).map_err(|e| format!("A's second making step says {e:?}"))?;
    a.write_pending(&kept, Write::Whole)?;
    assert!(lost != kept, "two handles make one structure");
    let again = a.check(vec![]);
    equal("a list without A", (again.answer, again.again), (Answer::Again(0, 0), kept))?;
    equal("a third touch", a.make(&empty.counts, [3; 32]), Err(Answer::Refused(16, 0, 0)))?;
    let by_b = b.check(kept.to_vec());
    equal("B's check", (by_b.answer, by_b.counts), (ACCEPTED, two(1, 1)))?;
    let of_b = b.make(&by_b.counts, [0; 32]).map_err(|e| format!("B's making step says {e:?}"))?;
    b.write_pending(&of_b, Write::Whole)?;
    for sent in [false, true] {
        if sent {
            a.write_sent(Write::Whole)?;
        }
        let both = a.check([kept, of_b].concat());
        equal("A's check of both", (both.answer, both.counts), (ACCEPTED, two(2, 1)))?;
    }
    equal("an older list", a.check(vec![]).answer, Answer::Refused(5, 0, 0))
}

pub fn checks(runner: &mut Runner) {
    runner.check("turns: 2,000 runs of 60, each cut off anywhere: what was not sent is sent again", cut_turns);
    runner.check("turns: a run by hand with two cuts", a_run_with_two_cuts);
}
