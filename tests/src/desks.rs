//! A desk with its memory file, on the library alone: what it checks, makes and writes. A write is whole or absent, and
//! what has not been written is lost when the machine dies.

use crate::check::{self, Said};
use crate::create;
use crate::ffi::{sundr_memory_over, sundr_memory_pend, sundr_memory_sent, Answer};
use crate::lists::{pick, some_handle, Request};
use crate::makings::Making;
use crate::random::Random;
use crate::reference::memory::{FILE, NONE, PENDING};
use crate::reference::version::{Version, RECORD, USERS};
use crate::runner::{enough, equal, Outcome, Runner};

/// "One write is whole or absent."
#[derive(Clone, Copy, Debug, PartialEq)]
pub enum Write {
    Whole,
    Absent,
}

#[derive(Clone, Debug)]
pub struct Desk {
    pub users: u8,
    pub user: u8,
    /// As it is on the disk.
    pub file: [u8; FILE],
}

impl Desk {
    /// A desk with a file of what was remembered, nothing for a new one.
    pub fn moved(users: usize, user: usize, old: &[u8]) -> Result<Desk, String> {
        let mut file = [0xa5; FILE];
        let answer =
            unsafe { sundr_memory_over(users as u8, user as u8, old.as_ptr(), old.len(), file.as_mut_ptr(), FILE) };
        equal("a file moved over", Answer::from(answer), Answer::Accepted(0, 0))?;
        Ok(Desk { users: users as u8, user: user as u8, file })
    }

    pub fn new(users: usize, user: usize) -> Result<Desk, String> {
        Desk::moved(users, user, &[])
    }

    /// What the file remembers.
    pub fn held(&self) -> Option<Version> {
        (self.file[1] != NONE).then(|| Version::read(&self.file[2..]))
    }

    /// Its own count, 0 for none.
    pub fn own(&self) -> u32 {
        self.held().map_or(0, |version| version.own())
    }

    pub fn pending(&self) -> bool {
        self.file[1] == PENDING
    }

    /// The check of a list whose records are all marked 1.
    pub fn check(&self, list: Vec<u8>) -> Said {
        let marks = vec![1; list.len() / RECORD];
        check::ask(&Request {
            users: self.users,
            user: self.user,
            file: self.file.to_vec(),
            list,
            marks,
            counts_len: USERS,
            again_len: RECORD,
        })
    }

    /// The making step by these counts: the new structure, or the refusal.
    pub fn make(&self, counts: &[u32; USERS], handle: [u8; 32]) -> Result<[u8; RECORD], Answer> {
        let making = Making {
            users: self.users,
            user: self.user,
            file: self.file.to_vec(),
            counts: counts.to_vec(),
            handle: handle.to_vec(),
            out_len: RECORD,
        };
        match create::answer(&making) {
            (Answer::Accepted(0, 0), out) => Ok(out.try_into().unwrap()),
            (_, out) if out.iter().any(|&byte| byte != 0) => panic!("a refused making step wrote"),
            (refused, _) => Err(refused),
        }
    }

    /// What was made is written as pending. A making step's structure is never refused.
    pub fn write_pending(&mut self, record: &[u8; RECORD], write: Write) -> Result<(), String> {
        let mut file = [0xa5; FILE];
        let answer = unsafe {
            sundr_memory_pend(self.users, self.user, record.as_ptr(), record.len(), file.as_mut_ptr(), file.len())
        };
        equal("what was made, as pending", Answer::from(answer), Answer::Accepted(0, 0))?;
        equal("the pending file", file, [&[7, 1], &record[..]].concat().try_into().unwrap())?;
        if write == Write::Whole {
            self.file = file;
        }
        Ok(())
    }

    /// The file as it stands is marked as sent, which is never refused.
    pub fn write_sent(&mut self, write: Write) -> Result<(), String> {
        let mut file = self.file;
        let answer = unsafe { sundr_memory_sent(self.users, self.user, file.as_mut_ptr(), file.len()) };
        equal("a file marked as sent", Answer::from(answer), Answer::Accepted(0, 0))?;
        if write == Write::Whole {
            self.file = file;
        }
        Ok(())
    }
}

/// One desk, from a file that is none or moved over, any counts given to its making steps, cut at will: what was counted
/// has own counts that rise by one, from that of the first file on.
fn one_structure_for_each_count() -> Outcome {
    let mut random = Random::new(100);
    let (mut twice, mut at_the_last) = (0, 0);
    for number in 0..10_000 {
        let users = 1 + random.below(USERS);
        let user = random.below(users);
        let mut counts = [0; USERS];
        counts[..users].fill_with(|| random.below(4) as u32);
        counts[user] = pick(&mut random, &[1, 2, 254, 255, 65_535, u32::MAX - 2, u32::MAX - 1, u32::MAX]);
        let old = Version::new(user as u8, some_handle(&mut random), counts);
        let mut desk = match random.below(3) {
            0 => Desk::new(users, user)?,
            _ => Desk::moved(users, user, &old.write())?,
        };
        let mut last = desk.own();
        let mut made_at_last: Option<[u8; RECORD]> = None;
        for _ in 0..20 {
            let mut counts = counts;
            counts[user] = match random.below(4) {
                0 => pick(&mut random, &[0, 1, last, last.wrapping_sub(1), last.wrapping_add(2), u32::MAX]),
                _ => last.wrapping_add(1),
            };
            let made = desk.make(&counts, some_handle(&mut random));
            let due = match (last, counts[user]) {
                (u32::MAX, _) => Some(Answer::Refused(6, 0, 0)),
                (_, own) => (own != last.wrapping_add(1)).then_some(Answer::Refused(16, 0, 0)),
            };
            equal("a making step", made.err(), due).map_err(|e| format!("run {number}: {e} at {last}"))?;
            at_the_last += usize::from(last == u32::MAX);
            if let Ok(record) = made {
                let write = pick(&mut random, &[Write::Whole, Write::Absent]);
                desk.write_pending(&record, write)?;
                if write == Write::Whole {
                    twice += usize::from(made_at_last.is_some_and(|before| before != record));
                    made_at_last = None;
                    equal("the own count of what is counted", u64::from(desk.own()), u64::from(last) + 1)?;
                    equal("what is counted", desk.held(), Some(Version::read(&record)))?;
                    last = desk.own();
                } else {
                    made_at_last = Some(record);
                }
            }
            let held = desk.held();
            match random.below(3) {
                0 => (),
                1 => desk.write_sent(Write::Absent)?,
                _ => {
                    desk.write_sent(Write::Whole)?;
                    assert!(!desk.pending(), "a file that is marked as sent is pending");
                }
            }
            equal("what a file holds after a sent write", desk.held(), held)?;
        }
    }
    enough(
        [("counts made twice".to_string(), twice), ("making steps at the last count".to_string(), at_the_last)],
        10_000,
    )
}

pub fn checks(runner: &mut Runner) {
    runner.check(
        "desks: 10,000 runs of one, cut at will: one structure is counted for each own count",
        one_structure_for_each_count,
    );
}
