//! Inputs of a client's making step: the counts that a check gave, this one, an older one or another desk's, and what a
//! mistaken caller or a broken line makes of them.

use crate::check;
use crate::damages::{damage_file, other_length};
use crate::lists::{other_than, pick, some_count, some_handle, Draft, Request};
use crate::random::Random;
use crate::reference::memory::{Memory, FILE, NONE, PENDING, SENT};
use crate::reference::version::{Version, RECORD, USERS};

/// Whose check gave the counts of a making step, just as they are.
#[derive(Clone, Copy, PartialEq)]
pub enum Source {
    Latest,
    Older,
    OtherDesk,
}

/// The arguments of one making step.
#[derive(Clone, Debug)]
pub struct Making {
    pub users: u8,
    pub user: u8,
    pub file: Vec<u8>,
    pub counts: Vec<u32>,
    pub handle: Vec<u8>,
    pub out_len: usize,
}

/// What this user's client checks at an honest server with this list: its own structure is the one that it remembers, sent
/// or pending as it is in the draft.
pub fn asks(user: usize, at: &Draft) -> Request {
    let memory = at.list.iter().find(|version| usize::from(version.owner) == user).copied();
    Draft { users: at.users, user: user as u8, memory, pending: at.pending, list: at.list.clone() }.request()
}

/// This user's turn there, unless it is refused, at the last number: what it makes takes its place in the list.
fn turn(user: usize, at: &mut Draft, random: &mut Random) {
    if let Some(counts) = check::counts_due(&asks(user, at)) {
        at.list.retain(|version| usize::from(version.owner) != user);
        at.list.push(Version::new(user as u8, some_handle(random), counts));
        at.list.sort_by_key(|version| version.owner);
    }
}

impl Making {
    /// The making step that goes with this check, which gave these counts.
    pub fn after(request: &Request, counts: [u32; USERS], random: &mut Random) -> Making {
        Making {
            users: request.users,
            user: request.user,
            file: request.file.clone(),
            counts: counts.to_vec(),
            handle: some_handle(random).to_vec(),
            out_len: RECORD,
        }
    }

    /// The one after an honest server's list. A check that is refused, at the last number, has given zeros.
    pub fn honest(random: &mut Random) -> Making {
        let request = Draft::honest(random).request();
        let counts = check::counts_due(&request).unwrap_or([0; USERS]);
        Making::after(&request, counts, random)
    }

    /// One with the counts of an older check: since then this user made a structure, others did, or both.
    fn late(random: &mut Random) -> Making {
        loop {
            let mut draft = Draft::honest(random);
            let (users, own) = (usize::from(draft.users), usize::from(draft.user));
            let Some(older) = check::counts_due(&asks(own, &draft)) else { continue };
            for _ in 0..1 + random.below(3) {
                let user = if random.below(4) == 0 { own } else { random.below(users) };
                turn(user, &mut draft, random);
            }
            let request = asks(own, &draft);
            if check::counts_due(&request) != Some(older) {
                return Making::after(&request, older, random);
            }
        }
    }

    /// One with the counts that another user's check gave, of the same list or of one some turns before.
    fn of_another_desk(random: &mut Random) -> Making {
        loop {
            let mut draft = Draft::honest(random);
            let (users, own) = (usize::from(draft.users), usize::from(draft.user));
            if users == 1 {
                continue;
            }
            let other = other_than(&[own], users, random);
            let given = check::counts_due(&asks(other, &draft));
            for _ in 0..random.below(3) {
                turn(random.below(users), &mut draft, random);
            }
            if let Some(counts) = given {
                return Making::after(&asks(own, &draft), counts, random);
            }
        }
    }

    /// What is remembered, if the file has its length and does not say none.
    pub fn remembered(&self) -> Option<Version> {
        (self.file.len() == FILE && self.file[1] != NONE).then(|| Version::read(&self.file[2..]))
    }

    /// The own count that is remembered, 0 for none.
    pub fn last(&self) -> u32 {
        self.remembered().map_or(0, |memory| memory.counts[usize::from(self.user) % USERS])
    }

    /// Makes what is remembered another, if there is one.
    fn change_memory(&mut self, change: impl FnOnce(&mut Version)) {
        if let Some(mut memory) = self.remembered() {
            change(&mut memory);
            self.file[2..].copy_from_slice(&memory.write());
        }
    }

    /// A mistake of a caller, which may leave a making step that is still good.
    pub fn mistake(&mut self, random: &mut Random) {
        let (users, own) = (usize::from(self.users), usize::from(self.user));
        match random.below(18) {
            // Off by one, or more.
            0 => self.counts[own] = self.counts[own].wrapping_add(1),
            1 | 2 => self.counts[own] = self.counts[own].wrapping_sub(1),
            3 => self.counts[own] ^= 1 << random.below(32),
            // A count where there is no user.
            4 | 5 if users < USERS => {
                let count = if random.below(2) == 0 { 1 << random.below(32) } else { some_count(random) };
                self.counts[users + random.below(USERS - users)] = count;
                if random.below(4) == 0 {
                    self.change_memory(|memory| memory.counts[own] = u32::MAX);
                }
            }
            // At the last count: whatever is said to be next.
            6 | 7 => {
                self.change_memory(|memory| memory.counts[own] = u32::MAX);
                self.counts[own] = pick(random, &[0, 0, 1, u32::MAX - 1, u32::MAX]);
            }
            8 => {
                self.change_memory(|memory| memory.counts[own] = u32::MAX - 1);
                self.counts[own] = pick(random, &[u32::MAX, u32::MAX, u32::MAX - 1, 0]);
            }
            // Fewer operations of others than are remembered, or any number.
            9 => {
                for v in (0..users).filter(|&v| v != own) {
                    self.counts[v] = if random.below(2) == 0 { 0 } else { some_count(random) };
                }
            }
            // What a refused check gives.
            10 => self.counts.fill(0),
            // Another user's memory, well formed or not; or none.
            11 => {
                let owner = random.below(users);
                self.change_memory(|memory| {
                    memory.owner = owner as u8;
                    memory.counts[owner] = memory.counts[owner].max(1);
                });
            }
            12 => {
                self.file = Memory::Nothing.write().to_vec();
                if random.below(2) == 0 {
                    self.counts[own] = 1;
                }
            }
            13 => {
                let kind = pick(random, &[0, 2, 3, 129, 255]);
                self.change_memory(|memory| memory.kind = kind);
            }
            14 => self.change_memory(|memory| memory.counts[own] = 0),
            // The file says sent, pending or none of what is behind it.
            15 => self.file[1] = pick(random, &[SENT, PENDING]),
            16 => self.file[1] = pick(random, &[NONE, NONE, 3, 255]),
            _ => {
                let at = random.below(USERS);
                self.change_memory(|memory| memory.counts[at] ^= 1);
            }
        }
    }

    /// One argument out of its range, or of a wrong length, or bytes that are damaged.
    pub fn damage(&mut self, random: &mut Random) {
        match random.below(13) {
            0 => self.users = pick(random, &[0, 17, 18, 32, 128, 255]),
            1 => self.user = pick(random, &[self.users, self.users.saturating_add(1), 16, 255]),
            2 => self.users = 1 + random.below(USERS) as u8,
            3 => self.user = random.below(USERS) as u8,
            5 | 6 => {
                let len = pick(random, &[0, 1, 4, 15, 15, 15, 17, 17, 32, 64, 98]);
                self.counts.resize(len, 0);
            }
            7 => other_length(&mut self.handle, 32, random),
            8 | 9 => self.out_len = pick(random, &[0, 1, 34, 97, 97, 99, 99, 100, 196, 1_568]),
            _ => damage_file(&mut self.file, random),
        }
    }

    /// One with the counts of a check, up to two mistakes and two damages. Where there are none of them: of whose check.
    pub fn any(random: &mut Random) -> (Making, Option<Source>) {
        let (mut making, source) = match random.below(8) {
            0 => (Making::late(random), Source::Older),
            1 => (Making::of_another_desk(random), Source::OtherDesk),
            _ => (Making::honest(random), Source::Latest),
        };
        // Counts of another check are a mistake by themselves.
        let mistakes = if source == Source::Latest { pick(random, &[0, 1, 1, 1, 1, 1, 2, 2]) } else { 0 };
        let damages = pick(random, &[0, 0, 0, 0, 0, 0, 1, 1, 1, 2]);
        (0..mistakes).for_each(|_| making.mistake(random));
        (0..damages).for_each(|_| making.damage(random));
        (making, (mistakes + damages == 0).then_some(source))
    }
}
