//! A lying server over time: what it could show to a client, made of what its users signed.

use crate::lists::{pick, some_handle, Draft};
use crate::random::Random;
use crate::reference::version::{Version, USERS};

/// A version structure for each user, or none: a list as the server keeps it.
type View = [Option<Version>; USERS];

/// The views that the server keeps to choose from.
const VIEWS: usize = 24;

pub struct History {
    users: usize,
    /// Those who sign what they accept, and nothing else.
    honest: [bool; USERS],
    /// The last structure that each honest user signed, and whether its file still has it pending.
    pub memories: View,
    pub pending: [bool; USERS],
    /// The last one of each that the server got.
    received: View,
    views: Vec<View>,
}

impl History {
    pub fn new(users: usize, honest: [bool; USERS]) -> History {
        let none = [None; USERS];
        History { users, honest, memories: none, pending: [false; USERS], received: none, views: vec![none] }
    }

    /// What the server sends to an honest user, whose memory goes with it. Entries of honest users
    /// are ones that they signed.
    pub fn send(&self, user: usize, random: &mut Random) -> Draft {
        // The last view that the user could accept, if it is still kept.
        let current = self.views.iter().rev().find(|view| view[user] == self.memories[user]);
        let mut view = match (random.below(10), current) {
            (0..=5, Some(view)) => *view,
            _ => pick(random, &self.views),
        };
        match random.below(8) {
            // Entries of another view, fork or not.
            0 | 1 => {
                let other = pick(random, &self.views);
                (0..USERS).filter(|_| random.below(2) == 0).for_each(|v| view[v] = other[v]);
            }
            // One entry of another view.
            2 | 3 => {
                let other = random.below(self.users);
                view[other] = pick(random, &self.views)[other];
            }
            // A hidden user.
            4 => view[random.below(self.users)] = None,
            _ => (),
        }
        // Mostly the user's own entry is as it remembers it, if the server has that.
        if random.below(8) != 0 {
            view[user] = self.received[user];
        }
        for v in (0..self.users).filter(|&v| !self.honest[v]) {
            if random.below(3) == 0 {
                view[v] = forged(v, &view, random);
            }
        }
        let list = view.iter().flatten().copied().collect();
        let (memory, pending) = (self.memories[user], self.pending[user]);
        Draft { users: self.users as u8, user: user as u8, memory, pending, list }
    }

    /// A user accepted a list and signed the new structure, which the server keeps beside it. The user's file has it
    /// pending, or is marked as sent by now.
    pub fn accept(&mut self, user: usize, list: &[Version], new: Version, random: &mut Random) {
        self.sign(user, new);
        self.pending[user] = random.below(2) == 0;
        self.receive(user, list, new, random);
    }

    /// A user signed this. The server has not seen it.
    pub fn sign(&mut self, user: usize, new: Version) {
        self.memories[user] = Some(new);
    }

    /// The server gets what a user signed on this list.
    pub fn receive(&mut self, user: usize, list: &[Version], new: Version, random: &mut Random) {
        self.received[user] = Some(new);
        let mut view = [None; USERS];
        for entry in list {
            view[usize::from(entry.owner)] = Some(*entry);
        }
        view[user] = Some(new);
        if self.views.len() == VIEWS {
            self.views.remove(random.below(VIEWS));
        }
        self.views.push(view);
    }
}

/// A structure as a dishonest user may sign it: one that fits the view, or nearly.
fn forged(owner: usize, view: &View, random: &mut Random) -> Option<Version> {
    let mut counts: [u32; USERS] = std::array::from_fn(|v| view[v].map_or(0, |entry| entry.own()));
    match random.below(4) {
        // Over all that others count, so as to stand above a fork.
        0 => {
            for entry in view.iter().flatten() {
                (0..USERS).for_each(|v| counts[v] = counts[v].max(entry.counts[v]));
            }
        }
        // Under it.
        1 => {
            for entry in view.iter().flatten() {
                (0..USERS).for_each(|v| counts[v] = counts[v].min(entry.counts[v]));
            }
        }
        _ => (),
    }
    counts[owner] = (counts[owner] + random.below(2) as u32).max(1);
    if random.below(4) == 0 {
        let at = random.below(USERS);
        counts[at] = counts[at].saturating_sub(1).max(u32::from(at == owner));
    }
    (random.below(8) != 0).then(|| Version::new(owner as u8, some_handle(random), counts))
}
