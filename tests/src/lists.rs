//! Inputs of a client's check: lists that an honest server could send, and what a lying one, a
//! broken line or a careless caller makes of them.

use crate::random::Random;
use crate::reference::memory::{Memory, FILE, NONE};
use crate::reference::version::{Version, RECORD, USERS};

/// The arguments of one check.
#[derive(Clone)]
pub struct Request {
    pub users: u8,
    pub user: u8,
    pub file: Vec<u8>,
    pub list: Vec<u8>,
    pub marks: Vec<u8>,
    pub counts_len: usize,
    pub again_len: usize,
}

/// A check's arguments before they are bytes.
pub struct Draft {
    pub users: u8,
    pub user: u8,
    pub memory: Option<Version>,
    /// Whether the file says so of what is remembered.
    pub pending: bool,
    pub list: Vec<Version>,
}

/// One of the items.
pub fn pick<T: Copy>(random: &mut Random, items: &[T]) -> T {
    items[random.below(items.len())]
}

/// A user below `users` that is none of these.
pub fn other_than(these: &[usize], users: usize, random: &mut Random) -> usize {
    loop {
        let user = random.below(users);
        if !these.contains(&user) {
            return user;
        }
    }
}

pub fn some_handle(random: &mut Random) -> [u8; 32] {
    match random.below(4) {
        0 => [0; 32],
        _ => random.bytes(32).try_into().unwrap(),
    }
}

/// A number of operations: mostly few, at times near a limit of the four bytes.
pub fn some_count(random: &mut Random) -> u32 {
    match random.below(16) {
        0 => u32::MAX - random.below(3) as u32,
        1 => pick(random, &[0xff, 0x100, 0xffff, 0x1_0000, 0xff_ffff, 0x100_0000, 0x7fff_ffff, 0x8000_0000]),
        2 => random.next() as u32,
        _ => random.below(6) as u32,
    }
}

/// Structures in the order in which their owners, each once, signed them: each counts all that were
/// there before it. Then by owner, as a list has them.
pub fn ordered(users: usize, random: &mut Random) -> Vec<Version> {
    let least = random.below(3).min(1) as u32;
    let own: Vec<u32> = (0..users).map(|_| some_count(random).max(least)).collect();
    let mut counts = [0; USERS];
    if random.below(2) == 0 {
        for user in 0..users {
            counts[user] = (random.next() % (u64::from(own[user]) + 1)) as u32;
        }
    }
    // A user without an operation is absent, and counted by nobody.
    let mut owners: Vec<usize> = (0..users).filter(|&user| own[user] != 0).collect();
    let mut list = Vec::new();
    while !owners.is_empty() {
        let owner = owners.swap_remove(random.below(owners.len()));
        counts[owner] = own[owner];
        list.push(Version::new(owner as u8, some_handle(random), counts));
    }
    list.sort_by_key(|version| version.owner);
    list
}

impl Draft {
    /// What a client gets from an honest server.
    pub fn honest(random: &mut Random) -> Draft {
        let users = pick(random, &[1, 2, 2, 3, 3, 4, 5, 8, 12, 15, 16, 16, 16]);
        let user = random.below(users) as u8;
        let list = ordered(users, random);
        let memory = list.iter().find(|version| version.owner == user).copied();
        Draft { users: users as u8, user, memory, pending: random.below(2) == 0, list }
    }

    /// A list that has a structure of each user; the client's own is its memory, sent or pending.
    pub fn whole(list: Vec<Version>, user: usize, random: &mut Random) -> Draft {
        let memory = Some(list[user]);
        Draft { users: list.len() as u8, user: user as u8, memory, pending: random.below(2) == 0, list }
    }

    /// The client has made a structure, or several, that the list does not show: mostly one, and it is pending.
    pub fn lose(&mut self, random: &mut Random) {
        let own = usize::from(self.user);
        let made = pick(random, &[1, 1, 1, 1, 1, 1, 2, 3]);
        let mut new = self.memory.unwrap_or(Version::new(self.user, [0; 32], [0; USERS]));
        new.counts[own] = new.counts[own].saturating_add(made);
        new.handle = some_handle(random);
        self.memory = Some(new);
        self.pending = random.below(6) != 0;
    }

    /// The most operations of each user that a listed structure counts.
    fn most(&self) -> [u32; USERS] {
        std::array::from_fn(|user| self.list.iter().map(|version| version.counts[user]).max().unwrap_or(0))
    }

    /// A change of one listed structure. Where it is the client's own, mostly the memory's too.
    fn alter(&mut self, i: usize, random: &mut Random, change: impl FnOnce(&mut Version)) {
        change(&mut self.list[i]);
        if self.list[i].owner == self.user && random.below(4) != 0 {
            self.memory = Some(self.list[i]);
        }
    }

    /// A lie, which may leave a list that is still good.
    pub fn lie(&mut self, random: &mut Random) {
        let users = usize::from(self.users);
        let (user, other) = (random.below(users), random.below(users));
        let own = usize::from(self.user);
        let next = self.memory.map_or(1, |memory| memory.own().saturating_add(1));
        if self.list.is_empty() {
            match random.below(4) {
                0 => self.memory = Some(Version::new(self.user, some_handle(random), [1; USERS])),
                1 => self.lose(random),
                _ => self.list.push(Version::new(user as u8, some_handle(random), [some_count(random); USERS])),
            }
            return;
        }
        let n = self.list.len();
        let (i, j) = (random.below(n), random.below(n));
        match random.below(28) {
            // One count is another.
            0 => {
                let count = some_count(random);
                self.alter(i, random, |version| version.counts[user] = count);
            }
            1 => self.alter(i, random, |version| version.counts[user] = version.counts[user].saturating_add(1)),
            2 => self.alter(i, random, |version| version.counts[user] = version.counts[user].saturating_sub(1)),
            // A user is hidden.
            3 => drop(self.list.remove(i)),
            4 => self.list.retain(|version| usize::from(version.owner) == own || random.below(2) == 0),
            // The client's own structure is not the remembered one, or one of the two is missing.
            5 => match random.below(3) {
                0 => self.memory = None,
                1 => self.list.retain(|version| usize::from(version.owner) != own),
                _ => {
                    let at = random.below(32);
                    if let Some(memory) = &mut self.memory {
                        memory.handle[at] ^= 1 << random.below(8);
                    }
                }
            },
            6 => {
                if let Some(memory) = &mut self.memory {
                    memory.counts[user] = some_count(random);
                }
            }
            // Two structures with equal counts.
            7 => {
                let counts = self.list[i].counts;
                self.alter(j, random, |version| version.counts = counts);
            }
            // Two structures apart.
            8 | 9 => {
                let (a, b) = (self.list[i].counts, self.list[j].counts);
                self.alter(i, random, |version| version.counts[user] = b[user].saturating_add(1));
                self.alter(j, random, |version| version.counts[other] = a[other].saturating_add(1));
            }
            // One that counts the client's next operation, and perhaps all there is.
            10 => {
                let most = self.most();
                let all = random.below(2) == 0;
                self.alter(i, random, |version| {
                    if all {
                        version.counts = most;
                    }
                    version.counts[own] = next;
                });
            }
            // One above all that there is, the last in the list perhaps.
            11 => {
                let most = self.most();
                let i = pick(random, &[i, n - 1]);
                self.alter(i, random, |version| {
                    version.counts = most;
                    version.counts[user] = version.counts[user].saturating_add(1);
                });
            }
            // The client's own number is at the end.
            12 | 26 | 27 => {
                let last = u32::MAX - random.below(2) as u32;
                if let Some(i) = self.list.iter().position(|version| usize::from(version.owner) == own) {
                    self.alter(i, random, |version| version.counts[own] = last);
                }
            }
            // Owners not ascending.
            13 => self.list.swap(i, j),
            14 => {
                let version = self.list[i];
                self.list.insert(j, version);
            }
            // Malformed: another kind or owner, no own operation, a count where there is no user.
            15 => {
                let kind = pick(random, &[0, 2, 3, 4, 129, 255]);
                self.alter(i, random, |version| version.kind = kind);
            }
            16 => {
                let owner = pick(random, &[users as u8, user as u8, 15, 16, 255]);
                self.alter(i, random, |version| version.owner = owner);
            }
            17 => self.alter(i, random, |version| version.counts[usize::from(version.owner) % USERS] = 0),
            18 => {
                let at = users + random.below(USERS + 1 - users);
                self.alter(i, random, |version| version.counts[at % USERS] ^= 1);
            }
            // What the client made last is not shown.
            19..=22 => self.lose(random),
            // The first that it made, or one of its first.
            23 => {
                self.list.retain(|version| usize::from(version.owner) != own);
                self.memory = None;
                self.lose(random);
            }
            24 => self.pending = !self.pending,
            _ => {
                if let Some(memory) = &mut self.memory {
                    match random.below(4) {
                        0 => memory.kind = random.next() as u8,
                        1 => memory.owner = pick(random, &[user as u8, users as u8, 16, 255]),
                        2 => memory.counts[own] = 0,
                        _ => memory.counts[USERS - 1] ^= 1,
                    }
                }
            }
        }
    }

    /// The client's memory file.
    pub fn file(&self) -> Memory {
        match self.memory {
            None => Memory::Nothing,
            Some(memory) if self.pending => Memory::Pending(memory),
            Some(memory) => Memory::Sent(memory),
        }
    }

    pub fn request(&self) -> Request {
        Request {
            users: self.users,
            user: self.user,
            file: self.file().write().to_vec(),
            list: self.list.iter().flat_map(Version::write).collect(),
            marks: vec![1; self.list.len()],
            counts_len: USERS,
            again_len: RECORD,
        }
    }
}

impl Request {
    /// The structure in the file, if there are its bytes.
    pub fn remembered(&self) -> Option<Version> {
        (self.file.len() == FILE && self.file[1] != NONE).then(|| Version::read(&self.file[2..]))
    }

    /// What the client would have brought before there were files: what is behind the state, or nothing.
    pub fn old_memory(&self) -> Vec<u8> {
        match self.file[..] {
            [_, NONE, ..] => Vec::new(),
            _ => self.file.get(2..).unwrap_or(&[]).to_vec(),
        }
    }

    /// The list's entry of the client's own.
    pub fn entry(&self) -> Option<Version> {
        self.list.chunks_exact(RECORD).find(|record| record[1] == self.user).map(Version::read)
    }

    /// An honest list with up to three lies and two damages.
    pub fn any(random: &mut Random) -> Request {
        let mut draft = Draft::honest(random);
        for _ in 0..pick(random, &[0, 1, 1, 1, 1, 2, 2, 3]) {
            draft.lie(random);
        }
        let mut request = draft.request();
        for _ in 0..pick(random, &[0, 0, 0, 0, 0, 0, 1, 1, 1, 2]) {
            request.damage(random);
        }
        request
    }
}
