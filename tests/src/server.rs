//! sundr_server_make_at, sundr_server_list_at and sundr_server_commit against the second implementation.

use crate::ffi::{sundr_server_commit, sundr_server_list_at, sundr_server_make_at, Answer};
use crate::guarded::Guarded;
use crate::lists::{ordered, pick, some_count, some_handle};
use crate::random::Random;
use crate::reference::server::{Server, SERVER};
use crate::reference::version::{Version, RECORD, USERS};
use crate::reference::Refusal;
use crate::runner::{equal, hex, Outcome, Runner};

/// A server in the library's hands, and the second implementation's beside it.
struct Pair {
    lent: Guarded,
    reference: Server,
}

impl Pair {
    fn new(reference: Server, random: &mut Random) -> Pair {
        Pair { lent: Guarded::new(&reference.bytes(), random), reference }
    }

    /// The library's server is the other one, byte for byte.
    fn same(&self) -> Outcome {
        self.lent.kept_guards().map_err(|e| format!("server: {e}"))?;
        same_bytes("server", self.lent.content(), &self.reference.bytes())
    }

    /// One listing into a buffer of this length, judged.
    fn list(&mut self, out_len: usize, random: &mut Random) -> Outcome {
        let before = random.bytes(out_len);
        let mut out = Guarded::new(&before, random);
        let answer =
            unsafe { sundr_server_list_at(self.lent.pointer(), self.lent.len(), out.pointer_mut(), out.len()) };
        let mut due = before;
        let accepted = self.reference.list(&mut due);
        self.same()?;
        out.kept_guards().map_err(|e| format!("out: {e}"))?;
        equal("the answer to a listing", Answer::from(answer), Answer::from(accepted.map(|records| (records, 0))))?;
        same_bytes("out", out.content(), &due)
    }

    /// One commit, judged; gives whether it is refused.
    fn commit(&mut self, record: &[u8], mark: u8, random: &mut Random) -> Result<Result<(), Refusal>, String> {
        let before = self.reference.clone();
        let lent = Guarded::new(record, random);
        let answer = unsafe { sundr_server_commit(self.lent.pointer_mut(), lent.pointer(), lent.len(), mark) };
        let accepted = self.reference.commit(record, mark);
        let judged = || {
            lent.unaltered().map_err(|e| format!("record: {e}"))?;
            equal("the answer to a commit", Answer::from(answer), Answer::from(accepted.map(|()| (0, 0))))?;
            self.same()
        };
        judged().map_err(|e| {
            let slots = before.slots.map(|slot| hex(&slot));
            format!("{e}; server for {} users with {slots:?}, record {}, mark {mark}", before.users, hex(record))
        })?;
        Ok(accepted)
    }
}

/// An error unless the bytes are those due, with the first that differ.
fn same_bytes(what: &str, got: &[u8], due: &[u8]) -> Outcome {
    match (0..due.len()).find(|&i| got[i] != due[i]) {
        None => Ok(()),
        Some(i) => Err(format!("{what}: byte {i} is {}, not {}", got[i], due[i])),
    }
}

/// A record that the server takes, if it holds what it was given: all its numbers, and the next of the owner.
fn next_record(server: &Server, random: &mut Random) -> Version {
    let users = usize::from(server.users).clamp(1, USERS);
    let owner = random.below(users);
    let mut counts = std::array::from_fn(|user| if user < users { server.own(user) } else { 0 });
    counts[owner] = counts[owner].saturating_add(1);
    Version::new(owner as u8, some_handle(random), counts)
}

/// What a client that lies or lags, or a broken line, makes of a record.
fn altered(version: Version, server: &Server, random: &mut Random) -> (Vec<u8>, u8) {
    let mut version = version;
    let user = random.below(USERS);
    let own = usize::from(version.owner);
    match random.below(12) {
        0 => version.counts[user] = some_count(random),
        1 => version.counts[user] = version.counts[user].saturating_add(1),
        2 => version.counts[user] = version.counts[user].saturating_sub(1),
        3 => version.counts[own] = pick(random, &[0, 1, server.own(own), version.own().saturating_add(1), u32::MAX]),
        4 => version.owner = pick(random, &[server.users, user as u8, 15, 16, 255]),
        5 => version.kind = random.next() as u8,
        6 => version = Version::read(&server.slots[user]),
        _ => (),
    }
    let mut record = version.write().to_vec();
    let mut mark = 1;
    match random.below(12) {
        0 => record.resize(pick(random, &[0, 1, 34, 97, 99, 100, 196, 1_568]), 0),
        1 => record[random.below(RECORD)] = random.next() as u8,
        2 => mark = pick(random, &[0, 2, 3, 129, 255]),
        _ => (),
    }
    (record, mark)
}

/// A record to commit, with its mark: one of so many is a good one.
fn some_record(server: &Server, one_of: usize, random: &mut Random) -> (Vec<u8>, u8) {
    let next = next_record(server, random);
    match random.below(one_of) {
        0 => (next.write().to_vec(), 1),
        _ => altered(next, server, random),
    }
}

/// How often each answer of a commit was due.
#[derive(Default)]
struct Seen {
    accepted: usize,
    refused: [usize; 8],
    /// Refusals 7, by user.
    users: [usize; USERS],
}

impl Seen {
    fn count(&mut self, accepted: Result<(), Refusal>) {
        match accepted {
            Ok(()) => self.accepted += 1,
            Err(Refusal(number, first, _)) => {
                self.refused[usize::from(number)] += 1;
                if number == 7 {
                    self.users[first as usize] += 1;
                }
            }
        }
    }

    /// An error unless each answer was due this often, and each position a fiftieth of it.
    fn at_least(&self, times: usize) -> Outcome {
        let refused = [2, 3, 4, 5, 7].iter().all(|&number| self.refused[number] >= times);
        if self.accepted < times || !refused || self.users.iter().any(|&seen| seen < times / 50) {
            let Seen { accepted, refused, users } = self;
            return Err(format!("too few: {accepted} accepted, refused {refused:?}, with 7 at {users:?}"));
        }
        Ok(())
    }
}

/// A length about that of the listing.
fn some_length(server: &Server, random: &mut Random) -> usize {
    let due = RECORD * (0..USERS).filter(|&user| server.own(user) != 0).count();
    let any = random.below(2_000);
    pick(random, &[0, due.saturating_sub(1), due, due + 1, due + 98, 1_568, 1_569, any])
}

/// Servers made, and driven by calls: their own counts add up to the commits accepted.
fn sessions() -> Outcome {
    let mut random = Random::new(120_000);
    let mut seen = Seen::default();
    for session in 0..300 {
        let users = session % USERS + 1;
        let made = Server::make(users as u8).map_err(|e| format!("{e:?}"))?;
        // Made in random bytes, so that a making that writes nothing is seen.
        let mut pair = Pair { lent: Guarded::new(&random.bytes(SERVER), &mut random), reference: made };
        let answer = unsafe { sundr_server_make_at(users as u8, pair.lent.pointer_mut(), SERVER) };
        equal("the answer to a making", Answer::from(answer), Answer::Accepted(0, 0))?;
        pair.same()?;
        let mut commits: u64 = 0;
        for _ in 0..500 {
            if random.below(6) == 0 {
                let len = some_length(&pair.reference, &mut random);
                pair.list(len, &mut random)?;
                continue;
            }
            let (record, mark) = some_record(&pair.reference, 4, &mut random);
            let accepted = pair.commit(&record, mark, &mut random)?;
            seen.count(accepted);
            commits += u64::from(accepted.is_ok());
            let sum: u64 = (0..USERS).map(|user| u64::from(pair.reference.own(user))).sum();
            equal("the sum of all own counts", sum, commits)?;
        }
    }
    seen.at_least(1_000)
}

/// Any bytes as a server: mostly records in their slots, with lies and damages.
fn some_server(random: &mut Random) -> Server {
    let users = pick(random, &[0, 1, 2, 3, 5, 8, 15, 16, 16, 16, 17, 100, 200, 255]);
    let mut server = Server { users, slots: [[0; RECORD]; USERS] };
    let held = match random.below(4) {
        0 => USERS,
        _ => usize::from(users).min(USERS),
    };
    for version in ordered(held, random) {
        server.slots[usize::from(version.owner)] = version.write();
    }
    // A record where there is no user.
    if usize::from(users) < USERS && random.below(4) == 0 {
        let slot = usize::from(users) + random.below(USERS - usize::from(users));
        let mut version = Version::new(slot as u8, some_handle(random), [0; USERS]);
        version.counts[slot] = some_count(random);
        server.slots[slot] = version.write();
    }
    for _ in 0..pick(random, &[0, 0, 1, 2, 3]) {
        let slot = random.below(held.max(1));
        let mut version = Version::read(&server.slots[slot]);
        let user = random.below(USERS);
        match random.below(8) {
            0 => version.counts[user] = some_count(random),
            1 => version.counts[slot] = pick(random, &[0, 1, u32::MAX - 1, u32::MAX]),
            2 => version.kind = random.next() as u8,
            3 => version.owner = random.next() as u8,
            // Counts another user's next operation, or all that there is with it.
            4 => version.counts[user] = server.own(user).saturating_add(1),
            5 => {
                version.counts = std::array::from_fn(|v| server.own(v));
                version.counts[user] = version.counts[user].saturating_add(1);
            }
            6 => version = Version::read(&random.bytes(RECORD)),
            _ => version = Version::new(0, [0; 32], [0; USERS]),
        }
        server.slots[slot] = version.write();
    }
    server
}

/// Servers that no call made, and a few commits and listings on each.
fn any_server() -> Outcome {
    let mut random = Random::new(150_000);
    let mut seen = Seen::default();
    let mut no_user = 0;
    for _ in 0..40_000 {
        let mut pair = Pair::new(some_server(&mut random), &mut random);
        let len = some_length(&pair.reference, &mut random);
        pair.list(len, &mut random)?;
        for _ in 0..4 {
            let (record, mark) = some_record(&pair.reference, 2, &mut random);
            let accepted = pair.commit(&record, mark, &mut random)?;
            seen.count(accepted);
            no_user += usize::from(matches!(accepted, Err(Refusal(7, v, _)) if v >= u32::from(pair.reference.users)));
        }
    }
    if no_user < 500 {
        return Err(format!("a record where there is no user is met {no_user} times: too few"));
    }
    seen.at_least(2_000)
}

/// Each number of users in each length of server.
fn makings() -> Outcome {
    let mut random = Random::new(1_569);
    for users in 0..=255 {
        for len in [SERVER, SERVER, SERVER - 1, SERVER + 1, 0, 1, 1_568 * 2, random.below(3_000)] {
            let mut lent = Guarded::new(&random.bytes(len), &mut random);
            let answer = unsafe { sundr_server_make_at(users, lent.pointer_mut(), lent.len()) };
            let made = if len == SERVER { Server::make(users) } else { Err(Refusal(2, 0, 0)) };
            let judged = || {
                equal("the answer", Answer::from(answer), Answer::from(made.clone().map(|_| (0, 0))))?;
                match &made {
                    Err(_) => lent.unaltered(),
                    Ok(server) if lent.content() == server.bytes() => lent.kept_guards(),
                    Ok(_) => Err("not an empty list".to_string()),
                }
            };
            judged().map_err(|e| format!("{e}; for {users} users in {len} bytes"))?;
        }
    }
    Ok(())
}

/// Each length of a buffer for each number of records, and servers of another length.
fn listings() -> Outcome {
    let mut random = Random::new(1_568);
    for held in 0..=USERS {
        let mut server = Server { users: USERS as u8, slots: [[0; RECORD]; USERS] };
        for user in 0..held {
            let counts = std::array::from_fn(|v| u32::from(v < held));
            server.slots[user] = Version::new(user as u8, some_handle(&mut random), counts).write();
        }
        for out_len in 0..=1_700 {
            Pair::new(server.clone(), &mut random).list(out_len, &mut random)?;
        }
        for len in [0, 1, SERVER - 1, SERVER + 1, 2 * SERVER, random.below(SERVER)] {
            let mut bytes = server.bytes();
            bytes.resize(len, 1);
            let lent = Guarded::new(&bytes, &mut random);
            let mut out = Guarded::new(&random.bytes(SERVER), &mut random);
            let answer = unsafe { sundr_server_list_at(lent.pointer(), lent.len(), out.pointer_mut(), out.len()) };
            equal("the answer", Answer::from(answer), Answer::Refused(2, 0, 0))?;
            lent.unaltered()?;
            out.unaltered().map_err(|e| format!("out, refused: {e}"))?;
        }
    }
    Ok(())
}

pub fn checks(runner: &mut Runner) {
    runner.check("server: every number of users, in 1,569 bytes and in others", makings);
    runner.check("server: listings of 0 to 16 records into every length to 1,700", listings);
    runner.check("server: 300 sessions of 500 calls, the own counts adding up to the commits", sessions);
    runner.check("server: 160,000 commits on servers of any bytes", any_server);
}
