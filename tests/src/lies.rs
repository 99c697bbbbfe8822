//! sundr_memory_check where it is known what is due: a lie at each place, and every set of faults.

use crate::check::judge;
use crate::lists::{other_than, pick, some_count, some_handle, Draft, Request};
use crate::random::Random;
use crate::reference::version::{Version, RECORD, USERS};
use crate::reference::Refusal;
use crate::runner::{equal, Outcome, Runner};
use crate::verdicts::Seen;

/// One call, judged, of which this refusal is due, or none.
fn judge_known(refusal: Option<Refusal>, request: &Request, seen: &mut Seen, random: &mut Random) -> Outcome {
    equal("the second implementation's refusal", judge(request, seen, random)?.err(), refusal)
}

/// Judges a list of sixteen records that are all ordered but for two, if any: refused with 7 at these two, or accepted.
fn judge_apart(list: Vec<Version>, user: usize, apart: Option<(usize, usize)>, random: &mut Random) -> Outcome {
    let request = Draft::whole(list, user, random).request();
    let refusal = apart.map(|(i, j)| Refusal(7, i.min(j) as u32, i.max(j) as u32));
    judge_known(refusal, &request, &mut Seen::default(), random)
}

/// Each position of refusal 7: two records apart, at each pair of places. Each lacks an operation that the other
/// counts, neither its owner's own. Of one record by itself, no other is apart.
fn every_pair() -> Outcome {
    let mut random = Random::new(16);
    let counts: [u32; USERS] = std::array::from_fn(|user| 10 + user as u32);
    let at = |i: usize| Version::new(i as u8, [i as u8; 32], counts);
    for user in 0..USERS {
        for i in 0..USERS {
            for j in 0..USERS {
                let a = other_than(&[i], USERS, &mut random);
                let b = other_than(&[j, a], USERS, &mut random);
                let mut list: Vec<Version> = (0..USERS).map(at).collect();
                list[i].counts[a] -= 1;
                if i != j {
                    list[j].counts[b] -= 1;
                }
                judge_apart(list, user, (i != j).then_some((i, j)), &mut random)?;
            }
        }
    }
    Ok(())
}

/// Each of the sixteen counts decides, and each of the four bytes: of two structures one lacks operations of a, and the
/// other of b. They are apart exactly if some are lacking and a is not b. The client has made one operation, so that a
/// count may be the last number.
fn every_count() -> Outcome {
    let mut random = Random::new(4);
    for a in 0..USERS {
        for b in 0..USERS {
            for count in [2, 3, 0x100, 0x1_0000, 0x100_0000, 0x7fff_ffff, 0x8000_0000, u32::MAX - 1, u32::MAX] {
                for lower in [1, 2, count - 1, count] {
                    let user = other_than(&[a, b], USERS, &mut random);
                    let i = other_than(&[a], USERS, &mut random);
                    let j = other_than(&[b, i], USERS, &mut random);
                    let counts = std::array::from_fn(|v| if v == user { 1 } else { count });
                    let mut list: Vec<Version> =
                        (0..USERS as u8).map(|v| Version::new(v, some_handle(&mut random), counts)).collect();
                    list[i].counts[a] = lower;
                    list[j].counts[b] = lower;
                    judge_apart(list, user, (lower != count && a != b).then_some((i, j)), &mut random)?;
                }
            }
        }
    }
    Ok(())
}

/// A list with a structure of each user, of at least this many. All count the same, each user at least two operations and
/// none the last.
pub fn level(least: usize, random: &mut Random) -> Draft {
    let users = least + random.below(USERS + 1 - least);
    let counts = std::array::from_fn(|v| if v < users { some_count(random).clamp(2, u32::MAX - 1) } else { 0 });
    let list = (0..users as u8).map(|v| Version::new(v, some_handle(random), counts)).collect();
    let user = random.below(users);
    Draft::whole(list, user, random)
}

impl Draft {
    /// The client remembers its structure as it is listed.
    pub fn remember(&mut self) {
        self.memory = Some(self.list[usize::from(self.user)]);
    }

    /// Two structures of a level list apart: each lacks operations that the other counts.
    pub fn part(&mut self, i: usize, j: usize, random: &mut Random) {
        let users = usize::from(self.users);
        let a = other_than(&[i], users, random);
        let b = other_than(&[j, a], users, random);
        for (at, user) in [(i, a), (j, b)] {
            let count = &mut self.list[at].counts[user];
            *count -= 1 + (random.next() % u64::from(*count)) as u32;
        }
        self.remember();
    }

    /// A structure of a level list counts an operation that is not listed, or just what the new one will.
    fn foresee(&mut self, i: usize, random: &mut Random) {
        let users = usize::from(self.users);
        let user = other_than(&[i], users, random);
        let count = &mut self.list[i].counts[user];
        // The client's next operation, or one after it; of another user any that is not listed.
        *count += 1 + (random.next() % u64::from(u32::MAX - *count)) as u32 * random.below(2) as u32;
        self.remember();
    }
}

/// A structure that is not well formed for so many users.
pub fn malform(version: &mut Version, users: u8, random: &mut Random) {
    match random.below(4) {
        0 => version.kind = pick(random, &[0, 2, 3, 129, 255]),
        1 => version.owner = pick(random, &[users, 16, 17, 255]),
        2 if users < 16 => {
            let beyond = |random: &mut Random| usize::from(users) + random.below(USERS - usize::from(users));
            let count: u32 = 1 << random.below(32);
            // Perhaps of two users, so that a sum of four bytes would be 0.
            version.counts[beyond(random)] = pick(random, &[0, count, count.wrapping_neg()]);
            version.counts[beyond(random)] = count;
        }
        _ => version.counts[usize::from(version.owner)] = 0,
    }
}

/// A mark that is not 1.
pub fn bad_mark(random: &mut Random) -> u8 {
    pick(random, &[0, 0, 2, 3, 129, 255])
}

/// Refusal 3 at each record and of the memory: another may be faulty behind it, and all marks and the order.
fn malformed(place: usize, random: &mut Random) -> Request {
    let mut draft = level((place + 1).clamp(2, USERS), random);
    let records = draft.list.len();
    if random.below(2) == 0 {
        draft.part(0, 1, random);
    }
    if place == USERS {
        let memory = draft.memory.as_mut().unwrap();
        match random.below(3) {
            0 => memory.owner = other_than(&[memory.owner.into()], USERS, random) as u8,
            _ => malform(memory, draft.users, random),
        }
    }
    let first = if place == USERS { random.below(records) } else { place };
    match random.below(3) {
        0 if first > 0 => draft.list[first].owner = random.below(first) as u8,
        _ => malform(&mut draft.list[first], draft.users, random),
    }
    for version in &mut draft.list[first + 1..] {
        if random.below(4) == 0 {
            malform(version, draft.users, random);
        }
    }
    let mut request = draft.request();
    request.marks.fill_with(|| if random.below(4) == 0 { bad_mark(random) } else { 1 });
    request
}

/// Refusal 4 at each record: other marks may be bad behind it, the own structure another, and two apart.
fn unmarked(place: usize, random: &mut Random) -> Request {
    let mut draft = level((place + 1).max(2), random);
    if random.below(2) == 0 {
        draft.part(0, 1, random);
    }
    if random.below(4) == 0 {
        draft.memory = None;
    }
    let mut request = draft.request();
    request.marks[place] = bad_mark(random);
    for mark in &mut request.marks[place + 1..] {
        if random.below(4) == 0 {
            *mark = bad_mark(random);
        }
    }
    request
}

/// Each place that a refusal has, at least 5,000 times, and what is due known.
fn every_place() -> Outcome {
    let mut random = Random::new(5_000);
    let mut seen = Seen::default();
    let times = 5_000;
    for place in 0..=USERS {
        for _ in 0..times {
            let request = malformed(place, &mut random);
            judge_known(Some(Refusal(3, place as u32, 0)), &request, &mut seen, &mut random)?;
        }
    }
    for i in 0..USERS {
        for _ in 0..times {
            let request = unmarked(i, &mut random);
            judge_known(Some(Refusal(4, i as u32, 0)), &request, &mut seen, &mut random)?;
            let mut draft = level((i + 1).max(2), &mut random);
            draft.foresee(i, &mut random);
            let refusal = Refusal(7, i as u32, draft.list.len() as u32);
            judge_known(Some(refusal), &draft.request(), &mut seen, &mut random)?;
        }
        // Of two records, so often that each is the first and the second often enough.
        for j in i + 1..USERS {
            for _ in 0..(times / (USERS - 1 - i)).max(times / j) + 1 {
                let mut draft = level(j + 1, &mut random);
                draft.part(i, j, &mut random);
                let refusal = Refusal(7, i as u32, j as u32);
                judge_known(Some(refusal), &draft.request(), &mut seen, &mut random)?;
            }
        }
    }
    equal("lists", [3, 4, 7].map(|number| seen.number(number)).iter().sum(), 347_520)?;
    seen.places_at_least(times)
}

/// Every set of faults, one for each refusal: the first of them, in the order, is told.
fn every_set_of_faults() -> Outcome {
    let mut random = Random::new(256);
    for set in (0..256).flat_map(|set| [set; 60]) {
        let fault = |number: usize| set & (1 << number) != 0;
        let mut draft = level(3, &mut random);
        let (user, records) = (usize::from(draft.user), draft.list.len());
        let i = random.below(records - 1);
        let j = i + 1 + random.below(records - 1 - i);
        if fault(7) {
            draft.part(i, j, &mut random);
        }
        if fault(6) {
            draft.list[user].counts[user] = u32::MAX;
            draft.remember();
        }
        if fault(5) {
            match random.below(3) {
                0 => draft.memory = None,
                1 => drop(draft.list.remove(user)),
                _ => draft.list[user].handle[random.below(32)] ^= 1 << random.below(8),
            }
        }
        let at = random.below(draft.list.len());
        if fault(3) {
            malform(&mut draft.list[at], draft.users, &mut random);
        }
        if fault(2) {
            let mut memory = draft.memory.unwrap_or(Version::new(draft.user, [0; 32], [0; USERS]));
            malform(&mut memory, draft.users, &mut random);
            draft.memory = Some(memory);
        }
        let mut request = draft.request();
        let mark = random.below(request.marks.len());
        if fault(4) {
            request.marks[mark] = bad_mark(&mut random);
        }
        if fault(1) {
            match random.below(6) {
                0 => request.counts_len = pick(&mut random, &[0, 15, 17, 32]),
                5 => request.again_len = pick(&mut random, &[0, 97, 99, 196]),
                1 => request.marks.resize(pick(&mut random, &[0, records + 1, 98]), 1),
                2 => request.file.resize(pick(&mut random, &[0, 1, 98, 99, 101, 200]), 0),
                3 => request.list.resize(request.list.len() + pick(&mut random, &[1, 97, RECORD * USERS]), 0),
                _ => drop(request.list.pop()),
            }
        }
        if fault(0) {
            match random.below(2) {
                0 => request.users = pick(&mut random, &[0, 17, 255]),
                _ => request.user = pick(&mut random, &[request.users, 16, 255]),
            }
        }
        let refusals = [
            Refusal(1, 0, 0),
            Refusal(2, 0, 0),
            Refusal(3, 16, 0),
            Refusal(3, at as u32, 0),
            Refusal(4, mark as u32, 0),
            Refusal(5, 0, 0),
            Refusal(6, 0, 0),
            Refusal(7, i as u32, j as u32),
        ];
        let first = (0..8).find(|&number| fault(number));
        judge_known(first.map(|first| refusals[first]), &request, &mut Seen::default(), &mut random)?;
    }
    Ok(())
}

pub fn checks(runner: &mut Runner) {
    runner.check("check: 347,520 lists with a lie at a place, at each that a refusal has 5,000 times", every_place);
    runner.check("check: every set of faults, of which the first is told", every_set_of_faults);
    runner.check("check: two of sixteen records apart, at every pair of places, for every user", every_pair);
    runner.check("check: every pair of counts decides, each side of each byte's limit", every_count);
}
