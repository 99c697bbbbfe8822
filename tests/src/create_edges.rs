//! sundr_memory_create where it is known what is due: each argument by its edges, and every set of faults.

use crate::create::judge;
use crate::lists::{pick, some_count, some_handle};
use crate::makings::Making;
use crate::random::Random;
use crate::reference::memory::{Memory, FILE};
use crate::reference::version::{Version, RECORD, USERS};
use crate::reference::Refusal;
use crate::runner::{equal, Outcome, Runner};

/// One call, judged, of which this refusal is due, or none.
fn judge_known(refusal: Option<Refusal>, making: &Making, random: &mut Random) -> Outcome {
    equal("the second implementation's refusal", judge(making, random)?.err(), refusal)
}

/// One that is accepted, of this user: something is remembered, with these counts, sent or pending, or nothing.
fn good(users: u8, user: u8, remembered: Option<[u32; USERS]>, random: &mut Random) -> Making {
    let own = usize::from(user) % USERS;
    let mut counts: Vec<u32> =
        (0..USERS).map(|v| if v < usize::from(users) { some_count(random) } else { 0 }).collect();
    counts[own] = remembered.map_or(1, |counts| counts[own].wrapping_add(1));
    let memory = match remembered.map(|counts| Version::new(user, some_handle(random), counts)) {
        None => Memory::Nothing,
        Some(version) if random.below(2) == 0 => Memory::Pending(version),
        Some(version) => Memory::Sent(version),
    };
    let handle = some_handle(random).to_vec();
    Making { users, user, file: memory.write().to_vec(), counts, handle, out_len: RECORD }
}

/// Every number of users with every user, nothing remembered and something.
fn every_user() -> Outcome {
    let mut random = Random::new(65_536);
    for users in 0..=255 {
        for user in 0..=255 {
            let counts = std::array::from_fn(|v| u32::from(v < usize::from(users)) * 7);
            for remembered in [None, Some(counts)] {
                let refusal = (!(1..=16).contains(&users) || user >= users).then_some(Refusal(1, 0, 0));
                judge_known(refusal, &good(users, user, remembered, &mut random), &mut random)?;
            }
        }
    }
    Ok(())
}

/// Every length around the right one, of each argument.
fn every_length() -> Outcome {
    let mut random = Random::new(98);
    for users in 1..=16 {
        for len in (0..=200).chain([256, 272, 288, 354, 512, 65_536, 65_552, 65_568, 65_634]) {
            for which in 0..4 {
                let counts = std::array::from_fn(|v| u32::from(v < usize::from(users)) * 3);
                let mut making = good(users, random.below(users.into()) as u8, Some(counts), &mut random);
                let fits = match which {
                    0 => {
                        making.file.resize(len, 0);
                        len == FILE
                    }
                    1 => {
                        making.counts.resize(len, 0);
                        len == USERS
                    }
                    2 => {
                        making.handle.resize(len, 0);
                        len == 32
                    }
                    _ => {
                        making.out_len = len;
                        len == RECORD
                    }
                };
                judge_known((!fits).then_some(Refusal(2, 0, 0)), &making, &mut random)?;
            }
        }
    }
    Ok(())
}

/// A count of each user that is not there, by each bit: 3 with place 0, whichever user it is. Also two such counts, of
/// which a sum of four bytes would be 0.
fn every_count_beyond() -> Outcome {
    let mut random = Random::new(15);
    for users in 1..16 {
        for beyond in usize::from(users)..USERS {
            for bit in 0..32 {
                let counts = std::array::from_fn(|v| u32::from(v < usize::from(users)) * 9);
                let remembered = pick(&mut random, &[None, Some(counts)]);
                let mut making = good(users, random.below(users.into()) as u8, remembered, &mut random);
                making.counts[beyond] = 1 << bit;
                judge_known(Some(Refusal(3, 0, 0)), &making, &mut random)?;
                for other in [1 << bit, 0u32.wrapping_sub(1 << bit)] {
                    making.counts[usize::from(users) + random.below(USERS - usize::from(users))] = other;
                    judge_known(Some(Refusal(3, 0, 0)), &making, &mut random)?;
                }
            }
        }
    }
    Ok(())
}

/// The own count by each side of each byte's limit, for each user: one more is accepted, no other number is. At the last
/// count none is.
fn every_own_count() -> Outcome {
    let mut random = Random::new(4_294_967_295);
    let edges = [0, 1, 2, 0xfe, 0xff, 0x100, 0xffff, 0x1_0000, 0xff_ffff, 0x100_0000, 0x7fff_ffff, 0x8000_0000];
    for user in 0..16 {
        for last in edges.into_iter().chain([u32::MAX - 2, u32::MAX - 1, u32::MAX]) {
            let remembered = (last != 0).then(|| std::array::from_fn(|_| last));
            let next = u64::from(last) + 1;
            let near = [0, 1, 2, last, last.wrapping_add(1), last.wrapping_add(2), last.wrapping_sub(1), u32::MAX];
            for own in near.into_iter().chain((0..32).map(|bit| last.wrapping_add(1) ^ 1 << bit)) {
                let mut making = good(16, user, remembered, &mut random);
                making.counts[usize::from(user)] = own;
                let refusal = match last {
                    u32::MAX => Some(Refusal(6, 0, 0)),
                    _ => (u64::from(own) != next).then_some(Refusal(16, 0, 0)),
                };
                judge_known(refusal, &making, &mut random)?;
            }
        }
    }
    Ok(())
}

/// Every bit of the file, of each user of one, two, fifteen and sixteen.
fn every_bit_of_the_memory() -> Outcome {
    let mut random = Random::new(784);
    for users in [1, 2, 15, 16] {
        for user in 0..users {
            let counts = std::array::from_fn(|v| u32::from(v < usize::from(users)) * 5);
            let making = good(users, user, Some(counts), &mut random);
            for bit in 0..8 * FILE {
                let mut other = making.clone();
                other.file[bit / 8] ^= 1 << (bit % 8);
                let own = 36 + 4 * usize::from(user);
                let refusal = match bit / 8 {
                    // Sent becomes pending, or pending sent, which is the same here.
                    1 if other.file[1] < 2 => None,
                    0..4 => Some(Refusal(3, 16, 0)),
                    4..36 => None,
                    at if at >= 36 + 4 * usize::from(users) => Some(Refusal(3, 16, 0)),
                    at if (own..own + 4).contains(&at) => Some(Refusal(16, 0, 0)),
                    // Of another user any count may be remembered, and it is not looked at.
                    _ => None,
                };
                judge_known(refusal, &other, &mut random)?;
            }
        }
    }
    Ok(())
}

/// Every set of faults, one for each refusal: the first of them, in the order, is told.
fn every_set_of_faults() -> Outcome {
    const REFUSALS: [Refusal; 6] =
        [Refusal(1, 0, 0), Refusal(2, 0, 0), Refusal(3, 16, 0), Refusal(3, 0, 0), Refusal(6, 0, 0), Refusal(16, 0, 0)];
    let mut random = Random::new(64);
    for set in (0..64).flat_map(|set| [set; 300]) {
        let fault = |number: usize| set & (1 << number) != 0;
        let users = 2 + random.below(14);
        let user = random.below(users);
        let last = if fault(4) { u32::MAX } else { some_count(&mut random).clamp(1, u32::MAX - 1) };
        let mut remembered = [0; USERS];
        remembered[..users].fill(last);
        let mut making = good(users as u8, user as u8, Some(remembered), &mut random);
        if fault(5) {
            making.counts[user] ^= 1 << random.below(32);
        }
        if fault(3) {
            making.counts[users + random.below(USERS - users)] = 1 << random.below(32);
        }
        if fault(2) {
            match random.below(7) {
                0 => making.file[0] = pick(&mut random, &[0, 1, 6, 255]),
                1 => making.file[1] = pick(&mut random, &[2, 3, 255]),
                2 => making.file[2] = pick(&mut random, &[0, 2, 7, 255]),
                3 => making.file[3] = ((user + 1) % users) as u8,
                4 => making.file[36 + 4 * user..40 + 4 * user].fill(0),
                5 => making.file[2..].fill(0),
                _ => making.file[36 + 4 * users..][random.below(4)] = 1,
            }
        }
        if fault(1) {
            match random.below(4) {
                0 => making.file.resize(pick(&mut random, &[0, 1, 98, 99, 101, 200]), 0),
                1 => making.counts.resize(pick(&mut random, &[0, 15, 17, 32]), 0),
                2 => making.handle.resize(pick(&mut random, &[0, 31, 33, 64]), 0),
                _ => making.out_len = pick(&mut random, &[0, 97, 99, 196]),
            }
        }
        if fault(0) {
            match random.below(2) {
                0 => making.users = pick(&mut random, &[0, 17, 255]),
                _ => making.user = pick(&mut random, &[users as u8, 16, 255]),
            }
        }
        let first = (0..6).find(|&number| fault(number));
        judge_known(first.map(|first| REFUSALS[first]), &making, &mut random)?;
    }
    Ok(())
}

pub fn checks(runner: &mut Runner) {
    runner.check("create: every number of users with every user, with and without a memory", every_user);
    runner.check("create: lengths 0 to 200 and more, for each argument and number of users", every_length);
    runner.check("create: a count of each user that is not there, by each bit, and of two", every_count_beyond);
    runner.check("create: every user's own count, each side of each byte's limit, and at the last", every_own_count);
    runner.check("create: every bit of the file", every_bit_of_the_memory);
    runner.check("create: every set of faults, of which the first is told", every_set_of_faults);
}
