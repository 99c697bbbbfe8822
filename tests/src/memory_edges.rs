//! The four calls that write a memory file or read it back, where it is known what is due: each byte with each value, each
//! length, each user, and every set of faults.

use crate::ffi::{
    sundr_memory_back, sundr_memory_check, sundr_memory_create, sundr_memory_over, sundr_memory_pend,
    sundr_memory_sent, Answer,
};
use crate::lists::{pick, some_handle};
use crate::memory::{judge_known, Call, Due};
use crate::own_record::{byte, Byte};
use crate::random::Random;
use crate::reference::memory::{Memory, FILE, KIND, PENDING, SENT};
use crate::reference::version::{Version, RECORD, USERS};
use crate::reference::Refusal;
use crate::runner::{equal, Outcome, Runner};

const WRONG_LENGTH: Refusal = Refusal(2, 0, 0);
const NOT_FORMED: Refusal = Refusal(3, 16, 0);

/// Each byte of a file with each value, to the calls that mark it as sent and move it back; and each byte of a structure to
/// those that move it over and write it as pending.
fn every_byte() -> Outcome {
    let mut random = Random::new(9_800);
    for (users, user) in [(1, 0), (2, 1), (3, 0), (15, 14), (16, 7)] {
        let mut counts = [0; USERS];
        counts[..usize::from(users)].fill(0x200);
        let version = Version::new(user, [9; 32], counts);
        for memory in [Memory::Sent(version), Memory::Pending(version), Memory::Nothing] {
            let good = memory.write();
            for at in 0..FILE {
                for value in 0..=255 {
                    let mut file = good.to_vec();
                    file[at] = value;
                    let own = Version::read(&file[2..]).counts[usize::from(user)];
                    let formed = value == good[at]
                        || memory != Memory::Nothing
                            && match byte(at, users, user) {
                                Byte::Fixed => false,
                                Byte::State => value <= 1,
                                Byte::OwnCount => own != 0,
                                Byte::Handle | Byte::Count => true,
                            };
                    let refused = Err(NOT_FORMED);
                    let (marked, old): (Due, Due) = match file[1] {
                        _ if !formed => (refused.clone(), refused),
                        PENDING => {
                            let sent = [&[KIND, SENT], &file[2..]].concat();
                            (Ok((0, Some(sent))), Err(Refusal(17, 0, 0)))
                        }
                        SENT => (Ok((0, Some(file.clone()))), Ok((98, Some(file[2..].to_vec())))),
                        _ => (Ok((0, Some(file.clone()))), Ok((0, None))),
                    };
                    let told = |e: String| format!("{e}; byte {at} is {value}");
                    judge_known(marked, users, user, &Call::Sent { file: file.clone() }, &mut random).map_err(told)?;
                    judge_known(old, users, user, &Call::Back { file: file.clone(), room: RECORD }, &mut random)
                        .map_err(told)?;
                    if at < 2 || memory != Memory::Sent(version) {
                        continue;
                    }
                    let record = file[2..].to_vec();
                    let due = |state: u8| match formed {
                        true => Ok((0, Some([&[KIND, state], &file[2..]].concat()))),
                        false => Err(NOT_FORMED),
                    };
                    let over = Call::Over { old: record.clone(), room: FILE };
                    judge_known(due(SENT), users, user, &over, &mut random).map_err(told)?;
                    let pend = Call::Pend { version: record, room: FILE };
                    judge_known(due(PENDING), users, user, &pend, &mut random).map_err(told)?;
                }
            }
        }
    }
    Ok(())
}

/// Each length to 210 of a file, of a structure, of what was remembered and of the room, with each state; and longer ones.
fn every_length() -> Outcome {
    let mut random = Random::new(101);
    for users in 1..=16 {
        let user = random.below(users.into()) as u8;
        let mut counts = [0; USERS];
        counts[..usize::from(users)].fill(3);
        let version = Version::new(user, some_handle(&mut random), counts);
        for memory in [Memory::Sent(version), Memory::Pending(version), Memory::Nothing] {
            let file = memory.write().to_vec();
            for len in (0..=210).chain([256, 354, 356, 512, 65_536, 65_634, 65_636]) {
                let mut call = |known: Due, fits: bool, call: Call| {
                    let due = if fits { known } else { Err(WRONG_LENGTH) };
                    judge_known(due, users, user, &call, &mut random)
                };
                let resized = |bytes: &[u8]| {
                    let mut bytes = bytes.to_vec();
                    bytes.resize(len, 0);
                    bytes
                };
                let sent = match memory {
                    Memory::Nothing => file.clone(),
                    _ => [&[KIND, SENT], &file[2..]].concat(),
                };
                let old: Due = match memory {
                    Memory::Nothing => Ok((0, None)),
                    Memory::Sent(_) => Ok((98, Some(file[2..].to_vec()))),
                    Memory::Pending(_) => Err(Refusal(17, 0, 0)),
                };
                call(Ok((0, Some(sent))), len == FILE, Call::Sent { file: resized(&file) })?;
                call(old.clone(), len == FILE, Call::Back { file: resized(&file), room: RECORD })?;
                call(old, len == RECORD, Call::Back { file: file.clone(), room: len })?;
                if memory == Memory::Nothing {
                    let none = Ok((0, Some(file.clone())));
                    call(none, len == FILE, Call::Over { old: vec![], room: len })?;
                    continue;
                }
                let record = &file[2..];
                let (over, pend) = ([&[KIND, SENT], record].concat(), [&[KIND, PENDING], record].concat());
                let moved = if len == 0 { Memory::Nothing.write().to_vec() } else { over.clone() };
                let fits = len == 0 || len == RECORD;
                call(Ok((0, Some(moved))), fits, Call::Over { old: resized(record), room: FILE })?;
                call(Ok((0, Some(over))), len == FILE, Call::Over { old: record.to_vec(), room: len })?;
                let due = Ok((0, Some(pend)));
                call(due.clone(), len == RECORD, Call::Pend { version: resized(record), room: FILE })?;
                call(due, len == FILE, Call::Pend { version: record.to_vec(), room: len })?;
            }
        }
    }
    Ok(())
}

/// Every number of users with every user, to the four calls.
fn every_user() -> Outcome {
    let mut random = Random::new(65_536);
    for users in 0..=255 {
        for user in 0..=255 {
            let mut counts = [0; USERS];
            counts[usize::from(user) % USERS] = 1;
            let record = Version::new(user, [3; 32], counts).write().to_vec();
            let (sent, pending) = ([&[KIND, SENT], &record[..]].concat(), [&[KIND, PENDING], &record[..]].concat());
            let is = (1..=16).contains(&users) && user < users;
            let mut call = |due: Due, call: Call| {
                let due = if is { due } else { Err(Refusal(1, 0, 0)) };
                judge_known(due, users, user, &call, &mut random)
            };
            call(Ok((0, Some(sent.clone()))), Call::Over { old: record.clone(), room: FILE })?;
            call(Ok((98, Some(record.clone()))), Call::Back { file: sent.clone(), room: RECORD })?;
            call(Ok((0, Some(sent))), Call::Sent { file: pending.clone() })?;
            call(Ok((0, Some(pending))), Call::Pend { version: record, room: FILE })?;
        }
    }
    Ok(())
}

/// Every set of faults of the four calls: the first is told, and 17 is the last.
fn every_set_of_faults() -> Outcome {
    let mut random = Random::new(16);
    for set in (0..16).flat_map(|set| [set; 400]) {
        let fault = |number: usize| set & (1 << number) != 0;
        let users = 2 + random.below(15);
        let user = random.below(users);
        let mut counts = [0; USERS];
        counts[..users].fill(5);
        let mut record = Version::new(user as u8, some_handle(&mut random), counts).write().to_vec();
        if fault(2) {
            match random.below(4) {
                0 => record[0] = pick(&mut random, &[0, 2, 7, 255]),
                1 => record[1] = ((user + 1) % users) as u8,
                2 => record[34 + 4 * user..38 + 4 * user].fill(0),
                _ => record.fill(0),
            }
        }
        let state = if fault(3) { PENDING } else { SENT };
        let file = [&[KIND, state], &record[..]].concat();
        let (sent, pending) = ([&[KIND, SENT], &record[..]].concat(), [&[KIND, PENDING], &record[..]].concat());
        let mut calls = [
            (Ok((98, Some(record.clone()))), Call::Back { file: file.clone(), room: RECORD }),
            (Ok((0, Some(sent.clone()))), Call::Sent { file }),
            (Ok((0, Some(sent))), Call::Over { old: record.clone(), room: FILE }),
            (Ok((0, Some(pending))), Call::Pend { version: record, room: FILE }),
        ];
        let (mut users, mut user) = (users as u8, user as u8);
        if fault(0) {
            match random.below(2) {
                0 => users = pick(&mut random, &[0, 17, 255]),
                _ => user = pick(&mut random, &[users, 16, 255]),
            }
        }
        for (accepted, call) in &mut calls {
            if fault(1) {
                let given = random.below(2) == 0;
                match call {
                    Call::Sent { file: bytes } => bytes.truncate(pick(&mut random, &[0, 98, 99])),
                    Call::Back { file: bytes, .. }
                    | Call::Over { old: bytes, .. }
                    | Call::Pend { version: bytes, .. }
                        if given =>
                    {
                        bytes.push(0)
                    }
                    Call::Back { room, .. } | Call::Over { room, .. } | Call::Pend { room, .. } => *room -= 1,
                }
            }
            let refusals = [Refusal(1, 0, 0), WRONG_LENGTH, NOT_FORMED, Refusal(17, 0, 0)];
            let last = if let Call::Back { .. } = call { 4 } else { 3 };
            let due = match (0..last).find(|&number| fault(number)) {
                Some(first) => Err(refusals[first]),
                None => accepted.clone(),
            };
            judge_known(due, users, user, call, &mut random).map_err(|e| format!("{e}; faults {set:b}"))?;
        }
    }
    Ok(())
}

/// Users and user are a byte each of their registers: a C caller leaves anything above it.
fn rest_of_the_users_registers() -> Outcome {
    type Two = unsafe extern "C" fn(u64, u64, *const u8, usize, *mut u8, usize) -> u64;
    type One = unsafe extern "C" fn(u64, u64, *mut u8, usize) -> u64;
    let [over, back, pend]: [Two; 3] = unsafe {
        [
            std::mem::transmute::<*const (), Two>(sundr_memory_over as *const ()),
            std::mem::transmute::<*const (), Two>(sundr_memory_back as *const ()),
            std::mem::transmute::<*const (), Two>(sundr_memory_pend as *const ()),
        ]
    };
    let sent: One = unsafe { std::mem::transmute(sundr_memory_sent as *const ()) };
    let mut random = Random::new(56);
    for (users, user) in (0..20).flat_map(|users| (0..20).map(move |user| (users, user))) {
        let mut counts = [0; USERS];
        counts[user as usize % USERS] = 1;
        let record = Version::new(user as u8, [3; 32], counts).write();
        let (n, u) = (random.next() << 8 | users, random.next() << 8 | user);
        let is = (1..=16).contains(&users) && user < users;
        let due = |first: u32| if is { Answer::Accepted(first, 0) } else { Answer::Refused(1, 0, 0) };
        let (mut file, mut old) = ([0; FILE], [0; RECORD]);
        let said = unsafe { pend(n, u, record.as_ptr(), RECORD, file.as_mut_ptr(), FILE) };
        equal(&format!("pend by {n:#x}, {u:#x}"), Answer::from(said), due(0))?;
        file = Memory::Pending(Version::read(&record)).write();
        let said = unsafe { sent(n, u, file.as_mut_ptr(), FILE) };
        equal(&format!("sent by {n:#x}, {u:#x}"), Answer::from(said), due(0))?;
        let said = unsafe { over(n, u, record.as_ptr(), RECORD, file.as_mut_ptr(), FILE) };
        equal(&format!("over by {n:#x}, {u:#x}"), Answer::from(said), due(0))?;
        file = Memory::Sent(Version::read(&record)).write();
        let said = unsafe { back(n, u, file.as_ptr(), FILE, old.as_mut_ptr(), RECORD) };
        equal(&format!("back by {n:#x}, {u:#x}"), Answer::from(said), due(98))?;
    }
    Ok(())
}

/// What has no bytes may be at NULL, to all six calls: nothing remembered, an empty list, or a length that is refused.
fn nothing_at_null() -> Outcome {
    let (null, to_null) = (std::ptr::null(), std::ptr::null_mut());
    let mut file = [0xa5; FILE];
    let said = unsafe { sundr_memory_over(3, 1, null, 0, file.as_mut_ptr(), FILE) };
    equal("none moved over", (Answer::from(said), file), (Answer::Accepted(0, 0), Memory::Nothing.write()))?;
    let (f, mut counts, mut again, mut out) = (file.as_ptr(), [0; USERS], [0; RECORD], [0; RECORD]);
    let (c, a, o) = (counts.as_mut_ptr(), again.as_mut_ptr(), out.as_mut_ptr());
    let check = |f: *const u8, len: usize, c: *mut u32, counts: usize, a: *mut u8, again: usize| {
        Answer::from(unsafe { sundr_memory_check(3, 1, f, len, null, 0, null, 0, c, counts, a, again) })
    };
    equal("the check of no list", check(f, FILE, c, USERS, a, RECORD), Answer::Accepted(0, 0))?;
    let refused = Answer::Refused(2, 0, 0);
    equal("the check of no file", check(null, 0, c, USERS, a, RECORD), refused)?;
    equal("the check without room for counts", check(f, FILE, std::ptr::null_mut(), 0, a, RECORD), refused)?;
    equal("the check without room to send again", check(f, FILE, c, USERS, to_null, 0), refused)?;
    let h = [7; 32];
    let create = |f: *const u8, len: usize| unsafe {
        Answer::from(sundr_memory_create(3, 1, f, len, c, USERS, h.as_ptr(), 32, o, RECORD))
    };
    equal("the making step", create(f, FILE), Answer::Accepted(0, 0))?;
    equal("the making step without a file", create(null, 0), refused)?;
    let others = unsafe {
        [
            sundr_memory_pend(3, 1, null, 0, file.as_mut_ptr(), FILE),
            sundr_memory_pend(3, 1, o, RECORD, to_null, 0),
            sundr_memory_sent(3, 1, to_null, 0),
            sundr_memory_over(3, 1, null, 0, to_null, 0),
            sundr_memory_back(3, 1, null, 0, o, RECORD),
            sundr_memory_back(3, 1, file.as_ptr(), FILE, to_null, 0),
        ]
    };
    equal("what is refused for its length", others.map(Answer::from), [refused; 6])
}

pub fn checks(runner: &mut Runner) {
    runner.check("memory: every byte of a file or structure with every value, to the four other calls", every_byte);
    runner.check("memory: every length to 210 of a file, a structure and the room, and longer ones", every_length);
    runner.check("memory: every number of users with every user", every_user);
    runner.check("memory: every set of the four calls' faults, of which the first is told", every_set_of_faults);
    runner.check("memory: nothing at NULL, to all six calls", nothing_at_null);
    runner.check("memory: anything in the rest of the users' registers", rest_of_the_users_registers);
}
