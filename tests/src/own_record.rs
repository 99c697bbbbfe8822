//! sundr_memory_check where it is known what is due of a memory file: each state with each distance of own counts, every
//! set of faults, each byte of a file with each value, and what is not a file.

use crate::check;
use crate::lies::{bad_mark, level, malform};
use crate::lists::{other_than, pick, some_handle, Draft, Request};
use crate::memory::{judge_known, Call};
use crate::random::Random;
use crate::reference::check::Verdict;
use crate::reference::memory::{FILE, KIND, NONE, PENDING, SENT};
use crate::reference::version::{Version, RECORD, USERS};
use crate::reference::Refusal;
use crate::runner::{enough, equal, Outcome, Runner};
use crate::verdicts::Seen;

const WRONG_LENGTH: Refusal = Refusal(2, 0, 0);
const NOT_FORMED: Refusal = Refusal(3, 16, 0);
const NOT_CURRENT: Refusal = Refusal(5, 0, 0);
const LAST: Refusal = Refusal(6, 0, 0);

/// What a check is to say, without its counts.
#[derive(Clone, Copy, Debug, PartialEq)]
enum Known {
    Next,
    Again,
    Refused(Refusal),
}

/// One check, judged, of which this is due. What is to be sent again is what is behind the state.
fn judge_check(known: Known, request: &Request, random: &mut Random) -> Outcome {
    let due = check::judge(request, &mut Seen::default(), random)?;
    let said = match due {
        Ok(Verdict::Next(_)) => Known::Next,
        Ok(Verdict::Again(record)) => {
            equal("what is to be sent again", &record[..], &request.file[2..])?;
            Known::Again
        }
        Err(refusal) => Known::Refused(refusal),
    };
    equal("the second implementation's answer", said, known)
}

/// The list's own entry, beside what the file holds.
#[derive(Clone, Copy, Debug)]
enum Shown {
    Absent,
    Same,
    /// Another handle, or another count of another user, at the same own count.
    SameCount,
    Less(u32),
    More(u32),
}

/// Each state with each entry: at count 1, 2, by each byte's limit, and at the last; for each user. The list is otherwise
/// good, or its structures are apart, which nobody asks where the own entry is not the one that is held.
fn every_state_and_entry() -> Outcome {
    let mut random = Random::new(255);
    let counts = [1, 2, 3, 4, 0xff, 0x100, 0x101, 0xffff, 0x1_0000, 0x1_0001, 0xff_ffff, 0x100_0000, 0x100_0001];
    let (mut next, mut again, mut not_current) = (0, 0, 0);
    for held in counts.into_iter().chain([0x7fff_ffff, 0x8000_0000, u32::MAX - 1, u32::MAX]) {
        for user in 0..USERS {
            for shown in [
                Shown::Absent,
                Shown::Same,
                Shown::SameCount,
                Shown::Less(1),
                Shown::Less(2),
                Shown::Less(3),
                Shown::Less(0x100),
                Shown::Less(0x1_0000),
                Shown::Less(0x100_0000),
                Shown::More(1),
                Shown::More(2),
                Shown::More(0xff),
                Shown::More(u32::MAX - held),
            ] {
                for state in [SENT, SENT, SENT, PENDING, PENDING, PENDING, NONE] {
                    let users = user + 1 + random.below(USERS - user);
                    let mut all = [0; USERS];
                    all[..users].fill_with(|| 2 + random.below(3) as u32);
                    all[user] = held;
                    let version = |v: usize, random: &mut Random| Version::new(v as u8, some_handle(random), all);
                    let mut list: Vec<Version> = (0..users).map(|v| version(v, &mut random)).collect();
                    let file = list[user];
                    let entry = &mut list[user];
                    match shown {
                        Shown::Absent | Shown::Same => (),
                        Shown::SameCount if users > 1 && random.below(2) == 0 => {
                            entry.counts[other_than(&[user], users, &mut random)] -= 1;
                        }
                        Shown::SameCount => entry.handle[random.below(32)] ^= 1 << random.below(8),
                        Shown::Less(less) if less < held => entry.counts[user] -= less,
                        Shown::More(more) if more > 0 && more <= u32::MAX - held => entry.counts[user] += more,
                        _ => continue,
                    }
                    // By own count alone: the handle may be another, and any other count.
                    if !matches!(shown, Shown::Same) && random.below(2) == 0 {
                        entry.handle = some_handle(&mut random);
                        entry.handle[0] ^= 1;
                        if users > 1 {
                            let other = other_than(&[user], users, &mut random);
                            list[user].counts[other] = pick(&mut random, &[0, 1, 2, 200, u32::MAX]);
                        }
                    }
                    if matches!(shown, Shown::Absent) {
                        list.remove(user);
                    }
                    // Without an own entry nobody may count operations of this user, or else 7 would be due.
                    if state == NONE && matches!(shown, Shown::Absent) {
                        list.iter_mut().for_each(|version| version.counts[user] = 0);
                    }
                    let memory = (state != NONE).then_some(file);
                    let draft = Draft { users: users as u8, user: user as u8, memory, pending: state == PENDING, list };
                    let known = match (state, shown) {
                        (NONE, Shown::Absent) => Known::Next,
                        (NONE, _) => Known::Refused(NOT_CURRENT),
                        (_, Shown::Same) if held == u32::MAX => Known::Refused(LAST),
                        (_, Shown::Same) => Known::Next,
                        (PENDING, Shown::Less(1)) => Known::Again,
                        (PENDING, Shown::Absent) if held == 1 => Known::Again,
                        _ => Known::Refused(NOT_CURRENT),
                    };
                    judge_check(known, &draft.request(), &mut random)
                        .map_err(|e| format!("{e}; state {state}, own count {held}, {shown:?}"))?;
                    match known {
                        Known::Next => next += 1,
                        Known::Again => again += 1,
                        Known::Refused(_) => not_current += 1,
                    }
                }
            }
        }
    }
    let seen = [("counts", next), ("send again", again), ("5 and 6", not_current)];
    enough(seen.map(|(what, times)| (what.to_string(), times)), 500)
}

/// Every set of faults, with an own record that goes on, is to be sent again, or is 5: the first in the order is told, and
/// "send again" stands after 3 and 4 of the list, and before 6 and 7.
fn every_set_of_faults() -> Outcome {
    let mut random = Random::new(384);
    for (set, own) in (0..128).flat_map(|set| [(set, 0), (set, 1), (set, 2)]).flat_map(|case| [case; 40]) {
        let fault = |number: usize| set & (1 << number) != 0;
        let mut draft = level(3, &mut random);
        let (user, users) = (usize::from(draft.user), usize::from(draft.users));
        let i = random.below(users - 1);
        let j = i + 1 + random.below(users - 1 - i);
        if fault(6) {
            draft.part(i, j, &mut random);
        }
        if fault(5) {
            draft.list[user].counts[user] = u32::MAX;
            draft.remember();
        }
        let (memory, entry) = (draft.memory.as_mut().unwrap(), &mut draft.list[user]);
        match own {
            0 => (),
            1 => {
                draft.pending = true;
                if !fault(5) && random.below(3) == 0 {
                    memory.counts[user] = 1;
                    draft.list.remove(user);
                } else {
                    entry.counts[user] -= 1;
                    entry.handle = some_handle(&mut random);
                }
            }
            _ => match random.below(4) {
                0 => draft.memory = None,
                1 => drop(draft.list.remove(user)),
                2 => entry.handle[random.below(32)] ^= 1 << random.below(8),
                _ => {
                    draft.pending = false;
                    entry.counts[user] -= 1;
                }
            },
        }
        let at = random.below(draft.list.len());
        if fault(3) {
            malform(&mut draft.list[at], draft.users, &mut random);
        }
        let mut request = draft.request();
        if fault(2) {
            match random.below(4) {
                0 => request.file[0] = pick(&mut random, &[0, 1, 6, 8, 255]),
                1 => request.file[1] = pick(&mut random, &[3, 4, 129, 255]),
                // None, with a structure behind it or a byte.
                2 => {
                    request.file[1] = NONE;
                    request.file[2] = 1;
                }
                _ => request.file[2] ^= 1 << random.below(8),
            }
        }
        let mark = random.below(request.marks.len());
        if fault(4) {
            request.marks[mark] = bad_mark(&mut random);
        }
        if fault(1) {
            match random.below(4) {
                0 => request.file.resize(pick(&mut random, &[0, 2, 98, 99, 101, 200]), 0),
                1 => request.again_len = pick(&mut random, &[0, 97, 99, 100]),
                2 => request.counts_len = pick(&mut random, &[0, 15, 17, 98]),
                _ => request.marks.push(1),
            }
        }
        if fault(0) {
            match random.below(2) {
                0 => request.users = pick(&mut random, &[0, 17, 255]),
                _ => request.user = pick(&mut random, &[request.users, 16, 255]),
            }
        }
        let early = [Refusal(1, 0, 0), WRONG_LENGTH, NOT_FORMED, Refusal(3, at as u32, 0), Refusal(4, mark as u32, 0)];
        let known = match ((0..5).find(|&number| fault(number)), own) {
            (Some(first), _) => Known::Refused(early[first]),
            (None, 1) => Known::Again,
            (None, 2) => Known::Refused(NOT_CURRENT),
            (None, _) if fault(5) => Known::Refused(LAST),
            (None, _) if fault(6) => Known::Refused(Refusal(7, i as u32, j as u32)),
            (None, _) => Known::Next,
        };
        judge_check(known, &request, &mut random).map_err(|e| format!("{e}; faults {set:b}, own record {own}"))?;
    }
    Ok(())
}

/// What a byte of a good file is: set to another value, the file is malformed, or remembers another structure.
#[derive(PartialEq)]
pub enum Byte {
    Fixed,
    State,
    Handle,
    OwnCount,
    Count,
}

pub fn byte(at: usize, users: u8, user: u8) -> Byte {
    match at {
        1 => Byte::State,
        0 | 2 | 3 => Byte::Fixed,
        4..36 => Byte::Handle,
        _ if (at - 36) / 4 == usize::from(user) => Byte::OwnCount,
        _ if (at - 36) / 4 < usize::from(users) => Byte::Count,
        _ => Byte::Fixed,
    }
}

/// A list that has a structure of each of so many users, with own counts by each byte's limit; this user's is less than
/// what its file holds by so many, 0 or 1, and has another handle then.
fn ahead(users: u8, user: u8, by: u32, pending: bool, random: &mut Random) -> Draft {
    let mut counts = [0; USERS];
    counts[..usize::from(users)].fill_with(|| pick(random, &[0x100, 0xff, 0x1_0000, 0x102_0304, 0xff00_00ff]));
    let list: Vec<Version> = (0..users).map(|v| Version::new(v, [v + 1; 32], counts)).collect();
    let mut memory = list[usize::from(user)];
    memory.counts[usize::from(user)] += by;
    memory.handle[5] ^= (3 * by) as u8;
    Draft { users, user, memory: Some(memory), pending, list }
}

/// Each byte of a file with each value, to the check: sent or pending, shown or one ahead.
fn every_byte_checked() -> Outcome {
    let mut random = Random::new(25_600);
    for (users, user) in [(1, 0), (2, 1), (3, 0), (15, 14), (16, 7)] {
        for (by, pending) in [(0, false), (0, true), (1, false), (1, true)] {
            let draft = ahead(users, user, by, pending, &mut random);
            let shown = draft.list[usize::from(user)].own();
            let good = draft.request();
            for at in 0..FILE {
                for value in 0..=255 {
                    let mut request = good.clone();
                    request.file[at] = value;
                    let own = Version::read(&request.file[2..]).counts[usize::from(user)];
                    let same = value == good.file[at];
                    let sends = if pending { Known::Again } else { Known::Refused(NOT_CURRENT) };
                    let known = match (byte(at, users, user), by) {
                        (_, 0) if same => Known::Next,
                        (_, _) if same => sends,
                        (Byte::Fixed, _) => Known::Refused(NOT_FORMED),
                        (Byte::State, _) if value > 1 => Known::Refused(NOT_FORMED),
                        (Byte::State, 0) => Known::Next,
                        (Byte::State, _) if value == PENDING => Known::Again,
                        (Byte::State, _) => Known::Refused(NOT_CURRENT),
                        (Byte::OwnCount, _) if own == 0 => Known::Refused(NOT_FORMED),
                        (Byte::OwnCount, _) if u64::from(own) == u64::from(shown) + 1 => sends,
                        (Byte::OwnCount, _) => Known::Refused(NOT_CURRENT),
                        (_, 0) => Known::Refused(NOT_CURRENT),
                        (_, _) => sends,
                    };
                    judge_check(known, &request, &mut random).map_err(|e| format!("{e}; byte {at} is {value}"))?;
                }
            }
        }
    }
    // In state none all behind it is zero.
    let good = Draft { users: 3, user: 1, memory: None, pending: false, list: vec![] }.request();
    for at in 0..FILE {
        for value in 0..=255 {
            let mut request = good.clone();
            request.file[at] = value;
            let known = if value == good.file[at] { Known::Next } else { Known::Refused(NOT_FORMED) };
            judge_check(known, &request, &mut random).map_err(|e| format!("{e}; byte {at} of none is {value}"))?;
        }
    }
    Ok(())
}

/// What looks like a file or like none, and is not: to each call that takes a file, and to those that make one.
fn not_a_file() -> Outcome {
    let mut random = Random::new(7);
    let version = Version::new(0, [1; 32], std::array::from_fn(|v| u32::from(v < 2)));
    let record = version.write().to_vec();
    let with = |state: u8, behind: &[u8]| [&[KIND, state], behind].concat();
    let cases: [(&str, Vec<u8>, Refusal); 12] = [
        ("no bytes", vec![], WRONG_LENGTH),
        ("98 zero bytes", vec![0; 98], WRONG_LENGTH),
        ("a structure by itself", record.clone(), WRONG_LENGTH),
        ("a file without its kind", with(SENT, &record)[1..].to_vec(), WRONG_LENGTH),
        ("a file without its last byte", with(SENT, &record)[..99].to_vec(), WRONG_LENGTH),
        ("a file and a byte", [with(PENDING, &record), vec![0]].concat(), WRONG_LENGTH),
        ("100 zero bytes", vec![0; 100], NOT_FORMED),
        ("none, a structure behind it", with(NONE, &record), NOT_FORMED),
        ("none, and its last byte", [with(NONE, &[0; 97]), vec![1]].concat(), NOT_FORMED),
        ("sent, and nothing behind it", with(SENT, &[0; 98]), NOT_FORMED),
        ("pending, and nothing behind it", with(PENDING, &[0; 98]), NOT_FORMED),
        ("state 3", with(3, &record), NOT_FORMED),
    ];
    for (name, file, refusal) in cases {
        for (list, marks) in [(vec![], vec![]), (record.clone(), vec![1])] {
            let request =
                Request { users: 2, user: 0, file: file.clone(), list, marks, counts_len: USERS, again_len: RECORD };
            judge_check(Known::Refused(refusal), &request, &mut random).map_err(|e| format!("{name}: {e}"))?;
        }
        for call in [Call::Sent { file: file.clone() }, Call::Back { file: file.clone(), room: RECORD }] {
            judge_known(Err(refusal), 2, 0, &call, &mut random).map_err(|e| format!("{name}: {e}"))?;
        }
        let is_structure = file == record;
        if file.len() == RECORD && !is_structure {
            for call in [Call::Over { old: file.clone(), room: FILE }, Call::Pend { version: file, room: FILE }] {
                judge_known(Err(NOT_FORMED), 2, 0, &call, &mut random).map_err(|e| format!("{name}: {e}"))?;
            }
        }
    }
    Ok(())
}

pub fn checks(runner: &mut Runner) {
    runner.check(
        "memory: each state with each distance of own counts, to the last, for each user",
        every_state_and_entry,
    );
    runner.check(
        "memory: every set of a check's faults, of which the first is told, or to send again",
        every_set_of_faults,
    );
    runner.check("memory: every byte of a file with every value, checked", every_byte_checked);
    runner.check("memory: what is not a file, and not none", not_a_file);
}
