//! The four calls that write a memory file or read it back, against the second implementation.

use crate::check;
use crate::create;
use crate::damages::{any_byte, damage_file, other_length};
use crate::ffi::{sundr_memory_back, sundr_memory_over, sundr_memory_pend, sundr_memory_sent, Answer};
use crate::guarded::Guarded;
use crate::lists::{pick, some_count, some_handle, Draft, Request};
use crate::makings::Making;
use crate::random::Random;
use crate::reference::check::{check as check_old, Verdict};
use crate::reference::create::create as create_old;
use crate::reference::memory::{back, file_of, over, pend, sent, FILE, KIND, NONE, PENDING, SENT};
use crate::reference::version::{Version, RECORD, USERS};
use crate::reference::Refusal;
use crate::runner::{enough, equal, hex, Outcome, Runner};
use std::collections::BTreeMap;

/// One of the four, with its arguments. The room is for the answer.
#[derive(Clone, Debug)]
pub enum Call {
    Over { old: Vec<u8>, room: usize },
    Back { file: Vec<u8>, room: usize },
    Sent { file: Vec<u8> },
    Pend { version: Vec<u8>, room: usize },
}

/// What it comes to: the first result, and what is written, if anything is; or a refusal.
pub type Due = Result<(u32, Option<Vec<u8>>), Refusal>;

impl Call {
    /// The second implementation's answer.
    pub fn due(&self, users: u8, user: u8) -> Due {
        let whole = |file: [u8; FILE]| (0, Some(file.to_vec()));
        match self {
            Call::Over { old, room } => over(users, user, old, *room).map(whole),
            Call::Back { file, room } => back(users, user, file, *room).map(|old| match old {
                None => (0, None),
                Some(old) => (RECORD as u32, Some(old.to_vec())),
            }),
            Call::Sent { file } => sent(users, user, file).map(whole),
            Call::Pend { version, room } => pend(users, user, version, *room).map(whole),
        }
    }

    /// What it reads, and how many bytes it may write to.
    fn given(&self) -> (&Vec<u8>, usize) {
        match self {
            Call::Over { old, room } => (old, *room),
            Call::Back { file, room } => (file, *room),
            Call::Sent { file } => (file, file.len()),
            Call::Pend { version, room } => (version, *room),
        }
    }

    fn given_mut(&mut self) -> &mut Vec<u8> {
        match self {
            Call::Over { old: given, .. }
            | Call::Back { file: given, .. }
            | Call::Sent { file: given }
            | Call::Pend { version: given, .. } => given,
        }
    }
}

/// One call, judged by what is due: the answer, what is written, and every byte that is not to change.
fn judge_as(due: &Due, users: u8, user: u8, call: &Call, random: &mut Random) -> Outcome {
    let (given, room) = call.given();
    let lent = Guarded::new(given, random);
    // A file is marked as sent where it lies.
    let before = if let Call::Sent { file } = call { file.clone() } else { random.bytes(room) };
    let mut out = Guarded::new(&before, random);
    let ((g, len), o) = ((lent.pointer(), lent.len()), out.pointer_mut());
    let answer = match call {
        Call::Over { .. } => unsafe { sundr_memory_over(users, user, g, len, o, room) },
        Call::Back { .. } => unsafe { sundr_memory_back(users, user, g, len, o, room) },
        Call::Sent { .. } => unsafe { sundr_memory_sent(users, user, o, room) },
        Call::Pend { .. } => unsafe { sundr_memory_pend(users, user, g, len, o, room) },
    };
    let judged = || {
        let said = due.as_ref().map(|(first, _)| (*first, 0)).map_err(|refusal| *refusal);
        equal("the answer", Answer::from(answer), Answer::from(said))?;
        match due {
            Ok((_, Some(written))) => {
                out.kept_guards()?;
                equal("what is written", hex(out.content()), hex(written))?;
            }
            _ => out.unaltered().map_err(|e| format!("nothing is to be written: {e}"))?,
        }
        if let Call::Sent { .. } = call {
            let alike = (0..room).all(|at| at == 1 || out.content()[at] == before[at]);
            equal("all but byte 1 of a file marked as sent", alike, true)?;
        }
        lent.unaltered().map_err(|e| format!("what is given: {e}"))
    };
    judged().map_err(|e: String| format!("{e}; user {user} of {users}, {call:?}, {} before", hex(&before)))
}

/// One call, judged by the second implementation, whose answer it gives.
pub fn judge(users: u8, user: u8, call: &Call, random: &mut Random) -> Result<Due, String> {
    let due = call.due(users, user);
    judge_as(&due, users, user, call, random)?;
    Ok(due)
}

/// One call, judged by what is known to be due, which the second implementation says too.
pub fn judge_known(due: Due, users: u8, user: u8, call: &Call, random: &mut Random) -> Outcome {
    equal("the second implementation's answer", call.due(users, user), due.clone())?;
    judge_as(&due, users, user, call, random)
}

/// A structure that a caller or a disk has damaged.
fn damage_structure(record: &mut Vec<u8>, users: usize, random: &mut Random) {
    let len = record.len();
    match random.below(10) {
        0 => other_length(record, RECORD, random),
        1 => record.clear(),
        // A whole file in its place.
        2 => *record = file_of(record),
        3 => *record = vec![0; RECORD],
        4 => any_byte(record, random),
        _ if len != RECORD => record.push(0),
        5 => record[0] = pick(random, &[0, 2, 3, 7, 129, 255]),
        6 => record[1] = pick(random, &[0, users as u8 - 1, users as u8, 16, 255]),
        7 => {
            let own = usize::from(record[1]) % USERS;
            record[34 + 4 * own..38 + 4 * own].fill(0);
        }
        8 if users < USERS => record[34 + 4 * users + random.below(4 * (USERS - users))] = 1 << random.below(8),
        _ => {
            let at = random.below(len);
            record[at] ^= 1 << random.below(8);
        }
    }
}

/// One of the four calls on a file as it may be, or a structure, with up to two mistakes.
fn some_call(random: &mut Random) -> (u8, u8, Call) {
    let draft = Draft::honest(random);
    let (mut users, mut user) = (draft.users, draft.user);
    let count = usize::from(users);
    let mut counts = [0; USERS];
    counts[..count].fill_with(|| some_count(random).max(1));
    let made = Version::new(user, some_handle(random), counts);
    let mut call = match random.below(4) {
        0 => {
            let old = draft.memory.map_or(Vec::new(), |memory| memory.write().to_vec());
            Call::Over { old, room: FILE }
        }
        1 => Call::Back { file: draft.file().write().to_vec(), room: RECORD },
        2 => Call::Sent { file: draft.file().write().to_vec() },
        _ => Call::Pend { version: made.write().to_vec(), room: FILE },
    };
    for _ in 0..pick(random, &[0, 1, 1, 1, 2]) {
        match random.below(12) {
            0 => users = pick(random, &[0, 17, 18, 32, 128, 255]),
            1 => user = pick(random, &[users, users.saturating_add(1), 16, 255]),
            2 => users = 1 + random.below(USERS) as u8,
            3 => user = random.below(USERS) as u8,
            4 | 5 => {
                let other = pick(random, &[0, 1, 97, 98, 98, 99, 99, 100, 100, 101, 101, 200]);
                match &mut call {
                    Call::Over { room, .. } | Call::Back { room, .. } | Call::Pend { room, .. } => *room = other,
                    Call::Sent { file } => file.resize(other, 0),
                }
            }
            _ => match &mut call {
                Call::Over { old, .. } => damage_structure(old, count, random),
                Call::Pend { version, .. } => damage_structure(version, count, random),
                Call::Back { .. } | Call::Sent { .. } => damage_file(call.given_mut(), random),
            },
        }
    }
    (users, user, call)
}

/// The kinds of calls that are told apart, and whether this is one.
fn kinds(users: u8, user: u8, call: &Call, due: &Due) -> Vec<(&'static str, bool)> {
    let (given, room) = call.given();
    let another = |record: &[u8]| {
        record.len() == RECORD && Version::read(record).well_formed(users) && Version::read(record).owner != user
    };
    let (kind, state) = (given.first().copied(), given.get(1).copied().unwrap_or(NONE));
    let not_formed = |names: [&'static str; 5]| {
        let good = kind == Some(KIND);
        let behind = given.get(2..).unwrap_or(&[]);
        vec![
            (names[0], !good),
            (names[1], good && state > NONE),
            (names[2], good && state == NONE),
            (names[3], good && state < NONE && another(behind)),
            (names[4], good && state < NONE && !another(behind)),
        ]
    };
    let number = due.as_ref().err().map_or(0, |refusal| refusal.0);
    match (call, number) {
        (Call::Over { .. }, 1) => vec![("over: 1", true)],
        (Call::Over { .. }, 2) => vec![
            ("over: 2, the old memory", room == FILE),
            ("over: 2, a file", room == FILE && given.len() == FILE),
            ("over: 2, the room for none", given.is_empty()),
            ("over: 2, the room", given.len() == RECORD),
        ],
        (Call::Over { .. }, 3) => vec![
            ("over: 3, another's", another(given)),
            ("over: 3, zeros", given.iter().all(|&byte| byte == 0)),
            ("over: 3, malformed", !another(given)),
        ],
        (Call::Over { .. }, _) => vec![("over: none", given.is_empty()), ("over: sent", !given.is_empty())],
        (Call::Back { .. }, 1) => vec![("back: 1", true)],
        (Call::Back { .. }, 2) => vec![
            ("back: 2, the file", room == RECORD),
            ("back: 2, the old form", room == RECORD && given.len() == RECORD),
            ("back: 2, the room for none", given.len() == FILE && state == NONE),
            ("back: 2, the room of a sent one", given.len() == FILE && state == SENT),
            ("back: 2, the room of a pending one", given.len() == FILE && state == PENDING),
        ],
        (Call::Back { .. }, 3) => [
            not_formed([
                "back: 3, kind",
                "back: 3, state",
                "back: 3, none",
                "back: 3, another's",
                "back: 3, malformed",
            ]),
            vec![("back: 3, pending", kind == Some(KIND) && state == PENDING)],
        ]
        .concat(),
        (Call::Back { .. }, 17) => vec![("back: 17", true)],
        (Call::Back { .. }, _) => vec![("back: none", state == NONE), ("back: sent", state == SENT)],
        (Call::Sent { .. }, 1) => vec![("sent: 1", true)],
        (Call::Sent { .. }, 2) => vec![("sent: 2", true), ("sent: 2, the old form", given.len() == RECORD)],
        (Call::Sent { .. }, 3) => {
            not_formed(["sent: 3, kind", "sent: 3, state", "sent: 3, none", "sent: 3, another's", "sent: 3, malformed"])
        }
        (Call::Sent { .. }, _) => vec![
            ("sent: pending", state == PENDING),
            ("sent: sent before", state == SENT),
            ("sent: none", state == NONE),
        ],
        (Call::Pend { .. }, 1) => vec![("pend: 1", true)],
        (Call::Pend { .. }, 2) => vec![
            ("pend: 2, the structure", room == FILE),
            ("pend: 2, no structure", room == FILE && given.is_empty()),
            ("pend: 2, a file", room == FILE && given.len() == FILE),
            ("pend: 2, the room", given.len() == RECORD),
        ],
        (Call::Pend { .. }, 3) => vec![
            ("pend: 3, another's", another(given)),
            ("pend: 3, zeros", given.iter().all(|&byte| byte == 0)),
            ("pend: 3, malformed", !another(given)),
        ],
        (Call::Pend { .. }, _) => vec![("pend: pending", true)],
    }
}

/// The four calls by chance, on files in each state and what goes into one.
fn random_calls() -> Outcome {
    let mut random = Random::new(400_000);
    let mut seen: BTreeMap<&str, usize> = BTreeMap::new();
    for _ in 0..400_000 {
        let (users, user, call) = some_call(&mut random);
        let due = judge(users, user, &call, &mut random)?;
        for (kind, is) in kinds(users, user, &call, &due) {
            *seen.entry(kind).or_default() += usize::from(is);
        }
    }
    equal("the kinds", seen.len(), 45)?;
    enough(seen.into_iter().map(|(kind, times)| (kind.to_string(), times)), 500)
}

/// Lists and making steps on a file that is laid out unjudged: the answers are those on what was remembered before there
/// were files, and never to send again.
fn moved_over() -> Outcome {
    let mut random = Random::new(2_000);
    let (mut accepted, mut made) = (0, 0);
    for _ in 0..100_000 {
        let mut request = Request::any(&mut random);
        request.again_len = RECORD;
        let old = request.old_memory();
        request.file = file_of(&old);
        let Request { users, user, list, marks, counts_len, .. } = &request;
        let due = check_old(*users, *user, &old, list, marks, *counts_len);
        equal("the check on a file", check::due(&request), due.map(Verdict::Next))?;
        check::judge_as(due.map(Verdict::Next), &request, &mut random)?;
        accepted += usize::from(due.is_ok());

        let (mut making, _) = Making::any(&mut random);
        let old = match making.file[..] {
            [_, NONE, ..] => Vec::new(),
            _ => making.file.get(2..).unwrap_or(&[]).to_vec(),
        };
        making.file = file_of(&old);
        let Making { users, user, counts, handle, out_len, .. } = &making;
        let due = create_old(*users, *user, &old, counts, handle, *out_len);
        equal("the making step on a file", create::judge(&making, &mut random)?, due)?;
        made += usize::from(due.is_ok());
    }
    enough([("lists accepted".to_string(), accepted), ("structures made".to_string(), made)], 10_000)
}

/// Neither round trip loses anything, and while a file is pending there is no way back.
fn round_trips() -> Outcome {
    let mut random = Random::new(98);
    let mut seen = [0; 3];
    for _ in 0..50_000 {
        let draft = Draft::honest(&mut random);
        let (users, user, file) = (draft.users, draft.user, draft.file().write());
        let old = draft.memory.map_or(Vec::new(), |memory| memory.write().to_vec());
        let moved = file_of(&old);
        seen[usize::from(file[1])] += 1;
        let mut call = |due: Due, call: Call| judge_known(due, users, user, &call, &mut random);
        let to_old = || match old.len() {
            0 => Ok((0, None)),
            len => Ok((len as u32, Some(old.clone()))),
        };
        call(Ok((0, Some(moved.clone()))), Call::Over { old: old.clone(), room: FILE })?;
        call(to_old(), Call::Back { file: moved.clone(), room: RECORD })?;
        let due = if file[1] == PENDING { Err(Refusal(17, 0, 0)) } else { to_old() };
        call(due, Call::Back { file: file.to_vec(), room: RECORD })?;
        // Once it is sent, there is a way back; and to mark it again changes nothing.
        call(Ok((0, Some(moved.clone()))), Call::Sent { file: file.to_vec() })?;
        call(Ok((0, Some(moved.clone()))), Call::Sent { file: moved })?;
    }
    enough(seen.iter().enumerate().map(|(state, &times)| (format!("files in state {state}"), times)), 2_000)
}

pub fn checks(runner: &mut Runner) {
    runner.check("memory: 400,000 files moved over and back, marked as sent, made of a structure", random_calls);
    runner.check("memory: 100,000 lists and making steps on files moved over, as before there were files", moved_over);
    runner.check("memory: 50,000 round trips", round_trips);
}
