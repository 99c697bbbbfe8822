//! The check and the making step, one after the other, on a memory file that is laid out unjudged, against the call that
//! did both on a remembered structure before 02's request h. That call is kept here alone, as the second implementation had
//! it, to hold the two, and the desk program, against it.

use crate::check;
use crate::create;
use crate::damages::other_length;
use crate::ffi::Answer;
use crate::lists::{pick, Request};
use crate::makings::Making;
use crate::random::Random;
use crate::reference::memory::file_of;
use crate::reference::version::{Version, RECORD, USERS};
use crate::reference::Refusal;
use crate::runner::{enough, equal, hex, Outcome, Runner};

/// The new version structure, or the first refusal that the order 1, 2, 3, 3, 4, 5, 6, 7 comes to.
pub fn joint(
    users: u8,
    user: u8,
    memory: &[u8],
    list: &[u8],
    marks: &[u8],
    handle: &[u8],
    out_len: usize,
) -> Result<[u8; RECORD], Refusal> {
    if users == 0 || usize::from(users) > USERS || user >= users {
        return Err(Refusal(1, 0, 0));
    }
    let n = list.len() / RECORD;
    if (!memory.is_empty() && memory.len() != RECORD)
        || list.len() % RECORD != 0
        || n > usize::from(users)
        || marks.len() != n
        || handle.len() != 32
        || out_len != RECORD
    {
        return Err(Refusal(2, 0, 0));
    }

    let remembered = if memory.is_empty() { None } else { Some(Version::read(memory)) };
    if remembered.is_some_and(|m| !m.well_formed(users) || m.owner != user) {
        return Err(Refusal(3, 16, 0));
    }
    let listed: Vec<Version> = list.chunks(RECORD).map(Version::read).collect();
    for (i, entry) in listed.iter().enumerate() {
        if !entry.well_formed(users) || (i > 0 && entry.owner <= listed[i - 1].owner) {
            return Err(Refusal(3, i as u32, 0));
        }
    }
    if let Some(i) = marks.iter().position(|&mark| mark != 1) {
        return Err(Refusal(4, i as u32, 0));
    }
    // Equal structures are equal byte for byte, and so are two that are not there.
    if listed.iter().find(|entry| entry.owner == user) != remembered.as_ref() {
        return Err(Refusal(5, 0, 0));
    }
    let last = remembered.map_or(0, |m| m.own());
    if last == u32::MAX {
        return Err(Refusal(6, 0, 0));
    }

    let mut counts = [0; USERS];
    for entry in &listed {
        counts[usize::from(entry.owner)] = entry.own();
    }
    counts[usize::from(user)] = last + 1;
    let new = Version::new(user, handle.try_into().unwrap(), counts);
    for i in 0..n {
        for j in i + 1..n {
            if !listed[i].at_or_before(&listed[j]) && !listed[j].at_or_before(&listed[i]) {
                return Err(Refusal(7, i as u32, j as u32));
            }
        }
        if !listed[i].strictly_before(&new) {
            return Err(Refusal(7, i as u32, n as u32));
        }
    }
    Ok(new.write())
}

/// What the library's two calls come to: the check's refusal, or else what the making step says of the check's counts.
fn two_calls(request: &Request, handle: &[u8], out_len: usize, random: &mut Random) -> (Answer, Vec<u8>) {
    let said = check::ask(request);
    match said.answer {
        Answer::Accepted(0, 0) => {
            let handle = handle.to_vec();
            create::answer(&Making { handle, out_len, ..Making::after(request, said.counts, random) })
        }
        other => (other, vec![0; out_len]),
    }
}

/// The same answers and the same bytes, where i-handle and answer have their lengths. Where one has not, the joint call
/// said 2 unless 1 was due; of the two calls, the check first says all that it has to say.
fn equal_to_both() -> Outcome {
    let mut random = Random::new(300_000);
    let (mut seen, mut told_later) = ([0; 8], 0);
    for _ in 0..340_000 {
        let mut request = Request::any(&mut random);
        (request.counts_len, request.again_len) = (USERS, RECORD);
        // Moved over unjudged: whatever its file remembers, if anything, is the memory of the joint call.
        let memory = request.old_memory();
        request.file = file_of(&memory);
        let mut handle = random.bytes(32);
        let mut out_len = RECORD;
        match random.below(22) {
            0 => other_length(&mut handle, 32, &mut random),
            1 => out_len = pick(&mut random, &[0, 97, 99, 196]),
            _ => (),
        }
        let Request { users, user, list, marks, .. } = &request;
        let joint = joint(*users, *user, &memory, list, marks, &handle, out_len);
        let due = if (handle.len(), out_len) == (32, RECORD) {
            seen[joint.err().map_or(0, |refusal| usize::from(refusal.0))] += 1;
            joint
        } else {
            let checked = check::due(&request).err();
            let by_both = checked.filter(|refusal| refusal.0 == 1).unwrap_or(Refusal(2, 0, 0));
            equal("the joint call's refusal", joint.err(), Some(by_both))?;
            told_later += usize::from(checked.is_some_and(|refusal| refusal.0 > 2));
            Err(checked.unwrap_or(Refusal(2, 0, 0)))
        };
        let (said, out) = two_calls(&request, &handle, out_len, &mut random);
        let made = due.map_or(vec![0; out_len], |new| new.to_vec());
        let judged = equal("the two calls' answer", said, Answer::from(due.map(|_| (0, 0))))
            .and_then(|()| equal("what is made", out, made));
        judged.map_err(|e| {
            let lists = [&memory, list, marks, &handle].map(|bytes| format!("{} {}", bytes.len(), hex(bytes)));
            format!("{e}; user {user} of {users}, memory, list, marks, handle {lists:?}, out of {out_len} bytes")
        })?;
    }
    enough(seen.iter().enumerate().map(|(number, &times)| (format!("answer {number}"), times)), 5_000)?;
    enough([("told later than by the joint call".to_string(), told_later)], 5_000)?;
    enough([("of their lengths".to_string(), seen.iter().sum())], 300_000)
}

pub fn checks(runner: &mut Runner) {
    runner.check("joint: 340,000 lists, the check and the making step against the call that did both", equal_to_both);
}
