//! The desk program's whole output, from its input: 01, "The desk program".

use super::check::check;
use super::create::create;
use super::version::{Version, RECORD, USERS};
use super::Refusal;

/// A verdict on users, user, memory, list, marks and i-handle: the new version structure, or a refusal.
pub type Verdict = fn(u8, u8, &[u8], &[u8], &[u8], &[u8]) -> Result<[u8; RECORD], Refusal>;

/// The two lines, or the line `input`.
pub fn output(input: &[u8]) -> String {
    output_by(input, |users, user, memory, list, marks, handle| {
        let counts = check(users, user, memory, list, marks, USERS)?;
        create(users, user, memory, &counts, handle, RECORD)
    })
}

/// The same by any verdict.
pub fn output_by(input: &[u8], verdict: Verdict) -> String {
    said(input, verdict).unwrap_or("input\n".to_string())
}

fn said(input: &[u8], verdict: Verdict) -> Option<String> {
    let (head, rest) = input.split_at_checked(35)?;
    let (users, user, handle) = (head[0], head[1], &head[2..34]);
    let (memory, rest) = match head[34] {
        0 => (&rest[..0], rest),
        1 => rest.split_at_checked(RECORD)?,
        _ => return None,
    };
    if rest.len() % (1 + RECORD) != 0 || rest.len() / (1 + RECORD) > 16 || input.len() > 1_717 {
        return None;
    }
    let mut marks = Vec::new();
    let mut list = Vec::new();
    for entry in rest.chunks(1 + RECORD) {
        marks.push(entry[0]);
        list.extend_from_slice(&entry[1..]);
    }
    let second = match verdict(users, user, memory, &list, &marks, handle) {
        Ok(new) => {
            let counts = Version::read(&new).counts;
            let shown: Vec<String> = counts[..usize::from(users)].iter().map(u32::to_string).collect();
            format!("accept {}", shown.join(" "))
        }
        Err(Refusal(number, first, second)) => format!("refuse {number} {first} {second}"),
    };
    Some(format!("desk {user} of {users}\n{second}\n"))
}
