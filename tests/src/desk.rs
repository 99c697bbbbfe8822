//! The desk program, as it is built, against the second implementation, and against what it printed by the one call that
//! did both before 02's request h.

use std::fs::File;
use std::io::{Read, Write};
use std::os::fd::OwnedFd;
use std::os::unix::net::UnixDatagram;
use std::process::{Command, Stdio};

use crate::joint::joint;
use crate::lists::{pick, some_handle, Request};
use crate::random::Random;
use crate::reference::input::{output, output_by};
use crate::reference::version::{Version, RECORD, USERS};
use crate::runner::{equal, hex, Outcome, Runner};

/// Where `tools/prove desk` leaves it.
const PROGRAM: &str = concat!(env!("CARGO_MANIFEST_DIR"), "/../target/bin/desk");

/// What it printed by the call that did both. i-handle and answer have their lengths in every input.
fn output_before(input: &[u8]) -> String {
    output_by(input, |users, user, memory, list, marks, handle| joint(users, user, memory, list, marks, handle, RECORD))
}

/// What the program prints on this standard input, `feed` being run while it reads.
fn printed(stdin: Stdio, feed: impl FnOnce(Option<std::process::ChildStdin>)) -> Result<String, String> {
    let mut child =
        Command::new(PROGRAM).stdin(stdin).stdout(Stdio::piped()).spawn().map_err(|e| format!("{PROGRAM}: {e}"))?;
    feed(child.stdin.take());
    let mut text = String::new();
    child.stdout.take().unwrap().read_to_string(&mut text).map_err(|e| format!("not text: {e}"))?;
    let status = child.wait().map_err(|e| e.to_string())?;
    if !status.success() {
        return Err(format!("ended with {status}"));
    }
    Ok(text)
}

/// What it prints on an input that a pipe holds. It need not read all of a long one.
fn on(input: &[u8]) -> Result<String, String> {
    printed(Stdio::piped(), |stdin| drop(stdin.unwrap().write_all(input)))
}

/// The same, each read getting a few bytes, as many as `next` says, and at the end none.
fn on_parts(input: &[u8], mut next: impl FnMut() -> usize) -> Result<String, String> {
    let (ours, theirs) = UnixDatagram::pair().map_err(|e| e.to_string())?;
    printed(Stdio::from(OwnedFd::from(theirs)), |_| {
        let mut rest = input;
        while !rest.is_empty() {
            let (part, behind) = rest.split_at(next().clamp(1, rest.len()));
            if ours.send(part).is_err() {
                return;
            }
            rest = behind;
        }
        // A read that gets a datagram of no bytes is the input's end.
        drop(ours.send(&[]));
    })
}

/// The bytes that a word of `cases` stands for.
fn word(word: &str) -> Option<Vec<u8>> {
    if word == "chain" {
        let one = |owner: usize| {
            let counts = std::array::from_fn(|user| u32::from(user <= owner));
            Version::new(owner as u8, [0; 32], counts).write()
        };
        return Some((0..USERS).flat_map(|owner| [vec![1], one(owner).to_vec()].concat()).collect());
    }
    if let Some((letter, counts)) = word.strip_suffix(']').and_then(|w| w.split_once('[')) {
        let owner = letter.bytes().next()?.checked_sub(b'A')?;
        let mut version = Version::new(owner, [0; 32], [0; USERS]);
        for (count, text) in version.counts.iter_mut().zip(counts.split(',')) {
            *count = text.parse().ok()?;
        }
        return Some(version.write().to_vec());
    }
    if let Some((times, byte)) = word.split_once('x') {
        return Some(vec![byte.parse().ok()?; times.parse().ok()?]);
    }
    Some(vec![word.parse().ok()?])
}

/// The cases of the file, each whole and a byte at a time, from the program and from the second implementation.
fn cases() -> Outcome {
    let mut number = 0;
    for line in include_str!("../desk/cases").lines() {
        if line.is_empty() || line.starts_with('#') {
            continue;
        }
        let parsed = line.split_once(':').and_then(|(name, case)| {
            let (input, lines) = case.split_once("->")?;
            let bytes: Option<Vec<Vec<u8>>> = input.split_whitespace().map(word).collect();
            let due: String = lines.split('/').map(|line| format!("{}\n", line.trim())).collect();
            Some((name, bytes?.concat(), due))
        });
        let (name, input, due) = parsed.ok_or(format!("not a case: {line}"))?;
        equal(&format!("{name}: the second implementation"), output(&input), due.clone())?;
        equal(&format!("{name}: the call that did both"), output_before(&input), due.clone())?;
        equal(&format!("{name}: the output"), on(&input)?, due.clone())?;
        equal(&format!("{name}: the output, a byte at a time"), on_parts(&input, || 1)?, due)?;
        number += 1;
    }
    equal("the number of cases", number, 50)
}

/// The input that holds these arguments, each cut or filled to a length that the form has.
fn written(request: Request, handle: [u8; 32]) -> Vec<u8> {
    let mut input = [vec![request.users, request.user], handle.to_vec()].concat();
    let mut memory = request.old_memory();
    if memory.is_empty() {
        input.push(0);
    } else {
        memory.resize(RECORD, 0);
        input.push(1);
        input.extend(memory);
    }
    for (record, mark) in request.list.chunks_exact(RECORD).zip(request.marks) {
        input.push(mark);
        input.extend(record);
    }
    input
}

/// An input for lists of every kind, sometimes of another form.
fn any_input(random: &mut Random) -> Vec<u8> {
    let mut input = written(Request::any(random), some_handle(random));
    match random.below(20) {
        0 => input.truncate(random.below(input.len() + 1)),
        1 => drop(input.pop()),
        2 => input.push(random.next() as u8),
        3 => input[34] = pick(random, &[0, 1, 2, 255]),
        4 => input.resize(35 + random.below(2) * RECORD + random.below(19) * (RECORD + 1), 1),
        5 => {
            let len = pick(random, &[0, 34, 35, 134, 1_619, 1_717, 1_718, 5_000]);
            input = random.bytes(len);
        }
        _ => {}
    }
    input
}

/// How the outputs began, so that no kind of them is left out.
#[derive(Default)]
struct Seen {
    input: usize,
    accept: usize,
    refuse: [usize; 8],
}

impl Seen {
    fn count(&mut self, due: &str) {
        let second = due.lines().nth(1).unwrap_or("");
        if let Some(counts) = second.strip_prefix("refuse ") {
            self.refuse[usize::from(counts.as_bytes()[0] - b'0')] += 1;
        } else if second.starts_with("accept ") {
            self.accept += 1;
        } else {
            self.input += 1;
        }
    }

    fn at_least(&self, times: usize) -> Outcome {
        let least = self.refuse[1..].iter().copied().chain([self.input, self.accept]).min().unwrap();
        if least < times {
            return Err(format!("an output was due {least} times: {} {} {:?}", self.input, self.accept, self.refuse));
        }
        Ok(())
    }
}

/// Random inputs, each also in parts of `parts` bytes at most, if any.
fn random_inputs(times: usize, seed: u64, parts: Option<usize>) -> Outcome {
    let mut random = Random::new(seed);
    let mut seen = Seen::default();
    for _ in 0..times {
        // Where the program stops reading is a matter of time, so the sizes have a source of their own.
        let mut sizes = Random::new(random.next());
        let input = any_input(&mut random);
        let due = output(&input);
        seen.count(&due);
        let got = match parts {
            None => on(&input)?,
            Some(most) => on_parts(&input, || 1 + sizes.below(most))?,
        };
        equal("the output", &got, &due)
            .and_then(|()| equal("the output, by the call that did both,", &got, &output_before(&input)))
            .map_err(|e| format!("{e}; input of {} bytes {}", input.len(), hex(&input)))?;
    }
    seen.at_least(times / 200)
}

/// A read that fails is the end of an input that is then empty.
fn unreadable() -> Outcome {
    let directory = File::open(env!("CARGO_MANIFEST_DIR")).map_err(|e| e.to_string())?;
    equal("the output", printed(Stdio::from(directory), |_| ())?, "input\n".to_string())
}

pub fn checks(runner: &mut Runner) {
    runner.check("desk: the papers' examples, each edge of the form, whole and a byte at a time", cases);
    runner.check("desk: 3,000 random inputs", || random_inputs(3_000, 1_717, None));
    runner.check("desk: 500 random inputs, a byte at a time", || random_inputs(500, 98, Some(1)));
    runner.check("desk: 500 random inputs, up to 600 bytes at a time", || random_inputs(500, 600, Some(600)));
    runner.check("desk: a directory as standard input", unreadable);
}
