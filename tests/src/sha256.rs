//! sundr_sha256 against the second implementation and against coreutils.

use crate::ffi::{sundr_sha256, Answer};
use crate::guarded::Guarded;
use crate::random::Random;
use crate::reference::sha256::digest;
use crate::runner::{equal, hex, Outcome, Runner};
use std::io::Write;
use std::process::{Command, Stdio};

/// The longest message that is taken.
const LIMIT: usize = 65_536;

/// One call, judged: the answer, the result, and every byte that is not to change.
fn judge(message: &[u8], out_len: usize, random: &mut Random) -> Outcome {
    let lent = Guarded::new(message, random);
    let mut out = Guarded::new(&random.bytes(out_len), random);
    let answer = unsafe { sundr_sha256(lent.pointer(), lent.len(), out.pointer_mut(), out.len()) };

    let judged = || {
        if message.len() > LIMIT || out_len != 32 {
            equal("the answer", Answer::from(answer), Answer::Refused(2, 0, 0))?;
            out.unaltered().map_err(|e| format!("out, refused: {e}"))?;
        } else {
            equal("the answer", Answer::from(answer), Answer::Accepted(0, 0))?;
            out.kept_guards().map_err(|e| format!("out: {e}"))?;
            equal("the hash", hex(out.content()), hex(&digest(message)))?;
        }
        lent.unaltered().map_err(|e| format!("message: {e}"))
    };
    judged().map_err(|e: String| {
        format!(
            "{e}; message of {} bytes at address {} modulo 64, out of {out_len} at {}: {}",
            message.len(),
            lent.pointer() as usize % 64,
            out.pointer_mut() as usize % 64,
            hex(message)
        )
    })
}

/// Mostly short, some of a few blocks, a few up to one byte over the limit.
fn some_length(random: &mut Random) -> usize {
    match random.below(100) {
        0..=1 => random.below(LIMIT + 2),
        2..=11 => random.below(8_192 + 64),
        _ => random.below(1_024),
    }
}

fn every_length_to_300() -> Outcome {
    let mut random = Random::new(300);
    for len in 0..=300 {
        for _ in 0..16 {
            judge(&random.bytes(len), 32, &mut random)?;
        }
    }
    Ok(())
}

fn random_messages() -> Outcome {
    let mut random = Random::new(100_000);
    for _ in 0..100_000 {
        let len = some_length(&mut random);
        judge(&random.bytes(len), 32, &mut random)?;
    }
    Ok(())
}

fn lengths_by_the_limit() -> Outcome {
    let mut random = Random::new(65_536);
    for len in LIMIT - 130..=LIMIT + 130 {
        judge(&random.bytes(len), 32, &mut random)?;
    }
    for len in [100_000, 131_072, 1_000_000] {
        judge(&random.bytes(len), 32, &mut random)?;
    }
    Ok(())
}

fn lengths_of_out() -> Outcome {
    let mut random = Random::new(32);
    for out_len in (0..=100).chain([255, 256, 288, 4_128, 65_568]) {
        for len in [0, 1, 55, 64, 642, LIMIT, LIMIT + 1] {
            judge(&random.bytes(len), out_len, &mut random)?;
        }
    }
    Ok(())
}

/// coreutils' `sha256sum` agrees with the second implementation, which agrees with the call.
fn sha256sum() -> Outcome {
    let mut random = Random::new(64);
    for len in (0..=130).step_by(5).chain([55, 56, 63, 64, 119, 120, 642, 8_192, LIMIT - 1, LIMIT]) {
        let message = random.bytes(len);
        judge(&message, 32, &mut random)?;
        equal("sha256sum's hash", sum_by_coreutils(&message)?, hex(&digest(&message)))?;
    }
    Ok(())
}

fn sum_by_coreutils(message: &[u8]) -> Result<String, String> {
    let run = || {
        let mut child = Command::new("sha256sum").stdin(Stdio::piped()).stdout(Stdio::piped()).spawn()?;
        child.stdin.take().unwrap().write_all(message)?;
        child.wait_with_output()
    };
    let output = run().map_err(|e| format!("sha256sum: {e}"))?;
    Ok(String::from_utf8_lossy(&output.stdout).chars().take(64).collect())
}

pub fn checks(runner: &mut Runner) {
    runner.check("sha256: every length 0 to 300, 16 messages each", every_length_to_300);
    runner.check("sha256: 100,000 random messages of up to 65,537 bytes, at any place", random_messages);
    runner.check("sha256: 130 lengths to either side of 65,536, and far above", lengths_by_the_limit);
    runner.check("sha256: results of every length 0 to 100, and of longer ones", lengths_of_out);
    runner.check("sha256: sha256sum agrees", sha256sum);
}
