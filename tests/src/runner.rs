//! Runs named checks, and counts them.

use std::cell::Cell;
use std::panic::{catch_unwind, AssertUnwindSafe};
use std::process::{exit, ExitCode};

/// Passed, or what is wrong, with the input that shows it.
pub type Outcome = Result<(), String>;

pub struct Runner {
    passed: usize,
    failed: usize,
}

extern "C" {
    fn signal(number: i32, handler: extern "C" fn(i32)) -> usize;
}
const SIGSEGV: i32 = 11;

thread_local! {
    /// The check that runs.
    static RUNNING: Cell<&'static str> = const { Cell::new("") };
}

/// A call touched memory that it may not. It is in the midst of its work, so that no other check can follow.
extern "C" fn fault(_: i32) {
    println!("FAILED  {}: memory was touched that is not lent", RUNNING.get());
    exit(1)
}

impl Runner {
    pub fn new() -> Runner {
        unsafe { signal(SIGSEGV, fault) };
        Runner { passed: 0, failed: 0 }
    }

    /// One check: one line, one count. A panic fails it.
    pub fn check(&mut self, name: &'static str, body: impl FnOnce() -> Outcome) {
        RUNNING.set(name);
        match catch_unwind(AssertUnwindSafe(body)).unwrap_or(Err("panicked".to_string())) {
            Ok(()) => {
                self.passed += 1;
                println!("ok      {name}");
            }
            Err(why) => {
                self.failed += 1;
                println!("FAILED  {name}: {why}");
            }
        }
    }

    /// Both runners' counts.
    pub fn and(self, other: Runner) -> Runner {
        Runner { passed: self.passed + other.passed, failed: self.failed + other.failed }
    }

    /// Prints the counts as the last line.
    pub fn finish(self) -> ExitCode {
        println!("{} passed, {} failed", self.passed, self.failed);
        if self.failed == 0 {
            ExitCode::SUCCESS
        } else {
            ExitCode::FAILURE
        }
    }
}

/// An error unless the two are equal.
pub fn equal<T: PartialEq + std::fmt::Debug>(what: &str, got: T, due: T) -> Outcome {
    if got == due {
        Ok(())
    } else {
        Err(format!("{what} is {got:?}, not {due:?}"))
    }
}

/// An error unless each of these was seen so often.
pub fn enough(seen: impl IntoIterator<Item = (String, usize)>, times: usize) -> Outcome {
    let rare: Vec<_> = seen.into_iter().filter(|(_, seen)| *seen < times).collect();
    if rare.is_empty() {
        Ok(())
    } else {
        Err(format!("too few: {rare:?}"))
    }
}

/// Bytes as hexadecimal digits; of over 300, the first and the number. (A run again tests the same.)
pub fn hex(bytes: &[u8]) -> String {
    let shown: String = bytes.iter().take(300).map(|b| format!("{b:02x}")).collect();
    if bytes.len() > 300 {
        format!("{shown}.. ({} bytes)", bytes.len())
    } else {
        shown
    }
}
