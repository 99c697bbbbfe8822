//! A contender: a program that does one piece of work over and over, as worker.c has it.

use std::io::{BufRead, BufReader, ErrorKind, Write};
use std::path::{Path, PathBuf};
use std::process::{Child, ChildStdin, ChildStdout, Command, Stdio};

pub struct Contender {
    pub name: &'static str,
    program: PathBuf,
    /// OpenSSL's OPENSSL_ia32cap, nothing for what the processor has.
    features: &'static str,
    /// Whether callgrind can run it.
    counted: bool,
}

impl Contender {
    pub fn new(name: &'static str, program: PathBuf, features: &'static str, counted: bool) -> Contender {
        Contender { name, program, features, counted }
    }

    /// A process that does the work when it is told to.
    pub fn start(&self) -> Running {
        let mut process = self
            .command(&self.program)
            .stdin(Stdio::piped())
            .stdout(Stdio::piped())
            .spawn()
            .expect("a contender that was built");
        let to = process.stdin.take();
        let from = BufReader::new(process.stdout.take().expect("its output"));
        Running { process, to, from }
    }

    /// What the work comes to.
    pub fn result(&self, size: usize) -> String {
        self.ask("result", size)
    }

    /// Bytes of stack, found by painting it.
    pub fn stack(&self, size: usize) -> usize {
        self.ask("stack", size).parse().expect("bytes of stack")
    }

    /// Instructions of so many times the work, by callgrind; none where it is not there or cannot run it.
    pub fn instructions(&self, size: usize, times: usize) -> Option<f64> {
        if !self.counted {
            return None;
        }
        let output = self
            .command(Path::new("valgrind"))
            .args(["--tool=callgrind", "--callgrind-out-file=/dev/null", "--toggle-collect=work"])
            .arg(&self.program)
            .args(["count", &size.to_string(), &times.to_string()])
            .output();
        if output.as_ref().is_err_and(|error| error.kind() == ErrorKind::NotFound) {
            return None;
        }
        let said = String::from_utf8_lossy(&output.expect("a valgrind that runs").stderr).into_owned();
        let collected = said.lines().find_map(|line| line.split("Collected :").nth(1)).expect("callgrind's sum");
        Some(collected.trim().parse().expect("a number of instructions"))
    }

    fn ask(&self, what: &str, size: usize) -> String {
        let output = self.command(&self.program).args([what, &size.to_string()]).output();
        String::from_utf8_lossy(&output.expect("a contender that runs").stdout).trim().to_string()
    }

    fn command(&self, program: &Path) -> Command {
        let mut command = Command::new(program);
        if !self.features.is_empty() {
            command.env("OPENSSL_ia32cap", self.features);
        }
        command
    }
}

/// A contender's process.
pub struct Running {
    process: Child,
    to: Option<ChildStdin>,
    from: BufReader<ChildStdout>,
}

impl Running {
    /// Seconds that so many times the work take.
    pub fn seconds(&mut self, size: usize, times: usize) -> f64 {
        writeln!(self.to.as_ref().expect("its input"), "{size} {times}").expect("a contender that runs");
        let mut line = String::new();
        self.from.read_line(&mut line).expect("a contender that answers");
        line.trim().parse::<f64>().expect("nanoseconds") / 1e9
    }
}

impl Drop for Running {
    /// The program ends with its input.
    fn drop(&mut self) {
        self.to = None;
        let _ = self.process.wait();
    }
}
