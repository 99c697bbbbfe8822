//! The documents' test: what the documents cite is there, and what they owe to cite is cited.
//! `tests/README.md` has the rules.
//!
//! `documents [ROOT]` reads the repository at ROOT, or the one that it was built in.

mod citation;
mod header;
mod markdown;
mod repository;
mod source;
mod whole;

use markdown::Document;
use repository::Repository;
use std::path::{Path, PathBuf};
use std::process::ExitCode;

/// What is wrong, and where: `document:line: what`.
pub type Failures = Vec<String>;

/// Counts checks, and prints a line for each that passes and for each failure of the others.
#[derive(Default)]
struct Tally {
    passed: usize,
    failed: usize,
}

impl Tally {
    fn check(&mut self, what: &str, failures: Failures) {
        if failures.is_empty() {
            println!("ok      documents: {what}");
            self.passed += 1;
        } else {
            failures.iter().for_each(|failure| println!("FAILED  {failure}"));
            self.failed += 1;
        }
    }

    /// Prints the counts as the last line.
    fn finish(self) -> ExitCode {
        println!("{} passed, {} failed", self.passed, self.failed);
        ExitCode::from(u8::from(self.failed != 0))
    }
}

/// The documents that are read, by their paths from the root. Notes of past landings, in docs/changes, are not.
fn documents(root: &Path) -> Vec<Document> {
    let mut paths = ["README.md", "CHANGES.md", "examples/README.md", "tests/README.md"].map(str::to_string).to_vec();
    for folder in ["docs", "docs/claims"] {
        paths.extend(source::entries(&root.join(folder)).into_iter().map(|name| format!("{folder}/{name}")));
    }
    paths.retain(|path| path.ends_with(".md") && root.join(path).is_file());
    paths.iter().map(|path| Document::new(path, &source::text(&root.join(path)))).collect()
}

fn main() -> ExitCode {
    let own = concat!(env!("CARGO_MANIFEST_DIR"), "/..");
    let root = std::env::args_os().nth(1).map_or(PathBuf::from(own), PathBuf::from);
    let repository = Repository::read(&root);
    let documents = documents(&root);
    let mut tally = Tally::default();
    for document in &documents {
        tally.check(&format!("what {} cites is there", document.path), citation::failures(document, &repository));
    }
    for (what, failures) in whole::checks(&documents, &repository) {
        tally.check(what, failures);
    }
    tally.finish()
}
