//! Checks of all documents together: what is owed is there.

use crate::citation::Citation;
use crate::header;
use crate::markdown::Document;
use crate::repository::{Repository, REPORTS};
use crate::source::text;
use crate::Failures;
use std::collections::HashSet;

const CLAIMS: &str = "docs/CLAIMS.md";
const DECISIONS: &str = "docs/DECISIONS.md";
const ASSUMPTIONS: &str = "docs/ASSUMPTIONS.md";
const CHANGES: &str = "CHANGES.md";

/// The most characters of a table's cell in docs/DECISIONS.md.
const LONGEST_CELL: usize = 250;

fn find<'a>(documents: &'a [Document], path: &str) -> Option<&'a Document> {
    documents.iter().find(|document| document.path == path)
}

/// The documents that a reader is promised.
fn present(documents: &[Document]) -> Failures {
    let due = ["README.md", CHANGES, CLAIMS, DECISIONS, ASSUMPTIONS];
    let missing = due.iter().filter(|path| find(documents, path).is_none()).map(|path| format!("{path}: not there"));
    let sentences = documents.iter().any(|document| document.path.starts_with("docs/claims/"));
    missing.chain((!sentences).then(|| "docs/claims: no document is there".to_string())).collect()
}

/// The documents that lead from the papers' sentences to what holds them.
fn claims(documents: &[Document]) -> impl Iterator<Item = &Document> {
    documents.iter().filter(|document| document.path == CLAIMS || document.path.starts_with("docs/claims/"))
}

/// Each edit is cited where the claims are.
fn edits(documents: &[Document], repository: &Repository) -> Failures {
    let mut cited = HashSet::new();
    for span in claims(documents).flat_map(Document::spans) {
        if let Citation::Edits(edits) = Citation::of(&span.text) {
            cited.extend(edits);
        }
    }
    let none = repository.edits.is_empty().then(|| "crates: no edit is there".to_string());
    let uncited = repository.edits.iter().filter(|edit| !cited.contains(*edit));
    uncited.map(|edit| format!("{CLAIMS}: nothing cites the edit `{edit}`")).chain(none).collect()
}

/// Each public function is cited where the claims are.
fn functions(documents: &[Document], repository: &Repository) -> Failures {
    let cited: HashSet<String> = claims(documents).flat_map(Document::spans).map(|span| span.text).collect();
    let none = repository.functions.is_empty().then(|| "crates: no public function is there".to_string());
    let uncited = repository.functions.iter().filter(|function| !cited.contains(*function));
    uncited.map(|function| format!("{CLAIMS}: nothing cites the function `{function}`")).chain(none).collect()
}

/// Each field of `Claims` stands in one block of docs/CLAIMS.md with its statement.
fn fields(documents: &[Document], repository: &Repository) -> Failures {
    let blocks = find(documents, CLAIMS).map_or(&[][..], |document| &document.blocks);
    let cited: Vec<HashSet<String>> =
        blocks.iter().map(|block| block.spans().into_iter().map(|span| span.text).collect()).collect();
    let none = repository.claims.is_empty().then(|| "crates/claims/specs/Claims.antt: no field is there".to_string());
    let missing = repository
        .claims
        .iter()
        .filter(|(field, statement)| !cited.iter().any(|spans| spans.contains(*field) && spans.contains(*statement)));
    missing
        .map(|(field, statement)| format!("{CLAIMS}: no row cites `{field}` with `{statement}`"))
        .chain(none)
        .collect()
}

/// No cell of docs/DECISIONS.md is too long to be read at a glance.
fn cells(documents: &[Document]) -> Failures {
    let Some(document) = find(documents, DECISIONS) else { return vec![format!("{DECISIONS}: not there")] };
    let cells = document.blocks.iter().flat_map(|block| block.cells());
    let long = cells.map(|(line, cell)| (line, cell.chars().count())).filter(|(_, length)| *length > LONGEST_CELL);
    long.map(|(line, length)| document.at(line, &format!("a cell of {length} characters"))).collect()
}

/// docs/ASSUMPTIONS.md cites each contract that the kit's reports on the archive and the program name as assumed. (That
/// it cites no other one is seen with its citations.)
fn assumed(documents: &[Document], repository: &Repository) -> Failures {
    let mut failures = Vec::new();
    for name in REPORTS {
        let report = format!("target/log/{name}.say");
        if !text(&repository.root.join(&report)).contains("\nlogic=proved ") {
            failures.push(format!("{report}: no report of a proved crate"));
        }
    }
    let cited: HashSet<String> =
        find(documents, ASSUMPTIONS).into_iter().flat_map(Document::spans).map(|span| span.text).collect();
    let missing = repository.assumed.iter().filter(|path| !cited.contains(*path));
    failures.extend(missing.map(|path| format!("{ASSUMPTIONS}: `{path}` is assumed, and not cited")));
    failures
}

/// The newest heading of CHANGES.md is of the header's version.
fn version(documents: &[Document], repository: &Repository) -> Failures {
    let Some(version) = header::version(repository) else {
        return vec!["include/sundr.h: no SUNDR_VERSION".to_string()];
    };
    let blocks = find(documents, CHANGES).map_or(&[][..], |document| &document.blocks);
    let newest = blocks.iter().find_map(|block| block.text.strip_prefix("## "));
    let same = newest.is_some_and(|heading| heading.split(':').next() == Some(&version));
    (!same)
        .then(|| format!("{CHANGES}: the newest heading is not of {version}, the header's version"))
        .into_iter()
        .collect()
}

/// Each check, with what it says.
pub fn checks(documents: &[Document], repository: &Repository) -> Vec<(&'static str, Failures)> {
    vec![
        ("all documents are there", present(documents)),
        ("each edit is cited in the claims", edits(documents, repository)),
        ("each public function is cited in the claims", functions(documents, repository)),
        ("each field of Claims is cited, with its statement", fields(documents, repository)),
        ("no cell of the decisions is over 250 characters", cells(documents)),
        ("each assumed contract is cited in the assumptions", assumed(documents, repository)),
        ("the archive exports what the header declares", header::archive(repository)),
        ("the manual page names each function of the header", header::manual(repository)),
        ("the stack in the header is that of the figures", header::stack(find(documents, "README.md"), repository)),
        ("the newest changes are those of the header's version", version(documents, repository)),
    ]
}
