//! One document against the repository: what stands in backticks, and the links.

use crate::markdown::{Block, Document, Span};
use crate::repository::Repository;
use crate::source::{below, names_of, words};
use crate::Failures;
use std::collections::HashSet;

/// What stands in backticks, by its form.
pub enum Citation<'a> {
    /// `crate: name, name`, as one `crate: name` for each.
    Edits(Vec<String>),
    /// `proof : Statement`.
    Theorem { statement: &'a str },
    /// `crate::name`, `crate::module::name` or `crate::{name, name}`, as one path for each.
    Items(Vec<String>),
    /// A path.
    File,
    /// A command of make, as its targets.
    Make(Vec<&'a str>),
    /// Any other name, code or text.
    Words,
}

/// Whether these are letters, digits and `_` alone.
fn is_name(text: &str) -> bool {
    !text.is_empty() && text.chars().all(|c| c.is_ascii_alphanumeric() || c == '_')
}

fn edits(text: &str) -> Option<Citation<'_>> {
    let (own, names) = text.split_once(": ")?;
    let all = is_name(own) && names.split(", ").all(is_name);
    all.then(|| Citation::Edits(names.split(", ").map(|name| format!("{own}: {name}")).collect()))
}

fn theorem(text: &str) -> Option<Citation<'_>> {
    let (proof, statement) = text.split_once(" : ")?;
    (!proof.contains(' ') && is_name(statement)).then_some(Citation::Theorem { statement })
}

fn items(text: &str) -> Option<Citation<'_>> {
    let (path, last) = text.rsplit_once("::")?;
    let names = last.strip_prefix('{').and_then(|names| names.strip_suffix('}')).unwrap_or(last);
    let all = path.split("::").all(is_name) && names.split(", ").all(is_name);
    all.then(|| Citation::Items(names.split(", ").map(|name| format!("{path}::{name}")).collect()))
}

fn make(text: &str) -> Option<Citation<'_>> {
    let mut rest = text.split_whitespace().skip_while(|word| *word != "make");
    rest.next()?;
    let targets: Vec<&str> = rest.filter(|word| !word.contains('=')).collect();
    (!targets.is_empty()).then_some(Citation::Make(targets))
}

impl Citation<'_> {
    pub fn of(text: &str) -> Citation<'_> {
        let file = || (text.contains('/') && !text.contains(' ')).then_some(Citation::File);
        edits(text)
            .or(theorem(text))
            .or_else(|| items(text))
            .or_else(file)
            .or_else(|| make(text))
            .unwrap_or(Citation::Words)
    }

    /// The words that a file has, if the citation names it: of a path or a theorem the last name.
    fn names<'a>(&'a self, text: &'a str) -> Vec<&'a str> {
        match self {
            Citation::Edits(_) | Citation::File | Citation::Make(_) => Vec::new(),
            Citation::Theorem { statement } => vec![statement],
            Citation::Items(paths) => paths.iter().filter_map(|path| path.rsplit("::").next()).collect(),
            Citation::Words => names(text),
        }
    }
}

/// The words of a text that are no numbers.
fn names(text: &str) -> Vec<&str> {
    words(text).into_iter().filter(|word| !word.starts_with(|c: char| c.is_ascii_digit())).collect()
}

/// A line for each name that is not there.
fn lacking<S: AsRef<str>>(what: &str, names: &[S], has: impl Fn(&str) -> bool) -> Vec<String> {
    let missing = names.iter().map(AsRef::as_ref).filter(|name| !has(name));
    missing.map(|name| format!("{what} `{name}`")).collect()
}

/// What of a citation is not there.
fn missing(text: &str, repository: &Repository) -> Vec<String> {
    let words = || lacking("no source has the word", &names(text), |name| repository.has_word(name));
    match Citation::of(text) {
        Citation::Edits(edits) => lacking("no edit", &edits, |edit| repository.edits.contains(edit)),
        Citation::Theorem { statement } => {
            lacking("no theorem", &[text], |theorem| repository.has_theorem(theorem, statement))
        }
        Citation::Items(paths) => lacking("no function", &paths, |path| repository.has_item(path)),
        Citation::File => lacking("no file", &[text], |name| repository.has_file(name)),
        Citation::Make(targets) => {
            [lacking("make has no target", &targets, |name| repository.has_target(name)), words()].concat()
        }
        Citation::Words if repository.path(text).is_some() => Vec::new(),
        Citation::Words => words(),
    }
}

/// Whether two citations stand together: only a comma, "and", "or" or "in" is between them.
fn joined(block: &Block, left: &Span, right: &Span) -> bool {
    let between: Vec<&str> = block.text[left.place.end..right.place.start].split_whitespace().collect();
    matches!(between[..], [","] | ["and"] | ["or"] | ["in"] | [",", "and"] | [",", "or"])
}

/// The spans of a block in runs that stand together.
fn runs<'a>(block: &Block, spans: &'a [Span]) -> Vec<&'a [Span]> {
    spans.chunk_by(|left, right| joined(block, left, right)).collect()
}

/// What each file that stands in parentheses right after a run of names lacks of them.
fn misplaced(block: &Block, names: &[Span], files: &[Span], repository: &Repository) -> Failures {
    let between = &block.text[names[names.len() - 1].place.end..files[0].place.start];
    let mut failures = Vec::new();
    if between.trim() != "(" {
        return failures;
    }
    for file in files {
        let Some(path) = repository.path(&file.text) else { continue };
        let words: HashSet<String> = below(&path).iter().flat_map(|file| names_of(file)).collect();
        for span in names {
            let citation = Citation::of(&span.text);
            let lacking = citation.names(&span.text).into_iter().filter(|name| !words.contains(*name));
            failures.extend(lacking.map(|name| format!("{}: `{}` has no `{name}`", span.line, file.text)));
        }
    }
    failures
}

/// What is wrong in a link's target.
fn broken(document: &Document, target: &str, repository: &Repository) -> Option<String> {
    if target.contains("://") {
        return None;
    }
    let (path, anchor) = target.split_once('#').unwrap_or((target, ""));
    let own = repository.root.join(&document.path);
    let file = if path.is_empty() { own } else { own.parent()?.join(path) };
    if !file.exists() {
        return Some(format!("a link to `{target}`, which is not there"));
    }
    let anchors = Document::new(path, &crate::source::text(&file)).anchors();
    (!anchor.is_empty() && !anchors.iter().any(|known| known == anchor)).then(|| format!("no heading is `{target}`"))
}

/// What is wrong in a line of code: a target that make has not, or a path below a folder of the repository that is not
/// there. What is built, below target/, is not looked for.
fn mistyped(line: &str, repository: &Repository) -> Vec<String> {
    let targets = line.strip_prefix("make ").unwrap_or("").split_whitespace().filter(|word| !word.contains('='));
    let targets: Vec<&str> = targets.collect();
    let ours = |word: &&str| word.split_once('/').is_some_and(|(top, _)| repository.has_folder(top));
    let paths: Vec<&str> = line.split_whitespace().filter(ours).collect();
    [
        lacking("make has no target", &targets, |name| repository.has_target(name)),
        lacking("no file", &paths, |name| repository.path(name).is_some()),
    ]
    .concat()
}

/// What is wrong in one block.
fn failures_in(document: &Document, block: &Block, repository: &Repository) -> Failures {
    let spans = block.spans();
    let mut failures = Vec::new();
    if !block.is_paired() {
        failures.push(document.at(block.line_at(0), "a backtick has no pair, or stands beside another"));
    }
    for span in &spans {
        failures.extend(missing(&span.text, repository).iter().map(|what| document.at(span.line, what)));
    }
    for pair in runs(block, &spans).windows(2) {
        let wrong = misplaced(block, pair[0], pair[1], repository);
        failures.extend(wrong.iter().map(|what| format!("{}:{what}", document.path)));
    }
    for (line, target) in block.links() {
        failures.extend(broken(document, &target, repository).map(|what| document.at(line, &what)));
    }
    failures
}

/// All that is wrong in a document's citations and links.
pub fn failures(document: &Document, repository: &Repository) -> Failures {
    let in_blocks = document.blocks.iter().flat_map(|block| failures_in(document, block, repository));
    let in_code = document.code.iter().flat_map(|(number, line)| {
        mistyped(line, repository).into_iter().map(|what| document.at(*number, &what)).collect::<Vec<_>>()
    });
    in_blocks.chain(in_code).collect()
}
