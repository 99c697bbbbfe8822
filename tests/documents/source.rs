//! Files, and the words of their code.

use std::collections::HashSet;
use std::path::{Path, PathBuf};

/// The names in a folder, in order; none where there is no folder.
pub fn entries(folder: &Path) -> Vec<String> {
    let found = std::fs::read_dir(folder).into_iter().flatten().flatten();
    let mut names: Vec<String> = found.map(|entry| entry.file_name().to_string_lossy().into_owned()).collect();
    names.sort();
    names
}

/// The files at or below a path.
pub fn below(path: &Path) -> Vec<PathBuf> {
    if path.is_file() {
        return vec![path.to_path_buf()];
    }
    entries(path).iter().flat_map(|name| below(&path.join(name))).collect()
}

/// A file's text, or none where there is no file.
pub fn text(path: &Path) -> String {
    String::from_utf8_lossy(&std::fs::read(path).unwrap_or_default()).into_owned()
}

/// A file's text without its comments: what only a comment names is not there.
pub fn code(path: &Path) -> String {
    let text = text(path);
    match path.extension().and_then(|extension| extension.to_str()) {
        Some("c" | "h") => without_comments(&text),
        Some("rt" | "rs") => up_to(&text, |line| line.find("//")),
        Some("antt") => up_to(&text, |line| line.find("--")),
        Some("md") => text,
        _ => up_to(&text, |line| if line.trim_start().starts_with('#') { Some(0) } else { line.find(" #") }),
    }
}

/// Each line as far as its comment.
fn up_to(text: &str, comment: impl Fn(&str) -> Option<usize>) -> String {
    text.lines().map(|line| line[..comment(line).unwrap_or(line.len())].to_string() + "\n").collect()
}

/// C without its comments.
fn without_comments(text: &str) -> String {
    let mut parts = text.split("/*");
    let first = parts.next().unwrap_or("").to_string();
    parts.fold(first, |code, part| code + " " + part.split_once("*/").map_or("", |(_, rest)| rest))
}

/// The words of a text: letters, digits and `_`, with `-` or `.` between two of these.
pub fn words(text: &str) -> Vec<&str> {
    let joins = |c: char| c == '-' || c == '.';
    let inside = |c: char| c.is_alphanumeric() || c == '_' || joins(c);
    let runs = text.split(|c| !inside(c)).flat_map(|run| run.split(".."));
    runs.map(|run| run.trim_matches(joins)).filter(|word| !word.is_empty()).collect()
}

/// The names that a file has: of definitions and proofs those that it declares, which stand before a colon; of any
/// other file the words of its code.
pub fn names_of(path: &Path) -> HashSet<String> {
    if path.extension() != Some("antt".as_ref()) {
        return words_of(path);
    }
    let code = code(path);
    let heads = code.lines().filter_map(|line| line.split_once(" :")).map(|(head, _)| head);
    heads.flat_map(words).map(str::to_string).collect()
}

/// The words of a file's code. Of one with a dot, as `x.len`, its parts too.
pub fn words_of(path: &Path) -> HashSet<String> {
    let code = code(path);
    let whole = words(&code);
    whole.iter().flat_map(|word| word.split('.')).chain(whole.iter().copied()).map(str::to_string).collect()
}
