//! The header's functions, beside those that the archive exports and those that the manual page names.

use crate::markdown::{Block, Document};
use crate::repository::Repository;
use crate::source::{code, text, words};
use crate::Failures;
use std::collections::{BTreeMap, BTreeSet};
use std::path::PathBuf;
use std::process::Command;

const HEADER: &str = "include/sundr.h";
const MANUAL: &str = "man/sundr.3";

/// The names of the functions that the archive has, and of those that the header has whole.
struct Header {
    declared: BTreeSet<String>,
    inline: BTreeSet<String>,
}

/// The header's text without the lines of the preprocessor.
fn unprocessed(code: &str) -> String {
    let whole = code.replace("\\\n", " ");
    whole.lines().filter(|line| !line.trim_start().starts_with('#')).map(|line| format!("{line}\n")).collect()
}

/// The text with nothing between its outermost braces, which those of `extern "C"` are not.
fn without_bodies(code: &str) -> String {
    let mut depth = 0_usize;
    let mut text = String::new();
    for c in code.replace("extern \"C\" {", "").chars() {
        depth -= usize::from(c == '}' && depth > 0);
        if depth == 0 {
            text.push(c);
        }
        depth += usize::from(c == '{');
    }
    text
}

/// The name that a declaration gives to a function, if it is one: a type and a name stand before a parenthesis.
fn function(declaration: &str) -> Option<&str> {
    let (before, _) = declaration.split_once('(')?;
    let typed = before.chars().all(|c| c.is_alphanumeric() || c.is_whitespace() || c == '_' || c == '*');
    words(before).pop().filter(|_| typed && words(before).len() > 1)
}

impl Header {
    fn read(repository: &Repository) -> Header {
        let mut header = Header { declared: BTreeSet::new(), inline: BTreeSet::new() };
        let code = without_bodies(&unprocessed(&code(&repository.root.join(HEADER))));
        for declaration in code.split([';', '}']) {
            let names = if declaration.contains('{') { &mut header.inline } else { &mut header.declared };
            names.extend(function(declaration).map(str::to_string));
        }
        header
    }
}

/// The names that an archive exports, or why they can't be had.
fn exported(archive: &PathBuf) -> Result<BTreeSet<String>, String> {
    let nm = Command::new("nm").args(["-g", "--defined-only"]).arg(archive).output().map_err(|e| format!("nm: {e}"))?;
    if !nm.status.success() {
        return Err(String::from_utf8_lossy(&nm.stderr).trim().to_string());
    }
    let lines = String::from_utf8_lossy(&nm.stdout).into_owned();
    // A line is an address, a letter and a name.
    Ok(lines.lines().filter_map(|line| line.split_whitespace().nth(2)).map(str::to_string).collect())
}

/// The archive exports what the header declares without a body, and nothing else.
pub fn archive(repository: &Repository) -> Failures {
    let built = repository.root.join("target/staticlib/libsundr.a");
    let archive = std::env::var_os("SUNDR_ARCHIVE").map_or(built, PathBuf::from);
    let declared = Header::read(repository).declared;
    let exported = match exported(&archive) {
        Ok(names) => names,
        Err(why) => return vec![why],
    };
    let missing = declared.difference(&exported).map(|name| format!("{HEADER}: the archive has no `{name}`"));
    let extra = exported.difference(&declared).map(|name| format!("{HEADER}: `{name}` of the archive is not declared"));
    let none = declared.is_empty().then(|| format!("{HEADER}: no function is declared"));
    missing.chain(extra).chain(none).collect()
}

/// The manual page names each function of the header.
pub fn manual(repository: &Repository) -> Failures {
    let page = text(&repository.root.join(MANUAL));
    if page.is_empty() {
        return vec![format!("{MANUAL}: not there")];
    }
    // A change of the font is written next to the word.
    let page = ["\\fB", "\\fI", "\\fR", "\\fP"].iter().fold(page, |page, font| page.replace(font, " "));
    let named: BTreeSet<&str> = words(&page).into_iter().collect();
    let header = Header::read(repository);
    let all = header.declared.union(&header.inline);
    all.filter(|name| !named.contains(name.as_str())).map(|name| format!("{MANUAL}: `{name}` is not named")).collect()
}

/// The stack that the header states, a number after each function's name.
fn stated(repository: &Repository) -> BTreeMap<String, String> {
    let text = text(&repository.root.join(HEADER));
    let comment = text.split_once(" * Stack.").and_then(|(_, rest)| rest.split_once("*/")).map_or("", |(part, _)| part);
    let words: Vec<&str> = comment.split_whitespace().collect();
    let pairs = words.windows(2).filter(|pair| pair[0].starts_with("sundr_"));
    pairs.map(|pair| (pair[0].to_string(), pair[1].to_string())).collect()
}

/// The stack that the header states of each function is that of the README's figures: their rows name the function in
/// the first cell, and have the stack in the third.
pub fn stack(readme: Option<&Document>, repository: &Repository) -> Failures {
    let stated = stated(repository);
    let rows: Vec<Vec<(usize, &str)>> =
        readme.map_or(Vec::new(), |readme| readme.blocks.iter().map(Block::cells).collect());
    let mut failures = Vec::new();
    for name in Header::read(repository).declared {
        let of_it = rows.iter().filter(|row| row.len() > 2 && row[0].1.ends_with(&format!("`{name}`")));
        let measured: BTreeSet<&str> = of_it.map(|row| row[2].1).collect();
        let stated = stated.get(&name).map_or("none", String::as_str);
        if measured != BTreeSet::from([stated]) {
            failures
                .push(format!("{HEADER}: the stack of `{name}` is {stated}, and in the README's figures {measured:?}"));
        }
    }
    failures
}

/// The header's SUNDR_VERSION.
pub fn version(repository: &Repository) -> Option<String> {
    let code = code(&repository.root.join(HEADER));
    let value = code.lines().find_map(|line| line.strip_prefix("#define SUNDR_VERSION \""))?;
    value.split('"').next().map(str::to_string)
}
