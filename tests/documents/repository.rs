//! What a document may cite: the repository's files, edits, functions, theorems, make targets and words.

use crate::source::{below, code, entries, text, words_of};
use std::collections::{BTreeMap, BTreeSet, HashSet};
use std::path::{Path, PathBuf};

/// What is built, and reported on: the archive's crate and the program.
pub const REPORTS: [&str; 2] = ["sundr_c", "desk"];

pub struct Repository {
    pub root: PathBuf,
    /// The words of all sources' code.
    words: HashSet<String>,
    /// All sources' code, for a path of what is built.
    code: String,
    /// Each `crate: name` of crates/CRATE/must-fail/NAME.edit.
    pub edits: BTreeSet<String>,
    /// Each `crate::name` and `crate::module::name` that a crate's src declares.
    items: HashSet<String>,
    /// Those of them that are public functions, the calls for C by their name alone.
    pub functions: BTreeSet<String>,
    /// Each `proof : Statement` of a file in proofs, and each statement of one in specs.
    theorems: HashSet<String>,
    statements: HashSet<String>,
    /// The fields of the record `Claims`, each with its statement.
    pub claims: BTreeMap<String, String>,
    targets: HashSet<String>,
    /// The contracts that the kit says it assumes of the archive and of the program.
    pub assumed: BTreeSet<String>,
}

/// The files whose words are names: all but documents.
fn sources(root: &Path) -> Vec<PathBuf> {
    let mut files = Vec::new();
    for folder in ["include", "tests", "demo", "examples", "tools", "man", "Makefile", ".ci/run", "crates.txt"] {
        files.extend(below(&root.join(folder)));
    }
    for crate_folder in entries(&root.join("crates")) {
        for part in ["src", "specs", "proofs"] {
            files.extend(below(&root.join("crates").join(&crate_folder).join(part)));
        }
    }
    files.retain(|file| file.extension() != Some("md".as_ref()));
    files
}

/// The name that a line of Rattle declares, if any.
fn declared(line: &str) -> Option<&str> {
    let line = line.strip_prefix("pub(crate) ").or(line.strip_prefix("pub ")).unwrap_or(line);
    let line = line.strip_prefix("extern \"C\" ").unwrap_or(line);
    let kinds = ["fn ", "const ", "struct ", "enum "];
    let rest = kinds.iter().find_map(|kind| line.strip_prefix(kind))?;
    rest.split(|c: char| !c.is_alphanumeric() && c != '_').next()
}

/// What a crate's src declares: the line that does, and the path of the name from the crate on.
fn declarations(name: &str, folder: &Path) -> Vec<(String, String)> {
    let mut declarations = Vec::new();
    for file in below(&folder.join("src")) {
        let module = file.strip_prefix(folder.join("src")).unwrap().with_extension("");
        let module = module.to_string_lossy().replace('/', "::");
        let path = if module == "lib" || module == "main" { name.to_string() } else { format!("{name}::{module}") };
        for line in code(&file).lines() {
            declarations.extend(declared(line).map(|item| (line.to_string(), format!("{path}::{item}"))));
        }
    }
    declarations
}

/// The public function that a line declares, as documents name it: a call for C by its name alone, both where it is
/// exported and where it is made.
fn public<'a>(line: &str, path: &'a str) -> Option<&'a str> {
    if line.starts_with("pub extern ") || line.starts_with("pub fn sundr_") {
        return path.rsplit("::").next();
    }
    line.starts_with("pub fn ").then_some(path)
}

/// The lines of all definitions or all proofs of a crate.
fn lines(folder: &Path, part: &str) -> Vec<String> {
    below(&folder.join(part))
        .iter()
        .flat_map(|file| code(file).lines().map(str::to_string).collect::<Vec<_>>())
        .collect()
}

/// The statement or definition that a line of specs declares for others, if any.
fn stated(line: &str) -> Option<&str> {
    let rest = line.strip_prefix("abbrev pub ").or(line.strip_prefix("pub record "))?;
    rest.split_whitespace().next()
}

/// The fields of `Claims`, each with its statement.
fn claims(root: &Path) -> BTreeMap<String, String> {
    let code = code(&root.join("crates/claims/specs/Claims.antt"));
    let fields = code.lines().filter_map(|line| line.strip_prefix("  pub ")?.split_once(" : "));
    fields.map(|(field, statement)| (field.to_string(), statement.trim().to_string())).collect()
}

/// The contracts in the kit's lines `axioms CRATE: CRATE::NAME, CRATE::NAME (..)`, in its report on the archive and on
/// the program. Where it reaches none of a crate's, the line has `none reached` for them.
fn assumed(root: &Path) -> BTreeSet<String> {
    let reports = REPORTS.map(|name| text(&root.join(format!("target/log/{name}.say"))));
    let lines = reports.iter().flat_map(|report| report.lines()).filter_map(|line| line.strip_prefix("axioms "));
    let names = lines.filter_map(|line| line.split_once(": ")?.1.split(" (").next());
    names.flat_map(|names| names.split(", ")).filter(|name| !name.starts_with("none reached ")).map(str::to_string).collect()
}

impl Repository {
    pub fn read(root: &Path) -> Repository {
        let sources = sources(root);
        let mut repository = Repository {
            root: root.to_path_buf(),
            words: sources.iter().flat_map(|file| words_of(file)).collect(),
            code: sources.iter().map(|file| code(file)).collect(),
            edits: BTreeSet::new(),
            items: HashSet::new(),
            functions: BTreeSet::new(),
            theorems: HashSet::new(),
            statements: HashSet::new(),
            claims: claims(root),
            targets: HashSet::new(),
            assumed: assumed(root),
        };
        for name in entries(&root.join("crates")) {
            repository.add_crate(&name, &root.join("crates").join(&name));
        }
        let makefile = code(&root.join("Makefile"));
        let rules = makefile.lines().filter(|line| !line.starts_with('\t')).filter_map(|line| line.split_once(':'));
        let targets = rules.flat_map(|(names, _)| names.split_whitespace());
        repository.targets = targets.map(str::to_string).collect();
        repository
    }

    fn add_crate(&mut self, name: &str, folder: &Path) {
        let edits = entries(&folder.join("must-fail"));
        self.edits.extend(edits.iter().filter_map(|edit| Some(format!("{name}: {}", edit.strip_suffix(".edit")?))));
        for (line, path) in declarations(name, folder) {
            self.functions.extend(public(&line, &path).map(str::to_string));
            self.items.insert(path);
        }
        self.theorems.extend(
            lines(folder, "proofs").iter().filter_map(|line| Some(line.strip_prefix("pub ")?.trim().to_string())),
        );
        self.statements.extend(lines(folder, "specs").iter().filter_map(|line| stated(line)).map(str::to_string));
    }

    /// The file or folder of this name: from the root, or below crates/; a folder with a slash at its end may be any
    /// crate's.
    pub fn path(&self, name: &str) -> Option<PathBuf> {
        let crates = self.root.join("crates");
        let mut places = vec![self.root.join(name), crates.join(name)];
        if name.ends_with('/') {
            places.extend(entries(&crates).iter().map(|own| crates.join(own).join(name)));
        }
        places.into_iter().find(|place| place.exists())
    }

    /// Whether a file or folder is there, or, below target/, is named by a source.
    pub fn has_file(&self, name: &str) -> bool {
        if name.starts_with("target/") {
            let goes_on = |c: char| c.is_alphanumeric() || matches!(c, '_' | '-' | '.');
            let mut rests = self.code.match_indices(name).map(|(place, _)| &self.code[place + name.len()..]);
            return rests.any(|rest| !rest.starts_with(goes_on));
        }
        self.path(name).is_some()
    }

    /// Whether the repository has this folder at its root. What is built is none of it.
    pub fn has_folder(&self, name: &str) -> bool {
        name != "target" && self.root.join(name).is_dir()
    }

    /// Whether it is a function, constant or type of a crate, or a contract that is assumed.
    pub fn has_item(&self, path: &str) -> bool {
        self.items.contains(path) || self.assumed.contains(path)
    }

    /// Whether there is a proof of this name, of a statement of this name.
    pub fn has_theorem(&self, theorem: &str, statement: &str) -> bool {
        self.theorems.contains(theorem) && self.statements.contains(statement)
    }

    pub fn has_target(&self, name: &str) -> bool {
        self.targets.contains(name)
    }

    pub fn has_word(&self, word: &str) -> bool {
        self.words.contains(word)
    }
}
