//! What the speeds come to, and the table of it in Markdown.

/// A contender's speeds at one size, bytes, calls or questions a second: for each run, those of its rounds.
pub type Speeds = Vec<Vec<f64>>;

/// The library's speed over another's.
pub struct Ratio {
    /// Of all rounds.
    pub median: f64,
    /// The least and the greatest of the runs' medians.
    pub least: f64,
    pub greatest: f64,
}

impl Ratio {
    pub fn new(library: &Speeds, other: &Speeds) -> Ratio {
        let quotients = |(library, other): (&Vec<f64>, &Vec<f64>)| -> Vec<f64> {
            library.iter().zip(other).map(|(library, other)| library / other).collect()
        };
        let runs: Vec<Vec<f64>> = library.iter().zip(other).map(quotients).collect();
        let mut medians: Vec<f64> = runs.iter().cloned().map(median).collect();
        medians.sort_by(f64::total_cmp);
        Ratio { median: median(runs.concat()), least: medians[0], greatest: medians[medians.len() - 1] }
    }
}

pub fn median(mut values: Vec<f64>) -> f64 {
    values.sort_by(f64::total_cmp);
    values[values.len() / 2]
}

/// One piece of work, by the library.
pub struct Row {
    pub work: String,
    /// The library's function that does it.
    pub call: &'static str,
    /// The number that it is refused with, if it is.
    pub refused: Option<u8>,
    pub unit: Unit,
    /// A byte, a call or a question.
    pub instructions: Option<f64>,
    /// In bytes.
    pub stack: usize,
    pub speed: f64,
    pub besides: Vec<Beside>,
}

/// The same work, by another.
pub struct Beside {
    pub name: &'static str,
    pub instructions: Option<f64>,
    pub ratio: Ratio,
}

/// What instructions are counted by, and speeds.
pub struct Unit {
    /// The words that follow a number of instructions.
    pub instructions: &'static str,
    /// Its digits after the point: a byte takes few, a call or a question many.
    pub digits: usize,
    pub speed: &'static str,
    /// How many bytes, calls or questions a second are one of the speed's units.
    pub one: f64,
}

/// A contender's speed over the message's length.
pub struct Curve {
    pub name: &'static str,
    pub points: Vec<(usize, f64)>,
}

/// The table, and what was measured, where and how.
pub fn table(rows: &[Row], commit: &str, machine: &str, runs: usize, rounds: usize) -> String {
    format!(
        "Commit {commit}, on {machine}.

| | instructions | stack, bytes | beside, and its instructions | ratio (least to greatest) | speed |
|---|--:|--:|---|--:|--:|
{}
Instructions are callgrind's, a byte hashed (of a store's making, a byte written), a call, or one of a call's questions;
the stack is counted down to the lowest byte that the call writes. Both are the same in every run. The ratio is the
call's speed over the other's, taken within a round of turns: the median of the {} rounds of {runs} runs, and in
brackets the least and the greatest of the runs' medians. No run is left out. Speeds are the call's, by the processor's
time on that machine, and move.
",
        rows.iter().map(lines).collect::<String>(),
        runs * rounds
    )
}

/// A row's lines, one for each other that is beside it, or one alone; what is the library's stands in the first.
fn lines(row: &Row) -> String {
    let instructions = count(row.instructions, &row.unit, row.unit.instructions);
    let speed = format!("{} {}", grouped(row.speed / row.unit.one), row.unit.speed);
    let refused = row.refused.map_or(String::new(), |number| format!(", refused with {number}"));
    let work = format!("{}: `{}`{refused}", row.work, row.call);
    let mut library = [work, instructions, grouped(row.stack as f64), speed];
    let mut others: Vec<[String; 2]> = row.besides.iter().map(|beside| other(beside, &row.unit)).collect();
    if others.is_empty() {
        others.push(Default::default());
    }
    let mut lines = String::new();
    for [other, ratio] in others {
        let [work, instructions, stack, speed] = std::mem::take(&mut library);
        lines += &format!("| {work} | {instructions} | {stack} | {other} | {ratio} | {speed} |\n");
    }
    lines
}

/// Another beside the library, with its instructions, and the ratio to it.
fn other(beside: &Beside, unit: &Unit) -> [String; 2] {
    let Ratio { median, least, greatest } = beside.ratio;
    [
        format!("{}: {}", beside.name, count(beside.instructions, unit, "")),
        format!("{median:.2} ({least:.2} to {greatest:.2})"),
    ]
}

/// The picture's curves, as a table.
pub fn lengths(curves: &[Curve]) -> String {
    let line = |cells: Vec<String>| format!("| {} |\n", cells.join(" | "));
    let heads = std::iter::once("SHA-256 of so many bytes, MB/s".to_string());
    let mut table = line(heads.chain(curves.iter().map(|curve| curve.name.to_string())).collect());
    table += &format!("{}|\n", "|--:".repeat(curves.len() + 1));
    for (i, &(length, _)) in curves[0].points.iter().enumerate() {
        let speeds = curves.iter().map(|curve| grouped(curve.points[i].1 / 1e6));
        table += &line(std::iter::once(grouped(length as f64)).chain(speeds).collect());
    }
    table
}

/// A number of instructions, and the words that follow it.
fn count(instructions: Option<f64>, unit: &Unit, words: &str) -> String {
    let number = match instructions {
        Some(n) if unit.digits > 0 => format!("{n:.*}", unit.digits),
        Some(n) => grouped(n),
        None => return "not counted".to_string(),
    };
    format!("{number}{words}")
}

/// A number, rounded, with a comma before each three digits.
pub fn grouped(number: f64) -> String {
    let digits = format!("{number:.0}");
    let mut text = String::new();
    for (i, digit) in digits.chars().enumerate() {
        if i > 0 && (digits.len() - i) % 3 == 0 {
            text.push(',');
        }
        text.push(digit);
    }
    text
}
