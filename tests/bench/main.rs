//! The benchmark: calls of libsundr.a beside other implementations of the same.
//!
//! A round gives each contender each size in turn, so that whatever else the machine does falls on
//! all alike; ratios are taken within a round. A run is a number of rounds, with processes of its
//! own. Every round of every run counts.
//!
//!     bench FOLDER COMMIT MACHINE
//!
//! FOLDER has the contenders, and gets the table and the picture. COMMIT is what was measured,
//! MACHINE where and with what. The table is printed too, and the numbers of the picture's curves.

mod contender;
mod contests;
mod figures;
mod picture;

use contender::{Contender, Running};
use contests::{Contest, CONTESTS};
use figures::{median, Beside, Curve, Ratio, Row, Speeds};
use std::path::Path;

const RUNS: usize = 5;
const ROUNDS: usize = 21;

/// A contest, as it goes on.
struct Field {
    contest: &'static Contest,
    contenders: Vec<Contender>,
    /// Of each contender, at each size.
    speeds: Vec<Vec<Speeds>>,
}

impl Field {
    fn new(contest: &'static Contest, built: &Path) -> Field {
        let contenders = contest.contenders(built);
        let speeds = vec![vec![Vec::new(); contest.sizes.len()]; contenders.len()];
        Field { contest, contenders, speeds }
    }

    /// Who does not come to the library's result is no contender.
    fn compare_results(&self) {
        for &size in self.contest.sizes {
            let due = self.contenders[0].result(size);
            for other in &self.contenders {
                let name = self.contest.name(size);
                assert!(!due.is_empty() && other.result(size) == due, "{name}, {}: another result", other.name);
            }
        }
    }

    fn run(&mut self) {
        let mut processes: Vec<Running> = self.contenders.iter().map(Contender::start).collect();
        self.speeds.iter_mut().flatten().for_each(|speeds| speeds.push(Vec::new()));
        for _ in 0..ROUNDS {
            for (i, &size) in self.contest.sizes.iter().enumerate() {
                let times = self.contest.times_a_go(size);
                let amount = self.contest.amount(size, times);
                for (process, speeds) in processes.iter_mut().zip(&mut self.speeds) {
                    let run = speeds[i].last_mut().expect("this run");
                    run.push(amount / process.seconds(size, times));
                }
            }
        }
    }

    /// Instructions a byte, a call or a question.
    fn instructions(&self, contender: &Contender, size: usize) -> Option<f64> {
        let times = self.contest.times_counted(size);
        Some(contender.instructions(size, times)? / self.contest.amount(size, times))
    }

    fn rows(&self) -> Vec<Row> {
        let sizes = self.contest.sizes.iter().enumerate().filter(|(_, size)| self.contest.rows.contains(size));
        sizes.map(|(i, &size)| self.row(i, size)).collect()
    }

    fn row(&self, i: usize, size: usize) -> Row {
        let library = &self.speeds[0][i];
        let others = self.contenders.iter().zip(&self.speeds).skip(1);
        Row {
            work: self.contest.name(size),
            call: self.contest.call,
            refused: self.contest.refused(),
            unit: self.contest.unit(),
            instructions: self.instructions(&self.contenders[0], size),
            stack: self.contenders[0].stack(size),
            speed: median(library.concat()),
            besides: others
                .map(|(other, speeds)| Beside {
                    name: other.name,
                    instructions: self.instructions(other, size),
                    ratio: Ratio::new(library, &speeds[i]),
                })
                .collect(),
        }
    }

    fn curves(&self) -> Vec<Curve> {
        let points = |speeds: &Vec<Speeds>| speeds.iter().map(|speeds| median(speeds.concat())).collect::<Vec<f64>>();
        self.contenders
            .iter()
            .zip(&self.speeds)
            .map(|(contender, speeds)| Curve {
                name: contender.name,
                points: self.contest.sizes.iter().copied().zip(points(speeds)).collect(),
            })
            .collect()
    }
}

fn main() {
    let arguments: Vec<String> = std::env::args().skip(1).collect();
    let [folder, commit, machine] = &arguments[..] else { panic!("bench FOLDER COMMIT MACHINE") };
    let folder = Path::new(folder);

    let mut fields: Vec<Field> = CONTESTS.iter().map(|contest| Field::new(contest, folder)).collect();
    fields.iter().for_each(Field::compare_results);
    for _ in 0..RUNS {
        fields.iter_mut().for_each(Field::run);
    }
    let rows: Vec<Row> = fields.iter().flat_map(Field::rows).collect();
    // The hash's, which is the first.
    let curves = fields[0].curves();

    let table = figures::table(&rows, commit, machine, RUNS, ROUNDS);
    let svg = picture::draw(&rows, &curves, commit, RUNS, ROUNDS);
    std::fs::write(folder.join("figures.md"), &table).expect("a folder to write to");
    std::fs::write(folder.join("figures.svg"), svg).expect("a folder to write to");
    print!("{table}\n{}", figures::lengths(&curves));
}
