//! What checks come to, and how often: a test by chance has to have each answer, each place, and each way in which a file
//! and the list's own entry stand to each other.

use crate::check::{self, Due};
use crate::lists::Request;
use crate::reference::check::Verdict;
use crate::reference::memory::{Memory, FILE, KIND, NONE, PENDING, SENT};
use crate::reference::version::{RECORD, USERS};
use crate::reference::Refusal;
use crate::runner::{enough, Outcome};

/// How often each answer was due.
#[derive(Default)]
pub struct Seen {
    pub accepted: usize,
    /// Send again, where the list has an entry of the client's, and where it has none.
    pub again: [usize; 2],
    /// By number and first position.
    pub refused: [[usize; USERS + 1]; 8],
    /// Refusals 7 of two records, by the first and by the second; of a record and the new structure, by the record.
    pub firsts: [usize; USERS],
    seconds: [usize; USERS],
    pub new_structure: [usize; USERS],
}

impl Seen {
    pub fn count(&mut self, due: &Due, request: &Request) {
        match due {
            Ok(Verdict::Next(_)) => self.accepted += 1,
            Ok(Verdict::Again(_)) => self.again[usize::from(request.entry().is_none())] += 1,
            Err(Refusal(number, first, second)) => {
                self.refused[usize::from(*number)][*first as usize] += 1;
                if *number == 7 && *second as usize == request.list.len() / RECORD {
                    self.new_structure[*first as usize] += 1;
                } else if *number == 7 {
                    self.firsts[*first as usize] += 1;
                    self.seconds[*second as usize] += 1;
                }
            }
        }
    }

    /// How often a refusal was due.
    pub fn number(&self, number: usize) -> usize {
        self.refused[number].iter().sum()
    }

    /// An error unless each answer was due this often.
    pub fn at_least(&self, times: usize) -> Outcome {
        let numbers = (1..=7).map(|number| (format!("refusal {number}"), self.number(number)));
        let others = [
            ("accepted", self.accepted),
            ("send again, an entry", self.again[0]),
            ("send again, no entry", self.again[1]),
            ("refusal 3 of the memory", self.refused[3][16]),
            ("refusal 7 of two records", self.firsts.iter().sum()),
            ("refusal 7 of the new structure", self.new_structure.iter().sum()),
        ];
        enough(numbers.chain(others.map(|(what, seen)| (what.to_string(), seen))), times)
    }

    /// An error unless each place of a refusal was told this often.
    pub fn places_at_least(&self, times: usize) -> Outcome {
        let last = USERS - 1;
        let places = [
            ("refusal 3", &self.refused[3][..], 0),
            ("refusal 4", &self.refused[4][..USERS], 0),
            ("refusal 7 of the new structure", &self.new_structure, 0),
            ("refusal 7, first", &self.firsts[..last], 0),
            ("refusal 7, second", &self.seconds[1..], 1),
        ];
        let each = |(what, seen, from): (&'static str, &[usize], usize)| -> Vec<(String, usize)> {
            seen.iter().enumerate().map(|(i, &times)| (format!("{what} at {}", from + i), times)).collect()
        };
        enough(places.into_iter().flat_map(each), times)
    }
}

/// The kinds of checks that are told apart by the file and the list's own entry, and whether this is one.
pub fn kinds(request: &Request, due: &Due) -> Vec<(&'static str, bool)> {
    let Request { users, file, counts_len, again_len, .. } = request;
    let state = file.get(1).copied().unwrap_or(NONE);
    let entry = request.entry();
    let shown = i64::from(entry.map_or(0, |entry| entry.own()));
    let held = i64::from(request.remembered().map_or(0, |version| version.own()));
    match due {
        Ok(Verdict::Next(_)) => {
            vec![
                ("accepted, none", state == NONE),
                ("accepted, sent", state == SENT),
                ("accepted, pending", state == PENDING),
            ]
        }
        Ok(Verdict::Again(_)) => {
            // What would be said if the client had never made it.
            let before =
                Request { file: entry.map_or(Memory::Nothing, Memory::Sent).write().to_vec(), ..request.clone() };
            vec![
                ("again, an entry", entry.is_some()),
                ("again, no entry", entry.is_none()),
                ("again, the last count", held == i64::from(u32::MAX)),
                ("again, and the list is not ordered", matches!(check::due(&before), Err(Refusal(7, ..)))),
            ]
        }
        Err(Refusal(2, ..)) => {
            let rest = Request { file: Memory::Nothing.write().to_vec(), ..request.clone() };
            let alone = file.len() != FILE && !matches!(check::due(&rest), Err(Refusal(2, ..)));
            vec![
                ("2, no file", alone && file.is_empty()),
                ("2, a file of 98 bytes", alone && file.len() == RECORD),
                ("2, a file of 99 bytes", alone && file.len() == FILE - 1),
                ("2, a file of 101 bytes", alone && file.len() == FILE + 1),
                ("2, room to send again", file.len() == FILE && *counts_len == USERS && *again_len != RECORD),
                ("2, room for the counts", file.len() == FILE && *counts_len != USERS && *again_len == RECORD),
            ]
        }
        Err(Refusal(3, 16, _)) => {
            let kind = file[0] == KIND;
            let another = request.remembered().is_some_and(|version| version.well_formed(*users));
            vec![
                ("3 of the file, its kind", !kind),
                ("3 of the file, its state", kind && state > NONE),
                ("3 of the file, none and more behind it", kind && state == NONE),
                ("3 of the file, another's", kind && state < NONE && another),
                ("3 of the file, sent, malformed", kind && state == SENT && !another),
                ("3 of the file, pending, malformed", kind && state == PENDING && !another),
            ]
        }
        Err(Refusal(5, ..)) => {
            let (sent, pending) = (state == SENT, state == PENDING);
            vec![
                ("5, none", state == NONE),
                ("5, sent, no entry", sent && entry.is_none()),
                ("5, sent, no entry at count 1", sent && entry.is_none() && held == 1),
                ("5, sent, one less", sent && entry.is_some() && shown == held - 1),
                ("5, sent, the same count", sent && shown == held),
                ("5, pending, no entry", pending && entry.is_none()),
                ("5, pending, no entry at count 2", pending && entry.is_none() && held == 2),
                ("5, pending, two less", pending && entry.is_some() && shown == held - 2),
                ("5, pending, the same count", pending && shown == held),
                ("5, pending, one more", pending && shown == held + 1),
            ]
        }
        Err(Refusal(6, ..)) => vec![("6, sent", state == SENT), ("6, pending", state == PENDING)],
        Err(Refusal(7, ..)) => {
            vec![("7, none", state == NONE), ("7, sent", state == SENT), ("7, pending", state == PENDING)]
        }
        Err(_) => vec![],
    }
}
