//! What a disk, a broken line or a careless caller makes of a call's arguments.

use crate::lists::{pick, Request};
use crate::random::Random;
use crate::reference::memory::{file_of, Memory, FILE, KIND, NONE, PENDING, SENT};
use crate::reference::version::{Version, RECORD, USERS};

/// A length that is not right: by one byte or one item, or far off.
pub fn other_length(bytes: &mut Vec<u8>, item: usize, random: &mut Random) {
    let len = bytes.len();
    let to = match random.below(6) {
        0 | 1 => len + 1,
        2 | 3 => len.saturating_sub(1),
        4 => len + item,
        _ => pick(random, &[0, 1, 16, 31, 33, 97, 99, 195, 196, 256, 1_568, 1_569]),
    };
    bytes.resize(to, 1);
}

/// Any byte becomes any other.
pub fn any_byte(bytes: &mut [u8], random: &mut Random) {
    if !bytes.is_empty() {
        let at = random.below(bytes.len());
        bytes[at] = random.next() as u8;
    }
}

/// A memory file that a disk, or a caller that knows the old form, has damaged.
pub fn damage_file(file: &mut Vec<u8>, random: &mut Random) {
    let behind = file.get(2..).unwrap_or(&[]).to_vec();
    match random.below(18) {
        // Another length, or the old form.
        0 => other_length(file, RECORD, random),
        1 => file.resize(pick(random, &[0, 1, 2, 97, 98, 98, 99, 99, 101, 101, 102, 200]), 0),
        2 => *file = pick(random, &[vec![], behind.clone(), vec![0; RECORD]].each_ref()).clone(),
        3 => drop(file.pop()),
        16 | 17 => *file = behind,
        4 => file.push(random.next() as u8),
        // Another kind or state, any byte, or a bit.
        5 => set(file, 0, pick(random, &[0, 1, 3, 6, 8, 135, 255])),
        6 | 7 => set(file, 1, pick(random, &[SENT, PENDING, NONE, 3, 4, 129, 255])),
        8 => any_byte(file, random),
        9 => {
            if !file.is_empty() {
                let at = random.below(file.len());
                file[at] ^= 1 << random.below(8);
            }
        }
        // None, with a structure behind it, or a byte; or zeros in another state.
        10 | 11 => set(file, 1, NONE),
        12 => {
            *file = Memory::Nothing.write().to_vec();
            let any = 2 + random.below(RECORD);
            let at = pick(random, &[2, 3, 50, 98, FILE - 1, any, any]);
            file[at] = 1 << random.below(8);
        }
        13 => *file = [vec![KIND, pick(random, &[SENT, PENDING, NONE, 3])], vec![0; RECORD]].concat(),
        14 => *file = vec![0; FILE],
        // As moved over by hand.
        _ => *file = file_of(&behind),
    }
}

fn set(bytes: &mut [u8], at: usize, to: u8) {
    if let Some(byte) = bytes.get_mut(at) {
        *byte = to;
    }
}

impl Request {
    /// One argument out of its range, or of a wrong length, or bytes that a line has damaged.
    pub fn damage(&mut self, random: &mut Random) {
        match random.below(18) {
            0 => self.users = pick(random, &[0, 17, 18, 32, 128, 255]),
            1 => self.user = pick(random, &[self.users, self.users.saturating_add(1), 16, 255]),
            2 => self.users = 1 + random.below(USERS) as u8,
            3 => self.user = random.below(USERS) as u8,
            4 | 9 | 12 => damage_file(&mut self.file, random),
            5 => other_length(&mut self.list, RECORD, random),
            6 => other_length(&mut self.marks, 16, random),
            7 => self.counts_len = pick(random, &[0, 1, 4, 15, 15, 17, 17, 32, 64, 98, 272]),
            // One record more than there are users.
            8 => {
                let records = usize::from(self.users) + 1;
                while self.list.len() < RECORD * records {
                    let version = Version::new(self.marks.len() as u8, [0; 32], [1; USERS]);
                    self.list.extend(version.write());
                    self.marks.push(1);
                }
            }
            10 => any_byte(&mut self.list, random),
            11 => any_byte(&mut self.marks, random),
            // A bit of the client's own structure, in both places.
            13 => {
                let behind = self.file.get(2..).unwrap_or(&[]);
                let at = self.list.chunks(RECORD).position(|record| record == behind);
                if let Some(i) = at {
                    let byte = random.below(RECORD);
                    self.list[RECORD * i + byte] ^= 1 << random.below(8);
                    self.file[2..].copy_from_slice(&self.list[RECORD * i..RECORD * (i + 1)]);
                }
            }
            14 => self.again_len = pick(random, &[0, 1, 16, 97, 97, 99, 99, 100, 196, 1_568]),
            _ => {
                if !self.marks.is_empty() {
                    let at = random.below(self.marks.len());
                    self.marks[at] = pick(random, &[0, 0, 2, 3, 129, 255]);
                }
            }
        }
    }
}
