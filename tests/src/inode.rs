//! sundr_block_check against the second implementation.

use crate::ffi::{sundr_block_check, Answer};
use crate::guarded::Guarded;
use crate::random::Random;
use crate::reference::inode::{block_check, block_lengths, FILE_BLOCK, HASHES, INODE, LONGEST};
use crate::reference::sha256::digest;
use crate::reference::Refusal;
use crate::runner::{equal, hex, Outcome, Runner};

/// A file and its inode.
struct File {
    content: Vec<u8>,
    inode: Vec<u8>,
}

/// What a check is given.
#[derive(Clone)]
struct Request {
    handle: Vec<u8>,
    inode: Vec<u8>,
    index: u32,
    block: Vec<u8>,
}

impl File {
    fn of(len: usize, random: &mut Random) -> File {
        let content = random.bytes(len);
        let mut inode = vec![6];
        inode.extend((len as u32).to_be_bytes());
        content.chunks(FILE_BLOCK).for_each(|block| inode.extend(digest(block)));
        inode.resize(INODE, 0);
        File { content, inode }
    }

    /// Files of no, one and two bytes, and by each multiple of 8,192.
    fn of_every_boundary(random: &mut Random) -> Vec<File> {
        let mut lengths = vec![0, 1, 2, 55, 64, 4_096];
        for blocks in 1..=HASHES {
            let len = blocks * FILE_BLOCK;
            lengths.extend([len - 1, len, len + 1, len + 2 + random.below(300)]);
        }
        lengths.retain(|&len| len <= LONGEST);
        lengths.into_iter().map(|len| File::of(len, random)).collect()
    }

    /// The check of the block at this index, of no bytes where the file has none.
    fn request(&self, index: usize) -> Request {
        let block = self.content.chunks(FILE_BLOCK).nth(index).unwrap_or(&[]).to_vec();
        Request { handle: digest(&self.inode).to_vec(), inode: self.inode.clone(), index: index as u32, block }
    }
}

/// How often each answer was due.
#[derive(Default)]
struct Seen {
    /// By index.
    accepted: [usize; HASHES],
    /// By number and first position.
    refused: [[usize; 2]; 11],
}

impl Seen {
    /// An error unless each refusal was due this often, and each index a twentieth of it.
    fn at_least(&self, times: usize) -> Outcome {
        let refused =
            [(2, 0), (8, 0), (3, 0), (10, 0), (2, 1), (8, 1)].map(|(number, first)| self.refused[number][first]);
        if refused.iter().all(|&count| count >= times) && self.accepted.iter().all(|&count| count >= times / 20) {
            Ok(())
        } else {
            Err(format!("refused {refused:?}, accepted {:?}", self.accepted))
        }
    }
}

/// One call, judged: the answer, and every byte, none of which is to change.
fn judge(request: &Request, seen: &mut Seen, random: &mut Random) -> Outcome {
    let Request { handle, inode, index, block } = request;
    let lent = [handle, inode, block].map(|bytes| Guarded::new(bytes, random));
    let [h, i, b] = lent.each_ref().map(|buffer| (buffer.pointer(), buffer.len()));
    let answer = unsafe { sundr_block_check(h.0, h.1, i.0, i.1, *index, b.0, b.1) };
    let due = block_check(handle, inode, *index, block);
    match due {
        Ok(_) => seen.accepted[*index as usize] += 1,
        Err(Refusal(number, first, _)) => seen.refused[usize::from(number)][first as usize] += 1,
    }
    let judged = || {
        equal("the answer", Answer::from(answer), Answer::from(due))?;
        lent.iter().try_for_each(|buffer| buffer.unaltered())
    };
    judged().map_err(|e: String| {
        let lent = [handle, inode, block].map(|bytes| format!("{} {}", bytes.len(), hex(bytes)));
        format!("{e}; index {index}, handle, inode, block {lent:?}")
    })
}

/// One bit, if there is one.
pub fn flip(bytes: &mut [u8], random: &mut Random) {
    if !bytes.is_empty() {
        bytes[random.below(bytes.len())] ^= 1 << random.below(8);
    }
}

fn some_file_length(random: &mut Random) -> u32 {
    match random.below(4) {
        0 => LONGEST as u32 + random.below(3) as u32,
        1 => (random.below(20) * FILE_BLOCK + random.below(3)) as u32,
        2 => random.next() as u32,
        _ => random.below(LONGEST) as u32,
    }
}

impl Request {
    /// A fault of the inode, which the handle then fits.
    fn forge(&mut self, random: &mut Random) {
        let index = self.index as usize % HASHES;
        let len = u32::from_be_bytes(self.inode[1..5].try_into().unwrap());
        let blocks = block_lengths(len as usize % (LONGEST + 1)).len();
        let set_length = |inode: &mut [u8], len: u32| inode[1..5].copy_from_slice(&len.to_be_bytes());
        match random.below(9) {
            0 => self.inode[0] = random.below(8) as u8,
            1 => set_length(&mut self.inode, some_file_length(random)),
            2 => set_length(&mut self.inode, len.wrapping_add(random.below(3) as u32).wrapping_sub(1)),
            3 => set_length(&mut self.inode, len.swap_bytes()),
            4 if blocks < HASHES => flip(&mut self.inode[5 + 32 * blocks..], random),
            5 => self.inode[5 + 32 * index..][..32].fill(0),
            6 => flip(&mut self.inode, random),
            // The block as it is not, under a hash that fits.
            _ => {
                self.damage_block(random);
                self.inode[5 + 32 * index..][..32].copy_from_slice(&digest(&self.block));
            }
        }
        self.handle = digest(&self.inode).to_vec();
    }

    fn damage_block(&mut self, random: &mut Random) {
        let len = self.block.len();
        match random.below(6) {
            0 => self.block.resize(FILE_BLOCK, 0),
            1 => self.block.truncate(len.saturating_sub(1)),
            2 => self.block.push(0),
            3 => self.block.clear(),
            4 => self.block.resize(random.below(300), 7),
            _ => flip(&mut self.block, random),
        }
    }

    /// Changes after the hashes were taken.
    fn damage(&mut self, random: &mut Random) {
        match random.below(8) {
            0 => flip(&mut self.handle, random),
            1 => flip(&mut self.inode, random),
            2 => self.handle.resize([0, 31, 33, 64][random.below(4)], 0),
            3 => self.inode.resize([0, 516, 518, 1_034][random.below(4)], 0),
            4 => self.index = self.index.wrapping_add([1, u32::MAX, 16, 1 << 16, 1 << 19, 1 << 31][random.below(6)]),
            5 => self.index = [16, 17, 1 << 19, u32::MAX, random.next() as u32][random.below(5)],
            _ => self.damage_block(random),
        }
    }
}

/// Each block of each file, and the indices after its last.
fn every_block() -> Outcome {
    let mut random = Random::new(8_192);
    let mut seen = Seen::default();
    for file in File::of_every_boundary(&mut random) {
        let blocks = block_lengths(file.content.len()).len();
        for index in (0..20).chain([256, 1 << 16, 1 << 19, (1 << 19) + 1, u32::MAX as usize]) {
            let before = seen.accepted.iter().sum::<usize>();
            judge(&file.request(index), &mut seen, &mut random)?;
            equal("the file has this block", seen.accepted.iter().sum::<usize>() > before, index < blocks)?;
        }
    }
    Ok(())
}

/// Honest checks, with up to two faults under fitting hashes, and up to two damages.
fn random_checks() -> Outcome {
    let mut random = Random::new(120_000);
    let mut seen = Seen::default();
    let files = File::of_every_boundary(&mut random);
    for _ in 0..120_000 {
        let file = &files[random.below(files.len())];
        let blocks = block_lengths(file.content.len()).len();
        // Mostly the last block, which is short in most files.
        let index = if random.below(4) == 0 { random.below(17) } else { blocks.saturating_sub(1) };
        let mut request = file.request(index);
        for _ in 0..random.below(6).saturating_sub(3) {
            request.forge(&mut random);
        }
        for _ in 0..random.below(5).saturating_sub(2) {
            request.damage(&mut random);
        }
        judge(&request, &mut seen, &mut random)?;
    }
    seen.at_least(2_000)
}

/// Each byte of an inode changed, before and after its hash was taken; each kind; each length of each argument.
fn every_byte_and_length() -> Outcome {
    let mut random = Random::new(517);
    let mut seen = Seen::default();
    for len in [0, 1, 100, 8_193, 24_577, 122_881] {
        let file = File::of(len, &mut random);
        let good = file.request(block_lengths(len).len().saturating_sub(1));
        for at in 0..INODE {
            let mut request = good.clone();
            request.inode[at] ^= 1 << random.below(8);
            judge(&request, &mut seen, &mut random)?;
            request.handle = digest(&request.inode).to_vec();
            judge(&request, &mut seen, &mut random)?;
        }
        for kind in 0..=255 {
            let mut request = good.clone();
            request.inode[0] = kind;
            request.handle = digest(&request.inode).to_vec();
            judge(&request, &mut seen, &mut random)?;
        }
        for other in (0..=600).chain([1_034, 8_191, 8_192, 8_193, 65_535, 65_536, 65_537, 131_072]) {
            for which in 0..3 {
                let mut request = good.clone();
                [&mut request.handle, &mut request.inode, &mut request.block][which].resize(other, 0);
                judge(&request, &mut seen, &mut random)?;
            }
        }
    }
    Ok(())
}

/// The index is the lower half of its register: a C caller leaves anything in the upper one.
fn upper_half_of_the_index() -> Outcome {
    type Wide = unsafe extern "C" fn(*const u8, usize, *const u8, usize, u64, *const u8, usize) -> u64;
    let call: Wide = unsafe { std::mem::transmute(sundr_block_check as *const ()) };
    let mut random = Random::new(64);
    let file = File::of(20_000, &mut random);
    for index in 0..20 {
        let Request { handle, inode, index, block } = file.request(index);
        let wide = random.next() << 32 | u64::from(index);
        let ask = |index: u64| {
            let answer = unsafe {
                call(handle.as_ptr(), handle.len(), inode.as_ptr(), inode.len(), index, block.as_ptr(), block.len())
            };
            Answer::from(answer)
        };
        equal(&format!("the answer for index {wide:#x}"), ask(wide), ask(u64::from(index)))?;
    }
    Ok(())
}

pub fn checks(runner: &mut Runner) {
    runner.check("block: files of every boundary's length, each index to 19 and far above", every_block);
    runner.check("block: 120,000 checks, forged under fitting hashes, damaged", random_checks);
    runner.check("block: every byte of an inode changed, every kind, every length to 600", every_byte_and_length);
    runner.check("block: anything in the upper half of the index's register", upper_half_of_the_index);
}
