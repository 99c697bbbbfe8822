//! The i-table (01's table of files): the layout of its blocks, its writer, and the lookup along
//! one path.

use super::sha256::{digest, Remembered};
use super::Refusal;

pub const BLOCK: usize = 642;
pub const SLOTS: usize = 16;
pub const MOST_FILES: usize = 4_096;
pub const LEAF: u8 = 3;
const TOP: u8 = 5;

/// An i-number, and a file handle or a child's hash.
pub type Slot = (u64, [u8; 32]);

/// A well-formed block: its kind and its used slots.
struct Block {
    kind: u8,
    slots: Vec<Slot>,
}

impl Block {
    fn bytes(&self) -> Vec<u8> {
        let mut bytes = vec![self.kind, self.slots.len() as u8];
        for (number, value) in &self.slots {
            bytes.extend(number.to_be_bytes());
            bytes.extend(value);
        }
        bytes.resize(BLOCK, 0);
        bytes
    }

    /// The block in these bytes, if they are well formed wherever they stand: up to sixteen used
    /// slots, numbers strictly ascending, the rest zero.
    fn read(bytes: &[u8]) -> Option<Block> {
        let used = usize::from(bytes[1]);
        if used > SLOTS {
            return None;
        }
        let (slots, rest) = bytes[2..].split_at(40 * used);
        let slots: Vec<Slot> = slots
            .chunks(40)
            .map(|slot| (u64::from_be_bytes(slot[..8].try_into().unwrap()), slot[8..].try_into().unwrap()))
            .collect();
        let ascending = slots.windows(2).all(|two| two[0].0 < two[1].0);
        (ascending && rest.iter().all(|&byte| byte == 0)).then_some(Block { kind: bytes[0], slots })
    }
}

/// The blocks of the table, end to end.
pub fn write(numbers: &[u64], handles: &[u8], out_len: usize) -> Result<Vec<u8>, Refusal> {
    if numbers.len() > MOST_FILES || handles.len() != 32 * numbers.len() {
        return Err(Refusal(2, 0, 0));
    }
    for i in 1..numbers.len() {
        if numbers[i] <= numbers[i - 1] {
            return Err(Refusal(11, i as u32, 0));
        }
    }
    let files = numbers.iter().zip(handles.chunks(32)).map(|(&number, handle)| (number, handle.try_into().unwrap()));
    let blocks = levels(files.collect());
    if out_len < blocks.len() {
        return Err(Refusal(12, 0, 0));
    }
    Ok(blocks)
}

/// Leaves over the files, then blocks over those as long as there is more than one.
fn levels(mut below: Vec<Slot>) -> Vec<u8> {
    if below.is_empty() {
        return Block { kind: LEAF, slots: below }.bytes();
    }
    let mut written = Vec::new();
    for kind in LEAF.. {
        let mut above = Vec::new();
        for slots in below.chunks(SLOTS) {
            let block = Block { kind, slots: slots.to_vec() }.bytes();
            above.push((slots[0].0, digest(&block)));
            written.extend(block);
        }
        if above.len() == 1 {
            break;
        }
        below = above;
    }
    written
}

/// A lookup's answer: the file's handle, or none if the table has no such file.
pub type Found = Result<Option<[u8; 32]>, Refusal>;

/// The lookup of 01 with 02's request c.
pub fn lookup(handle: &[u8], number: u64, path: &[u8], out_len: usize) -> Found {
    walk(handle, number, path, out_len, true, digest)
}

/// The same, with hashes that are remembered from one lookup to the next.
pub fn lookup_again(handle: &[u8], number: u64, path: &[u8], out_len: usize, hashes: &mut Remembered) -> Found {
    walk(handle, number, path, out_len, true, |block| hashes.digest(block))
}

/// The lookup of 01 alone: but for its first number, nothing ties a child's numbers to its parent.
pub fn lookup_before(handle: &[u8], number: u64, path: &[u8], out_len: usize) -> Found {
    walk(handle, number, path, out_len, false, digest)
}

fn walk(
    handle: &[u8],
    number: u64,
    path: &[u8],
    out_len: usize,
    bounded: bool,
    mut hash_of: impl FnMut(&[u8]) -> [u8; 32],
) -> Found {
    let blocks: Vec<&[u8]> = path.chunks(BLOCK).collect();
    if handle.len() != 32 || out_len != 32 || path.len() % BLOCK != 0 || !(1..=3).contains(&blocks.len()) {
        return Err(Refusal(2, 0, 0));
    }
    let mut hash: [u8; 32] = handle.try_into().unwrap();
    // The kind due, and the number in the slot that led here, below the root.
    let mut parent: Option<(u8, u64)> = None;
    // 02, request c: the number in the next used slot, of each block on the way here that has one.
    let mut bounds: Vec<u64> = Vec::new();
    for depth in 0.. {
        let at = depth as u32;
        let Some(bytes) = blocks.get(depth) else {
            return Err(Refusal(9, at, 0));
        };
        if hash_of(bytes) != hash {
            return Err(Refusal(8, at, 0));
        }
        let block = Block::read(bytes)
            .filter(|block| stands(block, parent) && within(block, &bounds))
            .ok_or(Refusal(3, at, 0))?;
        let led = block.slots.iter().rposition(|slot| slot.0 <= number);
        match led {
            Some(slot) if block.kind != LEAF => {
                hash = block.slots[slot].1;
                parent = Some((block.kind - 1, block.slots[slot].0));
                if bounded {
                    bounds.extend(block.slots.get(slot + 1).map(|next| next.0));
                }
            }
            _ if blocks.len() > depth + 1 => return Err(Refusal(9, at + 1, 0)),
            Some(slot) if block.slots[slot].0 == number => return Ok(Some(block.slots[slot].1)),
            _ => return Ok(None),
        }
    }
    unreachable!("a path of over three blocks")
}

/// 02, request c: "every number in a child must also be below the number in the next used slot, and
/// below any such bound handed down from above."
fn within(block: &Block, bounds: &[u64]) -> bool {
    block.slots.iter().all(|slot| bounds.iter().all(|&bound| slot.0 < bound))
}

/// Whether the block may stand at the root, or where the parent's slot leads.
fn stands(block: &Block, parent: Option<(u8, u64)>) -> bool {
    match parent {
        None if block.kind == LEAF => true,
        None => (LEAF..=TOP).contains(&block.kind) && !block.slots.is_empty(),
        Some((kind, first)) => block.kind == kind && block.slots.first().is_some_and(|slot| slot.0 == first),
    }
}
