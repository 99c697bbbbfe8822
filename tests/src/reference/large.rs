//! The inode of a large file, its indirect block, and the check of one block: 02, request g.

use super::inode::{block_lengths, FILE_BLOCK};
use super::sha256::Remembered;
use super::Refusal;

/// "inode kind 11, 549 bytes: a length, sixteen direct hashes, then the hash of one indirect block"
pub const LARGE_INODE: usize = 1 + 4 + 32 * DIRECT + 32;
pub const DIRECT: usize = 16;

/// "one indirect block of kind 12, 4,097 bytes, that carries 128 hashes"
pub const INDIRECT: usize = 1 + 32 * THROUGH_IT;
pub const THROUGH_IT: usize = 128;

/// "so 144 blocks and 1,179,648 bytes"
pub const LARGEST: usize = FILE_BLOCK * (DIRECT + THROUGH_IT);

/// The block's offset in the file and its length, or a refusal.
pub type Checked = Result<(u32, u32), Refusal>;

/// "Hashes beyond the last block are zero in both": the first so many are used.
fn zero_beyond(hashes: &[u8], used: usize) -> bool {
    hashes.chunks(32).skip(used).all(|hash| hash == [0; 32])
}

/// The inode has no fault, for a file of this length.
fn formed(inode: &[u8], file: usize) -> bool {
    if inode[0] != 11 || file > LARGEST {
        return false;
    }
    let blocks = block_lengths(file).len();
    let (direct, indirect) = inode[5..].split_at(32 * DIRECT);
    // "The indirect block's hash is zero exactly if sixteen blocks suffice."
    zero_beyond(direct, blocks) && (indirect == [0; 32]) == (blocks <= DIRECT)
}

/// "Refusals: as for the block check, with the indirect block's 2, 8 and 3 between 10 and the block's 2, at place 2."
pub fn large_block_check(
    handle: &[u8],
    inode: &[u8],
    index: u32,
    indirect: &[u8],
    block: &[u8],
    hashes: &mut Remembered,
) -> Checked {
    if handle.len() != 32 || inode.len() != LARGE_INODE {
        return Err(Refusal(2, 0, 0));
    }
    if hashes.digest(inode) != handle {
        return Err(Refusal(8, 0, 0));
    }
    let file = u32::from_be_bytes(inode[1..5].try_into().unwrap()) as usize;
    if !formed(inode, file) {
        return Err(Refusal(3, 0, 0));
    }
    let lengths = block_lengths(file);
    let index = index as usize;
    let Some(&length) = lengths.get(index) else {
        return Err(Refusal(10, 0, 0));
    };
    // All the hashes of the file's blocks that are in what was given.
    let mut names: Vec<&[u8]> = inode[5..517].chunks(32).collect();
    if index < DIRECT {
        // "A direct read is given no indirect block and is refused with 2 if it is."
        if !indirect.is_empty() {
            return Err(Refusal(2, 2, 0));
        }
    } else {
        if indirect.len() != INDIRECT {
            return Err(Refusal(2, 2, 0));
        }
        if hashes.digest(indirect) != inode[517..] {
            return Err(Refusal(8, 2, 0));
        }
        if indirect[0] != 12 || !zero_beyond(&indirect[1..], lengths.len() - DIRECT) {
            return Err(Refusal(3, 2, 0));
        }
        names.extend(indirect[1..].chunks(32));
    }
    if block.len() != length {
        return Err(Refusal(2, 1, 0));
    }
    if hashes.digest(block) != names[index] {
        return Err(Refusal(8, 1, 0));
    }
    Ok(((index * FILE_BLOCK) as u32, length as u32))
}
