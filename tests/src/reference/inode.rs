//! The inode, and the check of one block of its file.

use super::sha256::digest;
use super::Refusal;

pub const INODE: usize = 517;
pub const FILE_BLOCK: usize = 8_192;
pub const HASHES: usize = 16;
pub const LONGEST: usize = FILE_BLOCK * HASHES;

/// The lengths of a file's blocks.
pub fn block_lengths(file: usize) -> Vec<usize> {
    let mut lengths = Vec::new();
    let mut rest = file;
    while rest > 0 {
        lengths.push(rest.min(FILE_BLOCK));
        rest -= rest.min(FILE_BLOCK);
    }
    lengths
}

/// The block's offset in the file, and its length.
pub fn block_check(handle: &[u8], inode: &[u8], index: u32, block: &[u8]) -> Result<(u32, u32), Refusal> {
    if handle.len() != 32 || inode.len() != INODE {
        return Err(Refusal(2, 0, 0));
    }
    if digest(inode) != handle {
        return Err(Refusal(8, 0, 0));
    }
    let file = u32::from_be_bytes(inode[1..5].try_into().unwrap()) as usize;
    if inode[0] != 6 || file > LONGEST {
        return Err(Refusal(3, 0, 0));
    }
    let lengths = block_lengths(file);
    let hashes: Vec<&[u8]> = inode[5..].chunks(32).collect();
    if hashes[lengths.len()..].iter().any(|hash| *hash != [0; 32]) {
        return Err(Refusal(3, 0, 0));
    }
    let Some(&length) = lengths.get(index as usize) else {
        return Err(Refusal(10, 0, 0));
    };
    if block.len() != length {
        return Err(Refusal(2, 1, 0));
    }
    if digest(block) != hashes[index as usize] {
        return Err(Refusal(8, 1, 0));
    }
    Ok((FILE_BLOCK as u32 * index, length as u32))
}
