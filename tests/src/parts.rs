//! What sundr_block_choose is given, for the tests to lend: a wanted hash, a reply and a cached part, by chance.

use crate::inode::flip;
use crate::random::Random;
use crate::reference::choose::LONGEST_PART;
use crate::reference::itable::BLOCK;
use crate::reference::sha256::digest;

/// The wanted hash, the reply and the cached part.
pub type Request = [Vec<u8>; 3];

/// Mostly short, some of an i-table's block or by it, a few of up to 8,192 bytes or at the limit.
fn some_length(random: &mut Random) -> usize {
    match random.below(200) {
        0 => LONGEST_PART - random.below(2),
        1..=5 => random.below(8_193),
        6..=20 => BLOCK - 1 + random.below(3),
        21..=60 => [1, 32, 55, 56, 63, 64, 119, 120][random.below(8)],
        _ => random.below(300),
    }
}

/// The block, or nothing, or nearly the block, or too much, or the wanted hash itself, or anything.
pub fn some_part(block: &[u8], wanted: &[u8], random: &mut Random) -> Vec<u8> {
    let mut part = block.to_vec();
    match random.below(14) {
        0..=5 => {}
        6 => part.clear(),
        7 => flip(&mut part, random),
        8 => part.truncate(random.below(block.len() + 1)),
        9 => part.push([0, 0x80, 0xff][random.below(3)]),
        10 => part.extend(random.bytes(100)),
        11 => part.resize(LONGEST_PART + 1 + random.below(2) * block.len(), 0),
        12 => part = wanted.to_vec(),
        _ => part = random.bytes(block.len()),
    }
    part
}

/// A block's hash, or another, or none, and two parts.
pub fn some_request(random: &mut Random) -> Request {
    let len = some_length(random);
    let block = random.bytes(len);
    let mut wanted = digest(&block).to_vec();
    match random.below(12) {
        0 => wanted = digest(&[]).to_vec(),
        1 => flip(&mut wanted, random),
        2 => wanted.resize([0, 31, 33, 64, 288, random.below(100)][random.below(6)], 0),
        _ => {}
    }
    let [reply, cached] = [(); 2].map(|_| some_part(&block, &wanted, random));
    [wanted, reply, cached]
}
