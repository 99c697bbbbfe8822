//! Tables that the library wrote, and paths along their blocks: the right one of a number, and each
//! that one change makes of it.

use crate::itable::{handles, numbers, written};
use crate::paths::Request;
use crate::random::Random;
use crate::reference::itable::BLOCK;
use crate::reference::sha256::digest;
use crate::reference::Refusal;

/// Blocks, root first.
pub type Blocks<'a> = Vec<&'a [u8]>;

/// A table, its blocks as the library wrote them, and its i-handle.
pub struct Table {
    pub files: Vec<u64>,
    pub handles: Vec<u8>,
    blocks: Vec<u8>,
    pub root: Vec<u8>,
}

impl Table {
    pub fn of(files: Vec<u64>, handles: Vec<u8>, random: &mut Random) -> Result<Table, String> {
        let blocks = written(&files, &handles, random)?;
        let root = digest(&blocks[blocks.len() - BLOCK..]).to_vec();
        Ok(Table { files, handles, blocks, root })
    }

    pub fn any(numbering: usize, count: usize, random: &mut Random) -> Result<Table, String> {
        Table::of(numbers(numbering, count, random), handles(count, random), random)
    }

    fn block(&self, place: usize) -> &[u8] {
        &self.blocks[place * BLOCK..][..BLOCK]
    }

    /// How many blocks there are.
    fn all(&self) -> usize {
        self.blocks.len() / BLOCK
    }

    /// The places of the blocks that this number leads along: root, block over leaves, leaf.
    fn places(&self, number: u64) -> Vec<usize> {
        let leaves = self.files.len().div_ceil(16).max(1);
        // The last file at or below the number is in the leaf that answers.
        let file = self.files.partition_point(|&file| file <= number).checked_sub(1);
        match (self.all() - leaves, file) {
            (0, _) | (_, None) => vec![self.all() - 1],
            (1, Some(file)) => vec![self.all() - 1, file / 16],
            (_, Some(file)) => vec![self.all() - 1, leaves + file / 256, file / 16],
        }
    }

    /// The right path of a number.
    pub fn path(&self, number: u64) -> Blocks<'_> {
        self.places(number).into_iter().map(|place| self.block(place)).collect()
    }

    /// The lookup of a number along these blocks, under the table's i-handle.
    pub fn request(&self, number: u64, path: &Blocks) -> Request {
        Request { handle: self.root.clone(), number, path: path.concat(), out_len: 32 }
    }

    /// What the table says of a number.
    pub fn says(&self, number: u64) -> Option<[u8; 32]> {
        let file = self.files.binary_search(&number).ok()?;
        Some(self.handles[32 * file..][..32].try_into().unwrap())
    }
}

/// How a path of a table's blocks can be wrong.
pub const CHANGES: [&str; 5] =
    ["another block", "another table's block", "two blocks swapped", "a block left out", "one more"];

/// Each path that one change makes of a number's right one, by the change: each other block of the table at each place,
/// the other table's block of that place, each two in each other's place, each left out, and each block of the table
/// put in at each place.
pub fn wrong_paths<'a>(number: u64, table: &'a Table, other: &'a Table) -> [Vec<Blocks<'a>>; 5] {
    let places = table.places(number);
    let right = table.path(number);
    let mut wrong: [Vec<Blocks>; 5] = Default::default();
    let mut add = |change: usize, alter: &dyn Fn(&mut Blocks<'a>)| {
        let mut path = right.clone();
        alter(&mut path);
        wrong[change].push(path);
    };
    for (depth, &place) in places.iter().enumerate() {
        for block in (0..table.all()).filter(|&block| block != place) {
            add(0, &|path| path[depth] = table.block(block));
        }
        add(1, &|path| path[depth] = other.block(place));
        for second in depth + 1..places.len() {
            add(2, &|path| path.swap(depth, second));
        }
        add(3, &|path| path.retain(|block| *block != right[depth]));
    }
    for depth in 0..=places.len() {
        for block in 0..table.all() {
            add(4, &|path| path.insert(depth, table.block(block)));
        }
    }
    wrong
}

/// What a path is refused with that is not the right one: its first block that is not right has another hash, or is
/// missing, or is left over.
pub fn refusal_of(path: &Blocks, right: &Blocks) -> Refusal {
    let alike = path.iter().zip(right).take_while(|(block, due)| block == due).count();
    match path.len() {
        1..=3 if alike < path.len().min(right.len()) => Refusal(8, alike as u32, 0),
        1..=3 => Refusal(9, alike as u32, 0),
        _ => Refusal(2, 0, 0),
    }
}
