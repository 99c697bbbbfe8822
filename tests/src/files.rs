//! Large files, each with its inode and its indirect block, and what a check of one of their blocks is given.

use crate::random::Random;
use crate::reference::inode::FILE_BLOCK;
use crate::reference::large::{Checked, DIRECT, INDIRECT, LARGE_INODE};
use crate::reference::sha256::{digest, Remembered};

/// No bytes and one, by the first multiple of 8,192, by the sixteenth, the seventeenth, the 143rd and the last.
pub const LENGTHS: [usize; 13] =
    [0, 1, 8_192, 8_193, 131_071, 131_072, 131_073, 139_264, 139_265, 1_171_456, 1_171_457, 1_179_647, 1_179_648];

/// A file, its handle, its inode, and its indirect block, of no bytes where sixteen blocks suffice.
pub struct File {
    pub content: Vec<u8>,
    handle: Vec<u8>,
    inode: Vec<u8>,
    pub indirect: Vec<u8>,
}

impl File {
    pub fn of(len: usize, random: &mut Random) -> File {
        let content = random.bytes(len);
        let names: Vec<[u8; 32]> = content.chunks(FILE_BLOCK).map(digest).collect();
        let (direct, others) = names.split_at(names.len().min(DIRECT));
        let mut indirect = Vec::new();
        let mut indirect_name = [0; 32];
        if !others.is_empty() {
            indirect = [&[12][..], &others.concat()].concat();
            indirect.resize(INDIRECT, 0);
            indirect_name = digest(&indirect);
        }
        let mut inode = [&[11][..], &(len as u32).to_be_bytes(), &direct.concat()].concat();
        inode.resize(LARGE_INODE - 32, 0);
        inode.extend(indirect_name);
        File { content, handle: digest(&inode).to_vec(), inode, indirect }
    }

    /// One of each length.
    pub fn all(random: &mut Random) -> Vec<File> {
        LENGTHS.map(|len| File::of(len, random)).into()
    }

    /// Those with an indirect block.
    pub fn long(random: &mut Random) -> Vec<File> {
        LENGTHS.into_iter().filter(|&len| len > DIRECT * FILE_BLOCK).map(|len| File::of(len, random)).collect()
    }

    pub fn blocks(&self) -> usize {
        self.content.len().div_ceil(FILE_BLOCK)
    }

    /// The block at this index, of no bytes where the file has none.
    pub fn block(&self, index: usize) -> &[u8] {
        self.content.chunks(FILE_BLOCK).nth(index).unwrap_or(&[])
    }

    /// The check of the block at this index, without a fault if the file has it.
    pub fn request(&self, index: usize) -> Request {
        Request {
            handle: self.handle.clone(),
            inode: self.inode.clone(),
            index: index as u32,
            indirect: if index < DIRECT { Vec::new() } else { self.indirect.clone() },
            block: self.block(index).to_vec(),
        }
    }

    /// The check of the last block, or of a first one that is not there.
    pub fn last(&self) -> Request {
        self.request(self.blocks().saturating_sub(1))
    }
}

/// What a check is given.
#[derive(Clone)]
pub struct Request {
    pub handle: Vec<u8>,
    pub inode: Vec<u8>,
    pub index: u32,
    pub indirect: Vec<u8>,
    pub block: Vec<u8>,
}

impl Request {
    /// What is due of it without a fault: the block's offset and its length.
    pub fn accepted(&self) -> Checked {
        Ok((FILE_BLOCK as u32 * self.index, self.block.len() as u32))
    }

    pub fn set_length(&mut self, len: u32) {
        self.inode[1..5].copy_from_slice(&len.to_be_bytes());
    }

    /// The hash that names the block, if there is room for it.
    pub fn block_name(&mut self) -> Option<&mut [u8]> {
        let index = self.index as usize;
        match index.checked_sub(DIRECT) {
            None => self.inode.get_mut(5 + 32 * index..37 + 32 * index),
            Some(place) => self.indirect.get_mut(1 + 32 * place..33 + 32 * place),
        }
    }

    /// Lets all that names the block, the indirect block and the inode fit them as they are.
    pub fn name_block(&mut self, hashes: &mut Remembered) {
        let hash = hashes.digest(&self.block);
        if let Some(name) = self.block_name() {
            name.copy_from_slice(&hash);
        }
        self.name_indirect(hashes);
    }

    /// The same for the indirect block, if one is due and given, and the inode.
    pub fn name_indirect(&mut self, hashes: &mut Remembered) {
        if self.index as usize >= DIRECT && !self.indirect.is_empty() {
            self.inode[LARGE_INODE - 32..].copy_from_slice(&hashes.digest(&self.indirect));
        }
        self.name_inode(hashes);
    }

    /// The same for the inode alone.
    pub fn name_inode(&mut self, hashes: &mut Remembered) {
        self.handle = hashes.digest(&self.inode).to_vec();
    }
}
