//! The calls of libsundr.a, as include/sundr.h declares them.

use crate::reference::Refusal;

extern "C" {
    pub fn sundr_sha256(message: *const u8, message_len: usize, out: *mut u8, out_len: usize) -> u64;

    pub fn sundr_compare(x: *const u32, y: *const u32) -> u64;

    pub fn sundr_memory_check(
        users: u8,
        user: u8,
        file: *const u8,
        file_len: usize,
        list: *const u8,
        list_len: usize,
        marks: *const u8,
        marks_len: usize,
        counts: *mut u32,
        counts_len: usize,
        again: *mut u8,
        again_len: usize,
    ) -> u64;
    pub fn sundr_memory_create(
        users: u8,
        user: u8,
        file: *const u8,
        file_len: usize,
        counts: *const u32,
        counts_len: usize,
        handle: *const u8,
        handle_len: usize,
        out: *mut u8,
        out_len: usize,
    ) -> u64;
    pub fn sundr_memory_pend(
        users: u8,
        user: u8,
        version: *const u8,
        version_len: usize,
        file: *mut u8,
        file_len: usize,
    ) -> u64;
    pub fn sundr_memory_sent(users: u8, user: u8, file: *mut u8, file_len: usize) -> u64;
    pub fn sundr_memory_over(
        users: u8,
        user: u8,
        old: *const u8,
        old_len: usize,
        file: *mut u8,
        file_len: usize,
    ) -> u64;
    pub fn sundr_memory_back(
        users: u8,
        user: u8,
        file: *const u8,
        file_len: usize,
        old: *mut u8,
        old_len: usize,
    ) -> u64;

    pub fn sundr_server_make_at(users: u8, server: *mut u8, server_len: usize) -> u64;
    pub fn sundr_server_list_at(server: *const u8, server_len: usize, out: *mut u8, out_len: usize) -> u64;
    pub fn sundr_server_commit(server: *mut u8, record: *const u8, record_len: usize, mark: u8) -> u64;

    pub fn sundr_table_write(
        numbers: *const u64,
        count: usize,
        handles: *const u8,
        handles_len: usize,
        out: *mut u8,
        out_len: usize,
    ) -> u64;
    pub fn sundr_lookup(
        handle: *const u8,
        handle_len: usize,
        number: u64,
        path: *const u8,
        path_len: usize,
        out: *mut u8,
        out_len: usize,
    ) -> u64;
    pub fn sundr_lookup_many(
        handle: *const u8,
        handle_len: usize,
        numbers: *const u64,
        numbers_len: usize,
        counts: *const u8,
        counts_len: usize,
        paths: *const u8,
        paths_len: usize,
        out: *mut u8,
        out_len: usize,
    ) -> u64;
    pub fn sundr_block_check(
        handle: *const u8,
        handle_len: usize,
        inode: *const u8,
        inode_len: usize,
        index: u32,
        block: *const u8,
        block_len: usize,
    ) -> u64;
    pub fn sundr_large_block_check(
        handle: *const u8,
        handle_len: usize,
        inode: *const u8,
        inode_len: usize,
        index: u32,
        indirect: *const u8,
        indirect_len: usize,
        block: *const u8,
        block_len: usize,
    ) -> u64;

    pub fn sundr_block_choose(
        wanted: *const u8,
        wanted_len: usize,
        reply: *const u8,
        reply_len: usize,
        cached: *const u8,
        cached_len: usize,
    ) -> u64;

    pub fn sundr_store_make(store: *mut u8, store_len: usize) -> u64;
    pub fn sundr_store(store: *mut u8, store_len: usize, user: u8, block: *const u8, block_len: usize) -> u64;
    pub fn sundr_retrieve(
        store: *const u8,
        store_len: usize,
        hash: *const u8,
        hash_len: usize,
        out: *mut u8,
        out_len: usize,
    ) -> u64;
    pub fn sundr_unreference(store: *mut u8, store_len: usize, user: u8, hash: *const u8, hash_len: usize) -> u64;
}

/// The number that tells a check's "send again", which no refusal has.
pub const SEND_AGAIN: u8 = 255;

/// What a call answers, unpacked from its 64 bits: two results, or a refusal's number and two positions.
#[derive(Clone, Copy, Debug, PartialEq, Eq)]
pub enum Answer {
    Accepted(u32, u32),
    Again(u32, u32),
    Refused(u8, u32, u32),
}

impl From<u64> for Answer {
    fn from(answer: u64) -> Answer {
        let number = (answer & 0xff) as u8;
        let first = ((answer >> 8) & 0xff_ffff) as u32;
        let second = (answer >> 32) as u32;
        match number {
            0 => Answer::Accepted(first, second),
            SEND_AGAIN => Answer::Again(first, second),
            _ => Answer::Refused(number, first, second),
        }
    }
}

/// The answer that says what the second implementation comes to: two results, or a refusal.
impl From<Result<(u32, u32), Refusal>> for Answer {
    fn from(due: Result<(u32, u32), Refusal>) -> Answer {
        match due {
            Ok((first, second)) => Answer::Accepted(first, second),
            Err(Refusal(number, first, second)) => Answer::Refused(number, first, second),
        }
    }
}

/// Where the block lies that sundr_block_choose chose, by the header's rule.
pub fn sundr_chosen(answer: u64, reply: *const u8, cached: *const u8) -> *const u8 {
    if (answer >> 8) & 0xff_ffff == 0 {
        reply
    } else {
        cached
    }
}

/// The length of that block, 0 after a refusal.
pub fn sundr_chosen_len(answer: u64) -> usize {
    (answer >> 32) as usize
}
