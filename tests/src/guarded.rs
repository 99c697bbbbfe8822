//! Memory to lend to a call, which shows afterwards what the call wrote. Most of it ends or begins
//! at a page that cannot be touched, so that a call that reads one byte too many faults.

use crate::random::Random;
use std::cell::RefCell;
use std::collections::BTreeMap;
use std::slice::{from_raw_parts, from_raw_parts_mut};

const PAGE: usize = 4_096;

extern "C" {
    fn mmap(address: *mut u8, len: usize, protection: i32, flags: i32, file: i32, offset: i64) -> *mut u8;
    fn mprotect(address: *mut u8, len: usize, protection: i32) -> i32;
}
const PROT_NONE: i32 = 0;
const PROT_READ_WRITE: i32 = 3;
const MAP_PRIVATE_ANONYMOUS: i32 = 0x22;

/// Whole pages to read and write, between two that cannot be touched.
#[derive(Clone, Copy)]
struct Pages {
    first: *mut u8,
    len: usize,
}

thread_local! {
    /// Pages that were given back, by their length. To map anew for each call would take too long.
    static FREE: RefCell<BTreeMap<usize, Vec<Pages>>> = const { RefCell::new(BTreeMap::new()) };
}

impl Pages {
    /// Room for at least this many bytes.
    fn take(least: usize) -> Pages {
        let len = least.next_multiple_of(PAGE);
        let free = FREE.with_borrow_mut(|free| free.get_mut(&len)?.pop());
        free.unwrap_or_else(|| Pages::map(len))
    }

    fn give_back(self) {
        FREE.with_borrow_mut(|free| free.entry(self.len).or_default().push(self));
    }

    fn map(len: usize) -> Pages {
        let all = unsafe { mmap(std::ptr::null_mut(), len + 2 * PAGE, PROT_NONE, MAP_PRIVATE_ANONYMOUS, -1, 0) };
        assert!(all as isize != -1, "no memory is left to lend");
        let first = unsafe { all.add(PAGE) };
        assert!(unsafe { mprotect(first, len, PROT_READ_WRITE) } == 0, "memory to lend cannot be opened");
        Pages { first, len }
    }
}

/// Guard bytes, on each side of the lent ones that has no closed page.
const GUARD: usize = 64;

/// Bytes to lend. Half of them end where a closed page begins, a quarter begin where one ends, and
/// a quarter are at any distance from a multiple of 64, between guard bytes.
pub struct Guarded {
    pages: Pages,
    /// Where the guard bytes and the lent ones are in the pages, and what they were.
    at: usize,
    before: Vec<u8>,
    /// The lent ones among them.
    start: usize,
    len: usize,
}

impl Guarded {
    pub fn new(content: &[u8], random: &mut Random) -> Guarded {
        Guarded::place(content, 1, random)
    }

    /// Numbers, lent as their bytes, at a distance that suits them.
    pub fn numbers(numbers: &[u64], random: &mut Random) -> Guarded {
        let content: Vec<u8> = numbers.iter().flat_map(|number| number.to_ne_bytes()).collect();
        Guarded::place(&content, 8, random)
    }

    /// Counts, likewise.
    pub fn counts(counts: &[u32], random: &mut Random) -> Guarded {
        let content: Vec<u8> = counts.iter().flat_map(|count| count.to_ne_bytes()).collect();
        Guarded::place(&content, 4, random)
    }

    fn place(content: &[u8], unit: usize, random: &mut Random) -> Guarded {
        let len = content.len();
        let pages = Pages::take(len + 3 * GUARD);
        let (at, start, behind) = match random.below(256) {
            misalignment @ 0..64 => (0, GUARD + misalignment / unit * unit, GUARD),
            64..128 => (0, 0, GUARD),
            _ => (pages.len - GUARD - len, GUARD, 0),
        };
        let guard = |i: usize| (i as u8).wrapping_mul(73) ^ 0xa5;
        let mut before = Vec::with_capacity(start + len + behind);
        before.extend((0..start).map(guard));
        before.extend_from_slice(content);
        before.extend((start + len..start + len + behind).map(guard));
        unsafe { from_raw_parts_mut(pages.first.add(at), before.len()) }.copy_from_slice(&before);
        Guarded { pages, at, before, start, len }
    }

    /// The guard bytes and the lent ones, as they are now.
    fn now(&self) -> &[u8] {
        unsafe { from_raw_parts(self.pages.first.add(self.at), self.before.len()) }
    }

    /// The lent bytes, as they are now.
    pub fn content(&self) -> &[u8] {
        &self.now()[self.start..self.start + self.len]
    }

    /// The lent counts, as they are now.
    pub fn content_counts(&self) -> Vec<u32> {
        self.content().chunks(4).map(|count| u32::from_ne_bytes(count.try_into().unwrap())).collect()
    }

    pub fn len(&self) -> usize {
        self.len
    }

    /// The pointer that a call may read from.
    pub fn pointer(&self) -> *const u8 {
        unsafe { self.pages.first.add(self.at + self.start) }
    }

    /// The pointer that a call may write to.
    pub fn pointer_mut(&mut self) -> *mut u8 {
        self.pointer().cast_mut()
    }

    /// No byte outside the lent ones was written.
    pub fn kept_guards(&self) -> Result<(), String> {
        self.same(0, self.start)?;
        self.same(self.start + self.len, self.before.len())
    }

    /// No byte was written, lent or not.
    pub fn unaltered(&self) -> Result<(), String> {
        self.same(0, self.before.len())
    }

    fn same(&self, from: usize, to: usize) -> Result<(), String> {
        let (now, before) = (self.now(), &self.before);
        if now[from..to] == before[from..to] {
            return Ok(());
        }
        match (from..to).find(|&i| now[i] != before[i]) {
            None => Ok(()),
            Some(i) => Err(format!("wrote at index {} of {} lent bytes", i as isize - self.start as isize, self.len)),
        }
    }
}

impl Drop for Guarded {
    fn drop(&mut self) {
        self.pages.give_back();
    }
}
