//! A block store in the library's hands, with the second implementation's beside it: calls of it, judged.

use crate::ffi::{sundr_retrieve, sundr_store, sundr_store_make, sundr_unreference, Answer};
use crate::guarded::Guarded;
use crate::random::Random;
use crate::reference::sha256::Remembered;
use crate::reference::store::{Place, Store, PLACE, STORE};
use crate::reference::Refusal;
use crate::runner::{equal, hex, Outcome};
use crate::tally::{Before, Tally};
use std::ptr::null;
use std::slice::from_raw_parts_mut;

/// A call of a store: a user stores a block, a hash is retrieved into so much room, or a user unreferences a hash.
#[derive(Clone)]
pub enum Call {
    Store { user: u8, block: Vec<u8> },
    Retrieve { hash: Vec<u8>, room: usize },
    Unreference { user: u8, hash: Vec<u8> },
}

impl Call {
    fn shown(&self) -> String {
        match self {
            Call::Store { user, block } => format!("user {user} stores {} bytes, {}", block.len(), hex(block)),
            Call::Retrieve { hash, room } => format!("{} is retrieved into {room} bytes", hex(hash)),
            Call::Unreference { user, hash } => format!("user {user} unreferences {}", hex(hash)),
        }
    }
}

/// The first result of a call, or a refusal. The second result is always 0.
pub type Due = Result<u32, Refusal>;

/// What calls are made with, and how often each kind of them was.
pub struct Judge {
    pub random: Random,
    pub hashes: Remembered,
    pub tally: Tally,
    pub calls: usize,
}

impl Judge {
    pub fn new(seed: u64) -> Judge {
        Judge { random: Random::new(seed), hashes: Remembered::default(), tally: Tally::default(), calls: 0 }
    }

    /// Bytes to lend, and where; where there are none, sometimes at NULL.
    fn lend(&mut self, bytes: &[u8]) -> (Guarded, *const u8) {
        let lent = Guarded::new(bytes, &mut self.random);
        let at = if bytes.is_empty() && self.random.below(2) == 0 { null() } else { lent.pointer() };
        (lent, at)
    }
}

/// A store that is lent to one call after the other.
pub struct Pair {
    lent: Guarded,
    pub reference: Store,
    /// The bytes of the second implementation's: of each call, the place that it changes is written anew.
    due: Vec<u8>,
    /// The sum of counts at first; and since then the accepted stores, and the unreferences that took one, as the library
    /// answers them.
    at_first: u64,
    stored: u64,
    taken: u64,
}

/// The sum of all counts in the bytes of a store.
fn references(bytes: &[u8]) -> u64 {
    let counts = bytes.chunks(PLACE).filter_map(|place| place.get(2..34)).flat_map(|counts| counts.chunks(2));
    counts.map(|count| 256 * u64::from(count[0]) + u64::from(count[1])).sum()
}

impl Pair {
    /// Any bytes as a store.
    pub fn of(bytes: Vec<u8>, random: &mut Random) -> Pair {
        let reference = Store::read(&bytes);
        let (lent, at_first) = (Guarded::new(&bytes, random), references(&bytes));
        Pair { lent, reference, due: bytes, at_first, stored: 0, taken: 0 }
    }

    /// A store that the library makes, of other bytes.
    pub fn made(judge: &mut Judge) -> Result<Pair, String> {
        let mut pair = Pair::of(vec![judge.random.next() as u8; STORE], &mut judge.random);
        pair.make()?;
        Ok(pair)
    }

    /// The making of it, judged.
    pub fn make(&mut self) -> Outcome {
        let answer = unsafe { sundr_store_make(self.lent.pointer_mut(), self.lent.len()) };
        if self.due.len() != STORE {
            answered(answer, Err(Refusal(2, 0, 0)))?;
            return self.same();
        }
        self.due.fill(0);
        self.reference = Store::read(&self.due);
        (self.at_first, self.stored, self.taken) = (0, 0, 0);
        answered(answer, Ok(0))?;
        self.same()
    }

    /// Other bytes in a place, of the lent store and of the one beside it.
    pub fn put(&mut self, p: usize, place: Place) {
        let bytes = place.write();
        self.due[PLACE * p..PLACE * (p + 1)].copy_from_slice(&bytes);
        unsafe { from_raw_parts_mut(self.lent.pointer_mut().add(PLACE * p), PLACE) }.copy_from_slice(&bytes);
        self.reference.places[p] = place;
        (self.at_first, self.stored, self.taken) = (references(&self.due), 0, 0);
    }

    /// The whole lent store is the other one, byte for byte, and nothing beside it was written.
    fn same(&self) -> Outcome {
        self.lent.kept_guards().map_err(|e| format!("the store: {e}"))?;
        match unlike(self.lent.content(), &self.due) {
            None => Ok(()),
            Some(i) => {
                let (now, due) = (self.lent.content()[i], self.due[i]);
                Err(format!("byte {} of place {} is {now}, not {due}", i % PLACE, i / PLACE))
            }
        }
    }

    /// "The sum of counts equals accepted stores less those unreferences that took one, since the store was made", with
    /// the counts that were there at first.
    fn sum(&self) -> Outcome {
        equal("the sum of counts", references(self.lent.content()) + self.taken, self.at_first + self.stored)
    }

    /// One call, judged: the answer, every byte of the store, of what is lent beside it and of what is retrieved.
    pub fn judge(&mut self, call: &Call, judge: &mut Judge) -> Outcome {
        self.judged(self.due.len(), call, judge).map(|_| ())
    }

    /// The same where it is known what is due, of both implementations.
    pub fn judge_as(&mut self, due: Due, call: &Call, judge: &mut Judge) -> Outcome {
        let answer = self.judged(self.due.len(), call, judge)?;
        equal("the second implementation's answer", answer, due).map_err(|e| format!("{e}; {}", call.shown()))
    }

    /// The same where the first so many bytes are lent. Gives what is due.
    pub fn judged(&mut self, len: usize, call: &Call, judge: &mut Judge) -> Result<Due, String> {
        // What was hashed long ago is forgotten: it would fill the memory. Then all places are read anew, too.
        if judge.calls % 1_024 == 0 {
            judge.hashes = Remembered::default();
            equal("that all places are as written", Store::read(&self.due) == self.reference, true)?;
        }
        judge.calls += 1;
        let made = self.made_call(len, call, judge);
        made.and_then(|due| self.same().and(self.sum()).and(Ok(due)))
            .map_err(|e| format!("{e}; in call {}, on {len} bytes, {}", judge.calls, call.shown()))
    }

    /// Makes the call of both, and judges all but the store.
    fn made_call(&mut self, len: usize, call: &Call, judge: &mut Judge) -> Result<Due, String> {
        let at = if len == 0 && judge.random.below(2) == 0 { null() } else { self.lent.pointer() };
        // Where less is lent there are no places to be read.
        let mut nothing = Store { places: Vec::new() };
        let reference = if len == self.due.len() { &mut self.reference } else { &mut nothing };
        let before = Before::of(reference, call, &mut judge.hashes);
        let Made { answer, due, changed } = match call {
            Call::Store { user, block } => store((at, len), reference, *user, block, judge)?,
            Call::Retrieve { hash, room } => retrieve((at, len), reference, hash, *room, judge)?,
            Call::Unreference { user, hash } => unreference((at, len), reference, *user, hash, judge)?,
        };
        if let Some(p) = changed {
            self.due[PLACE * p..PLACE * (p + 1)].copy_from_slice(&reference.places[p].write());
        }
        match (call, Answer::from(answer)) {
            (Call::Store { .. }, Answer::Accepted(..)) => self.stored += 1,
            (Call::Unreference { .. }, Answer::Accepted(took, _)) => self.taken += u64::from(took),
            _ => (),
        }
        judge.tally.add(&before, call, due);
        answered(answer, due)?;
        Ok(due)
    }
}

/// Where a store is lent, and how many bytes.
type Lent = (*const u8, usize);

/// A call that was made of both: what the library answers, what is due, and the place that the second implementation
/// changes.
struct Made {
    answer: u64,
    due: Due,
    changed: Option<usize>,
}

fn store((at, len): Lent, reference: &mut Store, user: u8, block: &[u8], judge: &mut Judge) -> Result<Made, String> {
    let (lent, block_at) = judge.lend(block);
    let answer = unsafe { sundr_store(at.cast_mut(), len, user, block_at, lent.len()) };
    lent.unaltered().map_err(|e| format!("the block: {e}"))?;
    let due = reference.store(user, block, &mut judge.hashes);
    Ok(Made { answer, due: due.map(|_| 0), changed: due.ok() })
}

/// The bytes of the buffer are judged, too, and the hash of what is retrieved.
fn retrieve((at, len): Lent, reference: &Store, hash: &[u8], room: usize, judge: &mut Judge) -> Result<Made, String> {
    let (lent, hash_at) = judge.lend(hash);
    let mut due_out = judge.random.bytes(room);
    let (out, out_at) = judge.lend(&due_out);
    let answer = unsafe { sundr_retrieve(at, len, hash_at, lent.len(), out_at.cast_mut(), out.len()) };
    lent.unaltered().map_err(|e| format!("the hash: {e}"))?;
    out.kept_guards().map_err(|e| format!("out: {e}"))?;
    let due = reference.retrieve(hash, &mut due_out, &mut judge.hashes);
    equal("the first byte of out that is not what is due", unlike(out.content(), &due_out), None)?;
    if let Ok(n) = due {
        let retrieved = judge.hashes.digest(&out.content()[..n as usize]);
        equal("the hash of what is retrieved", hex(&retrieved), hex(hash))?;
    }
    Ok(Made { answer, due, changed: None })
}

fn unreference(
    (at, len): Lent,
    reference: &mut Store,
    user: u8,
    hash: &[u8],
    judge: &mut Judge,
) -> Result<Made, String> {
    let (lent, hash_at) = judge.lend(hash);
    let answer = unsafe { sundr_unreference(at.cast_mut(), len, user, hash_at, lent.len()) };
    lent.unaltered().map_err(|e| format!("the hash: {e}"))?;
    let due = reference.unreference(user, hash, &mut judge.hashes);
    Ok(Made { answer, due: due.map(|place| u32::from(place.is_some())), changed: due.ok().flatten() })
}

fn answered(answer: u64, due: Due) -> Outcome {
    equal("the answer", Answer::from(answer), Answer::from(due.map(|first| (first, 0))))
}

/// The first byte that is another. All are compared at once before they are compared one by one.
fn unlike(got: &[u8], due: &[u8]) -> Option<usize> {
    if got == due {
        None
    } else {
        (0..due.len()).find(|&i| got.get(i) != Some(&due[i]))
    }
}
