//! Kinds of calls of a block store, and how often each was made: a check by chance has to make them all.

use crate::reference::sha256::{digest, Remembered};
use crate::reference::store::{Place, Store, ROOM, USERS};
use crate::reference::Refusal;
use crate::runner::Outcome;
use crate::stores::{Call, Due};
use std::collections::BTreeMap;

/// The kinds that come up with a store that was made. The names begin with the call and, if it is refused, the number.
pub const MADE: [&str; 34] = [
    "store: 1",
    "store: 2, the store",
    "store: 2, the block",
    "store: anew",
    "store: anew, no bytes",
    "store: anew, below a held place",
    "store: anew, where another block was",
    "store: anew, where the same block was",
    "store: anew, a free place has its bytes",
    "store: again, the user's first",
    "store: again, the user's next",
    "store: again, no bytes",
    "store: again, a free place has its bytes",
    "retrieve: 2, the store",
    "retrieve: 2, the hash",
    "retrieve: 15",
    "retrieve: 15, a free place has its bytes",
    "retrieve: 15, no bytes, and a place is free",
    "retrieve: 15, and no room",
    "retrieve: 12",
    "retrieve: 12, a byte short",
    "retrieve: 12, no room",
    "retrieve: just room enough",
    "retrieve: room to spare",
    "retrieve: no bytes",
    "unreference: 1",
    "unreference: 2, the store",
    "unreference: 2, the hash",
    "unreference: 15",
    "unreference: 15, a free place has its bytes",
    "unreference: one of many",
    "unreference: the user's last, and another counts it",
    "unreference: the last of all",
    "unreference: nothing",
];

/// Those with a made store that is full.
pub const FULL: [&str; 6] = [
    "store: 13",
    "store: anew, below a held place",
    "store: anew, where another block was",
    "store: anew, in the last free place",
    "store: again, and no place is free",
    "unreference: the last of all, in a full store",
];

/// Those that come up with a store that no call made.
pub const FOREIGN: [&str; 21] = [
    "store: 3, a free place",
    "store: 3, a held place",
    "store: 14",
    "store: 14, and a higher place has less",
    "store: 14, and no place is free",
    "store: again, a higher place holds it too",
    "store: again, a lower free place has its bytes",
    "store: again, the user's count is in a higher place alone",
    "store: again, a count of 65,534",
    "store: again, a low byte of 255",
    "retrieve: 3, a free place",
    "retrieve: 3, a held place",
    "retrieve: a higher place holds it too",
    "retrieve: all low bytes are zero",
    "unreference: 3, a free place",
    "unreference: 3, a held place",
    "unreference: one, and a higher place holds it too",
    "unreference: one of 65,535",
    "unreference: one, a low byte of zero",
    "unreference: nothing, and a higher place has a count",
    "unreference: the last of all, and a higher place holds it too",
];

/// A kind, and whether a call is of it.
type Kind = (&'static str, bool);

/// How things stand before a call.
pub struct Before {
    /// Whether the lent bytes are as many as a store's, and whether the lowest place of a wrong length is free.
    whole: bool,
    unfit_free: bool,
    /// The free places; of the lowest one, whether it has a block, and whether a place above it is held.
    free: Vec<usize>,
    used: bool,
    below: bool,
    /// Of the hash that the call means: the free places that have a block of it, and those that hold it. Of these, the
    /// counts of the user; and of the lowest, all counts and the length.
    copies: Vec<usize>,
    holders: Vec<usize>,
    own: Vec<u16>,
    counts: [u16; USERS],
    length: usize,
}

impl Before {
    pub fn of(store: &Store, call: &Call, hashes: &mut Remembered) -> Before {
        let places = &store.places;
        let (user, hash) = match call {
            Call::Store { user, block } => (*user, hashes.digest(block).to_vec()),
            Call::Retrieve { hash, .. } => (0, hash.clone()),
            Call::Unreference { user, hash } => (*user, hash.clone()),
        };
        let unfit = places.iter().find(|place| usize::from(place.length) > ROOM);
        let mut named = |place: &Place| unfit.is_none() && hashes.digest(place.block()) == *hash;
        let (free, held): (Vec<usize>, Vec<usize>) = (0..places.len()).partition(|&p| places[p].is_free());
        let lowest_free = free.first().map(|&p| &places[p]);
        let holders: Vec<usize> = held.iter().copied().filter(|&p| named(&places[p])).collect();
        let lowest = holders.first().map(|&p| &places[p]);
        Before {
            whole: !places.is_empty(),
            unfit_free: unfit.is_some_and(Place::is_free),
            used: lowest_free.is_some_and(|place| place.length > 0),
            below: free.first() < held.last(),
            copies: free.iter().copied().filter(|&p| named(&places[p])).collect(),
            own: holders.iter().map(|&p| places[p].counts.get(usize::from(user)).copied().unwrap_or(0)).collect(),
            counts: lowest.map_or([0; USERS], |place| place.counts),
            length: lowest.map_or(0, |place| place.block().len()),
            free,
            holders,
        }
    }

    fn kinds(&self, call: &Call, due: Due) -> Vec<Kind> {
        let due = due.map_err(|Refusal(number, ..)| number);
        match call {
            Call::Store { block, .. } => self.storing(block, due),
            Call::Retrieve { hash, room } => self.retrieving(hash, *room, due),
            Call::Unreference { .. } => self.unreferencing(due),
        }
    }

    fn storing(&self, block: &[u8], due: Result<u32, u8>) -> Vec<Kind> {
        let no_place = self.free.is_empty();
        let copy = self.copies.first();
        match due {
            Err(1) => vec![("store: 1", true)],
            Err(2) => vec![("store: 2, the store", !self.whole), ("store: 2, the block", self.whole)],
            Err(3) => vec![("store: 3, a free place", self.unfit_free), ("store: 3, a held place", !self.unfit_free)],
            Err(13) => vec![("store: 13", true)],
            Err(_) => vec![
                ("store: 14", true),
                ("store: 14, and a higher place has less", self.own.iter().any(|&count| count < 65_535)),
                ("store: 14, and no place is free", no_place),
            ],
            Ok(_) if self.holders.is_empty() => vec![
                ("store: anew", true),
                ("store: anew, no bytes", block.is_empty()),
                ("store: anew, in the last free place", self.free.len() == 1),
                ("store: anew, below a held place", self.below),
                ("store: anew, where another block was", self.used && copy != self.free.first()),
                ("store: anew, where the same block was", copy == self.free.first()),
                ("store: anew, a free place has its bytes", copy.is_some()),
            ],
            Ok(_) => vec![
                ("store: again, the user's first", self.own[0] == 0),
                ("store: again, the user's next", self.own[0] > 0),
                ("store: again, no bytes", block.is_empty()),
                ("store: again, and no place is free", no_place),
                ("store: again, a free place has its bytes", copy.is_some()),
                ("store: again, a lower free place has its bytes", copy.is_some_and(|&p| p < self.holders[0])),
                ("store: again, a higher place holds it too", self.holders.len() > 1),
                ("store: again, the user's count is in a higher place alone", self.own[0] == 0 && self.higher_count()),
                ("store: again, a count of 65,534", self.own[0] == 65_534),
                ("store: again, a low byte of 255", self.own[0] % 256 == 255),
            ],
        }
    }

    fn retrieving(&self, hash: &[u8], room: usize, due: Result<u32, u8>) -> Vec<Kind> {
        match due {
            Err(2) => vec![("retrieve: 2, the store", !self.whole), ("retrieve: 2, the hash", self.whole)],
            Err(3) => {
                vec![("retrieve: 3, a free place", self.unfit_free), ("retrieve: 3, a held place", !self.unfit_free)]
            }
            Err(15) => vec![
                ("retrieve: 15", true),
                ("retrieve: 15, a free place has its bytes", !self.copies.is_empty()),
                ("retrieve: 15, no bytes, and a place is free", !self.free.is_empty() && *hash == digest(&[])),
                ("retrieve: 15, and no room", room == 0),
            ],
            Err(_) => vec![
                ("retrieve: 12", true),
                ("retrieve: 12, a byte short", room + 1 == self.length),
                ("retrieve: 12, no room", room == 0),
            ],
            Ok(_) => vec![
                ("retrieve: just room enough", room == self.length),
                ("retrieve: room to spare", room > self.length),
                ("retrieve: no bytes", self.length == 0),
                ("retrieve: a higher place holds it too", self.holders.len() > 1),
                ("retrieve: all low bytes are zero", self.counts.iter().all(|count| count % 256 == 0)),
            ],
        }
    }

    fn unreferencing(&self, due: Result<u32, u8>) -> Vec<Kind> {
        let all: u32 = self.counts.iter().map(|&count| u32::from(count)).sum();
        let higher = self.holders.len() > 1;
        match due {
            Err(1) => vec![("unreference: 1", true)],
            Err(2) => vec![("unreference: 2, the store", !self.whole), ("unreference: 2, the hash", self.whole)],
            Err(3) => vec![
                ("unreference: 3, a free place", self.unfit_free),
                ("unreference: 3, a held place", !self.unfit_free),
            ],
            Err(_) => vec![
                ("unreference: 15", true),
                ("unreference: 15, a free place has its bytes", !self.copies.is_empty()),
            ],
            Ok(0) => vec![
                ("unreference: nothing", true),
                ("unreference: nothing, and a higher place has a count", self.higher_count()),
            ],
            Ok(_) => vec![
                ("unreference: one of many", self.own[0] > 1),
                ("unreference: the user's last, and another counts it", self.own[0] == 1 && all > 1),
                ("unreference: the last of all", all == 1),
                ("unreference: the last of all, in a full store", all == 1 && self.free.is_empty()),
                ("unreference: the last of all, and a higher place holds it too", all == 1 && higher),
                ("unreference: one, and a higher place holds it too", higher),
                ("unreference: one of 65,535", self.own[0] == 65_535),
                ("unreference: one, a low byte of zero", self.own[0] % 256 == 0),
            ],
        }
    }

    /// A place above the lowest that holds the hash has a count of the user.
    fn higher_count(&self) -> bool {
        self.own.iter().skip(1).any(|&count| count > 0)
    }
}

/// How often each kind was made.
#[derive(Default)]
pub struct Tally(BTreeMap<&'static str, usize>);

impl Tally {
    pub fn add(&mut self, before: &Before, call: &Call, due: Due) {
        for (kind, _) in before.kinds(call, due).into_iter().filter(|(_, holds)| *holds) {
            *self.0.entry(kind).or_default() += 1;
        }
    }

    /// An error unless each of these kinds was made so often.
    pub fn at_least(&self, times: usize, kinds: &[&'static str]) -> Outcome {
        let few: Vec<_> =
            kinds.iter().map(|kind| (kind, self.0.get(kind).unwrap_or(&0))).filter(|of| *of.1 < times).collect();
        if few.is_empty() {
            Ok(())
        } else {
            Err(format!("too few: {few:?}"))
        }
    }
}
