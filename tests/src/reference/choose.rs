//! A block from the reply or from the cache: 02, request a.

use super::sha256::digest;
use super::Refusal;

pub const LONGEST_PART: usize = 65_536;

/// The numbers are those of the first result.
#[derive(Clone, Copy, Debug, PartialEq, Eq)]
pub enum Part {
    Reply = 0,
    Cached = 1,
}

/// The part that is handed back whole, or why an empty one is.
pub type Chosen = Result<Part, Refusal>;

/// "hand back the reply if its hash is the wanted one, otherwise the cached block if its hash is"
pub fn choose(wanted: &[u8], reply: &[u8], cached: &[u8]) -> Chosen {
    if wanted.len() != 32 || [reply, cached].iter().any(|part| part.len() > LONGEST_PART) {
        return Err(Refusal(2, 0, 0));
    }
    for (name, part) in [(Part::Reply, reply), (Part::Cached, cached)] {
        // "An empty part means not there, even if the hash of no bytes is wanted."
        let there = !part.is_empty();
        if there && digest(part) == wanted {
            return Ok(name);
        }
    }
    Err(Refusal(8, 0, 0))
}
