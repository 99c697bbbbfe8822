//! Many lookups in one call: 02, request f.

use super::itable::{lookup_again, Found, BLOCK};
use super::sha256::Remembered;
use super::Refusal;

pub const MOST_QUESTIONS: usize = 64;
pub const ENTRY: usize = 33;

/// What fills the answers' buffer, or why nothing is written.
pub type Answers = Result<Vec<u8>, Refusal>;

/// "Ask for up to 64 i-numbers of one table in one call, with the paths end to end and each path's block count."
pub fn many(
    handle: &[u8],
    numbers: &[u64],
    counts: &[u8],
    paths: &[u8],
    out_len: usize,
    hashes: &mut Remembered,
) -> Answers {
    // "paths that don't fill the bytes exactly"
    let filled = BLOCK * counts.iter().map(|&count| usize::from(count)).sum::<usize>();
    if handle.len() != 32
        || numbers.len() != counts.len()
        || numbers.len() > MOST_QUESTIONS
        || paths.len() != filled
        || out_len != ENTRY * numbers.len()
    {
        return Err(Refusal(2, 0, 0));
    }
    let mut singles = Vec::new();
    let mut rest = paths;
    for (&number, &count) in numbers.iter().zip(counts) {
        let (path, later) = rest.split_at(BLOCK * usize::from(count));
        singles.push(lookup_again(handle, number, path, 32, hashes));
        rest = later;
    }
    together(&singles)
}

/// What the single answers come to, in the order asked: all of them, or the first refusal.
pub fn together(singles: &[Found]) -> Answers {
    let mut out = Vec::new();
    for (question, single) in singles.iter().enumerate() {
        match single {
            // "The first that would be refused refuses the call with its number, the places being the question's index
            // and then the place within its path, and no answer is written."
            Err(Refusal(number, place, _)) => return Err(Refusal(*number, question as u32, *place)),
            // "An answer is 33 bytes, a 1 and the handle, or all zero for absent."
            Ok(Some(handle)) => {
                out.push(1);
                out.extend(handle);
            }
            Ok(None) => out.extend([0; ENTRY]),
        }
    }
    Ok(out)
}
