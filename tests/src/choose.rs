//! sundr_block_choose against the second implementation.

use crate::ffi::{sundr_block_choose, sundr_chosen, sundr_chosen_len, Answer};
use crate::guarded::Guarded;
use crate::parts::some_request;
use crate::random::Random;
use crate::reference::choose::{choose, Chosen, Part, LONGEST_PART};
use crate::reference::itable::BLOCK;
use crate::reference::sha256::digest;
use crate::reference::Refusal;
use crate::runner::{equal, hex, Outcome, Runner};
use std::collections::BTreeMap;
use std::ops::Range;
use std::ptr::null;

const REPLY: Chosen = Ok(Part::Reply);
const CACHED: Chosen = Ok(Part::Cached);
const WRONG_LENGTH: Chosen = Err(Refusal(2, 0, 0));
const WRONG_HASH: Chosen = Err(Refusal(8, 0, 0));

/// Where bytes are lent, and how many.
pub type Lent = (*const u8, usize);

/// One call, judged by what is due: the answer, and what is handed back. That is a lent part itself, and not another of
/// the same bytes. Gives where it is.
pub fn call([wanted, reply, cached]: [Lent; 3], due: Chosen) -> Result<Lent, String> {
    let answer = unsafe { sundr_block_choose(wanted.0, wanted.1, reply.0, reply.1, cached.0, cached.1) };
    let part = match due {
        Ok(Part::Reply) => reply,
        Ok(Part::Cached) => cached,
        // "an empty part of the reply is handed back with either."
        Err(_) => (reply.0, 0),
    };
    equal("the answer", Answer::from(answer), Answer::from(due.map(|which| (which as u32, part.1 as u32))))?;
    let handed_back = (sundr_chosen(answer, reply.0, cached.0), sundr_chosen_len(answer));
    equal("what is handed back", handed_back, part)?;
    Ok(handed_back)
}

/// A wanted hash, a reply and a cached part, each lent by itself and judged: the call, once more with NULL where there
/// are no bytes; and every byte, none of which is to change. Gives what is due.
fn judge(request: [&[u8]; 3], random: &mut Random) -> Result<Chosen, String> {
    let buffers = request.map(|bytes| Guarded::new(bytes, random));
    let lent = buffers.each_ref().map(|buffer| (buffer.pointer(), buffer.len()));
    let [wanted, reply, cached] = request;
    let due = choose(wanted, reply, cached);
    let judged = || {
        call(lent, due)?;
        if request.iter().any(|bytes| bytes.is_empty()) {
            call(lent.map(|(at, len)| if len == 0 { (null(), 0) } else { (at, len) }), due)?;
        }
        buffers.iter().try_for_each(Guarded::unaltered)
    };
    judged().map_err(|e| {
        let request = request.map(|bytes| format!("{} {}", bytes.len(), hex(bytes)));
        format!("{e}; wanted, reply, cached {request:?}, lent at {lent:?}")
    })?;
    Ok(due)
}

/// The same where it is known what is due, of both implementations.
fn judge_as(due: Chosen, request: [&[u8]; 3], random: &mut Random) -> Outcome {
    equal("the second implementation's answer", judge(request, random)?, due)
}

/// What a request by chance is to be often, and whether it is.
fn cases([wanted, reply, cached]: [&[u8]; 3], due: Chosen) -> [(&'static str, bool); 16] {
    let begins = |part: &[u8], whole: &[u8]| part.len() < whole.len() && whole.starts_with(part);
    let no_bytes = due == WRONG_HASH && *wanted == digest(&[]);
    let lengths = [wanted.len() == 32, reply.len() <= LONGEST_PART, cached.len() <= LONGEST_PART];
    let cached_too_long = lengths == [true, true, false];
    let fits = |part: &[u8]| !part.is_empty() && digest(part) == *wanted;
    [
        ("both fit", due == REPLY && reply == cached),
        ("the reply alone fits", due == REPLY && reply != cached),
        ("the cached part alone fits", due == CACHED),
        ("neither fits", due == WRONG_HASH),
        ("the reply fits, and the cached part begins so", due == REPLY && begins(reply, cached)),
        ("the cached part fits, and the reply begins so", due == CACHED && begins(cached, reply)),
        ("the reply fits, and nothing is cached", due == REPLY && cached.is_empty()),
        ("the cached part fits, and there is no reply", due == CACHED && reply.is_empty()),
        ("the hash of no bytes, and there is no reply", no_bytes && reply.is_empty()),
        ("the hash of no bytes, and nothing is cached", no_bytes && cached.is_empty()),
        ("the reply is the wanted hash, and the cached part fits", due == CACHED && reply == wanted),
        ("the reply is the wanted hash, and neither fits", due == WRONG_HASH && reply == wanted),
        ("2 for the wanted hash alone", lengths == [false, true, true]),
        ("2 for the reply alone", lengths == [true, false, true]),
        ("2 for the cached part alone", cached_too_long),
        ("2 for the cached part alone, and the reply fits", cached_too_long && fits(reply)),
    ]
}

fn random_requests() -> Outcome {
    let mut random = Random::new(100_000);
    let mut seen: BTreeMap<&str, usize> = BTreeMap::new();
    for _ in 0..100_000 {
        let request = some_request(&mut random);
        let request = request.each_ref().map(Vec::as_slice);
        let due = judge(request, &mut random)?;
        for (case, holds) in cases(request, due) {
            *seen.entry(case).or_default() += usize::from(holds);
        }
    }
    if seen.values().any(|&count| count < 500) {
        return Err(format!("too few: {seen:?}"));
    }
    Ok(())
}

/// No bytes and one, an i-table's block and the longest part, and one byte to either side of these two.
const LENGTHS: [usize; 8] = [0, 1, BLOCK - 1, BLOCK, BLOCK + 1, LONGEST_PART - 1, LONGEST_PART, LONGEST_PART + 1];

/// Each two lengths; the same bytes as far as both go, or another first byte; the hash of each part, that of no bytes
/// and any; and four lengths of it. So it is known who fits.
fn every_two_lengths() -> Outcome {
    let mut random = Random::new(65_536);
    let mut made = [0; 5];
    for (reply_len, cached_len) in LENGTHS.iter().flat_map(|&one| LENGTHS.map(|other| (one, other))) {
        for change in [0, 0xff] {
            let longer = random.bytes(reply_len.max(cached_len));
            let (reply, mut cached) = (&longer[..reply_len], longer[..cached_len].to_vec());
            cached.iter_mut().take(1).for_each(|first| *first ^= change);
            let same = *reply == cached;
            let any = random.bytes(32).try_into().unwrap();
            let hashes = [(digest(reply), [true, same]), (digest(&cached), [same, true])];
            for (hash, fit) in hashes.into_iter().chain([(digest(&[]), [false; 2]), (any, [false; 2])]) {
                for hash_len in [0, 31, 32, 33] {
                    let mut wanted = hash.to_vec();
                    wanted.resize(hash_len, 0);
                    let (place, due) = match [fit[0] && reply_len > 0, fit[1] && cached_len > 0] {
                        _ if hash_len != 32 || longer.len() > LONGEST_PART => (4, WRONG_LENGTH),
                        [true, true] => (0, REPLY),
                        [true, false] => (1, REPLY),
                        [false, true] => (2, CACHED),
                        [false, false] => (3, WRONG_HASH),
                    };
                    judge_as(due, [&wanted, reply, &cached], &mut random)?;
                    made[place] += 1;
                }
            }
        }
    }
    equal("how often both fit, the reply, the cached part, neither, and 2 is due", made, [12, 78, 78, 224, 1_656])
}

/// Parts by the limit and far above it. Wanted is the hash of the whole part; that of as many of its bytes as its
/// length's lower 16 bits say; and that of the other part.
fn lengths_by_the_limit() -> Outcome {
    let mut random = Random::new(65_537);
    let far = [LONGEST_PART + BLOCK, 2 * LONGEST_PART, 2 * LONGEST_PART + BLOCK, 1_000_000];
    for len in (LONGEST_PART - 3..=LONGEST_PART + 3).chain(far) {
        let part = random.bytes(len);
        let due = |chosen| if len > LONGEST_PART { WRONG_LENGTH } else { chosen };
        let whole = digest(&part);
        judge_as(due(REPLY), [&whole, &part, &[]], &mut random)?;
        judge_as(due(CACHED), [&whole, &[], &part], &mut random)?;
        judge_as(due(REPLY), [&whole, &part, &part], &mut random)?;
        let begin = &part[..len % LONGEST_PART];
        let of_begin = digest(begin);
        let chosen = |part| if begin.len() == len { part } else { WRONG_HASH };
        judge_as(due(chosen(REPLY)), [&of_begin, &part, &[]], &mut random)?;
        judge_as(due(chosen(CACHED)), [&of_begin, &[], &part], &mut random)?;
        let other = random.bytes(BLOCK);
        let of_other = digest(&other);
        judge_as(due(CACHED), [&of_other, &part, &other], &mut random)?;
        judge_as(due(REPLY), [&of_other, &other, &part], &mut random)?;
    }
    Ok(())
}

/// A hash that is cut off, or has more behind it: nothing fits.
fn every_hash_length() -> Outcome {
    let mut random = Random::new(32);
    let block = random.bytes(BLOCK);
    for len in (0..=100).chain([255, 256, 288, 4_128, 65_568]) {
        let mut wanted = digest(&block).to_vec();
        wanted.resize(len, 0);
        let due = |chosen| if len == 32 { chosen } else { WRONG_LENGTH };
        judge_as(due(REPLY), [&wanted, &block, &block], &mut random)?;
        judge_as(due(REPLY), [&wanted, &block, &[]], &mut random)?;
        judge_as(due(CACHED), [&wanted, &[], &block], &mut random)?;
        judge_as(due(WRONG_HASH), [&wanted, &wanted, &wanted], &mut random)?;
        judge_as(due(WRONG_HASH), [&wanted, &[], &[]], &mut random)?;
    }
    Ok(())
}

/// Each bit of the wanted hash changed; then each bit of a part.
fn every_bit() -> Outcome {
    let mut random = Random::new(256);
    let changed = |bytes: &[u8], bit: usize| {
        let mut bytes = bytes.to_vec();
        bytes[bit / 8] ^= 1 << (bit % 8);
        bytes
    };
    for len in [1, 32, 55, 64, BLOCK, 8_192] {
        let block = random.bytes(len);
        let right = digest(&block);
        for wanted in (0..256).map(|bit| changed(&right, bit)) {
            judge_as(WRONG_HASH, [&wanted, &block, &block], &mut random)?;
            judge_as(WRONG_HASH, [&wanted, &block, &[]], &mut random)?;
            judge_as(WRONG_HASH, [&wanted, &[], &block], &mut random)?;
        }
    }
    let block = random.bytes(BLOCK);
    let wanted = digest(&block);
    for part in (0..8 * BLOCK).map(|bit| changed(&block, bit)) {
        judge_as(CACHED, [&wanted, &part, &block], &mut random)?;
        judge_as(REPLY, [&wanted, &block, &part], &mut random)?;
        judge_as(WRONG_HASH, [&wanted, &part, &part], &mut random)?;
    }
    Ok(())
}

/// A hash and two parts that lie in one buffer and may overlap, as buffers do that are only read. A block is at the
/// front, and its hash behind it.
fn one_buffer() -> Outcome {
    let mut random = Random::new(20_000);
    // Of two parts at one pointer: the reply, the cached part, neither.
    let mut seen = [0; 3];
    for _ in 0..20_000 {
        let len = 1 + random.below(200);
        let mut bytes = random.bytes(len);
        bytes.extend(digest(&bytes));
        let all = bytes.len();
        let [reply, cached]: [Range<usize>; 2] = [(); 2].map(|_| match random.below(6) {
            0 | 1 => 0..len,
            2 => 0..random.below(all + 1),
            3 => 0..all,
            4 => len..all,
            _ => random.below(len)..len + random.below(33),
        });
        let wanted = if random.below(8) == 0 { 0..32 } else { len..all };
        let ranges = [wanted, reply, cached];
        let [w, r, c] = ranges.each_ref().map(|range| &bytes[range.clone()]);
        let due = choose(w, r, c);
        let buffer = Guarded::new(&bytes, &mut random);
        let lent = ranges.each_ref().map(|range| (unsafe { buffer.pointer().add(range.start) }, range.len()));
        let judged = call(lent, due).and_then(|_| buffer.unaltered());
        judged.map_err(|e| format!("{e}; wanted, reply, cached {ranges:?} of {}", hex(&bytes)))?;
        if ranges[1].start == ranges[2].start {
            seen[due.map_or(2, |which| which as usize)] += 1;
        }
    }
    if seen.iter().any(|&count| count < 1_000) {
        return Err(format!("too few: at one pointer {seen:?}"));
    }
    Ok(())
}

pub fn checks(runner: &mut Runner) {
    runner.check("choose: 100,000 requests by chance, each answer for each reason", random_requests);
    runner.check("choose: every two of 8 lengths, by who fits, under hashes of 4 lengths", every_two_lengths);
    runner.check("choose: parts by the limit, and far above", lengths_by_the_limit);
    runner.check("choose: wanted hashes of every length 0 to 100, and of longer ones", every_hash_length);
    runner.check("choose: every bit of the wanted hash changed, and every bit of a part", every_bit);
    runner.check("choose: 20,000 requests in one buffer, where parts and hash overlap", one_buffer);
}
