//! What sundr_block_choose hands back, on to sundr_lookup: a part of 642 bytes is to it a path of one block.

use crate::choose::call;
use crate::ffi::{sundr_lookup, Answer};
use crate::guarded::Guarded;
use crate::itable::NUMBERINGS;
use crate::parts::some_part;
use crate::paths::{some_number, Path};
use crate::random::Random;
use crate::reference::choose::{Part, LONGEST_PART};
use crate::reference::itable::{lookup, BLOCK};
use crate::reference::sha256::digest;
use crate::runner::{equal, hex, Outcome, Runner};
use crate::tables::Table;

/// A block that the library wrote, one made by hand and forged, or any bytes.
fn some_block(tables: &[Table], random: &mut Random) -> Vec<u8> {
    match random.below(4) {
        0 => random.bytes(BLOCK),
        1 => {
            let mut path = Path::any(random);
            path.forge(random);
            path.blocks[random.below(path.blocks.len())].0.to_vec()
        }
        _ => {
            let table = &tables[random.below(tables.len())];
            let path = table.path(table.files[random.below(table.files.len())]);
            path[random.below(path.len())].to_vec()
        }
    }
}

/// An i-number by what stands in a slot of the block, or any.
fn some_number_by(block: &[u8], random: &mut Random) -> u64 {
    let held = u64::from_be_bytes(block[2 + 40 * random.below(16)..][..8].try_into().unwrap());
    match random.below(4) {
        0 => some_number(random),
        _ => held.wrapping_add(random.next() % 3).wrapping_sub(1),
    }
}

/// How often a lookup found the file, showed that there is none, and was refused with 3 and with 9.
type Seen = [usize; 4];

/// One lookup along what was handed back, from where it lies, judged: it ends in one of these four ways, and as the
/// second implementation's along the block does.
fn look_up(wanted: &Guarded, path: *const u8, block: &[u8], seen: &mut Seen, random: &mut Random) -> Outcome {
    let number = some_number_by(block, random);
    let mut out = Guarded::new(&[0x5a; 32], random);
    let answer = Answer::from(unsafe {
        sundr_lookup(wanted.pointer(), wanted.len(), number, path, BLOCK, out.pointer_mut(), out.len())
    });
    let place = match answer {
        Answer::Accepted(1, 0) => Ok(0),
        Answer::Accepted(0, 0) => Ok(1),
        Answer::Refused(3, 0, 0) => Ok(2),
        Answer::Refused(9, 1, 0) => Ok(3),
        other => Err(format!("the lookup's answer is {other:?}, for {number:x} in {}", hex(block))),
    };
    seen[place?] += 1;
    let due = lookup(wanted.content(), number, block, 32);
    equal("the lookup's answer", answer, Answer::from(due.map(|found| (u32::from(found.is_some()), 0))))?;
    equal("the handle", hex(out.content()), hex(&due.ok().flatten().unwrap_or([0x5a; 32])))?;
    out.kept_guards()
}

/// A block is the reply or the cached part, and the other part is anything.
fn handed_on() -> Outcome {
    let mut random = Random::new(642);
    let mut tables = Vec::new();
    for files in [1, 16, 17, 257, 1_000] {
        tables.push(Table::any(random.below(NUMBERINGS), files, &mut random)?);
    }
    // By the part that is handed back.
    let mut seen: [Seen; 2] = Default::default();
    for _ in 0..30_000 {
        let block = some_block(&tables, &mut random);
        let wanted = digest(&block).to_vec();
        let mut other = some_part(&block, &wanted, &mut random);
        other.truncate(LONGEST_PART);
        let as_reply = other == block || random.below(2) == 0;
        let (reply, cached) = if as_reply { (&block, &other) } else { (&other, &block) };
        let due = if as_reply { Part::Reply } else { Part::Cached };

        let buffers = [&wanted, reply, cached].map(|bytes| Guarded::new(bytes, &mut random));
        let lent = buffers.each_ref().map(|buffer| (buffer.pointer(), buffer.len()));
        let (path, _) = call(lent, Ok(due))?;
        look_up(&buffers[0], path, &block, &mut seen[due as usize], &mut random)?;
        buffers.iter().try_for_each(Guarded::unaltered)?;
    }
    if seen.as_flattened().iter().any(|&count| count < 1_000) {
        return Err(format!("too few: found, absent, 3 and 9, of the reply and of the cached part, {seen:?}"));
    }
    Ok(())
}

pub fn checks(runner: &mut Runner) {
    runner.check("choose: 30,000 blocks handed on to a lookup, which refuses none with 8 or 2", handed_on);
}
