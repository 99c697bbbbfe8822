//! sundr_compare against the second implementation, and beside what sundr_memory_check says of the same records.

use crate::check;
use crate::ffi::{sundr_compare, Answer};
use crate::guarded::Guarded;
use crate::lists::{pick, some_count, Draft};
use crate::random::Random;
use crate::reference::standing::{standing, Standing};
use crate::reference::version::{Version, RECORD, USERS};
use crate::runner::{equal, Outcome, Runner};

type Counts = [u32; USERS];

/// Numbers to be told apart: the least and the greatest, those on each side of 2^31 and of each byte's limit, and two
/// whose bytes are each other's backwards. The lower one is first.
const EDGES: [(u32, u32); 10] = [
    (0, 1),
    (0, u32::MAX),
    (u32::MAX - 1, u32::MAX),
    (0x7fff_ffff, 0x8000_0000),
    (1, 0x8000_0000),
    (0x7fff_ffff, u32::MAX),
    (0xff, 0x100),
    (0xffff, 0x1_0000),
    (0xff_ffff, 0x100_0000),
    (1, 0x100_0000),
];

/// The library's answer.
fn ask(x: *const u32, y: *const u32) -> Answer {
    Answer::from(unsafe { sundr_compare(x, y) })
}

/// The answer that says this standing.
fn answer_of(standing: Standing) -> Answer {
    Answer::Accepted(standing as u32, 0)
}

/// How y stands to x, where x stands so to y.
fn flipped(standing: Standing) -> Standing {
    match standing {
        Standing::Before => Standing::After,
        Standing::After => Standing::Before,
        Standing::Equal | Standing::Apart => standing,
    }
}

/// Two arrays, each lent by itself and judged: the answer, the one the other way round, and every byte, none of which is
/// to change. Gives how x stands to y.
fn judge(x: &Counts, y: &Counts, random: &mut Random) -> Result<Standing, String> {
    let lent = [x, y].map(|counts| Guarded::counts(counts, random));
    let [a, b] = lent.each_ref().map(|array| array.pointer().cast());
    let due = standing(x, y);
    let judged = || {
        equal("the answer", ask(a, b), answer_of(due))?;
        equal("the answer the other way round", ask(b, a), answer_of(standing(y, x)))?;
        equal("the standing the other way round", standing(y, x), flipped(due))?;
        lent.iter().try_for_each(Guarded::unaltered)
    };
    judged().map_err(|e| format!("{e}; x {x:?}, y {y:?}"))?;
    Ok(due)
}

/// Counts of few values, and the same but for some users: more there, or less, or either.
fn some_pair(random: &mut Random) -> (Counts, Counts) {
    let values: [u32; 3] = std::array::from_fn(|_| some_count(random));
    let x: Counts = std::array::from_fn(|_| pick(random, &values));
    let mut y = x;
    let side = random.below(3);
    for _ in 0..random.below(USERS) {
        let user = random.below(USERS);
        let count = pick(random, &values);
        y[user] = match side {
            0 => count.max(x[user]),
            1 => count.min(x[user]),
            _ => count,
        };
    }
    (x, y)
}

/// Pairs by chance: each of the four standings often.
fn random_pairs() -> Outcome {
    let mut random = Random::new(1_000_000);
    let mut seen = [0; 4];
    for _ in 0..1_000_000 {
        let (x, y) = some_pair(&mut random);
        seen[judge(&x, &y, &mut random)? as usize] += 1;
    }
    if seen.iter().any(|&times| times < 100_000) {
        return Err(format!("too few: equal, before, after and apart {seen:?} times"));
    }
    Ok(())
}

/// Less at one user and more at another; where the two are one user, less there alone. The others' counts are equal.
fn every_two_users() -> Outcome {
    let mut random = Random::new(256);
    for (low, high) in EDGES {
        for others in [0, low, high, u32::MAX] {
            for a in 0..USERS {
                for b in 0..USERS {
                    let (mut x, mut y) = ([others; USERS], [others; USERS]);
                    (x[b], y[b]) = (high, low);
                    (x[a], y[a]) = (low, high);
                    let due = if a == b { Standing::Before } else { Standing::Apart };
                    equal("the standing", judge(&x, &y, &mut random)?, due)?;
                }
            }
        }
    }
    Ok(())
}

/// Less at all users below one, and more from that one on. A comparison by the first user that differs, or by the last,
/// or by the sum, would say before or after.
fn every_split() -> Outcome {
    let mut random = Random::new(17);
    for (low, high) in EDGES {
        for at in 0..=USERS {
            let x = std::array::from_fn(|user| if user < at { low } else { high });
            let y = std::array::from_fn(|user| if user < at { high } else { low });
            let due = match at {
                0 => Standing::After,
                USERS => Standing::Before,
                _ => Standing::Apart,
            };
            equal("the standing", judge(&x, &y, &mut random)?, due)?;
        }
    }
    Ok(())
}

/// Equal counts: all of one number, and any, in two arrays and in one that is lent as both.
fn equal_counts() -> Outcome {
    let mut random = Random::new(64);
    let same = EDGES.iter().flat_map(|&(low, high)| [[low; USERS], [high; USERS]]);
    let any: Vec<Counts> = (0..10_000).map(|_| std::array::from_fn(|_| random.next() as u32)).collect();
    for x in same.chain(any) {
        equal("the standing", judge(&x, &x, &mut random)?, Standing::Equal)?;
        let lent = Guarded::counts(&x, &mut random);
        let both = lent.pointer().cast();
        equal("the answer to one array", ask(both, both), answer_of(Standing::Equal))?;
        lent.unaltered()?;
    }
    Ok(())
}

/// What a check says of its list's records and the new structure's counts, told by sundr_compare alone.
fn order(listed: &[Version], new: &Counts) -> Answer {
    let stands = |x: &Counts, y: &Counts| ask(x.as_ptr(), y.as_ptr());
    for (i, one) in listed.iter().enumerate() {
        for (j, other) in listed.iter().enumerate().skip(i + 1) {
            if stands(&one.counts, &other.counts) == answer_of(Standing::Apart) {
                return Answer::Refused(7, i as u32, j as u32);
            }
        }
        if stands(&one.counts, new) != answer_of(Standing::Before) {
            return Answer::Refused(7, i as u32, listed.len() as u32);
        }
    }
    Answer::Accepted(0, 0)
}

/// Lists that sundr_memory_check accepts or refuses with 7: it does so exactly by how the counts in their bytes stand.
fn orders() -> Outcome {
    let mut random = Random::new(98);
    let (mut accepted, mut two_records, mut new_structure) = (0, 0, 0);
    for _ in 0..100_000 {
        let mut draft = Draft::honest(&mut random);
        (0..random.below(3)).for_each(|_| draft.lie(&mut random));
        let request = draft.request();
        let check::Said { answer: said, counts: given, .. } = check::ask(&request);
        let listed: Vec<Version> = request.list.chunks(RECORD).map(Version::read).collect();
        match said {
            Answer::Accepted(..) => accepted += 1,
            Answer::Refused(7, _, second) if second as usize == listed.len() => new_structure += 1,
            Answer::Refused(7, ..) => two_records += 1,
            _ => continue,
        }
        let mut new = [0; USERS];
        listed.iter().for_each(|version| new[usize::from(version.owner)] = version.own());
        new[usize::from(request.user)] += 1;
        equal("the check's answer, by the standings,", order(&listed, &new), said)?;
        if said == Answer::Accepted(0, 0) {
            equal("the counts given", judge(&new, &given, &mut random)?, Standing::Equal)?;
        }
    }
    if accepted.min(two_records).min(new_structure) < 5_000 {
        return Err(format!(
            "too few: {accepted} accepted, 7 for {two_records} of two, {new_structure} of the new one"
        ));
    }
    Ok(())
}

pub fn checks(runner: &mut Runner) {
    runner.check("compare: 1,000,000 pairs by chance, each also the other way round", random_pairs);
    runner.check(
        "compare: less at each user, and more at each other, on each side of each byte's limit",
        every_two_users,
    );
    runner.check("compare: less at all users below each, and more at all the others", every_split);
    runner.check("compare: equal counts, in two arrays and in one lent twice", equal_counts);
    runner.check("compare: 100,000 lists, accepted or refused with 7 as their records stand", orders);
}
