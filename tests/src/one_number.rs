//! One number is enough: of what honest users signed in one run, x is at or before y exactly if y counts as many
//! operations of x's owner as x does, or more. Of what a liar signed it need not be so.

use crate::reference::standing::{standing, Standing};
use crate::reference::version::Version;
use crate::runner::{enough, equal, Outcome, Runner};

/// Whether x is at or before y exactly if y counts the operation that x was signed for.
fn tells(x: &Version, y: &Version) -> bool {
    x.at_or_before(y) == (y.counts[usize::from(x.owner)] >= x.own())
}

/// The pairs that were looked at.
#[derive(Default)]
pub struct Pairs {
    pub all: usize,
    /// Neither is at or before the other.
    pub apart: usize,
    /// One is a liar's, and the number does not tell how they stand.
    misled: usize,
}

impl Pairs {
    /// All pairs of what honest users signed in one run, whichever was first, each with itself too.
    pub fn judge(&mut self, signed: &[Version]) -> Outcome {
        for x in signed {
            for y in signed {
                if !tells(x, y) {
                    return Err(format!("one number does not tell how {x:?} stands to {y:?}"));
                }
                self.apart += usize::from(standing(&x.counts, &y.counts) == Standing::Apart);
            }
        }
        self.all += signed.len() * signed.len();
        Ok(())
    }

    /// What honest users signed beside what liars did, of which nothing is asked.
    pub fn mislead<'a>(&mut self, signed: &[Version], forged: impl Iterator<Item = &'a Version>) {
        for z in forged {
            self.misled += signed.iter().map(|x| usize::from(!tells(x, z)) + usize::from(!tells(z, x))).sum::<usize>();
        }
    }

    /// An error unless there were so many, a tenth of them apart, and liars often misled.
    pub fn at_least(&self, times: usize) -> Outcome {
        enough([("pairs of what was signed".to_string(), self.all)], times)?;
        enough([("pairs apart".to_string(), self.apart)], self.all / 10)?;
        enough([("pairs with a liar's that one number does not tell".to_string(), self.misled)], times / 10)
    }
}

/// A fork by hand, of two honest users; and what a third, who lies, may add to it.
fn by_hand() -> Outcome {
    let of = |owner: u8, counts: [u32; 3]| {
        Version::new(owner, [0; 32], std::array::from_fn(|v| counts.get(v).copied().unwrap_or(0)))
    };
    let fork = [of(0, [1, 0, 0]), of(1, [1, 1, 0]), of(0, [2, 1, 0]), of(1, [1, 2, 0])];
    let mut pairs = Pairs::default();
    pairs.judge(&fork)?;
    equal("pairs of a fork, and those apart", (pairs.all, pairs.apart), (16, 2))?;
    let forged = [
        ("two operations of A's and none of B's", vec![of(2, [2, 0, 1])]),
        ("two of one own count", vec![of(2, [2, 1, 1]), of(2, [1, 2, 1])]),
        ("no operation of its own", vec![of(2, [1, 1, 0])]),
    ];
    for (what, forged) in forged {
        let told = Pairs::default().judge(&[&fork[..], &forged].concat());
        equal(&format!("whether a violation is told of {what}"), told.is_err(), true)?;
    }
    Ok(())
}

pub fn checks(runner: &mut Runner) {
    runner.check("one number: a fork by hand, and a liar's structures, of which it is false", by_hand);
}
