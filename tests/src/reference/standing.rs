//! How two structures stand by their counts: equal, strictly before, strictly after, or apart.

use super::version::USERS;

/// The numbers are those of the first result.
#[derive(Clone, Copy, Debug, PartialEq, Eq)]
pub enum Standing {
    Equal = 0,
    Before = 1,
    After = 2,
    Apart = 3,
}

/// How any sixteen counts stand to any sixteen. Of those that differ, x is strictly before y if each count of x is at
/// most that of y, and strictly after y if y is strictly before x.
pub fn standing(x: &[u32; USERS], y: &[u32; USERS]) -> Standing {
    if x == y {
        Standing::Equal
    } else if (0..USERS).all(|user| x[user] <= y[user]) {
        Standing::Before
    } else if (0..USERS).all(|user| y[user] <= x[user]) {
        Standing::After
    } else {
        Standing::Apart
    }
}
