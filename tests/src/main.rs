//! Differential tests: each call of libsundr.a against a second implementation, written from
//! the papers alone. A piece has a file here with its checks, and one in `reference/`.

mod alike;
mod arguments;
mod asked;
mod blockstore;
mod bounds;
mod check;
mod choose;
mod compare;
mod create;
mod create_edges;
mod damages;
mod desk;
mod desks;
mod faults;
mod ffi;
mod files;
mod foreign;
mod guarded;
mod habits;
mod handed;
mod histories;
mod indirect;
mod inode;
mod itable;
mod joint;
mod kinds;
mod large;
mod lies;
mod lists;
mod lookup;
mod makings;
mod many;
mod memory;
mod memory_edges;
mod mixed;
mod none_counts_more;
mod one_number;
mod own_record;
mod parts;
mod paths;
mod places;
mod random;
mod reference;
mod runner;
mod runs;
mod server;
mod sha256;
mod shared;
mod stores;
mod tables;
mod tally;
mod trees;
mod turns;
mod verdicts;

use runner::Runner;
use std::process::ExitCode;
use std::sync::atomic::{AtomicUsize, Ordering};
use std::thread;

/// The checks of each piece.
const PIECES: [fn(&mut Runner); 34] = [
    sha256::checks,
    compare::checks,
    own_record::checks,
    memory_edges::checks,
    memory::checks,
    check::checks,
    lies::checks,
    none_counts_more::checks,
    create::checks,
    create_edges::checks,
    joint::checks,
    desk::checks,
    server::checks,
    desks::checks,
    one_number::checks,
    runs::checks,
    turns::checks,
    itable::checks,
    lookup::checks,
    bounds::checks,
    many::checks,
    shared::checks,
    mixed::checks,
    inode::checks,
    large::checks,
    indirect::checks,
    faults::checks,
    alike::checks,
    choose::checks,
    handed::checks,
    blockstore::checks,
    foreign::checks,
    places::checks,
    arguments::checks,
];

/// Two pieces at a time, as the proofs are checked: nothing is timed, and no two share memory but for one law's counts.
fn main() -> ExitCode {
    let next = AtomicUsize::new(0);
    let work = || {
        let mut runner = Runner::new();
        while let Some(checks) = PIECES.get(next.fetch_add(1, Ordering::Relaxed)) {
            checks(&mut runner);
        }
        runner
    };
    thread::scope(|scope| {
        let other = scope.spawn(work);
        let mut all = work().and(other.join().expect("a check's panic is caught"));
        none_counts_more::sums(&mut all);
        all.finish()
    })
}
