//! What is measured: each piece of work, its inputs' sizes, and who does it.

use crate::contender::Contender;
use crate::figures::{grouped, Unit};
use std::path::Path;

pub struct Contest {
    pub title: &'static str,
    /// Its function in the header.
    pub call: &'static str,
    measure: Measure,
    /// The sizes of the inputs: bytes, or users.
    pub sizes: &'static [usize],
    /// Those of them that have a row in the table, and bars; the others are for the curves.
    pub rows: &'static [usize],
    /// How many of the bytes, users, questions or refused calls are worked through at one go: some 10 milliseconds.
    go: usize,
    /// The library first.
    entries: &'static [Entry],
}

/// What speed and instructions are counted by.
enum Measure {
    /// Bytes that are hashed, or written; a size is their number.
    Bytes,
    /// Calls; a size is a number of users.
    Calls,
    /// Questions, so many in a call; a size is the number of the bytes that are hashed.
    Questions(usize),
    /// Calls that are refused with this number before anything is hashed; the size is 0.
    Refused(u8),
}

struct Entry {
    name: &'static str,
    program: &'static str,
    /// OpenSSL's OPENSSL_ia32cap, nothing for what the processor has.
    features: &'static str,
    /// Whether it works by SHA instructions. The processor may not have them, and callgrind's has not.
    sha: bool,
}

const fn entry(name: &'static str, program: &'static str) -> Entry {
    Entry { name, program, features: "", sha: false }
}

const fn openssl(name: &'static str, features: &'static str, sha: bool) -> Entry {
    Entry { name, program: "sha256_openssl", features, sha }
}

const REFERENCE: &str = "second implementation, rustc -O";
const HASHES: &str = "its hashes alone";
const ITABLE: [Entry; 2] = [entry("libsundr.a", "itable_sundr"), entry(HASHES, "itable_hashes")];
const CHOOSERS: [Entry; 2] = [entry("libsundr.a", "choose_sundr"), entry(HASHES, "choose_hashes")];
const MANY: Entry = entry("libsundr.a", "many_sundr");
const MANY_SINGLES: Entry = entry("64 single lookups", "many_singles");
const MANY_HASHES: Entry = entry(HASHES, "many_hashes");
const RETRIEVE: Entry = entry("libsundr.a", "retrieve_sundr");
const HELD_HASHES: Entry = entry(HASHES, "held_hashes");
const STORERS: [Entry; 2] = [entry("libsundr.a", "store_sundr"), entry(HASHES, "store_hashes")];

/// A call whose work is hashing; the size is what is hashed.
const fn hashed(
    title: &'static str,
    call: &'static str,
    size: &'static [usize; 1],
    entries: &'static [Entry],
) -> Contest {
    Contest { title, call, measure: Measure::Bytes, sizes: size, rows: size, go: 2 << 20, entries }
}

/// What is done with an i-table or a file; the size, of all that is hashed, says what, as itable_work.h has it.
const fn itable(title: &'static str, call: &'static str, size: &'static [usize; 1]) -> Contest {
    hashed(title, call, size, &ITABLE)
}

/// A choice between two parts of the same length, which the title has; the size is what is hashed.
const fn choice(title: &'static str, size: &'static [usize; 1]) -> Contest {
    hashed(title, "sundr_block_choose", size, &CHOOSERS)
}

/// A block that is retrieved from the last held place of a block store, as store_work.h has it.
const fn retrieval(title: &'static str, size: &'static [usize; 1]) -> Contest {
    hashed(title, "sundr_retrieve", size, &[RETRIEVE, HELD_HASHES])
}

/// A block that is stored once more, in the same place.
const fn storing(title: &'static str, size: &'static [usize; 1]) -> Contest {
    hashed(title, "sundr_store", size, &STORERS)
}

/// Lookups in one call, each along three blocks; the size is what is hashed, as many_work.h has it.
const fn many(title: &'static str, questions: usize, size: &'static [usize; 1], entries: &'static [Entry]) -> Contest {
    Contest {
        title,
        call: "sundr_lookup_many",
        measure: Measure::Questions(questions),
        sizes: size,
        rows: size,
        go: 3_200,
        entries,
    }
}

/// A memory file, written or read back, that holds a structure of sixteen users.
const fn memory(title: &'static str, call: &'static str, entries: &'static [Entry]) -> Contest {
    Contest { title, call, measure: Measure::Calls, sizes: &[16], rows: &[16], go: 4_000_000, entries }
}

pub const CONTESTS: [Contest; 36] = [
    Contest {
        title: "SHA-256",
        call: "sundr_sha256",
        measure: Measure::Bytes,
        sizes: &[64, 256, 1 << 10, 4 << 10, 16 << 10, 64 << 10],
        rows: &[64 << 10],
        go: 2 << 20,
        entries: &[
            entry("libsundr.a", "sha256_sundr"),
            entry("portable C, gcc -O2", "sha256_portable"),
            openssl("OpenSSL, plain x86-64 assembly", "~0x1000020000000000:~0x20000128", false),
            openssl("OpenSSL, vector instructions", ":~0x20000000", false),
            openssl("OpenSSL, SHA instructions", "", true),
        ],
    },
    // Each of the four standings, in turn.
    Contest {
        title: "Two structures' counts compared",
        call: "sundr_compare",
        measure: Measure::Calls,
        sizes: &[16],
        rows: &[16],
        go: 25_000_000,
        entries: &[entry("libsundr.a", "compare_sundr"), entry(REFERENCE, "compare_reference")],
    },
    // A list with a record of each user, which is accepted.
    Contest {
        title: "A client's check",
        call: "sundr_memory_check",
        measure: Measure::Calls,
        sizes: &[16, 8, 2],
        rows: &[16, 8, 2],
        go: 200_000,
        entries: &[entry("libsundr.a", "check_sundr"), entry(REFERENCE, "check_reference")],
    },
    // Of the counts that such a check gives.
    Contest {
        title: "A version structure made, 16 users",
        call: "sundr_memory_create",
        measure: Measure::Calls,
        sizes: &[16],
        rows: &[16],
        go: 4_000_000,
        entries: &[entry("libsundr.a", "create_sundr"), entry(REFERENCE, "create_reference")],
    },
    memory(
        "A structure made pending, 16 users",
        "sundr_memory_pend",
        &[entry("libsundr.a", "pend_sundr"), entry(REFERENCE, "pend_reference")],
    ),
    memory(
        "A file marked as sent, 16 users",
        "sundr_memory_sent",
        &[entry("libsundr.a", "sent_sundr"), entry(REFERENCE, "sent_reference")],
    ),
    memory(
        "A memory moved over, 16 users",
        "sundr_memory_over",
        &[entry("libsundr.a", "over_sundr"), entry(REFERENCE, "over_reference")],
    ),
    memory(
        "A memory moved back, 16 users",
        "sundr_memory_back",
        &[entry("libsundr.a", "back_sundr"), entry(REFERENCE, "back_reference")],
    ),
    Contest {
        title: "A server made, 16 users",
        call: "sundr_server_make_at",
        measure: Measure::Calls,
        sizes: &[16],
        rows: &[16],
        go: 8_000_000,
        entries: &[entry("libsundr.a", "make_sundr"), entry(REFERENCE, "make_reference")],
    },
    // A server that holds a record of each user, here and in the next.
    Contest {
        title: "A server's list, 16 users",
        call: "sundr_server_list_at",
        measure: Measure::Calls,
        sizes: &[16],
        rows: &[16],
        go: 1_000_000,
        entries: &[entry("libsundr.a", "list_sundr"), entry(REFERENCE, "list_reference")],
    },
    Contest {
        title: "A server's commit",
        call: "sundr_server_commit",
        measure: Measure::Calls,
        sizes: &[16, 8, 2],
        rows: &[16, 8, 2],
        go: 500_000,
        entries: &[entry("libsundr.a", "commit_sundr"), entry(REFERENCE, "commit_reference")],
    },
    itable("An i-table of 4,096 files", "sundr_table_write", &[273 * 642]),
    itable("A lookup along three blocks", "sundr_lookup", &[3 * 642]),
    // Of 4,096 files. A block is hashed unless it is, byte for byte, that at the same depth of the question before: of
    // the 192 blocks of 64 paths, 8 are hashed where the files are neighbours, and 129 where only the root stays.
    many("64 questions, neighbouring files", 64, &[8 * 642], &[MANY, MANY_SINGLES]),
    many("64 questions, random order", 64, &[126 * 642], &[MANY, MANY_SINGLES]),
    many("64 questions, files spread evenly", 64, &[81 * 642], &[MANY, MANY_SINGLES, MANY_HASHES]),
    many("64 questions, only the root alike", 64, &[129 * 642], &[MANY, MANY_HASHES]),
    many("One question of three blocks", 1, &[3 * 642], &[MANY, MANY_HASHES]),
    itable("A check of an inode and a block", "sundr_block_check", &[517 + 8_192]),
    // The block is the file's only one, or its seventeenth: in no other file have as many hashes to be zero.
    itable("A direct read of a large file", "sundr_large_block_check", &[549 + 8_192]),
    itable("An indirect read of a large file", "sundr_large_block_check", &[549 + 4_097 + 8_192]),
    // The reply is the wanted block; or it is not, and the cached part is, and both are hashed.
    choice("The reply chosen, 642 bytes", &[642]),
    choice("The reply chosen, 8,192 bytes", &[8_192]),
    choice("The cache chosen, 642 bytes", &[2 * 642]),
    choice("The cache chosen, 8,192 bytes", &[2 * 8_192]),
    // The block is in the last of the held places, and is accepted: each of them is hashed, and for a store the block
    // that is brought too.
    retrieval("Retrieved, 1 held of 8,192 bytes", &[8_192]),
    retrieval("Retrieved, 32 held of 8,192 bytes", &[32 * 8_192]),
    retrieval("Retrieved, 64 held of 8,192 bytes", &[64 * 8_192]),
    retrieval("Retrieved, 64 held of 100 bytes", &[64 * 100]),
    storing("Stored, 1 held of 8,192 bytes", &[2 * 8_192]),
    storing("Stored, 32 held of 8,192 bytes", &[33 * 8_192]),
    storing("Stored, 64 held of 8,192 bytes", &[65 * 8_192]),
    storing("Stored, 64 held of 100 bytes", &[65 * 100]),
    hashed(
        "Unreferenced, 64 held of 8,192 bytes",
        "sundr_unreference",
        &[64 * 8_192],
        &[entry("libsundr.a", "unreference_sundr"), HELD_HASHES],
    ),
    Contest {
        title: "A block store made",
        call: "sundr_store_make",
        measure: Measure::Bytes,
        sizes: &[526_464],
        rows: &[526_464],
        go: 1 << 30,
        entries: &[entry("libsundr.a", "store_make_sundr"), entry("memset of its bytes", "store_make_memset")],
    },
    // Nobody is beside it: there is nothing to hash.
    Contest {
        title: "Retrieved from an empty store",
        call: "sundr_retrieve",
        measure: Measure::Refused(15),
        sizes: &[0],
        rows: &[0],
        go: 20_000,
        entries: &[RETRIEVE],
    },
];

impl Contest {
    /// What is done, with the size where there are several.
    pub fn name(&self, size: usize) -> String {
        let several = self.sizes.len() > 1;
        match self.measure {
            Measure::Bytes if several => format!("{}, {} bytes", self.title, grouped(size as f64)),
            Measure::Calls if several => format!("{}, {size} users", self.title),
            _ => self.title.to_string(),
        }
    }

    pub fn unit(&self) -> Unit {
        match self.measure {
            Measure::Bytes => Unit { instructions: " a byte", digits: 1, speed: "MB/s", one: 1e6 },
            Measure::Calls | Measure::Refused(_) => {
                Unit { instructions: " a call", digits: 0, speed: "thousand calls/s", one: 1e3 }
            }
            Measure::Questions(_) => {
                Unit { instructions: " a question", digits: 0, speed: "thousand questions/s", one: 1e3 }
            }
        }
    }

    /// The number of the refusal that the call ends with, if it does.
    pub fn refused(&self) -> Option<u8> {
        match self.measure {
            Measure::Refused(number) => Some(number),
            _ => None,
        }
    }

    /// Those that were built, and that the processor can run.
    pub fn contenders(&self, built: &Path) -> Vec<Contender> {
        self.entries
            .iter()
            .filter(|entry| built.join(entry.program).exists() && (!entry.sha || is_x86_feature_detected!("sha")))
            .map(|entry| Contender::new(entry.name, built.join(entry.program), entry.features, !entry.sha))
            .collect()
    }

    /// How often the work is done at one go.
    pub fn times_a_go(&self, size: usize) -> usize {
        match self.measure {
            Measure::Bytes | Measure::Calls => self.go / size,
            Measure::Questions(questions) => self.go / questions,
            Measure::Refused(_) => self.go,
        }
    }

    /// How often the work is done under callgrind, which is slow.
    pub fn times_counted(&self, size: usize) -> usize {
        match self.measure {
            Measure::Bytes => ((256 << 10) / size).max(1),
            Measure::Calls | Measure::Refused(_) => 2_000,
            Measure::Questions(questions) => 256 / questions,
        }
    }

    /// How many bytes, calls or questions the work comes to, done so often.
    pub fn amount(&self, size: usize, times: usize) -> f64 {
        match self.measure {
            Measure::Bytes => (size * times) as f64,
            Measure::Calls | Measure::Refused(_) => times as f64,
            Measure::Questions(questions) => (questions * times) as f64,
        }
    }
}
