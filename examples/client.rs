//! A client whose memory is a file, as client.c is, from Rust: the same command line, the same files, the same output
//! and the same status. See there for what the files hold and what is left to a real client.
//!
//!     client USERS USER MEMORY LIST HANDLE NEXT
//!     client USERS USER MEMORY sent

use std::env;
use std::ffi::{OsStr, OsString};
use std::fs::{self, File};
use std::io::{self, ErrorKind, Write};
use std::os::unix::fs::MetadataExt;
use std::path::Path;
use std::process::ExitCode;

const VERSION_LEN: usize = 98;
const MEMORY_LEN: usize = 100;
const MAX_USERS: usize = 16;
const MEMORY_POSITION: u32 = 16;
const STATE_NONE: u8 = 2;
const SEND_AGAIN: u8 = 255;

const USAGE: &str = "usage: client USERS USER MEMORY LIST HANDLE NEXT\n       client USERS USER MEMORY sent";

type Version = [u8; VERSION_LEN];
type Memory = [u8; MEMORY_LEN];

extern "C" {
    fn sundr_memory_check(
        users: u8,
        user: u8,
        file: *const u8,
        file_len: usize,
        list: *const u8,
        list_len: usize,
        marks: *const u8,
        marks_len: usize,
        counts: *mut u32,
        counts_len: usize,
        again: *mut u8,
        again_len: usize,
    ) -> u64;

    fn sundr_memory_create(
        users: u8,
        user: u8,
        file: *const u8,
        file_len: usize,
        counts: *const u32,
        counts_len: usize,
        handle: *const u8,
        handle_len: usize,
        out: *mut u8,
        out_len: usize,
    ) -> u64;

    fn sundr_memory_pend(
        users: u8,
        user: u8,
        version: *const u8,
        version_len: usize,
        file: *mut u8,
        file_len: usize,
    ) -> u64;

    fn sundr_memory_sent(users: u8, user: u8, file: *mut u8, file_len: usize) -> u64;

    fn sundr_memory_over(users: u8, user: u8, old: *const u8, old_len: usize, file: *mut u8, file_len: usize) -> u64;
}

struct Refusal {
    number: u8,
    first: u32,
    second: u32,
}

/// What was written, if the answer is that the call accepted.
fn accepted<T>(answer: u64, written: T) -> Result<T, Refusal> {
    match answer as u8 {
        0 => Ok(written),
        number => Err(Refusal { number, first: (answer >> 8) as u32 & 0xff_ffff, second: (answer >> 32) as u32 }),
    }
}

/// What a check says of a list that it does not refuse. The first alone accepts it.
enum Verdict {
    Next([u32; MAX_USERS]),
    Again(Version),
}

/// The check of a server's list: the counts of the client's next version structure, or the one to be sent again.
fn check(users: u8, user: u8, file: &[u8], list: &[u8], marks: &[u8]) -> Result<Verdict, Refusal> {
    let (mut counts, mut again) = ([0; MAX_USERS], [0; VERSION_LEN]);
    // SAFETY: the header asks that each buffer's elements are all there, aligned, and that those that are written
    // overlap no other. Each pointer comes with the length of its own slice, and `counts` and `again` are borrowed by
    // nobody else. The call keeps no pointer, and takes whatever the bytes and the lengths are.
    let answer = unsafe {
        sundr_memory_check(
            users,
            user,
            file.as_ptr(),
            file.len(),
            list.as_ptr(),
            list.len(),
            marks.as_ptr(),
            marks.len(),
            counts.as_mut_ptr(),
            counts.len(),
            again.as_mut_ptr(),
            again.len(),
        )
    };
    if answer as u8 == SEND_AGAIN {
        return Ok(Verdict::Again(again));
    }
    accepted(answer, Verdict::Next(counts))
}

/// The client's next version structure, from the counts that a check gave.
fn create(users: u8, user: u8, file: &[u8], counts: &[u32; MAX_USERS], handle: &[u8]) -> Result<Version, Refusal> {
    let mut next = [0; VERSION_LEN];
    // SAFETY: as in check. It is `next` that is written.
    let answer = unsafe {
        sundr_memory_create(
            users,
            user,
            file.as_ptr(),
            file.len(),
            counts.as_ptr(),
            counts.len(),
            handle.as_ptr(),
            handle.len(),
            next.as_mut_ptr(),
            next.len(),
        )
    };
    accepted(answer, next)
}

/// The memory file of a structure that was just made.
fn pend(users: u8, user: u8, version: &Version) -> Result<Memory, Refusal> {
    let mut file = [0; MEMORY_LEN];
    // SAFETY: as in check. It is `file` that is written.
    let answer =
        unsafe { sundr_memory_pend(users, user, version.as_ptr(), version.len(), file.as_mut_ptr(), file.len()) };
    accepted(answer, file)
}

/// The memory file, marked as sent.
fn sent(users: u8, user: u8, mut file: Vec<u8>) -> Result<Vec<u8>, Refusal> {
    // SAFETY: as in check. It is `file` that is written, and it is this function's own.
    let answer = unsafe { sundr_memory_sent(users, user, file.as_mut_ptr(), file.len()) };
    accepted(answer, file)
}

/// The memory file of what a client remembered before there were files, one structure or none.
fn over(users: u8, user: u8, old: &[u8]) -> Result<Memory, Refusal> {
    let mut file = [0; MEMORY_LEN];
    // SAFETY: as in check. It is `file` that is written.
    let answer = unsafe { sundr_memory_over(users, user, old.as_ptr(), old.len(), file.as_mut_ptr(), file.len()) };
    accepted(answer, file)
}

impl Refusal {
    /// The header's sentence for it, `sundr_refusal_text`, which only C can call; these calls give no others.
    fn text(&self) -> &'static str {
        match self.number {
            1 => "there is no such user: users are numbered from 0, and there are 1 to 16",
            2 => "a length is not the one that is due: cut off, or too long",
            3 => "a record, the order of records, a memory file, a count, a block, an inode or a place is malformed",
            4 => "a record's signature is not good",
            5 => "the server's list does not continue your last version: rolled back, or your record is hidden",
            6 => "your version number is the last there is: this user can make no further version",
            7 => "two versions are not ordered: forked, or a record is hidden",
            16 => "these counts are not your next version's: used before, or of no accepted check",
            _ => "not a refusal of this version of the library",
        }
    }

    /// What its positions mean, in a list of that many records; and which of two 5 is.
    fn place(&self, records: usize, none: bool) -> String {
        let Refusal { number, first, second } = *self;
        match number {
            3 if first == MEMORY_POSITION => " (your memory)".to_string(),
            3 | 4 => format!(" (record {first} of the list)"),
            5 if none => " (you remember none)".to_string(),
            7 if second as usize == records => format!(" (record {first} of the list, and your next version)"),
            7 => format!(" (records {first} and {second} of the list)"),
            _ => String::new(),
        }
    }
}

/// How many operations of a user a version structure counts.
fn count(version: &Version, user: u8) -> u32 {
    let at = 34 + 4 * user as usize;
    u32::from_be_bytes(version[at..at + 4].try_into().unwrap())
}

/// Waits until the disk has a file's folder, which holds its name.
fn sync_folder(path: &OsStr) -> io::Result<()> {
    let folder = Path::new(path).parent().filter(|folder| *folder != Path::new("")).unwrap_or(Path::new("."));
    File::open(folder)?.sync_all()
}

/// The memory: no bytes where there is no file. What else it may not be, and why its folder is synced, client.c says.
fn load_memory(path: &OsStr) -> io::Result<Vec<u8>> {
    if path.as_encoded_bytes().ends_with(b".new") {
        return Err(io::Error::other("no name for a memory: new files have it"));
    }
    match fs::symlink_metadata(path) {
        Err(error) if error.kind() == ErrorKind::NotFound => Ok(Vec::new()),
        Err(error) => Err(error),
        Ok(status) if status.is_file() && status.nlink() == 1 && status.len() > 0 => {
            let memory = fs::read(path)?;
            sync_folder(path)?;
            Ok(memory)
        }
        Ok(_) => Err(io::Error::other("a memory is a file of one name, and never empty")),
    }
}

/// The name of the new file beside a file.
fn name_new(path: &OsStr) -> OsString {
    let mut name = path.to_owned();
    name.push(".new");
    name
}

/// Writes a file's next content into the new file beside it, and waits until the disk has it.
fn write_new(path: &OsStr, bytes: &[u8]) -> io::Result<()> {
    let mut file = File::create(name_new(path))?;
    file.write_all(bytes)?;
    file.sync_all()
}

/// Puts the new file in a file's place, whole, and waits until the disk has the folder.
fn put_in_place(path: &OsStr) -> io::Result<()> {
    fs::rename(name_new(path), path)?;
    sync_folder(path)
}

/// An error, with what it happened to.
fn at(what: impl AsRef<OsStr>) -> impl FnOnce(io::Error) -> String {
    let what = what.as_ref().display().to_string();
    move |error| format!("{what}: {error}")
}

/// A number of users, or a user. Which of them there can be is the library's to say.
fn number(text: &OsStr) -> Result<u8, String> {
    let parsed = text.to_str().and_then(|text| text.parse().ok());
    parsed.ok_or(format!("{}: not a number from 0 to 255", text.display()))
}

/// How a run ends that came to an answer: its status, and the line that it prints.
struct End {
    status: u8,
    line: String,
}

impl End {
    fn refused(refusal: Refusal, records: usize, none: bool) -> End {
        let line = format!("refused, {}: {}{}", refusal.number, refusal.text(), refusal.place(records, none));
        End { status: 1, line }
    }

    fn counts(status: u8, what: &str, users: u8, version: &Version) -> End {
        let counts: Vec<String> = (0..users).map(|user| count(version, user).to_string()).collect();
        End { status, line: format!("{what}, counts {}", counts.join(" ")) }
    }
}

/// Marks the memory as sent: it is the file as it stands on disk, and the server has accepted what it has.
fn mark(users: u8, user: u8, path: &OsStr, memory: Vec<u8>) -> Result<End, String> {
    let memory = match sent(users, user, memory) {
        Err(refusal) => return Ok(End::refused(refusal, 0, false)),
        Ok(memory) => memory,
    };
    write_new(path, &memory).map_err(at(path))?;
    put_in_place(path).map_err(at(path))?;
    Ok(End { status: 0, line: "sent".to_string() })
}

/// A turn, up to the structure that is to be signed and sent.
fn turn(users: u8, user: u8, paths: [&OsStr; 4], memory: &[u8]) -> Result<End, String> {
    let [memory_path, list, handle, next_path] = paths;
    let entries = fs::read(list).map_err(at(list))?;
    let handle = fs::read(handle).map_err(at(handle))?;
    let (mut marks, mut list) = (Vec::new(), Vec::new());
    for entry in entries.chunks(1 + VERSION_LEN) {
        marks.push(entry[0]);
        list.extend_from_slice(&entry[1..]);
    }

    let refused = |refusal| Ok(End::refused(refusal, marks.len(), memory.get(1) == Some(&STATE_NONE)));
    let counts = match check(users, user, memory, &list, &marks) {
        Err(refusal) => return refused(refusal),
        Ok(Verdict::Again(again)) => {
            // The same bytes, and nothing else: client.c says why.
            write_new(next_path, &again).map_err(at(next_path))?;
            put_in_place(next_path).map_err(at(next_path))?;
            return Ok(End::counts(3, "send again", users, &again));
        }
        Ok(Verdict::Next(counts)) => counts,
    };
    // Here a card is touched, if the key is one: client.c says what that takes.
    let made = create(users, user, memory, &counts, &handle)
        .and_then(|next| pend(users, user, &next).map(|pending| (next, pending)));
    let (next, pending) = match made {
        Err(refusal) => return refused(refusal),
        Ok(made) => made,
    };
    // On disk before it is signed and sent: client.c says why in this order.
    write_new(memory_path, &pending).map_err(at(memory_path))?;
    write_new(next_path, &next).map_err(at(next_path))?;
    put_in_place(memory_path).map_err(at(memory_path))?;
    put_in_place(next_path).map_err(at(next_path))?;
    Ok(End::counts(0, "accepted", users, &next))
}

/// What the arguments ask for; or, as text, why nobody could say.
fn run(args: &[OsString]) -> Result<u8, String> {
    let (users, user, path, others) = match args {
        [users, user, memory, sent] if sent == "sent" => (users, user, memory, None),
        [users, user, memory, list, handle, next] => (users, user, memory, Some([list, handle, next])),
        _ => return Err(USAGE.to_string()),
    };
    let (users, user) = (number(users)?, number(user)?);
    let mut memory = load_memory(path).map_err(at(path))?;
    if others.is_none() && memory.is_empty() {
        return Err(format!("{}: there is no memory, and nothing was sent", path.display()));
    }
    // No memory yet, or one of before there were memory files. MEMORY itself is as it was, for now.
    let mut moved = Ok(());
    if memory.is_empty() || memory.len() == VERSION_LEN {
        moved = over(users, user, &memory).map(|file| memory = file.to_vec());
    }
    let end = match (moved, others) {
        (Err(refusal), _) => End::refused(refusal, 0, false),
        (Ok(()), None) => mark(users, user, path, memory)?,
        (Ok(()), Some([list, handle, next])) => turn(users, user, [path, list, handle, next], &memory)?,
    };
    writeln!(io::stdout(), "{}", end.line).map_err(at("standard output"))?;
    Ok(end.status)
}

fn main() -> ExitCode {
    let args: Vec<OsString> = env::args_os().skip(1).collect();
    match run(&args) {
        Ok(status) => ExitCode::from(status),
        Err(why) => {
            // There is nobody else to tell if this fails.
            drop(writeln!(io::stderr(), "{why}"));
            ExitCode::from(2)
        }
    }
}
