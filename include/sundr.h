/*
 * sundr.h: the calls of the SUNDR client library, libsundr.a. For C99 and later, and C++.
 *
 * No call allocates, keeps anything between calls, or reads or writes anything but what is
 * lent to it. All memory belongs to the caller, before and after. Calls may run in several
 * threads at once, on memory that they do not share. The archive is for x86-64 Linux, and
 * needs memcpy() and memset() of whatever it is linked with.
 *
 * Lent memory. Each buffer is passed as a pointer, then the number of its elements. The
 * pointer may be NULL where that number is 0; otherwise all the elements must be there. A
 * pointer without a number, to a struct, to the bytes of a version structure or to its sixteen
 * counts, points to all of it, and is never NULL. Where there are elements, it is aligned for
 * them, which matters for i-numbers (uint64_t) and for counts of operations (uint32_t) alone. A
 * buffer that a call writes (a pointer to non-const) must not overlap another of its buffers.
 * There is no other duty: whatever the bytes, the numbers and the lengths are, each call ends,
 * with the answer that its comment gives.
 *
 * Answers. Each call answers one number of 64 bits:
 *
 *     bits  0 to  7   0 if the call accepted, else the number of the refusal (1 to 17); 255 is
 *                     neither: "send again", which sundr_memory_check() alone answers
 *     bits  8 to 31   accepted: the first result;   refused: the first position
 *     bits 32 to 63   accepted: the second result;  refused: the second position
 *
 * A result or a position that a call's comment does not name is 0; at "send again" both are. A
 * call that refuses has not altered one lent byte, and one that answers "send again" none but
 * those of the buffer that it has for that.
 *
 * Stack. The bytes that a call takes, with what it takes to call it, as make bench measured them
 * (x86-64, accepted, with the most users, questions or held places; what is refused was not seen to
 * take more) when the library was built by an older kit. Every call is tested on a stack of 4,096
 * bytes. They are measured, not proved, so leave some to spare: a memcpy() that is bound at its
 * first call, say, takes more once (3,432 bytes were seen).
 *
 *     sundr_sha256             560        sundr_table_write      1,328
 *     sundr_compare              8        sundr_lookup             880
 *     sundr_memory_check     2,244        sundr_lookup_many      1,216
 *     sundr_memory_create      104        sundr_block_check        672
 *     sundr_memory_pend         88        sundr_large_block_check  720
 *     sundr_memory_sent         88        sundr_block_choose       656
 *     sundr_memory_over        184        sundr_store_make          24
 *     sundr_memory_back        104        sundr_store              800
 *     sundr_server_make_at      24        sundr_retrieve           736
 *     sundr_server_list_at   1,800        sundr_unreference        720
 *     sundr_server_commit      612
 */
#ifndef SUNDR_H
#define SUNDR_H

#include <stddef.h>
#include <stdint.h>

#ifdef __cplusplus
extern "C" {
#endif

/* The version of the library that this header belongs to. */
#define SUNDR_VERSION "0.13.0"
#define SUNDR_VERSION_MAJOR 0
#define SUNDR_VERSION_MINOR 13
#define SUNDR_VERSION_PATCH 0

/* The numbers in bits 0 to 7 of an answer. */
enum sundr_refusal_number {
	SUNDR_ACCEPTED = 0,
	SUNDR_USERS = 1,           /* the number of users is not 1 to 16, or there is no such user */
	SUNDR_LENGTH = 2,          /* a length is not the stated one */
	SUNDR_MALFORMED = 3,       /* a record, owners' order, memory file, count, block, inode or place is malformed */
	SUNDR_UNSIGNED = 4,        /* a signature mark is not 1 */
	SUNDR_NOT_CURRENT = 5,     /* the own version is not the current one */
	SUNDR_LAST_VERSION = 6,    /* the own version number is the last there is */
	SUNDR_UNORDERED = 7,       /* two version structures are not ordered */
	SUNDR_WRONG_HASH = 8,      /* a hash is not the expected one */
	SUNDR_PATH_LENGTH = 9,     /* a path is too short or too long */
	SUNDR_NO_BLOCK = 10,       /* the file has no such block */
	SUNDR_NOT_ASCENDING = 11,  /* an i-number is not above the one before */
	SUNDR_NO_ROOM = 12,        /* a buffer is shorter than what is to be written */
	SUNDR_NO_PLACE = 13,       /* no place of the store is free, and one is needed */
	SUNDR_LAST_REFERENCE = 14, /* the user's count of the block is the last there is */
	SUNDR_NOT_HELD = 15,       /* no place of the store holds the hash */
	SUNDR_NOT_NEXT = 16,       /* the counts are not those of the user's next version */
	SUNDR_PENDING = 17,        /* a memory file is pending, and does not move back */

	/* Neither a refusal nor an acceptance: the pending version is to be sent again, and no list is accepted. */
	SUNDR_SEND_AGAIN = 255
};

/* The refusal in an answer, SUNDR_ACCEPTED if there is none; or SUNDR_SEND_AGAIN, which is none either. */
static inline enum sundr_refusal_number sundr_refusal(uint64_t answer)
{
	return (enum sundr_refusal_number)(answer & 0xff);
}

/* The first result or position in an answer. */
static inline uint32_t sundr_first(uint64_t answer)
{
	return (uint32_t)(answer >> 8) & 0xffffff;
}

/* The second result or position in an answer. */
static inline uint32_t sundr_second(uint64_t answer)
{
	return (uint32_t)(answer >> 32);
}

/*
 * A sentence for a refusal's number, to be shown to the user of a client, and for SUNDR_SEND_AGAIN.
 * A server that refuses a commit reads 5 and 7 as sundr_server_commit() has them.
 */
static inline const char *sundr_refusal_text(unsigned number)
{
	switch (number) {
	case SUNDR_ACCEPTED:
		return "accepted";
	case SUNDR_USERS:
		return "there is no such user: users are numbered from 0, and there are 1 to 16";
	case SUNDR_LENGTH:
		return "a length is not the one that is due: cut off, or too long";
	case SUNDR_MALFORMED:
		return "a record, the order of records, a memory file, a count, a block, an inode or a place is malformed";
	case SUNDR_UNSIGNED:
		return "a record's signature is not good";
	case SUNDR_NOT_CURRENT:
		return "the server's list does not continue your last version: rolled back, or your record is hidden";
	case SUNDR_LAST_VERSION:
		return "your version number is the last there is: this user can make no further version";
	case SUNDR_UNORDERED:
		return "two versions are not ordered: forked, or a record is hidden";
	case SUNDR_WRONG_HASH:
		return "a hash is not the expected one: these are not the bytes that were signed";
	case SUNDR_PATH_LENGTH:
		return "the path through the table has too few blocks, or too many";
	case SUNDR_NO_BLOCK:
		return "the file has no block of this index";
	case SUNDR_NOT_ASCENDING:
		return "the i-numbers do not ascend";
	case SUNDR_NO_ROOM:
		return "the buffer is too short for what is to be written";
	case SUNDR_NO_PLACE:
		return "the store is full: it does not hold this block, and has no free place for it";
	case SUNDR_LAST_REFERENCE:
		return "this user's count of the block is the last there is: it can be stored no further time";
	case SUNDR_NOT_HELD:
		return "the store holds no block of this hash";
	case SUNDR_NOT_NEXT:
		return "these counts are not your next version's: used before, or of no accepted check";
	case SUNDR_PENDING:
		return "your last version is pending: it may not have reached the server, and does not move back";
	case SUNDR_SEND_AGAIN:
		return "the list does not show your last version: send the same bytes again";
	default:
		return "not a refusal of this version of the library";
	}
}

/* The longest message that sundr_sha256() takes, and the length of a hash. */
#define SUNDR_SHA256_MAX_MESSAGE 65536
#define SUNDR_SHA256_LEN 32

/*
 * sundr_sha256: the SHA-256 of FIPS 180-4.
 *
 * Reads message[0..message_len). Accepted: the hash of the message is in out[0..32), and
 * both results are 0.
 *
 * Refused, with out as it was:
 *   SUNDR_LENGTH   message_len is above 65,536, or out_len is not 32.
 */
uint64_t sundr_sha256(const uint8_t *message, size_t message_len,
	uint8_t *out, size_t out_len);

/* The most users there can be, the bytes of a version structure, and the bytes of an i-handle. */
#define SUNDR_MAX_USERS 16
#define SUNDR_VERSION_LEN 98
#define SUNDR_HANDLE_LEN 32

/*
 * A version structure, 98 bytes: the byte 1; its owner, a byte; an i-handle, 32 bytes; then, for
 * each user from 0 to 15, how many operations of that user it counts, 4 bytes, big-endian. A
 * version structure list (VSL) is such records end to end.
 *
 * What a version structure says is worth something once a check has accepted it: read the records
 * of a list after sundr_memory_check() accepted the list, and not before, unless it is to tell, by
 * sundr_compare(), why the list was refused.
 */

/* The user whose version structure this is. */
static inline uint8_t sundr_owner(const uint8_t *version)
{
	return version[1];
}

/* The i-handle in a version structure: SUNDR_HANDLE_LEN bytes, where they lie. */
static inline const uint8_t *sundr_i_handle(const uint8_t *version)
{
	return version + 2;
}

/*
 * How many operations of a user a version structure counts; none of a user that cannot be.
 *
 * One number tells whether y has all that x has. Where honest users signed x and y, two users or one,
 * whichever came first, x is at or before y exactly if
 *
 *     sundr_count(y, sundr_owner(x)) >= sundr_count(x, sundr_owner(x))
 *
 * So "did you have my change?" is this one comparison, and takes no sundr_compare(). Signed is what
 * was written as pending, sent or not, and was made of counts that an earlier check gave the same
 * client. Both are of one history, with one number of users, from each user's first file (of none) on,
 * in which no honest user's signature is forged. It need not hold where one of the two owners lies, nor
 * of a record whose signature was not checked, listed or not: such a record may claim any counts.
 *
 * Whoever lies, no record of a list that sundr_memory_check() accepts counts more operations of the
 * client's user than what the client's file remembers does, 0 where that is nothing.
 */
static inline uint32_t sundr_count(const uint8_t *version, uint8_t user)
{
	const uint8_t *at = version + 34;

	if (user >= SUNDR_MAX_USERS)
		return 0;
	at += 4 * user;
	return (uint32_t)at[0] << 24 | (uint32_t)at[1] << 16 | (uint32_t)at[2] << 8 | at[3];
}

/* The sixteen counts of a version structure, as sundr_compare() reads them. */
static inline void sundr_counts(const uint8_t *version, uint32_t counts[SUNDR_MAX_USERS])
{
	uint8_t user;

	for (user = 0; user < SUNDR_MAX_USERS; user++)
		counts[user] = sundr_count(version, user);
}

/* How sixteen counts x stand to sixteen counts y. */
enum sundr_standing {
	SUNDR_EQUAL = 0,  /* each count of x is that of y */
	SUNDR_BEFORE = 1, /* each is at most that of y, and some is less: x is older */
	SUNDR_AFTER = 2,  /* each is at least that of y, and some is more: x is newer */
	SUNDR_APART = 3   /* some is less than that of y, and some is more: forked */
};

/*
 * sundr_compare: how sixteen counts stand to sixteen others, so that a user who sees that one
 * version structure is not at or before another can be told whether the other is older, or forked.
 *
 * Reads x[0..16) and y[0..16), each whole and aligned for uint32_t; they may be the same array.
 * Any counts are taken, and all sixteen are compared, whatever the number of users is. A version
 * structure has its counts from byte 34 of its 98 on, big-endian: sundr_counts() gets them. What
 * is said of records that a check refused is worth as much as their signatures.
 *
 * Accepted: the first result is how x stands to y, an enum sundr_standing, and the second is 0.
 * Nothing is refused.
 */
uint64_t sundr_compare(const uint32_t x[SUNDR_MAX_USERS], const uint32_t y[SUNDR_MAX_USERS]);

/*
 * The bytes of a memory file; its states; and the first position of a refusal that means memory: no
 * record of the list has it, and no count.
 */
#define SUNDR_MEMORY_LEN 100
#define SUNDR_STATE_SENT 0
#define SUNDR_STATE_PENDING 1
#define SUNDR_STATE_NONE 2
#define SUNDR_MEMORY_POSITION 16

/*
 * A memory file, 100 bytes: the version structure that a client made last, and whether the server
 * has it. The client has it on its disk, and lends its bytes to the six calls below:
 *
 *     byte  0         7
 *     byte  1         the state:
 *                         SUNDR_STATE_SENT      the server has accepted the structure
 *                         SUNDR_STATE_PENDING   it may have left the client, or not
 *                         SUNDR_STATE_NONE      there is none yet
 *     bytes 2 to 99   the structure, 98 bytes; all 0 in state none
 *
 * It is a user's file if its first byte is 7, and either the state is none and all behind it is 0, or
 * the state is sent or pending and the structure is well formed and of that user. What a file
 * remembers is the structure, in state none nothing. A client's first file is what sundr_memory_over()
 * writes of no bytes.
 *
 * A turn: get the server's list and check it (sundr_memory_check()); make the next structure
 * (sundr_memory_create()); write the file of it (sundr_memory_pend()), onto the disk; sign the
 * structure, and send it; and once the server has accepted it, mark the file (sundr_memory_sent()).
 *
 * What the caller owes. A client that is cut off at any moment, by a power failure say, never signs
 * two different structures of one count, as long as it keeps to this:
 *
 *   - What was made is written as pending (sundr_memory_pend(), and onto the disk) before any other of
 *     these calls, and before anything of it leaves the client, its signature too. The making step had
 *     the file as it stands on the disk, and not a copy from earlier. What was made and did not come to
 *     be written is thrown away: nobody signs it.
 *   - The file is marked as sent only after the server's answer: that it accepted the commit, or a list
 *     that has the structure and that the check accepted. It is the file as it stands that is marked,
 *     read again from the disk: an older copy would bring back an older structure.
 *   - The file is replaced whole, so that it is always the old one or the new one: write a new file
 *     beside it, fsync() it, rename() it to the file's name, and fsync() the folder. A new file that
 *     was left behind by a cut is never read.
 *   - A client that starts fsync()s the folder of its file before it sends anything. It may have been
 *     killed between the rename() and the fsync() of the folder: then it finds the new file, and a power
 *     failure after the sending could still bring the old one back.
 *   - One desk, one file, one process at a time. No second desk of this user has it, and none of its
 *     backups is put back.
 *
 * Send again. A client that was cut off does not know whether its structure reached the server. It
 * starts over, with a check. If the list has the structure, all is as if it were marked as sent. If
 * the list has what came before it by the user's own count, the answer is SUNDR_SEND_AGAIN, and gives
 * the structure: send these bytes, with the signature that was made of them if it was kept, or with
 * another one of these very bytes. Nothing else is to be done: the list is not accepted, nothing in it
 * is to be believed, and nothing new is made of it. Then get a new list, and check that.
 *
 * The limit. Where another user's commit came between the cut and the sending, the pending structure
 * does not count it, and an honest server refuses these bytes for ever (sundr_server_commit():
 * SUNDR_UNORDERED). The client may make nothing else of that count, so this desk stays out: each check
 * answers SUNDR_SEND_AGAIN. A server that keeps its lock from the listing until the commit, or until
 * the client is back, leaves no such gap.
 */

/*
 * sundr_memory_check: a client's check of the server's version structure list, and the counts of its
 * next version structure. It tells what a list is worth before anything is made, or signed.
 *
 * Reads the number of users, the client's own user, its memory file, the list, and a mark for each of
 * the list's records (1 if the caller found the record's signature good). There are three answers:
 * accepted, send again, and refused.
 *
 * Accepted: the sixteen counts are in counts[0..16), as numbers of the machine and not as bytes, again
 * is as it was, and both results are 0. Of each other user the next structure counts the own count of
 * that user's record in the list, 0 where there is none; and of the client's own user one more than
 * what the file remembers does, or 1 where that is nothing.
 *
 * Send again: the answer is SUNDR_SEND_AGAIN, the pending structure is in again[0..98), and counts are
 * as they were. No list is accepted by it. What is to be done, and what not, stands above.
 *
 * Nothing else is written, nothing is made, and nothing is kept: a check can be made any number of
 * times, and the file stays what it is. What it says is of this list and of this moment: the server's
 * next list may have what these counts do not count.
 *
 * Refused, with counts and again as they were; tried in this order, each over all records before the
 * next:
 *   SUNDR_USERS         users is not 1 to 16, or user is not below users.
 *   SUNDR_LENGTH        file_len is not 100, list_len is not a multiple of 98 or is above
 *                       98 * users, marks_len is not list_len / 98, counts_len is not 16, or
 *                       again_len is not 98.
 *   SUNDR_MALFORMED     first SUNDR_MEMORY_POSITION: the file is not this user's; else first is the
 *                       first record that is not well formed, or whose owner is not above the owner
 *                       before.
 *   SUNDR_UNSIGNED      first: the first mark that is not 1.
 *   SUNDR_SEND_AGAIN    no refusal: the file is pending, the list's record for the user and the
 *                       structure in the file differ, and the record counts one operation of the user
 *                       less; or the list has none, and the structure counts one.
 *   SUNDR_NOT_CURRENT   the list's record for the user and what the file remembers differ in a byte,
 *                       or only one of them is there.
 *   SUNDR_LAST_VERSION  the file remembers 4,294,967,295 operations of the user.
 *   SUNDR_UNORDERED     first, second: the least pair of records of which neither is at or
 *                       before the other; where second is the number of records, it means the
 *                       next structure, by its counts, and the first is not strictly before it.
 *
 * What stands in counts where a list is not accepted, perhaps of an earlier check, is not of this list:
 * make nothing of it. How two version structures stand to each other, older, newer or forked,
 * sundr_compare() tells.
 */
uint64_t sundr_memory_check(uint8_t users, uint8_t user,
	const uint8_t *file, size_t file_len,
	const uint8_t *list, size_t list_len,
	const uint8_t *marks, size_t marks_len,
	uint32_t *counts, size_t counts_len,
	uint8_t *again, size_t again_len);

/*
 * sundr_memory_create: a client's next version structure, from the counts that a check gave.
 *
 * Reads the number of users, the client's own user, its memory file as it stands on the disk, the
 * sixteen counts, and the new i-handle. Accepted: the structure of that user, that i-handle and those
 * counts is in out[0..98), and both results are 0. Sent and pending are the same to it.
 *
 * It judges no list and no order, and does not know whose counts these are: those of other users
 * are written as they are given, also where they are lower than the file's. To give it the counts of
 * a check that accepted, at the same client, is the caller's: that no client accepts a list which
 * joins two sides of a fork rests on this.
 *
 * To write the structure as pending, at once, and then to sign it is the caller's too. A client that
 * sent a structure and forgot it is refused from then on, or signs a second one of the same count,
 * which forks its own history.
 *
 * Counts go stale. Where another user has committed since the list was taken, an honest server
 * refuses what is made of them (sundr_server_commit(): SUNDR_UNORDERED). Its client remembers it
 * all the same, and is locked out: no list of an honest server will have it, and each check of one
 * answers SUNDR_SEND_AGAIN from then on. So check again right before a structure is made and
 * signed, or, to leave no gap, hold the server's lock from the listing to the commit.
 *
 * Refused, with out as it was; tried in this order:
 *   SUNDR_USERS         users is not 1 to 16, or user is not below users.
 *   SUNDR_LENGTH        file_len is not 100, counts_len is not 16, handle_len is not 32, or out_len
 *                       is not 98.
 *   SUNDR_MALFORMED     first SUNDR_MEMORY_POSITION: the file is not this user's; else first 0,
 *                       whichever count it is: a count of a user from users to 15 is not 0.
 *   SUNDR_LAST_VERSION  the file remembers 4,294,967,295 operations of the user.
 *   SUNDR_NOT_NEXT      the count of the user is not one more than what the file remembers, or not 1
 *                       where that is nothing: the counts were used before, say, or are of no accepted
 *                       check.
 */
uint64_t sundr_memory_create(uint8_t users, uint8_t user,
	const uint8_t *file, size_t file_len,
	const uint32_t *counts, size_t counts_len,
	const uint8_t *handle, size_t handle_len,
	uint8_t *out, size_t out_len);

/*
 * sundr_memory_pend: the file of a structure that was just made, in state pending.
 *
 * Reads the number of users, the client's own user, and the structure version[0..98). Accepted: the
 * file is in file[0..100), and both results are 0. What sundr_memory_create() accepted is never
 * refused, with room for the file.
 *
 * It does not know the file before: to give it nothing but what was made of that, and to write the new
 * file in the old one's place before anything else, is the caller's.
 *
 * Refused, with file as it was; tried in this order:
 *   SUNDR_USERS       users is not 1 to 16, or user is not below users.
 *   SUNDR_LENGTH      version_len is not 98, or file_len is not 100.
 *   SUNDR_MALFORMED   first SUNDR_MEMORY_POSITION: the structure is not well formed, or not of this
 *                     user.
 */
uint64_t sundr_memory_pend(uint8_t users, uint8_t user,
	const uint8_t *version, size_t version_len,
	uint8_t *file, size_t file_len);

/*
 * sundr_memory_sent: marks a pending file as sent, once the server has accepted its structure.
 *
 * Reads the number of users, the client's own user, and the file. Accepted, if it is pending: its
 * second byte is SUNDR_STATE_SENT, and no other is changed. Accepted, if it is sent or none: the file
 * is as it was, so that it does no harm to mark it twice. Both results are 0. The caller writes the
 * file in the old one's place.
 *
 * Refused, with file as it was; tried in this order:
 *   SUNDR_USERS       users is not 1 to 16, or user is not below users.
 *   SUNDR_LENGTH      file_len is not 100.
 *   SUNDR_MALFORMED   first SUNDR_MEMORY_POSITION: the file is not this user's.
 */
uint64_t sundr_memory_sent(uint8_t users, uint8_t user, uint8_t *file, size_t file_len);

/*
 * sundr_memory_over: the file of what a client remembered before there were files, which moves over:
 * its last structure, 98 bytes, or none; also a client's first file.
 *
 * The structure moves over as sent, for 98 bytes do not say whether the server has it. If it never
 * reached the server, a list without it is SUNDR_NOT_CURRENT, as it was before there were files, and
 * never SUNDR_SEND_AGAIN: so see to it that the server has it before it is moved over.
 *
 * Reads the number of users, the client's own user, and the structure old[0..old_len). Accepted: the
 * file is in file[0..100), in state sent, or none where old_len is 0, and both results are 0.
 *
 * Refused, with file as it was; tried in this order:
 *   SUNDR_USERS       users is not 1 to 16, or user is not below users.
 *   SUNDR_LENGTH      old_len is not 0 or 98, or file_len is not 100.
 *   SUNDR_MALFORMED   first SUNDR_MEMORY_POSITION: the structure is not well formed, or not of this
 *                     user.
 */
uint64_t sundr_memory_over(uint8_t users, uint8_t user,
	const uint8_t *old, size_t old_len,
	uint8_t *file, size_t file_len);

/*
 * sundr_memory_back: what sundr_memory_over() moved over, moved back. Neither way loses anything.
 *
 * Reads the number of users, the client's own user, and the file. Accepted: the first result is 98,
 * and the structure is in old[0..98); or it is 0, the state is none, and old is as it was. The second
 * result is 0. Room for 98 bytes is needed either way.
 *
 * Refused, with old as it was; tried in this order:
 *   SUNDR_USERS       users is not 1 to 16, or user is not below users.
 *   SUNDR_LENGTH      file_len is not 100, or old_len is not 98.
 *   SUNDR_MALFORMED   first SUNDR_MEMORY_POSITION: the file is not this user's.
 *   SUNDR_PENDING     the file is pending: 98 bytes could not say so.
 */
uint64_t sundr_memory_back(uint8_t users, uint8_t user,
	const uint8_t *file, size_t file_len,
	uint8_t *old, size_t old_len);

/*
 * A server's version structure list. Slot v, the 98 bytes from records[98 * v] on, holds the last
 * record of user v, and holds none if it counts no operation of v. Any bytes may be lent as a
 * server: there is nothing else in it, and no call trusts what it finds there.
 */
struct sundr_server {
	uint8_t users;
	uint8_t records[SUNDR_MAX_USERS * SUNDR_VERSION_LEN];
};

/* The bytes of a struct sundr_server; a compiler that pads it refuses the typedef. */
#define SUNDR_SERVER_LEN 1569
typedef char sundr_server_is_not_padded[sizeof(struct sundr_server) == SUNDR_SERVER_LEN ? 1 : -1];

/*
 * sundr_server_make_at: an empty list, in server[0..1569), for this many users.
 *
 * Accepted: the first byte is users, the others are 0, and both results are 0.
 *
 * Refused, with server as it was; tried in this order:
 *   SUNDR_LENGTH   server_len is not 1,569.
 *   SUNDR_USERS    users is not 1 to 16.
 */
uint64_t sundr_server_make_at(uint8_t users, uint8_t *server, size_t server_len);

/*
 * sundr_server_list_at: the records that the server in server[0..1569) holds, as a list.
 *
 * Accepted: the first result is their number n, they are in out[0..98 * n), in the order of the
 * users whose slots they are in, and the bytes of out after them are as they were. The second
 * result is 0. For a server that was made and committed to, owners ascend.
 *
 * Refused, with out as it was; tried in this order:
 *   SUNDR_LENGTH    server_len is not 1,569.
 *   SUNDR_NO_ROOM   out_len is below 98 * n.
 */
uint64_t sundr_server_list_at(const uint8_t *server, size_t server_len,
	uint8_t *out, size_t out_len);

/*
 * sundr_server_commit: takes a client's new record into the server's list.
 *
 * Reads the record, and its mark (1 if the caller found its signature good). Accepted: the
 * record is in its owner's slot, whose 98 bytes are all that is written, and both results are 0.
 *
 * Refused, with *server as it was, no byte of it being written; tried in this order:
 *   SUNDR_LENGTH        record_len is not 98.
 *   SUNDR_MALFORMED     the record is not well formed for server->users users.
 *   SUNDR_UNSIGNED      mark is not 1.
 *   SUNDR_NOT_CURRENT   its count for its owner is not one more than the held record's, or
 *                       than 0 where none is held.
 *   SUNDR_UNORDERED     first: the lowest user whose held record is not strictly before this
 *                       one, or, for another user than the owner, of whose operations this one
 *                       does not count as many as the held record does, 0 where none is held.
 */
uint64_t sundr_server_commit(struct sundr_server *server,
	const uint8_t *record, size_t record_len, uint8_t mark);

/* sundr_server_make_at() for a struct. */
static inline uint64_t sundr_server_make(uint8_t users, struct sundr_server *server)
{
	return sundr_server_make_at(users, (uint8_t *)server, sizeof *server);
}

/* sundr_server_list_at() for a struct. */
static inline uint64_t sundr_server_list(const struct sundr_server *server, uint8_t *out, size_t out_len)
{
	return sundr_server_list_at((const uint8_t *)server, sizeof *server, out, out_len);
}

/* The most files of an i-table, the bytes of one of its blocks, and the most blocks of an i-table and of a path. */
#define SUNDR_TABLE_MAX_FILES 4096
#define SUNDR_TABLE_BLOCK_LEN 642
#define SUNDR_TABLE_MAX_BLOCKS 273
#define SUNDR_PATH_MAX_BLOCKS 3

/*
 * A block of an i-table, 642 bytes: its kind, a byte (3 a leaf, 4 above leaves, 5 above blocks of
 * kind 4); the number of its used slots, a byte; then sixteen slots of 40 bytes, the unused ones
 * zero. A leaf's slot is an i-number, 8 bytes, big-endian, and the file handle, 32 bytes; another
 * block's is a child's lowest i-number and the child's SHA-256. The SHA-256 of the root is the
 * i-handle.
 */

/*
 * sundr_table_write: the blocks of an i-table.
 *
 * Reads the i-numbers numbers[0..count), strictly ascending, and a file handle of 32 bytes for
 * each. Accepted: the first result is the number n of blocks, which are in out[0..642 * n):
 * leaves first, the root last; the bytes of out after them are as they were. The second result
 * is 0. The i-handle is the SHA-256 of the root, which is for the caller to take.
 *
 * Which blocks make a path, for sundr_lookup(). Of count files there are L = (count + 15) / 16
 * leaves, blocks 0 to L - 1 (one where count is 0); if L is above 1, then F = (L + 15) / 16 blocks
 * of kind 4, L to L + F - 1; if F is above 1, then the root, L + F. File j, whose i-number is
 * numbers[j], is in leaf j / 16, below block L + j / 256. So its path, root first, is
 *
 *     0                              where L is 1
 *     L, j / 16                      where F is 1
 *     L + F, L + j / 256, j / 16     otherwise.
 *
 * To show that an i-number is not there, take for j the last file whose number is below it; where
 * there is none, the root alone is the path.
 *
 * Refused, with out as it was; tried in this order:
 *   SUNDR_LENGTH          count is above 4,096, or handles_len is not 32 * count.
 *   SUNDR_NOT_ASCENDING   first: the first i-number that is not above the one before.
 *   SUNDR_NO_ROOM         out_len is below 642 * n.
 */
uint64_t sundr_table_write(const uint64_t *numbers, size_t count,
	const uint8_t *handles, size_t handles_len,
	uint8_t *out, size_t out_len);

/*
 * sundr_lookup: a file's handle, along a path of an i-table's blocks.
 *
 * Reads the i-handle, the file's i-number, and the path: one to three blocks end to end, the root
 * first, each next one the child that the i-number leads to. Accepted: the first result is 1, and
 * the file's handle is in out[0..32); or it is 0, the path shows no such file, and out is as it
 * was. The second result is 0. Whatever i-number the leaf of an accepted path holds, the same path
 * gives its handle. In a table that sundr_table_write() made, a path that shows no such file says that
 * there is none; in one made otherwise, a leaf to which the file's number does not lead may hold it,
 * and then no path to that leaf is accepted.
 *
 * Refused, with out as it was; SUNDR_LENGTH is tried first, then each block in its turn, its hash
 * before anything else in it, as far as the i-number leads:
 *   SUNDR_LENGTH        handle_len or out_len is not 32, or path_len is not 642, 1,284 or 1,926.
 *   SUNDR_WRONG_HASH    first: the block whose hash is not the i-handle, or not the one that its
 *                       parent gives.
 *   SUNDR_MALFORMED     first: the block that is not well formed, is not of the kind due there,
 *                       does not start with the i-number that its parent gives, or has one that is
 *                       not below those of the used slots after the ones that led there, in its
 *                       parent and further up.
 *   SUNDR_PATH_LENGTH   first: the number of blocks that were read, one more being needed, or
 *                       others being left over.
 */
uint64_t sundr_lookup(const uint8_t *handle, size_t handle_len, uint64_t number,
	const uint8_t *path, size_t path_len,
	uint8_t *out, size_t out_len);

/* The most questions of a sundr_lookup_many(), and the bytes of the answer to each. */
#define SUNDR_MANY_MAX_QUESTIONS 64
#define SUNDR_ENTRY_LEN 33

/*
 * sundr_lookup_many: the handles of up to 64 files of one i-table, each along a path of its own:
 * the answers of as many calls of sundr_lookup(), or none if one of these would be refused.
 *
 * Reads the i-handle; for each question q, from 0, its i-number numbers[q] and the number of blocks
 * of its path, counts[q]; and the paths end to end, in the order of the questions, each with the
 * root first. Questions may come in any order, and twice. Accepted: the answer to each question q
 * is in the 33 bytes from out[33 * q] on: the byte 1 and the file's handle, or all 0 where the path
 * shows no such file. Both results are 0. A handle may be all 0 too; the byte before it tells, and
 * sundr_found() reads it. No questions, with no paths and no room for answers, are accepted.
 *
 * A block that is, byte for byte, the last one read at its place in a path (root, second, third) in
 * this call is not hashed again: it is best to ask one after the other what has blocks in common.
 * Each question is judged as if it were asked alone.
 *
 * Refused, with out as it was: nothing is written before the last question is judged. First tried,
 * for the whole call:
 *   SUNDR_LENGTH        handle_len is not 32, numbers_len is not counts_len or is above 64,
 *                       paths_len is not 642 times the sum of the counts, or out_len is not
 *                       33 * numbers_len.
 * Then the questions in their order. The first that sundr_lookup() would refuse refuses the call;
 * first: the question; second: what is first there, a place in the question's own path:
 *   SUNDR_LENGTH        the question's count is 0 or above 3; at question 0 both positions are 0,
 *                       as for the whole call.
 *   SUNDR_WRONG_HASH    second: the block.
 *   SUNDR_MALFORMED     second: the block.
 *   SUNDR_PATH_LENGTH   second: the number of blocks that were read.
 */
uint64_t sundr_lookup_many(const uint8_t *handle, size_t handle_len,
	const uint64_t *numbers, size_t numbers_len,
	const uint8_t *counts, size_t counts_len,
	const uint8_t *paths, size_t paths_len,
	uint8_t *out, size_t out_len);

/*
 * The file handle that sundr_lookup_many() found for a question, SUNDR_HANDLE_LEN bytes where they
 * lie in its out; NULL if there is no such file. The call was accepted, and had that question.
 */
static inline const uint8_t *sundr_found(const uint8_t *out, size_t question)
{
	const uint8_t *entry = out + SUNDR_ENTRY_LEN * question;

	return entry[0] == 1 ? entry + 1 : NULL;
}

/* The bytes of an inode, the longest file, and the bytes of each of its blocks but the last. */
#define SUNDR_INODE_LEN 517
#define SUNDR_FILE_MAX_LEN 131072
#define SUNDR_FILE_BLOCK_LEN 8192

/*
 * An inode, 517 bytes: the byte 6; the length of the file, 4 bytes, big-endian; then the SHA-256 of
 * each of its blocks of 8,192 bytes, of which the last holds the rest, and zeros up to the
 * sixteenth. The SHA-256 of the inode is the file handle.
 */

/*
 * sundr_block_check: whether a block is the one of that index, from 0, of a file.
 *
 * Reads the file handle, the file's inode, the index, and the block. Accepted: the first result is
 * the block's offset in the file, 8,192 * index, and the second is block_len.
 *
 * Refused; tried in this order:
 *   SUNDR_LENGTH       handle_len is not 32, or inode_len is not 517.
 *   SUNDR_WRONG_HASH   the hash of the inode is not the file handle.
 *   SUNDR_MALFORMED    the inode is not well formed.
 *   SUNDR_NO_BLOCK     index is not below the file's number of blocks.
 *   SUNDR_LENGTH       first 1: block_len is not the length of that block.
 *   SUNDR_WRONG_HASH   first 1: the hash of the block is not the inode's.
 */
uint64_t sundr_block_check(const uint8_t *handle, size_t handle_len,
	const uint8_t *inode, size_t inode_len, uint32_t index,
	const uint8_t *block, size_t block_len);

/*
 * The bytes of a large file's inode and of its indirect block, the longest large file, and how many
 * of its blocks the inode itself names.
 */
#define SUNDR_LARGE_INODE_LEN 549
#define SUNDR_INDIRECT_LEN 4097
#define SUNDR_LARGE_FILE_MAX_LEN 1179648
#define SUNDR_DIRECT_BLOCKS 16

/*
 * An inode of a large file, 549 bytes: the byte 11; the length of the file, 4 bytes, big-endian; the
 * SHA-256 of each of its first sixteen blocks of 8,192 bytes, of which the file's last holds the
 * rest, and zeros up to the sixteenth; then, from byte 517 on, the SHA-256 of its indirect block, or
 * 32 zeros where sixteen blocks suffice, and only there. The SHA-256 of the inode is the file
 * handle. A file of up to 131,072 bytes may have an inode of this kind or of the other; each has a
 * call of its own, which refuses the other.
 *
 * An indirect block, 4,097 bytes: the byte 12; then the SHA-256 of each block of the file from the
 * seventeenth on, that is of block 16 + j at byte 1 + 32 * j, and zeros up to the 128th.
 */

/*
 * sundr_large_block_check: whether a block is the one of that index, from 0, of a large file.
 *
 * Reads the file handle, the file's inode, the index, the indirect block, and the block. Where index
 * is below 16 the inode names the block, and no indirect block is given, also where the file has
 * one; from 16 on it is given whole. Accepted: the first result is the block's offset in the file,
 * 8,192 * index, and the second is block_len.
 *
 * Refused; tried in this order:
 *   SUNDR_LENGTH       handle_len is not 32, or inode_len is not 549.
 *   SUNDR_WRONG_HASH   the hash of the inode is not the file handle.
 *   SUNDR_MALFORMED    the inode is not well formed.
 *   SUNDR_NO_BLOCK     index is not below the file's number of blocks.
 *   SUNDR_LENGTH       first 2: indirect_len is not 0 for an index below 16, or is not 4,097 for any
 *                      other.
 *   SUNDR_WRONG_HASH   first 2: the hash of the indirect block is not the inode's.
 *   SUNDR_MALFORMED    first 2: the indirect block is not well formed, for a file of this length.
 *   SUNDR_LENGTH       first 1: block_len is not the length of that block.
 *   SUNDR_WRONG_HASH   first 1: the hash of the block is not the one that the inode or the indirect
 *                      block has for it.
 */
uint64_t sundr_large_block_check(const uint8_t *handle, size_t handle_len,
	const uint8_t *inode, size_t inode_len, uint32_t index,
	const uint8_t *indirect, size_t indirect_len,
	const uint8_t *block, size_t block_len);

/* The longest part that sundr_block_choose() takes. */
#define SUNDR_PART_MAX_LEN 65536

/*
 * sundr_block_choose: which of two parts is the block of a wanted hash, the server's reply or what
 * the caller has cached. A block is whatever a hash names: a block of an i-table, an inode, an
 * indirect block, a block of a file.
 *
 * Reads the wanted hash, the reply and the cached part. An empty part means that it is not there,
 * also where the hash of no bytes is wanted. Accepted: the first result is 0, and the reply is the
 * block; or it is 1, the reply is not, and the cached part is. The second result is the length of
 * that part, never 0. The reply is hashed first, and the cached part only where the reply is not
 * the block.
 *
 * Nothing is copied: the block is where the caller has it, as sundr_chosen() says, and is the block
 * for as long as the caller leaves these bytes as they are. One of 642 bytes is to sundr_lookup() a
 * path of one block, which under the wanted hash it never refuses with SUNDR_WRONG_HASH, nor, given
 * 32 bytes for its result, with SUNDR_LENGTH.
 *
 * Refused; tried in this order:
 *   SUNDR_LENGTH       wanted_len is not 32, or reply_len or cached_len is above 65,536.
 *   SUNDR_WRONG_HASH   neither part is the block.
 */
uint64_t sundr_block_choose(const uint8_t *wanted, size_t wanted_len,
	const uint8_t *reply, size_t reply_len,
	const uint8_t *cached, size_t cached_len);

/*
 * Where the block lies that sundr_block_choose() chose. answer is the call's, accepted or refused,
 * and reply and cached are the pointers that it was given, one of which this is: the bytes are the
 * caller's, as before. After a refusal it is reply, NULL if that was given, and none of its bytes
 * is meant: sundr_chosen_len() is then 0.
 */
static inline const uint8_t *sundr_chosen(uint64_t answer,
	const uint8_t *reply, const uint8_t *cached)
{
	return sundr_first(answer) == 0 ? reply : cached;
}

/* The length of the block that sundr_block_choose() chose, 0 after a refusal. */
static inline size_t sundr_chosen_len(uint64_t answer)
{
	return sundr_second(answer);
}

/* The bytes of a block store, its places, the bytes of each, and the longest block that one takes. */
#define SUNDR_STORE_LEN 526464
#define SUNDR_STORE_PLACES 64
#define SUNDR_PLACE_LEN 8226
#define SUNDR_BLOCK_MAX_LEN 8192

/*
 * A block store, 526,464 bytes: what a server keeps of its users' blocks, whatever these are, and
 * for whom. It is 64 places end to end. Place p is the 8,226 bytes from store[8226 * p] on:
 *
 *     bytes  0 and 1                  the length of its block
 *     bytes  2 + 2 * v and 3 + 2 * v  the count of user v, 0 to 15: how often that user has stored
 *                                     the block, and not unreferenced it
 *     bytes 34 to 8,225               the block, from byte 34 on; what is after it belongs to none
 *
 * Length and counts are big-endian. A place whose sixteen counts are all zero is free: it holds
 * nothing, whatever its length and its bytes are, and keeps these until a block takes it. Any other
 * place holds its block, be it that of no bytes, under the block's SHA-256. Held means by hash: where
 * a hash is held, the bytes that are held stay. The lowest place that holds a hash is meant in every
 * call; a higher one that holds it too is left alone.
 *
 * Any bytes may be lent as a store: a call goes by its places alone, and trusts nothing that it finds
 * there. sundr_store_make() does not look at them; the other three calls refuse a place whose length
 * is above 8,192, which no call writes, a free one too. Who the user is, the caller has to know:
 * users are authenticated elsewhere, or one could unreference what another has stored. The sum of all
 * counts is the number of accepted calls of sundr_store(), less those of sundr_unreference() that
 * took one, since the store was made, if each call gets what the last one left.
 */

/*
 * sundr_store_make: an empty store, in store[0..526464).
 *
 * Accepted: all its bytes are 0, so that each place is free, and both results are 0.
 *
 * Refused, with store as it was:
 *   SUNDR_LENGTH   store_len is not 526,464.
 */
uint64_t sundr_store_make(uint8_t *store, size_t store_len);

/*
 * sundr_store: stores a block for a user. A block that is held already is counted once more, and
 * takes no second place.
 *
 * Reads the block, of 0 to 8,192 bytes; that of no bytes can be stored too. Accepted, where a place
 * holds the block's hash: the user's count in the lowest one is one more, and nothing else in the
 * store is changed. Accepted, where none does: the lowest free place has the block's length, the
 * block from byte 34 on, and 1 as the user's count; all other bytes are as they were, those after
 * the block too. Both results are 0.
 *
 * Refused, with store as it was; tried in this order:
 *   SUNDR_USERS            user is above 15.
 *   SUNDR_LENGTH           store_len is not 526,464, or block_len is above 8,192.
 *   SUNDR_MALFORMED        first: the lowest place whose length is above 8,192, free or not.
 *   SUNDR_NO_PLACE         no place holds the block's hash, and none is free.
 *   SUNDR_LAST_REFERENCE   the user's count is 65,535 in the lowest place that holds the hash.
 */
uint64_t sundr_store(uint8_t *store, size_t store_len, uint8_t user,
	const uint8_t *block, size_t block_len);

/*
 * sundr_retrieve: the block of a hash, whoever stored it, and whoever asks.
 *
 * Reads the store and the hash. Accepted: the first result is the length n of the block in the
 * lowest place that holds the hash, the block is in out[0..n), and the bytes of out after it are as
 * they were. The second result is 0. The SHA-256 of out[0..n) is the hash. Room for 8,192 bytes is
 * always enough.
 *
 * Refused, with out as it was; tried in this order:
 *   SUNDR_LENGTH      store_len is not 526,464, or hash_len is not 32.
 *   SUNDR_MALFORMED   first: the lowest place whose length is above 8,192, free or not.
 *   SUNDR_NOT_HELD    no place holds the hash.
 *   SUNDR_NO_ROOM     out_len is below n.
 */
uint64_t sundr_retrieve(const uint8_t *store, size_t store_len,
	const uint8_t *hash, size_t hash_len,
	uint8_t *out, size_t out_len);

/*
 * sundr_unreference: takes one from a user's count of a block. With the last one of all users' the
 * place is free, and its room is given back.
 *
 * Reads the hash of the block. Accepted: the first result is 1, the user's count in the lowest place
 * that holds the hash is one less, and nothing else in the store is changed, also where the place is
 * free by that; or it is 0, that count was zero, and the store is as it was, also where a higher
 * place holds the hash with another count of the user. The second result is 0.
 *
 * Refused, with store as it was; tried in this order:
 *   SUNDR_USERS       user is above 15.
 *   SUNDR_LENGTH      store_len is not 526,464, or hash_len is not 32.
 *   SUNDR_MALFORMED   first: the lowest place whose length is above 8,192, free or not.
 *   SUNDR_NOT_HELD    no place holds the hash.
 */
uint64_t sundr_unreference(uint8_t *store, size_t store_len, uint8_t user,
	const uint8_t *hash, size_t hash_len);

#ifdef __cplusplus
}
#endif

#endif
