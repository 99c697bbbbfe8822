/*
 * A client whose memory is a file: it checks the list that the server sent, and makes its next
 * version structure, to be signed and sent; and once the server has accepted that, it is told so.
 *
 *     client USERS USER MEMORY LIST HANDLE NEXT
 *     client USERS USER MEMORY sent
 *
 *     MEMORY   the memory file, 100 bytes; no such file before the first operation. One of 98 bytes
 *              is of a client before 0.12.0, the structure alone, and moves over
 *     LIST     the server's list: for each record a mark, then its 98 bytes
 *     HANDLE   32 bytes, the i-handle of the tree as it is to be
 *     NEXT     written: 98 bytes, the structure to be signed and sent
 *
 * A mark is 1 if the record's signature is good. It is the client's own finding: a real client
 * verifies each signature that comes with the list, and never takes a mark from the server.
 *
 * One process at a time: two that start from the same memory would fork their own user.
 *
 * Status 0: accepted. 1: refused, and MEMORY and NEXT are as they were. 3: the last structure did
 * not reach the server; NEXT has it, to be sent again, and MEMORY is as it was. 2: usage, or a file
 * that cannot be read or written; MEMORY is as it was, or has what is due. So after a run that was
 * cut off run it again, with a new list: what MEMORY has comes to be sent, and nothing else.
 */
#define _POSIX_C_SOURCE 200809L
#include <errno.h>
#include <fcntl.h>
#include <libgen.h>
#include <stdio.h>
#include <stdlib.h>
#include <string.h>
#include <sys/stat.h>
#include <unistd.h>

#include "sundr.h"

enum { ENTRY_LEN = 1 + SUNDR_VERSION_LEN, NAME_LEN = 4096 };

static void fail(const char *what)
{
	perror(what);
	exit(2);
}

/* A number of users, or a user. Which of them there can be is the library's to say. */
static uint8_t number(const char *text)
{
	char *end;
	long value = strtol(text, &end, 10);

	if (end == text || *end != '\0' || value < 0 || value > UINT8_MAX) {
		fprintf(stderr, "%s: not a number from 0 to 255\n", text);
		exit(2);
	}
	return (uint8_t)value;
}

/* Reads a file, and no more than size bytes of it; answers how many. */
static size_t load(const char *path, uint8_t *out, size_t size)
{
	FILE *file = fopen(path, "rb");
	size_t len;

	if (file == NULL)
		fail(path);
	len = fread(out, 1, size, file);
	if (ferror(file))
		fail(path);
	fclose(file);
	return len;
}

/* The name of the new file beside a file. */
static void name_new(const char *path, char *name)
{
	if (snprintf(name, NAME_LEN, "%s.new", path) >= NAME_LEN) {
		errno = ENAMETOOLONG;
		fail(path);
	}
}

/* Waits until the disk has a file's folder, which holds its name. */
static void sync_folder(const char *path)
{
	char name[NAME_LEN];
	int folder;

	name_new(path, name);
	folder = open(dirname(name), O_RDONLY);
	if (folder < 0 || fsync(folder) != 0 || close(folder) != 0)
		fail(path);
}

/*
 * Reads the memory: no bytes where there is no file. An empty file is no such thing, but a memory lost.
 * A link, or a file of two names, would be replaced under this name alone, and stay old under the other.
 *
 * Its folder is synced before anything is sent: a run before may have been killed after it renamed the
 * file and before the disk had the name. A power cut would then bring back the older file.
 */
static size_t load_memory(const char *path, uint8_t *out, size_t size)
{
	struct stat status;
	size_t len;

	/* The new file beside NEXT could be MEMORY, and would be moved away. */
	if (strlen(path) >= 4 && strcmp(path + strlen(path) - 4, ".new") == 0) {
		fprintf(stderr, "%s: no name for a memory: new files have it\n", path);
		exit(2);
	}
	if (lstat(path, &status) != 0) {
		if (errno != ENOENT)
			fail(path);
		return 0;
	}
	if (!S_ISREG(status.st_mode) || status.st_nlink != 1 || status.st_size == 0) {
		fprintf(stderr, "%s: a memory is a file of one name, and never empty\n", path);
		exit(2);
	}
	len = load(path, out, size);
	sync_folder(path);
	return len;
}

/* Writes a file's next content into the new file beside it, and waits until the disk has it. */
static void write_new(const char *path, const uint8_t *bytes, size_t len)
{
	char name[NAME_LEN];
	FILE *file;

	name_new(path, name);
	file = fopen(name, "wb");
	if (file == NULL || fwrite(bytes, 1, len, file) != len || fflush(file) != 0 ||
	    fsync(fileno(file)) != 0 || fclose(file) != 0)
		fail(name);
}

/*
 * Puts the new file in a file's place, whole: whenever the machine stops, the old content is there
 * or the new. That the new one stays is sure once the disk has the folder.
 */
static void put_in_place(const char *path)
{
	char name[NAME_LEN];

	name_new(path, name);
	if (rename(name, path) != 0)
		fail(path);
	sync_folder(path);
}

/* Prints a refusal as a sentence, and what its positions mean. */
static void tell_refusal(uint64_t answer, size_t records, const uint8_t *memory)
{
	enum sundr_refusal_number refusal = sundr_refusal(answer);
	uint32_t first = sundr_first(answer), second = sundr_second(answer);

	printf("refused, %d: %s", refusal, sundr_refusal_text(refusal));
	if (refusal == SUNDR_MALFORMED && first == SUNDR_MEMORY_POSITION)
		printf(" (your memory)");
	else if (refusal == SUNDR_MALFORMED || refusal == SUNDR_UNSIGNED)
		printf(" (record %u of the list)", first);
	else if (refusal == SUNDR_NOT_CURRENT && memory[1] == SUNDR_STATE_NONE)
		printf(" (you remember none)");
	else if (refusal == SUNDR_UNORDERED && second == records)
		printf(" (record %u of the list, and your next version)", first);
	else if (refusal == SUNDR_UNORDERED)
		printf(" (records %u and %u of the list)", first, second);
	putchar('\n');
}

static void tell_counts(const char *what, uint8_t users, const uint8_t *version)
{
	uint8_t i;

	printf("%s, counts", what);
	for (i = 0; i < users; i++)
		printf(" %u", sundr_count(version, i));
	putchar('\n');
}

/* Marks the memory as sent: it is the file as it stands on disk, and the server has accepted what it has. */
static uint64_t mark(uint8_t users, uint8_t user, const char *path, uint8_t *memory, size_t memory_len)
{
	uint64_t answer = sundr_memory_sent(users, user, memory, memory_len);

	if (sundr_refusal(answer) != SUNDR_ACCEPTED) {
		tell_refusal(answer, 0, memory);
	} else {
		write_new(path, memory, memory_len);
		put_in_place(path);
		puts("sent");
	}
	return answer;
}

/* A turn, up to the structure that is to be signed and sent. */
static uint64_t turn(uint8_t users, uint8_t user, char **paths, const uint8_t *memory, size_t memory_len)
{
	/* A byte more than there can be, so that a longer file is seen to be longer, and refused. */
	uint8_t handle[SUNDR_HANDLE_LEN + 1], entries[SUNDR_MAX_USERS * ENTRY_LEN + 1];
	uint8_t list[sizeof entries], marks[sizeof entries], next[SUNDR_VERSION_LEN], pending[SUNDR_MEMORY_LEN];
	uint32_t counts[SUNDR_MAX_USERS];
	size_t entries_len = load(paths[1], entries, sizeof entries);
	size_t handle_len = load(paths[2], handle, sizeof handle), list_len = 0, marks_len = 0, i;
	uint64_t answer;

	for (i = 0; i < entries_len; i++)
		if (i % ENTRY_LEN == 0)
			marks[marks_len++] = entries[i];
		else
			list[list_len++] = entries[i];

	answer = sundr_memory_check(users, user, memory, memory_len, list, list_len, marks, marks_len,
		counts, SUNDR_MAX_USERS, next, sizeof next);
	if (sundr_refusal(answer) == SUNDR_SEND_AGAIN) {
		/*
		 * Cut off before the server had it. These are the same bytes: they may have been signed, and
		 * may be on their way. Nothing is made, and MEMORY stays as it is.
		 */
		write_new(paths[3], next, sizeof next);
		put_in_place(paths[3]);
		tell_counts("send again", users, next);
		return answer;
	}
	/*
	 * Here a client whose key is a card asks for the touch, for it knows now what the list is worth.
	 * The counts are those of this list. So the server keeps its lock from the listing to the commit;
	 * or, once the card is there, the list is got and checked again. The making step judges no list:
	 * from counts that another user's operation has overtaken it makes a structure all the same. The
	 * server refuses that (7), and the client, which remembers it, is told to send it again for ever.
	 *
	 * This client makes it at once, from the memory that was checked. So nothing is left to refuse but
	 * an i-handle of another length (2). Counts that were used before would be refused too (16). What
	 * was made is always taken as pending.
	 */
	if (sundr_refusal(answer) == SUNDR_ACCEPTED)
		answer = sundr_memory_create(users, user, memory, memory_len, counts, SUNDR_MAX_USERS,
			handle, handle_len, next, sizeof next);
	if (sundr_refusal(answer) == SUNDR_ACCEPTED)
		answer = sundr_memory_pend(users, user, next, sizeof next, pending, sizeof pending);
	if (sundr_refusal(answer) != SUNDR_ACCEPTED) {
		tell_refusal(answer, marks_len, memory);
		return answer;
	}
	/*
	 * On disk before it is signed and sent, so MEMORY comes first: whoever signs NEXT, it is
	 * remembered. Stopped before MEMORY is in place, nothing was made: NEXT is the old one. Stopped
	 * after it, MEMORY has the bytes, pending, and the next check says "send again".
	 */
	write_new(paths[0], pending, sizeof pending);
	write_new(paths[3], next, sizeof next);
	put_in_place(paths[0]);
	put_in_place(paths[3]);
	tell_counts("accepted", users, next);
	return answer;
}

int main(int argc, char **argv)
{
	/* A byte more than there can be. */
	uint8_t memory[SUNDR_MEMORY_LEN + 1], old[SUNDR_VERSION_LEN];
	size_t memory_len;
	uint8_t users, user;
	uint64_t answer = SUNDR_ACCEPTED;

	if (argc != 7 && (argc != 5 || strcmp(argv[4], "sent") != 0)) {
		fprintf(stderr, "usage: client USERS USER MEMORY LIST HANDLE NEXT\n"
			"       client USERS USER MEMORY sent\n");
		return 2;
	}
	users = number(argv[1]);
	user = number(argv[2]);
	memory_len = load_memory(argv[3], memory, sizeof memory);
	if (argc == 5 && memory_len == 0) {
		fprintf(stderr, "%s: there is no memory, and nothing was sent\n", argv[3]);
		return 2;
	}
	/* No memory yet, or one of before there were memory files. MEMORY itself is as it was, for now. */
	if (memory_len == 0 || memory_len == sizeof old) {
		memcpy(old, memory, memory_len);
		answer = sundr_memory_over(users, user, old, memory_len, memory, SUNDR_MEMORY_LEN);
		memory_len = SUNDR_MEMORY_LEN;
	}
	if (sundr_refusal(answer) != SUNDR_ACCEPTED)
		tell_refusal(answer, 0, memory);
	else if (argc == 5)
		answer = mark(users, user, argv[3], memory, memory_len);
	else
		answer = turn(users, user, argv + 3, memory, memory_len);
	if (fflush(stdout) != 0)
		fail("standard output");
	return sundr_refusal(answer) == SUNDR_ACCEPTED ? 0 : sundr_refusal(answer) == SUNDR_SEND_AGAIN ? 3 : 1;
}
