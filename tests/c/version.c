/*
 * What a client reads in a version structure: the header's readers against the layout, which is written here anew,
 * and against what sundr_memory_create() writes; and the position that means memory, in the check and in the making step.
 */
#include "sundr.h"

#include <string.h>

#include "bytes.h"
#include "check.h"

/* Where the counts of a version structure begin, and where those of 256 users would end. */
enum { COUNTS = 34, BEYOND = COUNTS + 4 * 256 };

/* Whether the count of one user is this, that of every other user 0, and that of users who cannot be 0 too. */
static int counts_alone(const uint8_t *version, int user, uint32_t due)
{
	int v;

	for (v = 0; v < 256; v++)
		if (sundr_count(version, (uint8_t)v) != (v == user ? due : 0))
			return 0;
	return 1;
}

/* The bytes 100, 101 and so on, no two of the 98 alike, each at its place; and no 0 after them to be read as a count. */
static void each_byte(void)
{
	uint8_t bytes[BEYOND];
	int i, holds;

	for (i = 0; i < BEYOND; i++)
		bytes[i] = (uint8_t)(i < SUNDR_VERSION_LEN ? 100 + i : 255);
	check("the owner is byte 1", sundr_owner(bytes) == 101);
	check("the i-handle is the bytes from 2 on", sundr_i_handle(bytes) == bytes + 2);
	for (i = 0, holds = 1; i < SUNDR_MAX_USERS; i++) {
		uint32_t at = 100 + COUNTS + 4 * (uint32_t)i;

		holds = sundr_count(bytes, (uint8_t)i) == ((at * 256 + at + 1) * 256 + at + 2) * 256 + at + 3 && holds;
	}
	check("the count of each user is its four bytes", holds);
	for (i = SUNDR_MAX_USERS, holds = 1; i < 256; i++)
		holds = sundr_count(bytes, (uint8_t)i) == 0 && holds;
	check("users 16 to 255 count none, whatever follows", holds);
}

/* Each byte of the counts by itself, the owner's greatest and least, and each count at its greatest. */
static void edges(void)
{
	static const uint32_t weight[] = {16777216, 65536, 256, 1};
	uint8_t version[SUNDR_VERSION_LEN] = {0};
	int i, single = 1, greatest = 1;

	check("a structure of zeros counts none", sundr_owner(version) == 0 && counts_alone(version, 0, 0));
	for (i = 0; i < 4 * SUNDR_MAX_USERS; i++) {
		version[COUNTS + i] = 1;
		single = counts_alone(version, i / 4, weight[i % 4]) && single;
		version[COUNTS + i] = 255;
		single = counts_alone(version, i / 4, 255 * weight[i % 4]) && single;
		version[COUNTS + i] = 0;
	}
	check("a byte of a count, 1 or 255, is one user's, by its place", single);
	for (i = 0; i < SUNDR_MAX_USERS; i++) {
		put(version + COUNTS + 4 * i, UINT32_MAX);
		greatest = counts_alone(version, i, 4294967295) && greatest;
		put(version + COUNTS + 4 * i, 0);
	}
	check("each user's count at its greatest, alone", greatest);
	memset(version, 255, sizeof version);
	for (i = 0; i < SUNDR_MAX_USERS; i++)
		greatest = sundr_count(version, (uint8_t)i) == 4294967295 && greatest;
	check("all bytes 255", sundr_owner(version) == 255 && greatest && sundr_count(version, SUNDR_MAX_USERS) == 0);
}

/* A list of sixteen users: the record of each counts one operation of each user up to its owner. */
static void chain(uint8_t *list)
{
	int v, w;

	memset(list, 0, SUNDR_MAX_USERS * SUNDR_VERSION_LEN);
	for (v = 0; v < SUNDR_MAX_USERS; v++, list += SUNDR_VERSION_LEN) {
		list[0] = 1;
		list[1] = (uint8_t)v;
		memset(list + 2, 0xa0 + v, SUNDR_HANDLE_LEN);
		for (w = 0; w <= v; w++)
			put(list + COUNTS + 4 * w, 1);
	}
}

static uint8_t list[SUNDR_MAX_USERS * SUNDR_VERSION_LEN], marks[SUNDR_MAX_USERS], handle[SUNDR_HANDLE_LEN];

/* A memory file with this structure, as sent. It is judged by nobody. */
static void remember(uint8_t *file, const uint8_t *version)
{
	file[0] = 7;
	file[1] = SUNDR_STATE_SENT;
	memcpy(file + 2, version, SUNDR_VERSION_LEN);
}

/* A check of the whole chain, by the user of this number, who has this file. */
static uint64_t ask(int user, const uint8_t *file, uint32_t *counts)
{
	uint8_t again[SUNDR_VERSION_LEN];

	return sundr_memory_check(SUNDR_MAX_USERS, (uint8_t)user, file, SUNDR_MEMORY_LEN, list, sizeof list,
		marks, sizeof marks, counts, SUNDR_MAX_USERS, again, sizeof again);
}

/* The user's making step. */
static uint64_t make(int user, const uint8_t *file, const uint32_t *counts, uint8_t *out)
{
	return sundr_memory_create(SUNDR_MAX_USERS, (uint8_t)user, file, SUNDR_MEMORY_LEN, counts, SUNDR_MAX_USERS,
		handle, sizeof handle, out, SUNDR_VERSION_LEN);
}

/* Whether a user's next structure, after the chain, is read as it is due, and counts what the check gave. */
static int reads_next(int user)
{
	uint32_t counts[SUNDR_MAX_USERS], made[SUNDR_MAX_USERS];
	uint8_t file[SUNDR_MEMORY_LEN], out[SUNDR_VERSION_LEN];
	int v, holds;

	remember(file, list + SUNDR_VERSION_LEN * user);
	if (ask(user, file, counts) != SUNDR_ACCEPTED || make(user, file, counts, out) != SUNDR_ACCEPTED)
		return 0;
	sundr_counts(out, made);
	holds = sundr_owner(out) == user && memcmp(sundr_i_handle(out), handle, sizeof handle) == 0
		&& memcmp(made, counts, sizeof made) == 0;
	for (v = 0; v < SUNDR_MAX_USERS; v++)
		holds = sundr_count(out, (uint8_t)v) == (v == user ? 2 : 1) && holds;
	return holds;
}

static void answers(void)
{
	int i, holds = 1;

	chain(list);
	memset(marks, 1, sizeof marks);
	for (i = 0; i < SUNDR_HANDLE_LEN; i++)
		handle[i] = (uint8_t)(200 + i);
	for (i = 0; i < SUNDR_MAX_USERS; i++)
		holds = reads_next(i) && holds;
	check("the next structure of each of 16 users: its owner, its i-handle, its counts", holds);
}

/* Whether memory with one byte altered is what both calls refuse, at the position that means memory. */
static int refuses_memory(int at, uint8_t byte)
{
	uint8_t file[SUNDR_MEMORY_LEN], out[SUNDR_VERSION_LEN];
	uint32_t counts[SUNDR_MAX_USERS] = {0};
	uint64_t answer;

	remember(file, list);
	file[2 + at] = byte;
	answer = ask(0, file, counts);
	return sundr_refusal(answer) == SUNDR_MALFORMED && sundr_first(answer) == SUNDR_MEMORY_POSITION
		&& sundr_second(answer) == 0 && make(0, file, counts, out) == answer;
}

/* Needs the chain. The last record of the longest list has the greatest position that means a record. */
static void positions(void)
{
	uint8_t *last = list + (SUNDR_MAX_USERS - 1) * SUNDR_VERSION_LEN;
	uint8_t file[SUNDR_MEMORY_LEN];
	uint32_t counts[SUNDR_MAX_USERS];
	uint64_t answer;

	check("memory of another kind", refuses_memory(0, 2));
	check("memory of another user's", refuses_memory(1, 1));
	check("memory that counts no own operation", refuses_memory(COUNTS + 3, 0));
	remember(file, list);
	last[0] = 2;
	answer = ask(0, file, counts);
	check("the last of sixteen records has the position before memory's", sundr_refusal(answer) == SUNDR_MALFORMED
		&& sundr_first(answer) + 1 == SUNDR_MEMORY_POSITION && sundr_second(answer) == 0);
	last[0] = 1;
}

int main(void)
{
	each_byte();
	edges();
	answers();
	positions();
	return finish();
}
