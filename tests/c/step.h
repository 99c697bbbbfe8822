/* The making step of create.c: what it is given, and whether it makes what is due, or refuses and writes nothing. */
#ifndef STEP_H
#define STEP_H

#include <string.h>

#include "bytes.h"
#include "sundr.h"

/* Where a memory file has its structure, and the structure's counts. */
enum { VERSION = 2, COUNTS = VERSION + 34 };

/* What the making step is given. Each buffer has one element more than is taken. */
struct step {
	uint8_t users, user, file[101], handle[33];
	uint32_t counts[17];
	size_t file_len, counts_len, handle_len, out_len;
};

/* The structure's bytes with room around them, so that a byte written outside is seen. */
struct room {
	uint8_t before[32], out[99], after[32];
};

/* Room in memory that can be read and not written. */
static const uint8_t locked[99];

static uint64_t make_into(const struct step *s, uint8_t *out)
{
	return sundr_memory_create(s->users, s->user, s->file, s->file_len, s->counts, s->counts_len,
		s->handle, s->handle_len, out, s->out_len);
}

/* The user's memory of so many own operations, and no others, as sent. Its i-handle is not that of the step. */
static void set_memory(struct step *s, uint32_t own)
{
	memset(s->file, 0, sizeof s->file);
	s->file[0] = 7;
	s->file[1] = SUNDR_STATE_SENT;
	s->file[VERSION] = 1;
	s->file[VERSION + 1] = s->user;
	memset(s->file + VERSION + 2, 0x11, 32);
	put(s->file + COUNTS + 4 * s->user, own);
	s->file_len = 100;
}

/* A step that is accepted, of this user among so many, after 41 operations. */
static struct step step_of(uint8_t users, uint8_t user)
{
	struct step s;
	int i;

	memset(&s, 0, sizeof s);
	s.users = users;
	s.user = user;
	set_memory(&s, 41);
	for (i = 0; i < 33; i++)
		s.handle[i] = (uint8_t)(200 + i);
	for (i = 0; i < users; i++)
		s.counts[i] = 7;
	s.counts[user] = 42;
	s.counts_len = 16;
	s.handle_len = 32;
	s.out_len = 98;
	return s;
}

/* Whether it is accepted, and the byte 1, the user, the i-handle and the counts are written, and nothing else. */
static int makes(struct step s)
{
	struct step before = s;
	struct room got, due;
	uint64_t answer;
	int v;

	memset(&got, 0x5a, sizeof got);
	answer = make_into(&s, got.out);
	memset(&due, 0x5a, sizeof due);
	due.out[0] = 1;
	due.out[1] = s.user;
	memcpy(due.out + 2, s.handle, 32);
	for (v = 0; v < 16; v++)
		put(due.out + 34 + 4 * v, s.counts[v]);
	return answer == SUNDR_ACCEPTED && memcmp(&got, &due, sizeof due) == 0 && memcmp(&s, &before, sizeof s) == 0;
}

/* Whether it is refused with this number and this first position, and no byte is written: the room may be read-only. */
static int refuses(struct step s, enum sundr_refusal_number number, uint32_t first)
{
	struct step before = s;
	struct room got, due;
	uint64_t answer;

	memset(&got, 0x5a, sizeof got);
	memset(&due, 0x5a, sizeof due);
	answer = make_into(&s, got.out);
	return sundr_refusal(answer) == number && sundr_first(answer) == first && sundr_second(answer) == 0
		&& memcmp(&got, &due, sizeof due) == 0 && memcmp(&s, &before, sizeof s) == 0
		&& make_into(&s, (uint8_t *)locked) == answer;
}

#endif
