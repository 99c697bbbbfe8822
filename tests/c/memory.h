/*
 * The four calls of memory.c that write a memory file or move it back, as one: what each is given, and whether it writes
 * what is due, or refuses and writes nothing.
 */
#ifndef MEMORY_H
#define MEMORY_H

#include <stdlib.h>
#include <string.h>
#include <sys/mman.h>

#include "bytes.h"
#include "sundr.h"

/* The calls, as bits. */
enum { PEND = 1, SENT = 2, OVER = 4, BACK = 8, ON_FILE = SENT | BACK, ALL = PEND | SENT | OVER | BACK };

static const int calls[] = {PEND, SENT, OVER, BACK};
enum { CALLS = sizeof calls / sizeof calls[0] };

/* What a call is given: a structure, or a file; and room. SENT writes to the file itself. Each has a byte more than is taken. */
struct given {
	int call;
	uint8_t users, user, in[101];
	size_t in_len, room_len;
};

/* What a call writes, with room around it, so that a byte written outside is seen. */
struct room {
	uint8_t before[32], bytes[101], after[32];
};

/* The structure of a user with this own count, of one more operation of user 0, and with an i-handle that has a 0. */
static void version_of(uint8_t *x, uint8_t user, uint32_t own)
{
	int i;

	memset(x, 0, 98);
	x[0] = 1;
	x[1] = user;
	for (i = 0; i < 32; i++)
		x[2 + i] = (uint8_t)(240 + i);
	put(x + 34, own + 1);
	put(x + 34 + 4 * user, own);
}

static void file_of(uint8_t *file, uint8_t state, uint8_t user, uint32_t own)
{
	memset(file, 0, 100);
	file[0] = 7;
	file[1] = state;
	if (state != SUNDR_STATE_NONE)
		version_of(file + 2, user, own);
}

/* A call that is accepted, of user 1 among 3, after 41 operations. */
static struct given given(int call)
{
	struct given g;

	memset(&g, 0, sizeof g);
	g.call = call;
	g.users = 3;
	g.user = 1;
	g.in_len = call & ON_FILE ? 100 : 98;
	g.room_len = call == BACK ? 98 : 100;
	if (call & ON_FILE)
		file_of(g.in, call == SENT ? SUNDR_STATE_PENDING : SUNDR_STATE_SENT, 1, 41);
	else
		version_of(g.in, 1, 41);
	return g;
}

static uint8_t *structure(struct given *g)
{
	return g->in + (g->call & ON_FILE ? 2 : 0);
}

/* Where SENT is called the room holds the file already. */
static uint64_t make(const struct given *g, uint8_t *room)
{
	switch (g->call) {
	case PEND:
		return sundr_memory_pend(g->users, g->user, g->in, g->in_len, room, g->room_len);
	case SENT:
		return sundr_memory_sent(g->users, g->user, room, g->in_len);
	case OVER:
		return sundr_memory_over(g->users, g->user, g->in, g->in_len, room, g->room_len);
	default:
		return sundr_memory_back(g->users, g->user, g->in, g->in_len, room, g->room_len);
	}
}

/* The room before the call. */
static struct room empty(const struct given *g)
{
	struct room room;

	memset(&room, 0x5a, sizeof room);
	if (g->call == SENT)
		memcpy(room.bytes, g->in, sizeof g->in);
	return room;
}

/* Whether it is accepted with this first result, and these bytes are written to the front of the room, and nothing else. */
static int gives(struct given g, uint32_t first, const uint8_t *bytes, size_t len)
{
	struct given before = g;
	struct room got = empty(&g), due = empty(&g);
	uint64_t answer = make(&g, got.bytes);

	if (len > 0)
		memcpy(due.bytes, bytes, len);
	return answer == (uint64_t)first << 8 && memcmp(&got, &due, sizeof due) == 0 && memcmp(&g, &before, sizeof g) == 0;
}

/* A room as it is before the call, that can be read and not written: a page for SENT, and one for the others. */
static uint8_t *read_only(const struct given *g)
{
	static uint8_t *pages[2];
	uint8_t *page = pages[g->call == SENT];
	struct room room = empty(g);

	if (page == NULL)
		page = mmap(NULL, 4096, PROT_READ, MAP_PRIVATE | MAP_ANONYMOUS, -1, 0);
	if (page == MAP_FAILED)
		abort();
	pages[g->call == SENT] = page;
	if (memcmp(page, room.bytes, sizeof room.bytes) == 0)
		return page;
	if (mprotect(page, 4096, PROT_READ | PROT_WRITE) != 0)
		abort();
	memcpy(page, room.bytes, sizeof room.bytes);
	if (mprotect(page, 4096, PROT_READ) != 0)
		abort();
	return page;
}

/* Whether it is refused with this number and this first position, and no byte is written: the room may be read-only. */
static int refuses(struct given g, enum sundr_refusal_number number, uint32_t first)
{
	struct given before = g;
	struct room got = empty(&g), due = empty(&g);
	uint64_t answer = make(&g, got.bytes);

	return sundr_refusal(answer) == number && sundr_first(answer) == first && sundr_second(answer) == 0
		&& memcmp(&got, &due, sizeof due) == 0 && memcmp(&g, &before, sizeof g) == 0
		&& make(&g, read_only(&g)) == answer;
}

#endif
