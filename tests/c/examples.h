/*
 * The papers' examples of a client's turn, for the check by itself (check.c) and with the making step after it
 * (turn.c): what a client of two users is given, and what is due.
 */
#ifndef EXAMPLES_H
#define EXAMPLES_H

#include <string.h>

#include "bytes.h"
#include "check.h"
#include "sundr.h"

/* A user's version structure with two counts and an i-handle of one byte, repeated. */
struct version {
	uint8_t owner, handle;
	uint32_t a, b;
};

static inline void encode(uint8_t record[98], struct version v)
{
	memset(record, 0, 98);
	record[0] = 1;
	record[1] = v.owner;
	memset(record + 2, v.handle, 32);
	put(record + 34, v.a);
	put(record + 38, v.b);
}

/* User 0 is A, user 1 is B; the i-handle of a structure plays no part. */
static inline struct version A(uint32_t a, uint32_t b)
{
	struct version v = {0, 0x11, a, b};
	return v;
}

static inline struct version B(uint32_t a, uint32_t b)
{
	struct version v = {1, 0, a, b};
	return v;
}

/* What a client of two users is given: a memory file, and up to two records. */
struct given {
	uint8_t user, file[100], list[2 * 98], marks[2];
	size_t records;
};

/* A client that remembers nothing. */
static inline struct given given(uint8_t user)
{
	struct given g;

	memset(&g, 0, sizeof g);
	g.user = user;
	g.file[0] = 7;
	g.file[1] = SUNDR_STATE_NONE;
	return g;
}

static inline void remember_in(struct given *g, uint8_t state, struct version v)
{
	g->file[1] = state;
	encode(g->file + 2, v);
}

/* A structure that the server has accepted. */
static inline void remember(struct given *g, struct version v)
{
	remember_in(g, SUNDR_STATE_SENT, v);
}

static inline void add(struct given *g, struct version v)
{
	encode(g->list + 98 * g->records, v);
	g->marks[g->records++] = 1;
}

/* Whether the client accepts, and these are the counts of its next structure. */
typedef int accepts_of(struct given g, uint32_t a, uint32_t b);

/* Whether it refuses, with this number and these positions. */
typedef int refuses_of(struct given g, enum sundr_refusal_number number, uint32_t first, uint32_t second);

static inline void examples(accepts_of *accepts, refuses_of *refuses)
{
	struct given g = given(0);

	check("P1: A's first operation", accepts(g, 1, 0));

	g = given(1);
	add(&g, A(1, 0));
	check("P2: B's first operation", accepts(g, 1, 1));

	g = given(0);
	remember(&g, A(1, 0));
	add(&g, A(1, 0));
	add(&g, B(1, 1));
	check("P3: A's second operation", accepts(g, 2, 1));

	g = given(1);
	remember(&g, B(1, 1));
	add(&g, A(1, 0));
	add(&g, B(1, 1));
	check("P4: B's second operation, a fork after P3", accepts(g, 1, 2));

	g = given(1);
	remember(&g, B(1, 2));
	add(&g, A(2, 1));
	add(&g, B(1, 2));
	check("P5: the fork is not joined", refuses(g, SUNDR_UNORDERED, 0, 1));

	g = given(0);
	remember(&g, A(2, 1));
	check("P6: an empty list, but A remembers", refuses(g, SUNDR_NOT_CURRENT, 0, 0));
	add(&g, A(1, 0));
	add(&g, B(1, 1));
	check("P6: an older record of A's own", refuses(g, SUNDR_NOT_CURRENT, 0, 0));

	g = given(0);
	add(&g, B(1, 1));
	check("P7: a record that equals the next structure", refuses(g, SUNDR_UNORDERED, 0, 1));

	g = given(0);
	add(&g, B(0, 0));
	g.marks[0] = 0;
	check("P8: malformed and unsigned", refuses(g, SUNDR_MALFORMED, 0, 0));

	g = given(0);
	remember(&g, A(4294967294, 0));
	add(&g, A(4294967294, 0));
	check("P9: the last number", accepts(g, 4294967295, 0));

	g = given(0);
	remember(&g, A(4294967295, 0));
	add(&g, A(4294967295, 0));
	check("P10: after the last number", refuses(g, SUNDR_LAST_VERSION, 0, 0));
}

#endif
