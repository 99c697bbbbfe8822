/*
 * The four calls that write a memory file or move it back, through include/sundr.h: each refusal at its place with all
 * later faults behind it, each length, each state, what is written and what is left, both round trips, and every byte of a
 * file at every value, for the check and the making step too. What the check says while a file is pending, again.c has.
 */
#define _DEFAULT_SOURCE /* MAP_ANONYMOUS */

#include "sundr.h"

#include <string.h>

#include "bytes.h"
#include "check.h"
#include "memory.h"

/* ---- The refusals, in their order. ---- */

static void no_users(struct given *g)
{
	g->users = 0;
}

static void too_many_users(struct given *g)
{
	g->users = 17;
}

static void no_such_user(struct given *g)
{
	g->user = g->users;
}

static void short_in(struct given *g)
{
	g->in_len--;
}

static void short_room(struct given *g)
{
	g->room_len--;
}

static void file_of_another_kind(struct given *g)
{
	g->in[0] = 1;
}

static void third_state(struct given *g)
{
	g->in[1] = 3;
}

static void none_before_structure(struct given *g)
{
	g->in[1] = SUNDR_STATE_NONE;
}

static void another_kind(struct given *g)
{
	structure(g)[0] = 7;
}

static void of_another(struct given *g)
{
	structure(g)[1] = 0;
}

static void without_own(struct given *g)
{
	put(structure(g) + 34 + 4, 0);
}

static void beyond(struct given *g)
{
	put(structure(g) + 34 + 4 * 3, 1);
}

static void pending(struct given *g)
{
	g->in[1] = SUNDR_STATE_PENDING;
}

static const struct {
	const char *name;
	int calls;
	void (*put_in)(struct given *);
	enum sundr_refusal_number number;
	uint32_t first;
} faults[] = {
	{"no users", ALL, no_users, SUNDR_USERS, 0},
	{"17 users", ALL, too_many_users, SUNDR_USERS, 0},
	{"a user that there is not", ALL, no_such_user, SUNDR_USERS, 0},
	{"given a byte less", ALL, short_in, SUNDR_LENGTH, 0},
	{"room for a byte less", ALL - SENT, short_room, SUNDR_LENGTH, 0},
	{"a file of another kind", ON_FILE, file_of_another_kind, SUNDR_MALFORMED, SUNDR_MEMORY_POSITION},
	{"state 3", ON_FILE, third_state, SUNDR_MALFORMED, SUNDR_MEMORY_POSITION},
	{"state none, and a structure behind it", ON_FILE, none_before_structure, SUNDR_MALFORMED, SUNDR_MEMORY_POSITION},
	{"a structure of another kind", ALL, another_kind, SUNDR_MALFORMED, SUNDR_MEMORY_POSITION},
	{"a structure of another user's", ALL, of_another, SUNDR_MALFORMED, SUNDR_MEMORY_POSITION},
	{"a structure without an own operation", ALL, without_own, SUNDR_MALFORMED, SUNDR_MEMORY_POSITION},
	{"a structure that counts a user who is not", ALL, beyond, SUNDR_MALFORMED, SUNDR_MEMORY_POSITION},
	{"moved back while pending", BACK, pending, SUNDR_PENDING, 0},
};

enum { FAULTS = sizeof faults / sizeof faults[0] };

/* Each by itself, and with all that are tried later. It is put in last: others may write where it does. */
static void refusals(void)
{
	char name[80];
	int i, c, later;

	for (i = 0; i < FAULTS; i++) {
		int alone = 1, first = 1;

		for (c = 0; c < CALLS; c++) {
			struct given g = given(calls[c]);

			if (!(faults[i].calls & calls[c]))
				continue;
			faults[i].put_in(&g);
			alone = refuses(g, faults[i].number, faults[i].first) && alone;
			g = given(calls[c]);
			for (later = FAULTS - 1; later >= i; later--)
				if (faults[later].calls & calls[c])
					faults[later].put_in(&g);
			first = refuses(g, faults[i].number, faults[i].first) && first;
		}
		check(faults[i].name, alone);
		sprintf(name, "%s, and all that is tried later", faults[i].name);
		check(name, first);
	}
}

/* Each length of what is given with each length of the room: but for the ones that are due all are 2, whatever is there. */
static void lengths(void)
{
	static const size_t some[] = {0, 1, 2, 97, 98, 99, 100, 101};
	static const char *const names[CALLS] = {"pend: a structure of 98 bytes, room for 100, and no other lengths",
		"sent: a file of 100 bytes, and no other length", "over: a structure of 98 bytes or none, room for 100, and no other",
		"back: a file of 100 bytes, room for 98, and no other lengths"};
	size_t i, j, n = sizeof some / sizeof some[0];
	struct given g;
	uint8_t none[100];
	int c, damaged;

	file_of(none, SUNDR_STATE_NONE, 1, 0);
	for (c = 0; c < CALLS; c++) {
		int holds = 1;

		for (i = 0; i < n; i++)
			for (j = 0; j < n; j++)
				for (damaged = 0; damaged < 2; damaged++) {
					g = given(calls[c]);
					if (calls[c] == OVER && some[i] == 0 && some[j] == 100) {
						g.in_len = 0;
						holds = gives(g, 0, none, 100) && holds;
						continue;
					}
					if (some[i] == g.in_len && (some[j] == g.room_len || calls[c] == SENT))
						continue;
					g.in_len = some[i];
					g.room_len = some[j];
					if (damaged)
						memset(g.in, 0xff, sizeof g.in);
					holds = refuses(g, SUNDR_LENGTH, 0) && holds;
				}
		check(names[c], holds);
	}
	check("nothing given, at NULL", sundr_memory_over(1, 0, NULL, 0, none, 100) == SUNDR_ACCEPTED
		&& sundr_memory_pend(1, 0, NULL, 0, none, 100) == SUNDR_LENGTH
		&& sundr_memory_back(1, 0, NULL, 0, none, 98) == SUNDR_LENGTH
		&& sundr_memory_sent(1, 0, NULL, 0) == SUNDR_LENGTH);
	version_of(g.in, 0, 1);
	check("no room, at NULL", sundr_memory_over(1, 0, NULL, 0, NULL, 0) == SUNDR_LENGTH
		&& sundr_memory_pend(1, 0, g.in, 98, NULL, 0) == SUNDR_LENGTH
		&& sundr_memory_back(1, 0, none, 100, NULL, 0) == SUNDR_LENGTH);
	g = given(BACK);
	g.room_len = 0;
	memcpy(g.in, none, sizeof none);
	check("a file in state none, moved back without room", refuses(g, SUNDR_LENGTH, 0));
	g = given(OVER);
	memset(g.in, 0, sizeof g.in);
	check("98 zeros are not none", refuses(g, SUNDR_MALFORMED, SUNDR_MEMORY_POSITION));
}

/* ---- What is written. ---- */

/* A call with this structure, or this file. */
static struct given with(int call, uint8_t users, uint8_t user, const uint8_t *in)
{
	struct given g = given(call);

	g.users = users;
	g.user = user;
	memcpy(g.in, in, g.in_len);
	return g;
}

/* Each call, for a user of so many, with this own count: what each state becomes, and that it comes back as it was. */
static int moves(uint8_t users, uint8_t user, uint32_t own)
{
	uint8_t sent[100], pends[100], none[100], *version = sent + 2;
	struct given nothing = given(OVER);

	file_of(sent, SUNDR_STATE_SENT, user, own);
	file_of(pends, SUNDR_STATE_PENDING, user, own);
	file_of(none, SUNDR_STATE_NONE, user, own);
	nothing.users = users;
	nothing.user = user;
	nothing.in_len = 0;
	return gives(with(PEND, users, user, version), 0, pends, 100)
		&& gives(with(SENT, users, user, pends), 0, sent, 100)
		&& gives(with(SENT, users, user, sent), 0, sent, 100)
		&& gives(with(SENT, users, user, none), 0, none, 100)
		&& gives(with(OVER, users, user, version), 0, sent, 100)
		&& gives(nothing, 0, none, 100)
		&& gives(with(BACK, users, user, sent), 98, version, 98)
		&& gives(with(BACK, users, user, none), 0, NULL, 0)
		&& refuses(with(BACK, users, user, pends), SUNDR_PENDING, 0);
}

static void states(void)
{
	static const uint32_t some[] = {1, 2, 255, 256, 65536, 16777216, 2147483648, 4294967294, 4294967295};
	uint8_t file[100], old[98], again[100];
	struct given g = given(SENT);
	int users, user, holds = 1;
	size_t i;

	for (users = 1; users <= 16; users++)
		for (user = 0; user < users; user++)
			for (i = 0; i < sizeof some / sizeof some[0]; i++)
				holds = moves((uint8_t)users, (uint8_t)user, some[i]) && holds;
	check("each user of 1 to 16, at any own count: each state becomes what it is to, and comes back as it was", holds);

	sundr_memory_sent(3, 1, g.in, 100);
	memcpy(again, g.in, sizeof again);
	check("sent twice", sundr_memory_sent(3, 1, g.in, 100) == SUNDR_ACCEPTED && memcmp(g.in, again, sizeof again) == 0
		&& g.in[1] == SUNDR_STATE_SENT);
	check("and then moved back, and over again", sundr_memory_back(3, 1, again, 100, old, 98) == (uint64_t)98 << 8
		&& sundr_memory_over(3, 1, old, 98, file, 100) == SUNDR_ACCEPTED && memcmp(file, again, sizeof file) == 0);
}

/* ---- Every byte, at every value. ---- */

/* Whether these bytes are a structure of user 1 of 3, by the header's own words. */
static int is_own(const uint8_t *x)
{
	int v, holds = x[0] == 1 && sundr_owner(x) == 1 && sundr_count(x, 1) != 0;

	for (v = 3; v < 16; v++)
		holds = sundr_count(x, (uint8_t)v) == 0 && holds;
	return holds;
}

static int is_file(const uint8_t *file)
{
	static const uint8_t zeros[98];

	return file[0] == 7 && (file[1] == SUNDR_STATE_NONE ? memcmp(file + 2, zeros, 98) == 0
		: (file[1] == SUNDR_STATE_SENT || file[1] == SUNDR_STATE_PENDING) && is_own(file + 2));
}

/* Whether each call that reads a file says of this one what is due, the check and the making step too. */
static int is_judged(const uint8_t *file)
{
	uint8_t sent[100], again[98], out[98], handle[32] = {0};
	uint32_t counts[16] = {0};
	uint64_t malformed = SUNDR_MALFORMED | (uint64_t)SUNDR_MEMORY_POSITION << 8;
	uint64_t checked = sundr_memory_check(3, 1, file, 100, NULL, 0, NULL, 0, counts, 16, again, 98);
	uint64_t made = sundr_memory_create(3, 1, file, 100, counts, 16, handle, 32, out, 98);

	if (!is_file(file))
		return refuses(with(SENT, 3, 1, file), SUNDR_MALFORMED, SUNDR_MEMORY_POSITION)
			&& refuses(with(BACK, 3, 1, file), SUNDR_MALFORMED, SUNDR_MEMORY_POSITION)
			&& checked == malformed && made == malformed;
	memcpy(sent, file, 100);
	if (file[1] == SUNDR_STATE_PENDING)
		sent[1] = SUNDR_STATE_SENT;
	return gives(with(SENT, 3, 1, file), 0, sent, 100) && checked != malformed && made != malformed
		&& (file[1] == SUNDR_STATE_PENDING ? refuses(with(BACK, 3, 1, file), SUNDR_PENDING, 0)
			: file[1] == SUNDR_STATE_SENT ? gives(with(BACK, 3, 1, file), 98, file + 2, 98)
			: gives(with(BACK, 3, 1, file), 0, NULL, 0));
}

/* Whether both calls that write a file say of this structure what is due. */
static int is_taken(const uint8_t *version)
{
	uint8_t file[100] = {7};

	if (!is_own(version))
		return refuses(with(PEND, 3, 1, version), SUNDR_MALFORMED, SUNDR_MEMORY_POSITION)
			&& refuses(with(OVER, 3, 1, version), SUNDR_MALFORMED, SUNDR_MEMORY_POSITION);
	memcpy(file + 2, version, 98);
	if (!gives(with(OVER, 3, 1, version), 0, file, 100))
		return 0;
	file[1] = SUNDR_STATE_PENDING;
	return gives(with(PEND, 3, 1, version), 0, file, 100);
}

/* Own counts of which one byte is not 0; in a sent file each of the four. */
static void every_byte(void)
{
	static const char *const names[] = {"every byte of a sent file, at every value", "of a pending file",
		"of a file in state none"};
	uint8_t file[100];
	int state, place, at, byte, structures = 1;

	for (state = 0; state < 3; state++) {
		int holds = 1;

		for (place = 0; place < (state == SUNDR_STATE_SENT ? 4 : 1); place++)
			for (at = 0; at < 100; at++) {
				file_of(file, (uint8_t)state, 1, (uint32_t)1 << 8 * place);
				for (byte = 0; byte < 256; byte++) {
					file[at] = (uint8_t)byte;
					holds = is_judged(file) && holds;
					if (state == SUNDR_STATE_SENT && at >= 2)
						structures = is_taken(file + 2) && structures;
				}
			}
		check(names[state], holds);
	}
	check("every byte of a structure, at every value", structures);
}

int main(void)
{
	refusals();
	lengths();
	states();
	every_byte();
	return finish();
}
