/*
 * The check's third answer, "send again", through include/sundr.h: in each state of the memory file, at each distance of
 * own counts, for each user, with all that is tried before it and after it, and what is written; and clients that are cut
 * off between making a structure and sending it.
 */
#include "sundr.h"

#include <string.h>

#include "check.h"
#include "examples.h"

/* The two buffers of a check with room around them, so that what is written outside is seen. */
struct answer {
	uint32_t before[8], counts[16], after[8];
	uint8_t again[98], behind[32];
};

/* Both in memory that can be read and not written. */
static const uint32_t locked_counts[16];
static const uint8_t locked_again[98];

static uint64_t ask(const struct given *g, uint32_t *counts, uint8_t *again)
{
	return sundr_memory_check(2, g->user, g->file, 100, g->list, 98 * g->records, g->marks, g->records,
		counts, 16, again, 98);
}

/* Whether this is the answer, and what is due for it is written, and nothing else: what is not may be read-only. */
static int answers(struct given g, uint64_t number)
{
	struct given before = g;
	struct answer got, due;
	uint64_t answer;

	memset(&got, 0x5a, sizeof got);
	answer = ask(&g, got.counts, got.again);
	memset(&due, 0x5a, sizeof due);
	if (number == SUNDR_SEND_AGAIN)
		memcpy(due.again, g.file + 2, 98);
	if (number == SUNDR_ACCEPTED)
		memcpy(due.counts, got.counts, sizeof due.counts);
	return answer == number && memcmp(&got, &due, sizeof due) == 0 && memcmp(&g, &before, sizeof g) == 0
		&& ask(&g, number == SUNDR_ACCEPTED ? got.counts : (uint32_t *)locked_counts,
			number == SUNDR_SEND_AGAIN ? got.again : (uint8_t *)locked_again) == number;
}

/* ---- Each state, at each distance. ---- */

/* A's own record, if there is one, is not what A remembers: of another own count, or another i-handle. */
static uint64_t due(uint8_t state, uint32_t own, uint32_t listed)
{
	if (state == SUNDR_STATE_NONE)
		return listed == 0 ? SUNDR_ACCEPTED : SUNDR_NOT_CURRENT;
	return state == SUNDR_STATE_PENDING && own - listed == 1 ? SUNDR_SEND_AGAIN : SUNDR_NOT_CURRENT;
}

/* A remembers so many own operations, and the list counts so many in A's record, which is not there where that is none. */
static struct given distance(uint8_t state, uint32_t own, uint32_t listed, uint8_t handle)
{
	struct given g = given(0);
	struct version v = {0, handle, listed, 0};

	if (state != SUNDR_STATE_NONE)
		remember_in(&g, state, A(own, 0));
	if (listed != 0)
		add(&g, v);
	return g;
}

static void distances(void)
{
	static const uint32_t some[] = {0, 1, 2, 3, 254, 255, 256, 257, 65535, 65536, 65537, 16777215, 16777216, 16777217,
		2147483647, 2147483648, 2147483649, 4294967293, 4294967294, 4294967295};
	static const char *const names[] = {"sent: what is remembered goes on, all else is 5",
		"pending: it goes on too, one less is send again, all else is 5", "none: no record goes on, any is 5"};
	enum { SOME = sizeof some / sizeof some[0] };
	int state, i, j;

	for (state = 0; state < 3; state++) {
		int holds = 1;

		for (i = 1; i < SOME; i++)
			for (j = 0; j < SOME; j++) {
				/* The i-handle of A() is 0x11. */
				holds = answers(distance((uint8_t)state, some[i], some[j], 0x12),
					due((uint8_t)state, some[i], some[j])) && holds;
				if (i != j)
					holds = answers(distance((uint8_t)state, some[i], some[j], 0x11),
						due((uint8_t)state, some[i], some[j])) && holds;
				else if (state != SUNDR_STATE_NONE)
					holds = answers(distance((uint8_t)state, some[i], some[j], 0x11),
						some[i] == 4294967295 ? SUNDR_LAST_VERSION : SUNDR_ACCEPTED) && holds;
			}
		check(names[state], holds);
	}
}

/* It is by own count alone: the record before may have any i-handle, and count more of others than what is pending. */
static void by_own_count(void)
{
	struct given g = given(0);
	struct version other = {0, 0x77, 1, 9};

	remember_in(&g, SUNDR_STATE_PENDING, A(2, 3));
	add(&g, other);
	check("a record before that counts more of another", answers(g, SUNDR_SEND_AGAIN));
	g = given(0);
	remember_in(&g, SUNDR_STATE_PENDING, A(2, 3));
	other.a = 2;
	add(&g, other);
	check("at the same own count another structure is 5", answers(g, SUNDR_NOT_CURRENT));
	g.records = 0;
	other.b = 3;
	add(&g, other);
	check("with the same counts and another i-handle too", answers(g, SUNDR_NOT_CURRENT));
	g = given(0);
	remember_in(&g, SUNDR_STATE_PENDING, A(2, 1));
	add(&g, B(1, 1));
	check("no record, at own count 2, is 5, whatever others count", answers(g, SUNDR_NOT_CURRENT));
}

/* ---- What is tried before it, and after it. ---- */

/* Where all is well, send again: A remembers a second operation, and the list has the first. */
static struct given cut_off(void)
{
	struct given g = given(0);

	remember_in(&g, SUNDR_STATE_PENDING, A(2, 1));
	add(&g, A(1, 0));
	add(&g, B(1, 1));
	return g;
}

/* This refusal, with a first position, though "send again" would be due. */
static int is_first(struct given g, enum sundr_refusal_number number, uint32_t first)
{
	return answers(g, number | (uint64_t)first << 8);
}

static void order(void)
{
	struct given g = cut_off();

	check("send again", answers(g, SUNDR_SEND_AGAIN));
	g.file[1] = SUNDR_STATE_SENT;
	check("marked as sent, it is 5", answers(g, SUNDR_NOT_CURRENT));

	g = cut_off();
	g.user = 2;
	check("1 comes first", is_first(g, SUNDR_USERS, 0));
	g = cut_off();
	g.file[1] = 3;
	check("3 of the file comes first: state 3", is_first(g, SUNDR_MALFORMED, SUNDR_MEMORY_POSITION));
	g = cut_off();
	g.file[0] = 1;
	check("another kind", is_first(g, SUNDR_MALFORMED, SUNDR_MEMORY_POSITION));
	g = cut_off();
	g.list[98] = 2;
	g.marks[0] = 0;
	check("3 of a record after the own one comes first, and before 4", is_first(g, SUNDR_MALFORMED, 1));
	g = cut_off();
	g.list[98 + 1] = 0;
	check("owners that do not ascend come first", is_first(g, SUNDR_MALFORMED, 1));
	g = cut_off();
	g.marks[0] = 0;
	check("4 of the own record comes first", is_first(g, SUNDR_UNSIGNED, 0));
	g = cut_off();
	g.marks[1] = 2;
	check("4 of a record after it too", is_first(g, SUNDR_UNSIGNED, 1));

	g = given(0);
	remember_in(&g, SUNDR_STATE_PENDING, A(4294967295, 1));
	add(&g, A(4294967294, 0));
	check("it comes before 6, at the last count", answers(g, SUNDR_SEND_AGAIN));
	add(&g, B(1, 1));
	check("before 6 and 7", answers(g, SUNDR_SEND_AGAIN));
	g = given(0);
	remember_in(&g, SUNDR_STATE_PENDING, A(2, 1));
	add(&g, A(1, 0));
	add(&g, B(0, 1));
	check("before 7, where two records are forked", answers(g, SUNDR_SEND_AGAIN));
	g = given(0);
	remember_in(&g, SUNDR_STATE_PENDING, A(1, 0));
	add(&g, B(2, 1));
	check("before 7, where a record is ahead of the next", answers(g, SUNDR_SEND_AGAIN));
	g = given(0);
	remember_in(&g, SUNDR_STATE_PENDING, A(4294967295, 0));
	add(&g, A(4294967295, 0));
	add(&g, B(0, 1));
	check("a pending structure that is shown is judged as if sent: 6", answers(g, SUNDR_LAST_VERSION));
	g = given(0);
	remember_in(&g, SUNDR_STATE_PENDING, A(2, 0));
	add(&g, A(2, 0));
	add(&g, B(1, 1));
	check("and 7, with its two places", answers(g, SUNDR_UNORDERED | (uint64_t)1 << 32));
}

/* Each length but the one that is due, where "send again" or 3 would be the answer. */
static void lengths(void)
{
	static const size_t file[] = {0, 2, 98, 99, 101}, list[] = {1, 97, 98, 195, 197, 294}, marks[] = {0, 1, 3},
		counts[] = {0, 15, 17}, again[] = {0, 97, 99, 100};
	struct { uint8_t file[101], list[3 * 98], marks[3]; } more;
	struct given g = cut_off();
	size_t i;
	int damaged, holds[5] = {1, 1, 1, 1, 1};

	for (damaged = 0; damaged < 2; damaged++) {
		memset(&more, 0, sizeof more);
		memcpy(more.file, g.file, sizeof g.file);
		memcpy(more.list, g.list, sizeof g.list);
		memcpy(more.marks, g.marks, sizeof g.marks);
		if (damaged)
			memset(&more, 0xff, sizeof more);
#define REFUSES(file_len, list_len, marks_len, counts_len, again_len) \
	(sundr_memory_check(2, 0, more.file, file_len, more.list, list_len, more.marks, marks_len, \
		(uint32_t *)locked_counts, counts_len, (uint8_t *)locked_again, again_len) == SUNDR_LENGTH)
		for (i = 0; i < sizeof file / sizeof file[0]; i++)
			holds[0] = REFUSES(file[i], 196, 2, 16, 98) && holds[0];
		for (i = 0; i < sizeof list / sizeof list[0]; i++)
			holds[1] = REFUSES(100, list[i], 2, 16, 98) && REFUSES(100, 294, 3, 16, 98) && holds[1];
		for (i = 0; i < sizeof marks / sizeof marks[0]; i++)
			holds[2] = REFUSES(100, 196, marks[i], 16, 98) && holds[2];
		for (i = 0; i < sizeof counts / sizeof counts[0]; i++)
			holds[3] = REFUSES(100, 196, 2, counts[i], 98) && holds[3];
		for (i = 0; i < sizeof again / sizeof again[0]; i++)
			holds[4] = REFUSES(100, 196, 2, 16, again[i]) && holds[4];
	}
	check("a file of 0, 2, 98, 99 and 101 bytes", holds[0]);
	check("a list that is cut off, or of a record more than users", holds[1]);
	check("0, 1 and 3 marks for two records", holds[2]);
	check("0, 15 and 17 counts", holds[3]);
	check("room for 0, 97, 99 and 100 bytes of send again", holds[4]);
}

/* ---- Sixteen users. ---- */

/* A list of sixteen users, each of which has seen those before it, without this one's record if that is hidden. */
static size_t chain(uint8_t *list, int hidden)
{
	size_t records = 0;
	int v, w;

	for (v = 0; v < 16; v++) {
		uint8_t *version = list + 98 * records;

		if (v == hidden)
			continue;
		memset(version, 0, 98);
		version[0] = 1;
		version[1] = (uint8_t)v;
		for (w = 0; w <= v; w++)
			put(version + 34 + 4 * w, 1);
		records++;
	}
	return records;
}

/* Whether a user whose pending structure has this own count is told to send it again, with or without a record at 1. */
static int sends(int user, uint32_t own, int hidden)
{
	static const uint8_t marks[16] = {1, 1, 1, 1, 1, 1, 1, 1, 1, 1, 1, 1, 1, 1, 1, 1};
	uint8_t list[16 * 98], file[100] = {7, SUNDR_STATE_PENDING, 1}, again[98];
	size_t records = chain(list, hidden ? user : 16);
	int v;

	file[3] = (uint8_t)user;
	memset(file + 4, 0xc7, 32);
	for (v = 0; v < 16; v++)
		put(file + 36 + 4 * v, v == user ? own : 1);
	return sundr_memory_check(16, (uint8_t)user, file, 100, list, 98 * records, marks, records,
		(uint32_t *)locked_counts, 16, again, 98) == SUNDR_SEND_AGAIN && memcmp(again, file + 2, 98) == 0;
}

static void sixteen(void)
{
	int user, listed = 1, hidden = 1, else_refused = 1;

	for (user = 0; user < 16; user++) {
		listed = sends(user, 2, 0) && listed;
		hidden = sends(user, 1, 1) && hidden;
		else_refused = !sends(user, 3, 0) && !sends(user, 2, 1) && !sends(user, 1, 0) && else_refused;
	}
	check("each of sixteen users, whose record is one operation behind", listed);
	check("each of sixteen users, whose first operation is not there", hidden);
	check("and at no other distance", else_refused);
}

/* ---- Clients that are cut off. ---- */

/* A making step with an i-handle of one byte, repeated. */
static uint64_t make(const uint8_t *file, const uint32_t *counts, uint8_t handle, uint8_t *out)
{
	uint8_t bytes[32];

	memset(bytes, handle, sizeof bytes);
	return sundr_memory_create(2, 0, file, 100, counts, 16, bytes, sizeof bytes, out, 98);
}

static void cuts(void)
{
	struct given g = given(0), b = given(1);
	uint32_t counts[16], next[16];
	uint8_t lost[98], made[98], third[98], again[98];

	check("A checks an empty list", ask(&g, counts, again) == SUNDR_ACCEPTED);
	check("A makes, and is cut off before the write", make(g.file, counts, 0x31, lost) == SUNDR_ACCEPTED);
	check("A makes with another i-handle, and writes", make(g.file, counts, 0x32, made) == SUNDR_ACCEPTED
		&& sundr_memory_pend(2, 0, made, 98, g.file, 100) == SUNDR_ACCEPTED);
	check("two were made at own count 1, and one is remembered", memcmp(lost, made, 98) != 0
		&& sundr_count(lost, 0) == sundr_count(made, 0) && memcmp(g.file + 2, made, 98) == 0);
	check("a list without A's record: send again, with these bytes", answers(g, SUNDR_SEND_AGAIN)
		&& ask(&g, counts, again) == SUNDR_SEND_AGAIN && memcmp(again, made, 98) == 0);
	check("nothing is made of the old counts: 16", make(g.file, counts, 0x33, third) == SUNDR_NOT_NEXT);

	memcpy(b.list, again, 98);
	b.marks[0] = 1;
	b.records = 1;
	check("B accepts the list that shows it", ask(&b, next, again) == SUNDR_ACCEPTED && next[0] == 1 && next[1] == 1);
	memcpy(g.list, made, 98);
	g.marks[0] = 1;
	g.records = 1;
	add(&g, B(1, 1));
	check("A, pending, accepts it with B's after it, as if sent", answers(g, SUNDR_ACCEPTED)
		&& ask(&g, counts, again) == SUNDR_ACCEPTED && counts[0] == 2 && counts[1] == 1);
	check("marked as sent, A accepts it too", sundr_memory_sent(2, 0, g.file, 100) == SUNDR_ACCEPTED
		&& answers(g, SUNDR_ACCEPTED));
	g.records = 0;
	check("and then an older list is 5", answers(g, SUNDR_NOT_CURRENT));
}

int main(void)
{
	distances();
	by_own_count();
	order();
	lengths();
	sixteen();
	cuts();
	return finish();
}
