/*
 * How sixteen counts stand to sixteen others, through include/sundr.h: given pairs, each user and every two of them;
 * and the counts that a record's bytes hold.
 */
#include "sundr.h"

#include <string.h>

#include "bytes.h"
#include "check.h"

/* An accepted answer of this standing. */
static uint64_t answer_of(enum sundr_standing standing)
{
	return (uint64_t)standing << 8;
}

/* Whether x stands so to y, and y to x the other way round. */
static int stands(const uint32_t x[16], const uint32_t y[16], enum sundr_standing due)
{
	static const enum sundr_standing back[] = {SUNDR_EQUAL, SUNDR_AFTER, SUNDR_BEFORE, SUNDR_APART};
	uint64_t there = sundr_compare(x, y), here = sundr_compare(y, x);

	if (there == answer_of(due) && here == answer_of(back[due]))
		return 1;
	printf("%#llx, and back %#llx; not %d\n", (unsigned long long)there, (unsigned long long)here, (int)due);
	return 0;
}

/* What is not named is 0. The arrays are constant: a call that writes to one faults. */
static void given_pairs(void)
{
	static const struct {
		const char *name;
		uint32_t x[16], y[16];
		enum sundr_standing due;
	} pairs[] = {
		{"nothing and nothing", {0}, {0}, SUNDR_EQUAL},
		{"P2: B's first operation, after A's", {1}, {1, 1}, SUNDR_BEFORE},
		{"P3: A's second operation, and B's first", {2, 1}, {1, 1}, SUNDR_AFTER},
		{"P5: the fork", {2, 1}, {1, 2}, SUNDR_APART},
		{"less at user 0, more at user 15", {[0] = 1, [15] = 2}, {[0] = 2, [15] = 1}, SUNDR_APART},
		{"much less at user 0, more by one at user 15", {[15] = 1}, {[0] = 1000000}, SUNDR_APART},
		{"more by one at user 0, much less at user 15", {[0] = 1}, {[15] = 1000000}, SUNDR_APART},
		{"0 and the greatest", {0}, {4294967295}, SUNDR_BEFORE},
		{"the greatest but one, and the greatest", {[15] = 4294967294}, {[15] = 4294967295}, SUNDR_BEFORE},
		{"the greatest and the greatest", {[7] = 4294967295}, {[7] = 4294967295}, SUNDR_EQUAL},
		{"either side of 2 ^ 31", {[8] = 2147483647}, {[8] = 2147483648}, SUNDR_BEFORE},
		{"2 ^ 31 and 1", {[3] = 2147483648}, {[3] = 1}, SUNDR_AFTER},
		{"the greatest against 0, 0 against the greatest", {4294967295, 0}, {0, 4294967295}, SUNDR_APART},
		{"1 and 2 ^ 24, which are each other's bytes backwards", {1}, {16777216}, SUNDR_BEFORE},
	};
	int i, pairs_len = sizeof pairs / sizeof pairs[0], same = 1;

	for (i = 0; i < pairs_len; i++) {
		check(pairs[i].name, stands(pairs[i].x, pairs[i].y, pairs[i].due));
		same = stands(pairs[i].x, pairs[i].x, SUNDR_EQUAL) && same;
	}
	check("an array and itself", same);
}

/* Less at user v alone, which is before; less at v and more at w, which is apart; all the others are equal. */
static void every_user(void)
{
	uint32_t x[16], y[16];
	int v, w, one = 1, two = 1;

	memset(x, 0x70, sizeof x);
	memcpy(y, x, sizeof y);
	for (v = 0; v < 16; v++) {
		x[v]--;
		one = stands(x, y, SUNDR_BEFORE) && one;
		for (w = 0; w < 16; w++)
			if (w != v) {
				x[w]++;
				two = stands(x, y, SUNDR_APART) && two;
				x[w]--;
			}
		x[v]++;
	}
	check("each user's count decides", one);
	check("every two users' counts stand apart", two);
	check("sixteen equal counts", stands(x, y, SUNDR_EQUAL));
}

/* Records whose bytes are all of one value but for the counts, which are put in by hand. */
static void records(void)
{
	uint8_t older[SUNDR_VERSION_LEN], newer[SUNDR_VERSION_LEN];
	uint32_t x[17], y[17];
	int v, holds = 1;

	memset(older, 0xff, sizeof older);
	memset(newer, 0x00, sizeof newer);
	for (v = 0; v < 16; v++) {
		put(older + 34 + 4 * v, 0x01020304 + (uint32_t)v);
		put(newer + 34 + 4 * v, 0x01020304 + (uint32_t)v + (v == 15));
	}
	x[16] = y[16] = 77;
	sundr_counts(older, x);
	sundr_counts(newer, y);
	for (v = 0; v < 16; v++)
		holds = x[v] == 0x01020304 + (uint32_t)v && x[v] == sundr_count(older, (uint8_t)v) && holds;
	check("a record's counts are its bytes from 34 on, big-endian", holds);
	check("they are sixteen", x[16] == 77 && y[16] == 77);
	check("two records stand as their counts do, whatever else is in them", stands(x, y, SUNDR_BEFORE));
}

int main(void)
{
	check("the standings' numbers are 0 to 3",
		SUNDR_EQUAL == 0 && SUNDR_BEFORE == 1 && SUNDR_AFTER == 2 && SUNDR_APART == 3);
	given_pairs();
	every_user();
	records();
	return finish();
}
