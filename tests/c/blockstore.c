/*
 * The block store, through include/sundr.h: blocks whose hashes are published, the layout written by hand, each refusal
 * with all later faults behind it, stores that no call made, and a block that is stored, shared and given back.
 */
#include "sundr.h"

#include <string.h>

#include "check.h"

enum { STORE = SUNDR_STORE_LEN, PLACE = SUNDR_PLACE_LEN, PLACES = SUNDR_STORE_PLACES, MOST = SUNDR_BLOCK_MAX_LEN };

/* FIPS 180-4's examples, and no bytes. What is lent is constant where it can be: a call that writes to it faults. */
static const uint8_t abc[] = {'a', 'b', 'c'};
static const uint8_t two_parts[] = "abcdbcdecdefdefgefghfghighijhijkijkljklmklmnlmnomnopnopq";
enum { TWO_PARTS = sizeof two_parts - 1 };
static const uint8_t of_abc[33] = {
	0xba, 0x78, 0x16, 0xbf, 0x8f, 0x01, 0xcf, 0xea, 0x41, 0x41, 0x40, 0xde, 0x5d, 0xae, 0x22, 0x23,
	0xb0, 0x03, 0x61, 0xa3, 0x96, 0x17, 0x7a, 0x9c, 0xb4, 0x10, 0xff, 0x61, 0xf2, 0x00, 0x15, 0xad,
};
static const uint8_t of_two_parts[32] = {
	0x24, 0x8d, 0x6a, 0x61, 0xd2, 0x06, 0x38, 0xb8, 0xe5, 0xc0, 0x26, 0x93, 0x0c, 0x3e, 0x60, 0x39,
	0xa3, 0x3c, 0xe4, 0x59, 0x64, 0xff, 0x21, 0x67, 0xf6, 0xec, 0xed, 0xd4, 0x19, 0xdb, 0x06, 0xc1,
};
static const uint8_t of_no_bytes[32] = {
	0xe3, 0xb0, 0xc4, 0x42, 0x98, 0xfc, 0x1c, 0x14, 0x9a, 0xfb, 0xf4, 0xc8, 0x99, 0x6f, 0xb9, 0x24,
	0x27, 0xae, 0x41, 0xe4, 0x64, 0x9b, 0x93, 0x4c, 0xa4, 0x95, 0x99, 0x1b, 0x78, 0x52, 0xb8, 0x55,
};

/* Byte i is i mod 251. The hash of 8,192 bytes was found with Python's hashlib. */
static uint8_t longest[MOST + 1];
static const uint8_t of_longest[32] = {
	0x25, 0xdf, 0x24, 0x49, 0xb2, 0xe5, 0xa3, 0x5f, 0xea, 0x14, 0xe0, 0x2a, 0x71, 0x58, 0xe2, 0x83,
	0x80, 0x1a, 0x10, 0x69, 0xc9, 0xf8, 0x46, 0x31, 0xb9, 0xa9, 0xda, 0xcb, 0x2f, 0x80, 0x9a, 0x7f,
};

/* What is lent as a store and to retrieve to, with room for a byte more; and what both are to be. */
static uint8_t store[STORE + 1], due[STORE + 1], out[MOST + 1], due_out[MOST + 1];

/* Whether an answer is this one, and both buffers are what they are to be. */
static int is(uint64_t answer, enum sundr_refusal_number number, uint32_t first)
{
	if (answer != ((uint64_t)first << 8 | (uint64_t)number)) {
		printf("%d %lu %lu\n", (int)sundr_refusal(answer), (unsigned long)sundr_first(answer),
			(unsigned long)sundr_second(answer));
		return 0;
	}
	if (memcmp(store, due, sizeof store) != 0 || memcmp(out, due_out, sizeof out) != 0) {
		printf("a byte is not as it is to be\n");
		return 0;
	}
	return 1;
}

static int accepts(uint64_t answer, uint32_t first)
{
	return is(answer, SUNDR_ACCEPTED, first);
}

static uint64_t store_block(uint8_t user, const uint8_t *block, size_t len)
{
	return sundr_store(store, STORE, user, block, len);
}

static uint64_t unreference(uint8_t user, const uint8_t *hash)
{
	return sundr_unreference(store, STORE, user, hash, 32);
}

static uint64_t retrieve(const uint8_t *hash, size_t room)
{
	return sundr_retrieve(store, STORE, hash, 32, out, room);
}

/* Whether a block is retrieved by this hash, to the front of just so many bytes and of more, and not of one less. */
static int retrieves(const uint8_t *hash, const uint8_t *block, size_t len)
{
	memset(out, 0x5a, sizeof out);
	memset(due_out, 0x5a, sizeof due_out);
	if (len > 0 && !is(retrieve(hash, len - 1), SUNDR_NO_ROOM, 0))
		return 0;
	memcpy(due_out, block, len);
	if (!accepts(retrieve(hash, len), (uint32_t)len))
		return 0;
	memset(out, 0x5a, sizeof out);
	return accepts(retrieve(hash, sizeof out), (uint32_t)len);
}

static int holds_not(const uint8_t *hash)
{
	return is(retrieve(hash, MOST), SUNDR_NOT_HELD, 0) && is(unreference(0, hash), SUNDR_NOT_HELD, 0);
}

/* In a store by hand: the length of a place, and a user's count there, each two bytes, the high one first. */
static void put_length(uint8_t *in, int p, unsigned length)
{
	in[PLACE * p] = (uint8_t)(length >> 8);
	in[PLACE * p + 1] = (uint8_t)length;
}

static void put_count(uint8_t *in, int p, int user, unsigned count)
{
	in[PLACE * p + 2 + 2 * user] = (uint8_t)(count >> 8);
	in[PLACE * p + 3 + 2 * user] = (uint8_t)count;
}

static void put_block(uint8_t *in, int p, const uint8_t *block, size_t len)
{
	put_length(in, p, (unsigned)len);
	memcpy(in + PLACE * p + 34, block, len);
}

/* In both: a place by hand, with one user's count. */
static void put_place(int p, const uint8_t *block, size_t len, int user, unsigned count)
{
	put_block(store, p, block, len);
	put_count(store, p, user, count);
	memcpy(due, store, sizeof due);
}

/* An empty store. */
static void make(void)
{
	sundr_store_make(store, STORE);
	memcpy(due, store, sizeof due);
}

static void making(void)
{
	check("64 places of 8,226 bytes", STORE == 64 * 8226 && PLACES == 64 && PLACE == 2 + 2 * 16 + 8192 && MOST == 8192);
	memset(store, 0xa5, sizeof store);
	memset(due, 0xa5, sizeof due);
	check("made of no bytes: refused", is(sundr_store_make(NULL, 0), SUNDR_LENGTH, 0));
	check("made of 526,463 bytes: refused", is(sundr_store_make(store, STORE - 1), SUNDR_LENGTH, 0));
	check("made of 526,465 bytes: refused", is(sundr_store_make(store, STORE + 1), SUNDR_LENGTH, 0));
	memset(due, 0, STORE);
	check("made: 526,464 bytes are zero, and no other", accepts(sundr_store_make(store, STORE), 0));
	check("it holds nothing, not even no bytes", holds_not(of_abc) && holds_not(of_no_bytes));
}

static void layout(void)
{
	make();
	put_block(due, 0, abc, 3);
	put_count(due, 0, 3, 1);
	check("\"abc\" is stored in place 0", accepts(store_block(3, abc, 3), 0)
		&& store[1] == 3 && store[9] == 1 && store[34] == 'a' && store[36] == 'c');
	put_count(due, 0, 3, 2);
	check("once more: the count is 2", accepts(store_block(3, abc, 3), 0));
	put_count(due, 0, 15, 1);
	check("by user 15: a count of its own", accepts(store_block(15, abc, 3), 0) && store[33] == 1);
	put_count(due, 1, 0, 1);
	check("no bytes are stored in place 1", accepts(store_block(0, NULL, 0), 0) && store[8226 + 3] == 1);
	put_count(due, 1, 1, 1);
	check("and counted", accepts(store_block(1, abc, 0), 0));
	put_block(due, 2, longest, MOST);
	put_count(due, 2, 0, 1);
	check("8,192 bytes are stored in place 2", accepts(store_block(0, longest, MOST), 0)
		&& store[16452] == 0x20 && store[16453] == 0 && store[16486 + 8191] == 8191 % 251);
	put_block(due, 3, two_parts, TWO_PARTS);
	put_count(due, 3, 7, 1);
	check("56 bytes are stored in place 3", accepts(store_block(7, two_parts, TWO_PARTS), 0));
	check("\"abc\" is retrieved by its published hash", retrieves(of_abc, abc, 3));
	check("56 bytes are, by theirs", retrieves(of_two_parts, two_parts, TWO_PARTS));
	check("no bytes are, by theirs", retrieves(of_no_bytes, abc, 0));
	check("8,192 bytes are, by theirs", retrieves(of_longest, longest, MOST));
	check("no bytes are, to no room at NULL",
		sundr_retrieve(store, STORE, of_no_bytes, 32, NULL, 0) == SUNDR_ACCEPTED);
	put_place(4, of_abc, 32, 1, 1);
	check("a hash may lie in the store itself", retrieves(store + PLACE * 4 + 34, abc, 3));
}

static void check_of(const char *block, const char *name, int holds)
{
	char line[100];

	sprintf(line, "%s, by every two users: %s", block, name);
	check(line, holds);
}

/* Stored, retrieved, shared by a second user, and unreferenced by both. */
static void round_trip(const char *what, const uint8_t *block, size_t len, const uint8_t *hash)
{
	uint8_t u, w;
	int stored = 1, shared = 1, taken = 1, empty = 1, again = 1;

	for (u = 0; u < 16; u++)
		for (w = 0; w < 16; w++) {
			if (u == w)
				continue;
			make();
			put_block(due, 0, block, len);
			put_count(due, 0, u, 1);
			stored = stored && accepts(store_block(u, block, len), 0) && retrieves(hash, block, len);
			put_count(due, 0, w, 1);
			shared = shared && accepts(store_block(w, block, len), 0) && retrieves(hash, block, len);
			put_count(due, 0, u, 0);
			taken = taken && accepts(unreference(u, hash), 1) && accepts(unreference(u, hash), 0)
				&& retrieves(hash, block, len);
			put_count(due, 0, w, 0);
			empty = empty && accepts(unreference(w, hash), 1) && holds_not(hash);
			put_block(due, 0, longest, 1);
			put_count(due, 0, w, 1);
			again = again && accepts(store_block(w, longest, 1), 0);
		}
	check_of(what, "stored at place 0, and retrieved", stored);
	check_of(what, "shared, at the same place", shared);
	check_of(what, "unreferenced by one, who has no more to take", taken);
	check_of(what, "unreferenced by both: not held", empty);
	check_of(what, "place 0 is taken again, and bytes after the block stay", again);
}

/* A block of one byte for each place, and its hash. */
static uint8_t single[PLACES + 1], of_single[PLACES + 1][32];

static void fill(void)
{
	int p;

	make();
	for (p = 0; p <= PLACES; p++) {
		single[p] = (uint8_t)(100 + p);
		sundr_sha256(single + p, 1, of_single[p], 32);
	}
	for (p = 0; p < PLACES; p++)
		put_place(p, single + p, 1, 5, 1);
}

static void full_store(void)
{
	int p, taken = 1, freed = 1, refused = 1, counted = 1;

	fill();
	for (p = 0; p < PLACES; p++) {
		refused = refused && is(store_block(5, single + PLACES, 1), SUNDR_NO_PLACE, 0)
			&& is(store_block(6, longest, MOST), SUNDR_NO_PLACE, 0);
		put_count(due, p, 6, 1);
		counted = counted && accepts(store_block(6, single + p, 1), 0);
		put_count(due, p, 6, 0);
		counted = counted && accepts(unreference(6, of_single[p]), 1);
		put_count(due, p, 5, 0);
		freed = freed && accepts(unreference(5, of_single[p]), 1) && holds_not(of_single[p]);
		put_block(due, p, longest, 100);
		put_count(due, p, 9, 1);
		taken = taken && accepts(store_block(9, longest, 100), 0);
		/* As it was, but for the bytes after the block. */
		put_count(store, p, 9, 0);
		put_place(p, single + p, 1, 5, 1);
	}
	check("64 places held: no block finds another", refused);
	check("but one that is held is counted", counted);
	check("each place is free after its last reference", freed);
	check("and is taken by the next block", taken);
}

static void last_reference(void)
{
	make();
	put_place(0, abc, 3, 0, 65534);
	put_count(due, 0, 0, 65535);
	check("a count goes to 65,535", accepts(store_block(0, abc, 3), 0));
	check("and not further", is(store_block(0, abc, 3), SUNDR_LAST_REFERENCE, 0));
	put_count(due, 0, 5, 1);
	check("another user has one too", accepts(store_block(5, abc, 3), 0));
	put_count(due, 0, 0, 65534);
	check("one is taken from 65,535", accepts(unreference(0, of_abc), 1) && retrieves(of_abc, abc, 3));
	put_place(0, abc, 3, 0, 255);
	put_count(due, 0, 0, 256);
	check("255 and one are 256", accepts(store_block(0, abc, 3), 0));
	put_count(due, 0, 5, 0);
	check("a count of 256 alone is a count", accepts(unreference(5, of_abc), 1) && retrieves(of_abc, abc, 3));
	put_count(due, 0, 0, 255);
	check("256 less one are 255", accepts(unreference(0, of_abc), 1));
}

/* A hash of which one bit is another is that of no block. */
static void every_bit(void)
{
	uint8_t hash[32];
	int bit, holds = 1;

	make();
	put_place(0, abc, 3, 0, 1);
	memcpy(hash, of_abc, sizeof hash);
	for (bit = 0; bit < 256; bit++) {
		hash[bit / 8] ^= (uint8_t)(1 << bit % 8);
		holds = holds_not(hash) && holds;
		hash[bit / 8] ^= (uint8_t)(1 << bit % 8);
	}
	check("each bit of a hash counts", holds && retrieves(hash, abc, 3));
}

/* Stores that no call made. */
static void foreign_stores(void)
{
	make();
	/* What is after a block stays, whatever it is. */
	memset(store + PLACE * 7 + 34, 0xff, MOST);
	put_place(7, abc, 3, 1, 9);
	put_place(9, abc, 3, 2, 9);
	put_place(3, abc, 3, 1, 0);
	put_count(due, 7, 2, 1);
	check("the lowest of two places is meant, in storing", accepts(store_block(2, abc, 3), 0));
	put_count(due, 7, 2, 0);
	check("and in unreferencing", accepts(unreference(2, of_abc), 1));
	check("which takes nothing where it has no count", accepts(unreference(2, of_abc), 0));
	put_place(7, abc, 3, 1, 65535);
	check("65,535 there is the last, be it less above", is(store_block(1, abc, 3), SUNDR_LAST_REFERENCE, 0));
	put_place(7, abc, 3, 1, 0);
	put_count(due, 9, 1, 1);
	check("once it is free, the other one is", accepts(store_block(1, abc, 3), 0));
	put_place(9, abc, 3, 1, 0);
	put_place(9, abc, 3, 2, 0);
	check("a block that is in free places is not held", holds_not(of_abc));
	put_block(due, 0, abc, 3);
	put_count(due, 0, 8, 1);
	check("and is stored in the lowest free place, not where it is", accepts(store_block(8, abc, 3), 0));

	memset(store, 0xff, STORE);
	memcpy(due, store, sizeof due);
	check("all bytes 255: place 0 is malformed", is(store_block(0, abc, 3), SUNDR_MALFORMED, 0)
		&& is(retrieve(of_abc, MOST), SUNDR_MALFORMED, 0) && is(unreference(0, of_abc), SUNDR_MALFORMED, 0));
	make();
	put_length(store, 63, 8193);
	put_place(0, abc, 3, 0, 1);
	check("8,193 bytes in the last place, which is free, with \"abc\" in the first", is(store_block(0, abc, 3), SUNDR_MALFORMED, 63)
		&& is(retrieve(of_abc, MOST), SUNDR_MALFORMED, 63) && is(unreference(0, of_abc), SUNDR_MALFORMED, 63));
	put_count(store, 62, 0, 1);
	put_length(store, 62, 32768);
	memcpy(due, store, sizeof due);
	check("32,768 in the one before, which is held: it is the lower", is(store_block(0, abc, 3), SUNDR_MALFORMED, 62)
		&& is(retrieve(of_abc, MOST), SUNDR_MALFORMED, 62) && is(unreference(0, of_abc), SUNDR_MALFORMED, 62));
	memset(due, 0, STORE);
	check("it can be made anew", accepts(sundr_store_make(store, STORE), 0));
}

/* Each refusal; each next one stands before it in the order. */
static void store_refusals(void)
{
	fill();
	check("storing, no place is free: 13", is(store_block(5, abc, 3), SUNDR_NO_PLACE, 0));
	put_place(63, single + 63, 1, 5, 65535);
	check("the last reference of a block: 14", is(store_block(5, single + 63, 1), SUNDR_LAST_REFERENCE, 0));
	put_length(store, 40, 8193);
	memcpy(due, store, sizeof due);
	check("of both, with a place of 8,193 bytes: 3", is(store_block(5, abc, 3), SUNDR_MALFORMED, 40)
		&& is(store_block(5, single + 63, 1), SUNDR_MALFORMED, 40));
	check("a block of 8,193 bytes: 2", is(store_block(5, longest, MOST + 1), SUNDR_LENGTH, 0));
	check("a store of a byte less: 2", is(sundr_store(store, STORE - 1, 5, abc, 3), SUNDR_LENGTH, 0));
	check("a store of a byte more: 2", is(sundr_store(store, STORE + 1, 5, abc, 3), SUNDR_LENGTH, 0));
	check("no store: 2", is(sundr_store(NULL, 0, 5, abc, 3), SUNDR_LENGTH, 0));
	check("user 16: 1", is(sundr_store(store, STORE - 1, 16, longest, MOST + 1), SUNDR_USERS, 0));
	check("user 255: 1", is(sundr_store(NULL, 0, 255, abc, 3), SUNDR_USERS, 0));
}

static void hash_refusals(void)
{
	memset(out, 0x5a, sizeof out);
	memcpy(due_out, out, sizeof out);
	fill();
	put_place(63, abc, 3, 5, 1);
	check("retrieving to a byte less: 12", is(retrieve(of_abc, 2), SUNDR_NO_ROOM, 0));
	check("to no room, at NULL: 12", is(sundr_retrieve(store, STORE, of_abc, 32, NULL, 0), SUNDR_NO_ROOM, 0));
	check("what is not held: 15, to no room too", is(retrieve(of_longest, 0), SUNDR_NOT_HELD, 0));
	check("unreferencing it: 15", is(unreference(5, of_longest), SUNDR_NOT_HELD, 0));
	put_length(store, 40, 8193);
	memcpy(due, store, sizeof due);
	check("with a place of 8,193 bytes: 3", is(retrieve(of_longest, 0), SUNDR_MALFORMED, 40)
		&& is(unreference(5, of_longest), SUNDR_MALFORMED, 40));
	check("a hash of 31 bytes: 2", is(sundr_retrieve(store, STORE, of_longest, 31, out, 0), SUNDR_LENGTH, 0)
		&& is(sundr_unreference(store, STORE, 5, of_longest, 31), SUNDR_LENGTH, 0));
	check("a hash of 33 bytes: 2", is(sundr_retrieve(store, STORE, of_abc, 33, out, MOST), SUNDR_LENGTH, 0)
		&& is(sundr_unreference(store, STORE, 5, of_abc, 33), SUNDR_LENGTH, 0));
	check("no hash: 2", is(sundr_retrieve(store, STORE, NULL, 0, out, MOST), SUNDR_LENGTH, 0)
		&& is(sundr_unreference(store, STORE, 5, NULL, 0), SUNDR_LENGTH, 0));
	check("a store of a byte less: 2", is(sundr_retrieve(store, STORE - 1, of_abc, 32, out, MOST), SUNDR_LENGTH, 0)
		&& is(sundr_unreference(store, STORE - 1, 5, of_abc, 32), SUNDR_LENGTH, 0));
	check("no store: 2", is(sundr_retrieve(NULL, 0, of_abc, 32, out, MOST), SUNDR_LENGTH, 0)
		&& is(sundr_unreference(NULL, 0, 5, of_abc, 32), SUNDR_LENGTH, 0));
	check("unreferencing as user 16: 1", is(sundr_unreference(store, STORE - 1, 16, of_longest, 31), SUNDR_USERS, 0)
		&& is(sundr_unreference(NULL, 0, 255, NULL, 0), SUNDR_USERS, 0));
}

int main(void)
{
	size_t i;

	for (i = 0; i < sizeof longest; i++)
		longest[i] = (uint8_t)(i % 251);
	making();
	layout();
	round_trip("\"abc\"", abc, 3, of_abc);
	round_trip("no bytes", abc, 0, of_no_bytes);
	full_store();
	last_reference();
	every_bit();
	foreign_stores();
	store_refusals();
	hash_refusals();
	return finish();
}
