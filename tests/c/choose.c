/*
 * A block from the reply or from the cache, through include/sundr.h: parts and hashes that are given, the longest part,
 * each bit of a hash; and from a table's leaf to a file's block, each handed on from where it lies.
 */
#include "sundr.h"

#include <string.h>

#include "check.h"

/* What is lent is constant where it can be: a call that writes to it faults. The hash has room for a byte more. */
static const uint8_t abc[] = {'a', 'b', 'c'}, also_abc[] = {'a', 'b', 'c'}, abd[] = {'a', 'b', 'd'};
static const uint8_t of_abc[33] = {
	0xba, 0x78, 0x16, 0xbf, 0x8f, 0x01, 0xcf, 0xea, 0x41, 0x41, 0x40, 0xde, 0x5d, 0xae, 0x22, 0x23,
	0xb0, 0x03, 0x61, 0xa3, 0x96, 0x17, 0x7a, 0x9c, 0xb4, 0x10, 0xff, 0x61, 0xf2, 0x00, 0x15, 0xad,
};
static const uint8_t of_no_bytes[32] = {
	0xe3, 0xb0, 0xc4, 0x42, 0x98, 0xfc, 0x1c, 0x14, 0x9a, 0xfb, 0xf4, 0xc8, 0x99, 0x6f, 0xb9, 0x24,
	0x27, 0xae, 0x41, 0xe4, 0x64, 0x9b, 0x93, 0x4c, 0xa4, 0x95, 0x99, 0x1b, 0x78, 0x52, 0xb8, 0x55,
};

/* Byte i is i mod 251. The hashes of 65,536 and of 65,537 bytes were found with Python's hashlib. */
static uint8_t most[SUNDR_PART_MAX_LEN + 1];
static const uint8_t of_65536[32] = {
	0x4b, 0x64, 0x0d, 0x85, 0xab, 0x3b, 0xa3, 0x0f, 0xd0, 0x2c, 0x9f, 0xc9, 0xdb, 0x4a, 0x89, 0x28,
	0xf4, 0x16, 0x32, 0x2a, 0xd2, 0x70, 0x22, 0xea, 0x58, 0xa6, 0x5a, 0xae, 0xe6, 0x8a, 0x4d, 0xf2,
};
static const uint8_t of_65537[32] = {
	0x23, 0x73, 0x56, 0xe1, 0x8b, 0x50, 0x36, 0x16, 0x91, 0x2a, 0xbb, 0x8f, 0xfa, 0xed, 0x3a, 0x72,
	0x59, 0x1e, 0x39, 0x7d, 0x4a, 0xc2, 0x94, 0xc4, 0x63, 0x79, 0x17, 0xd4, 0x8a, 0x3f, 0x52, 0x9d,
};

/* The answer of this number, 0 if accepted, and these two results or positions. */
static uint64_t answer_of(enum sundr_refusal_number number, uint32_t first, size_t second)
{
	return (uint64_t)second << 32 | (uint64_t)first << 8 | (uint64_t)number;
}

/* What a call is given, and what is due: a part, or a refusal. */
enum due { REPLY, CACHED, LENGTH, WRONG_HASH };
struct request {
	const char *name;
	const uint8_t *wanted;
	size_t wanted_len;
	const uint8_t *reply;
	size_t reply_len;
	const uint8_t *cached;
	size_t cached_len;
	enum due due;
};

/* Whether the answer is the one that is due, and what is handed back is the part itself, or nothing of the reply. */
static int hands_back(const struct request *r)
{
	static const enum sundr_refusal_number number[] = {SUNDR_ACCEPTED, SUNDR_ACCEPTED, SUNDR_LENGTH, SUNDR_WRONG_HASH};
	uint64_t answer = sundr_block_choose(r->wanted, r->wanted_len, r->reply, r->reply_len, r->cached, r->cached_len);
	const uint8_t *at = r->due == CACHED ? r->cached : r->reply;
	size_t len = r->due == REPLY ? r->reply_len : r->due == CACHED ? r->cached_len : 0;

	if (answer == answer_of(number[r->due], r->due == CACHED, len)
		&& sundr_chosen(answer, r->reply, r->cached) == at && sundr_chosen_len(answer) == len)
		return 1;
	printf("%#llx\n", (unsigned long long)answer);
	return 0;
}

static void given_parts(void)
{
	static const struct request given[] = {
		{"the reply is \"abc\", by FIPS 180-4", of_abc, 32, abc, 3, abd, 3, REPLY},
		{"the reply is \"abc\", nothing is cached", of_abc, 32, abc, 3, NULL, 0, REPLY},
		{"the cached part is \"abc\"", of_abc, 32, abd, 3, abc, 3, CACHED},
		{"the cached part is \"abc\", there is no reply", of_abc, 32, NULL, 0, abc, 3, CACHED},
		{"both are: the reply is handed back", of_abc, 32, abc, 3, also_abc, 3, REPLY},
		{"both are: the reply, the other way round", of_abc, 32, also_abc, 3, abc, 3, REPLY},
		{"both are, at one pointer", of_abc, 32, abc, 3, abc, 3, REPLY},
		{"at one pointer, the reply is a byte short", of_abc, 32, abc, 2, abc, 3, CACHED},
		{"at one pointer, the cached part is a byte short", of_abc, 32, abc, 3, abc, 2, REPLY},
		{"neither is", of_abc, 32, abd, 3, abc, 2, WRONG_HASH},
		{"there is no reply, and nothing is cached", of_abc, 32, NULL, 0, NULL, 0, WRONG_HASH},
		{"the hash of no bytes, and there are none", of_no_bytes, 32, NULL, 0, NULL, 0, WRONG_HASH},
		{"the hash of no bytes, of which two pointers are lent", of_no_bytes, 32, abc, 0, abd, 0, WRONG_HASH},
		{"the hash of no bytes, and a reply", of_no_bytes, 32, abc, 3, NULL, 0, WRONG_HASH},
		{"the hash of no bytes, and a cached part", of_no_bytes, 32, NULL, 0, abc, 3, WRONG_HASH},
		{"the reply is the wanted hash itself", of_abc, 32, of_abc, 32, NULL, 0, WRONG_HASH},
		{"the same, and the cached part is \"abc\"", of_abc, 32, of_abc, 32, abc, 3, CACHED},
		{"no wanted hash", NULL, 0, abc, 3, abc, 3, LENGTH},
		{"a wanted hash of 31 bytes", of_abc, 31, abc, 3, abc, 3, LENGTH},
		{"a wanted hash of 33 bytes", of_abc, 33, abc, 3, abc, 3, LENGTH},
		{"a wanted hash of 31 bytes, and neither part", of_abc, 31, NULL, 0, NULL, 0, LENGTH},
	};
	size_t i;

	for (i = 0; i < sizeof given / sizeof given[0]; i++)
		check(given[i].name, hands_back(&given[i]));
}

static void longest_part(void)
{
	static const struct request given[] = {
		{"a reply of 65,536 bytes", of_65536, 32, most, 65536, NULL, 0, REPLY},
		{"a cached part of 65,536 bytes", of_65536, 32, NULL, 0, most, 65536, CACHED},
		{"both of 65,536 bytes, the reply a byte off", of_65536, 32, most + 1, 65536, most, 65536, CACHED},
		{"65,535 bytes of it are not it", of_65536, 32, most, 65535, most, 65535, WRONG_HASH},
		{"a reply of 65,537 bytes", of_65537, 32, most, 65537, NULL, 0, LENGTH},
		{"a cached part of 65,537 bytes", of_65537, 32, NULL, 0, most, 65537, LENGTH},
		{"a reply of 65,537 bytes, of which 65,536 are it", of_65536, 32, most, 65537, most, 65536, LENGTH},
		{"a cached part of 65,537 bytes, though the reply is it", of_65536, 32, most, 65536, most, 65537, LENGTH},
		{"the same, and the reply is \"abc\"", of_abc, 32, abc, 3, most, 65537, LENGTH},
		{"a reply of 65,537 bytes, and \"abc\" is cached", of_abc, 32, most, 65537, abc, 3, LENGTH},
	};
	size_t i;

	for (i = 0; i < sizeof most; i++)
		most[i] = (uint8_t)(i % 251);
	for (i = 0; i < sizeof given / sizeof given[0]; i++)
		check(given[i].name, hands_back(&given[i]));
}

/* A wanted hash of which one bit is another is that of no part. */
static void every_bit(void)
{
	uint8_t wanted[32];
	const struct request given = {NULL, wanted, 32, abc, 3, also_abc, 3, WRONG_HASH};
	int bit, holds = 1;

	memcpy(wanted, of_abc, sizeof wanted);
	for (bit = 0; bit < 256; bit++) {
		wanted[bit / 8] ^= (uint8_t)(1 << bit % 8);
		holds = hands_back(&given) && holds;
		wanted[bit / 8] ^= (uint8_t)(1 << bit % 8);
	}
	check("each bit of the wanted hash counts", holds);
}

/* A file of one byte, and a table of seventeen files, of which it is the last, the only one in its leaf. */
static uint8_t block[1] = {'x'}, inode[SUNDR_INODE_LEN] = {6, 0, 0, 0, 1}, handles[17 * 32];
static uint8_t blocks[3 * SUNDR_TABLE_BLOCK_LEN];

/* File i has the number 5 * i + 3, and the last one 83. */
static void write_table(void)
{
	uint64_t numbers[17];
	size_t i;

	sundr_sha256(block, sizeof block, inode + 5, 32);
	sundr_sha256(inode, sizeof inode, handles + 32 * 16, 32);
	for (i = 0; i < 17; i++)
		numbers[i] = 5 * i + 3;
	sundr_table_write(numbers, 17, handles, sizeof handles, blocks, sizeof blocks);
}

/* The hash of a block, what was chosen under it, and where that lies. */
static uint8_t hash[32], found[32];
static uint64_t chosen;
static const uint8_t *chosen_at;

/* Asks for a block of the table, which is the reply or cached; the other part is another block of it. */
static void choose_block(int place, enum due from)
{
	const uint8_t *right = blocks + place * SUNDR_TABLE_BLOCK_LEN, *wrong = blocks;
	const uint8_t *reply = from == REPLY ? right : wrong, *cached = from == REPLY ? wrong : right;

	sundr_sha256(right, SUNDR_TABLE_BLOCK_LEN, hash, sizeof hash);
	chosen = sundr_block_choose(hash, sizeof hash, reply, SUNDR_TABLE_BLOCK_LEN, cached, SUNDR_TABLE_BLOCK_LEN);
	chosen_at = sundr_chosen(chosen, reply, cached);
}

/* A lookup along what was chosen, under the same hash. */
static uint64_t look_up(uint64_t number)
{
	memset(found, 0x5a, sizeof found);
	return sundr_lookup(hash, sizeof hash, number, chosen_at, sundr_chosen_len(chosen), found, sizeof found);
}

static int is_found(void)
{
	return look_up(83) == answer_of(SUNDR_ACCEPTED, 1, 0) && memcmp(found, handles + 32 * 16, 32) == 0;
}

/* 02, request a: a table's block that is handed back is a path of one block, and its hash is the wanted one. */
static void handed_on(void)
{
	write_table();
	choose_block(1, REPLY);
	check("a leaf from the reply: the file is found", chosen_at == blocks + SUNDR_TABLE_BLOCK_LEN && is_found());
	check("a leaf from the reply: the number below is absent", look_up(82) == answer_of(SUNDR_ACCEPTED, 0, 0));
	choose_block(2, REPLY);
	check("a block above leaves: one more is needed", look_up(83) == answer_of(SUNDR_PATH_LENGTH, 1, 0));
	check("a block above leaves: no file is below its first", look_up(2) == answer_of(SUNDR_ACCEPTED, 0, 0));
	choose_block(1, CACHED);
	check("a leaf from the cache: the file is found", chosen_at == blocks + SUNDR_TABLE_BLOCK_LEN && is_found());

	chosen = sundr_block_choose(found, sizeof found, block, sizeof block, inode, sizeof inode);
	check("the inode that the file's handle names, from the cache",
		chosen == answer_of(SUNDR_ACCEPTED, 1, sizeof inode));
	chosen_at = sundr_chosen(chosen, block, inode);
	chosen = sundr_block_choose(chosen_at + 5, 32, block, sizeof block, inode, sizeof inode);
	check("the file's block, by that inode, from the reply", chosen == answer_of(SUNDR_ACCEPTED, 0, sizeof block)
		&& sundr_block_check(found, sizeof found, chosen_at, sizeof inode, 0, sundr_chosen(chosen, block, inode),
			sundr_chosen_len(chosen)) == answer_of(SUNDR_ACCEPTED, 0, sizeof block));

	sundr_sha256(blocks, 2 * SUNDR_TABLE_BLOCK_LEN, hash, sizeof hash);
	chosen = sundr_block_choose(hash, sizeof hash, NULL, 0, blocks, 2 * SUNDR_TABLE_BLOCK_LEN);
	chosen_at = sundr_chosen(chosen, NULL, blocks);
	check("two blocks are handed back", chosen == answer_of(SUNDR_ACCEPTED, 1, 2 * SUNDR_TABLE_BLOCK_LEN));
	check("two blocks are no path under their hash", look_up(83) == answer_of(SUNDR_WRONG_HASH, 0, 0));

	blocks[2 * SUNDR_TABLE_BLOCK_LEN - 1] = 1;
	choose_block(1, CACHED);
	check("a leaf that is not well formed", look_up(83) == answer_of(SUNDR_MALFORMED, 0, 0));
	hash[0] ^= 1;
	chosen = sundr_block_choose(hash, sizeof hash, blocks, SUNDR_TABLE_BLOCK_LEN, NULL, 0);
	chosen_at = sundr_chosen(chosen, blocks, NULL);
	check("after a refusal there is no path", chosen == answer_of(SUNDR_WRONG_HASH, 0, 0)
		&& look_up(83) == answer_of(SUNDR_LENGTH, 0, 0));
}

int main(void)
{
	check("the longest part is of 65,536 bytes", SUNDR_PART_MAX_LEN == 65536);
	given_parts();
	longest_part();
	every_bit();
	handed_on();
	return finish();
}
