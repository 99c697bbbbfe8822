/* The i-table and the check of a file's block, through include/sundr.h: P11, P12, vectors, bounds, and a session. */
#include "sundr.h"

#include <string.h>

#include "bytes.h"
#include "check.h"

#define ROOM (SUNDR_TABLE_MAX_BLOCKS * SUNDR_TABLE_BLOCK_LEN)

static uint64_t numbers[SUNDR_TABLE_MAX_FILES + 1];
static uint8_t handles[(SUNDR_TABLE_MAX_FILES + 1) * 32];
static uint8_t blocks[ROOM + 32];

/* File i has the number 5 * i + 3 and the handle of 32 bytes i mod 251. */
static void fill_table(void)
{
	size_t i;

	for (i = 0; i <= SUNDR_TABLE_MAX_FILES; i++) {
		numbers[i] = 5 * i + 3;
		memset(handles + 32 * i, (int)(i % 251), 32);
	}
}

static uint64_t accepted(uint32_t first, uint32_t second)
{
	return (uint64_t)second << 32 | (uint64_t)first << 8;
}

static int refused(uint64_t answer, enum sundr_refusal_number number, uint32_t first)
{
	return sundr_refusal(answer) == number && sundr_first(answer) == first && sundr_second(answer) == 0;
}

static int is_hash_of(const uint8_t *message, size_t len, const char *due)
{
	uint8_t hash[32];

	sundr_sha256(message, len, hash, sizeof hash);
	return is_hash(hash, len, due);
}

static int all(const uint8_t *bytes, size_t len, uint8_t value)
{
	while (len > 0 && bytes[len - 1] == value)
		len--;
	return len == 0;
}

/* Whether a table of so many files takes so many blocks, with room to spare, just so, and a byte short. */
static int takes(size_t files, uint32_t due)
{
	size_t room = (size_t)due * SUNDR_TABLE_BLOCK_LEN;
	int holds;

	memset(blocks, 0x5a, sizeof blocks);
	holds = refused(sundr_table_write(numbers, files, handles, 32 * files, blocks, room - 1), SUNDR_NO_ROOM, 0);
	holds = holds && all(blocks, sizeof blocks, 0x5a);
	holds = holds && sundr_table_write(numbers, files, handles, 32 * files, blocks, room) == accepted(due, 0);
	holds = holds && sundr_table_write(numbers, files, handles, 32 * files, blocks, sizeof blocks) == accepted(due, 0);
	return holds && all(blocks + room, sizeof blocks - room, 0x5a);
}

static void p11(void)
{
	check("P11: no files take 1 block", takes(0, 1));
	check("P11: 16 files take 1 block", takes(16, 1));
	check("P11: 17 files take 3 blocks", takes(17, 3));
	check("P11: 256 files take 17 blocks", takes(256, 17));
	check("P11: 257 files take 20 blocks", takes(257, 20));
	check("P11: 4,096 files take 273 blocks", takes(4096, 273));
	check("4,097 files are refused", refused(sundr_table_write(numbers, 4097, handles, sizeof handles,
		blocks, sizeof blocks), SUNDR_LENGTH, 0));
	check("a byte of a handle missing is refused", refused(sundr_table_write(numbers, 17, handles, 32 * 17 - 1,
		blocks, sizeof blocks), SUNDR_LENGTH, 0));
	check("no files at NULL", sundr_table_write(NULL, 0, NULL, 0, blocks, sizeof blocks) == accepted(1, 0));
}

static uint8_t file[SUNDR_FILE_MAX_LEN], inode[SUNDR_INODE_LEN], file_handle[32];

/* The inode and the handle of the file of this length. */
static void store_file(size_t len)
{
	size_t at, i;

	for (i = 0; i < len; i++)
		file[i] = (uint8_t)(i % 251);
	memset(inode, 0, sizeof inode);
	inode[0] = 6;
	put(inode + 1, (uint32_t)len);
	for (at = 0, i = 0; at < len; at += SUNDR_FILE_BLOCK_LEN, i++)
		sundr_sha256(file + at, len - at < SUNDR_FILE_BLOCK_LEN ? len - at : SUNDR_FILE_BLOCK_LEN,
			inode + 5 + 32 * i, 32);
	sundr_sha256(inode, sizeof inode, file_handle, sizeof file_handle);
}

static uint64_t check_block(uint32_t index, size_t len)
{
	return sundr_block_check(file_handle, sizeof file_handle, inode, sizeof inode, index,
		file + (size_t)SUNDR_FILE_BLOCK_LEN * (index % 16), len);
}

/* Whether a file of this length has so many blocks, each accepted at its offset, and no more. */
static int has(size_t len, uint32_t due)
{
	uint32_t i;

	store_file(len);
	for (i = 0; i < due; i++) {
		size_t offset = (size_t)SUNDR_FILE_BLOCK_LEN * i;
		size_t rest = i + 1 < due ? SUNDR_FILE_BLOCK_LEN : len - offset;

		if (check_block(i, rest) != accepted((uint32_t)offset, (uint32_t)rest))
			return 0;
		if (!refused(check_block(i, rest - 1), SUNDR_LENGTH, 1))
			return 0;
	}
	return refused(check_block(due, 1), SUNDR_NO_BLOCK, 0) && refused(check_block(UINT32_MAX, 1), SUNDR_NO_BLOCK, 0);
}

static void p12(void)
{
	check("P12: a file of no bytes has no blocks", has(0, 0));
	check("P12: a file of 1 byte has 1 block", has(1, 1));
	check("P12: a file of 8,192 bytes has 1 block", has(8192, 1));
	check("P12: a file of 8,193 bytes has 2 blocks", has(8193, 2));
	check("P12: a file of 131,072 bytes has 16 blocks", has(131072, 16));
}

/* i-handles and file handles that were found with Python's hashlib, from the layouts. */
static void vectors(void)
{
	static const struct {
		size_t files;
		const char *name, *hash;
	} table[] = {
		{0, "i-handle of no files",
			"98e76a9f43998746798b203cab7d08cb9fba013478d02bd852a202a9271a79a4"},
		{1, "i-handle of 1 file",
			"cebfce3761b337fa43e38287e5c8d879146c650f75e06c5e1d2929a2b0a85e3b"},
		{16, "i-handle of 16 files",
			"4a6e7150c0971c97f63c416a4345e50567f0223d55113fc9295f5b709e1af62c"},
		{17, "i-handle of 17 files",
			"ad676364223cc8c1f44c8c6b103d42a65bab3416de87d5c5022234e500d659a3"},
		{256, "i-handle of 256 files",
			"ca3bfe2820ccb0ebb797dee3eed8deca9652a1e30220aba990efafcc000f9d3f"},
		{257, "i-handle of 257 files",
			"191092599af17fbc271e171688130cb4c8a0a7b86f017f384a211ab6be0edd62"},
		{4096, "i-handle of 4,096 files",
			"aab151a035a76dbcb0de80440184652b5857de4958b3ee85120b9c7e90cb7839"},
	};
	size_t i;

	for (i = 0; i < sizeof table / sizeof table[0]; i++) {
		uint64_t answer = sundr_table_write(numbers, table[i].files, handles, 32 * table[i].files, blocks, ROOM);
		size_t root_at = (sundr_first(answer) - 1) * (size_t)SUNDR_TABLE_BLOCK_LEN;

		check(table[i].name, sundr_refusal(answer) == SUNDR_ACCEPTED && root_at < ROOM
			&& is_hash_of(blocks + root_at, SUNDR_TABLE_BLOCK_LEN, table[i].hash));
	}
	store_file(8193);
	check("file handle of 8,193 bytes", is_hash_of(inode, sizeof inode,
		"865bee01fb3b5350f79bffd6693a94506b32f7191a3a435e26ccb2b25defe5fa"));
	store_file(131072);
	check("file handle of 131,072 bytes", is_hash_of(inode, sizeof inode,
		"38cbd5db50c1e3c8f2fe266f92e18e6757928933f7a5fad57898f1dc003dacf2"));
}

static uint8_t path[3 * SUNDR_TABLE_BLOCK_LEN], root[32], found[32];

static uint64_t look_up(uint64_t number, size_t path_blocks)
{
	memset(found, 0x5a, sizeof found);
	return sundr_lookup(root, sizeof root, number, path, path_blocks * SUNDR_TABLE_BLOCK_LEN, found, sizeof found);
}

static void take_block(size_t to, size_t from)
{
	memcpy(path + to * SUNDR_TABLE_BLOCK_LEN, blocks + from * SUNDR_TABLE_BLOCK_LEN, SUNDR_TABLE_BLOCK_LEN);
}

/* A table of 4,096 files is written; a file is looked up in it; a block of that file is checked. */
static void session(void)
{
	const size_t place = 1000;
	uint64_t number = numbers[place];

	store_file(20000);
	memcpy(handles + 32 * place, file_handle, 32);
	check("session: the table is written", sundr_table_write(numbers, 4096, handles, 32 * 4096, blocks, ROOM)
		== accepted(273, 0));
	sundr_sha256(blocks + 272 * SUNDR_TABLE_BLOCK_LEN, SUNDR_TABLE_BLOCK_LEN, root, sizeof root);
	take_block(0, 272);
	take_block(1, 256 + place / 256);
	take_block(2, place / 16);
	check("session: the file is found", look_up(number, 3) == accepted(1, 0) && memcmp(found, file_handle, 32) == 0);
	check("session: the number above is absent", look_up(number + 1, 3) == accepted(0, 0) && all(found, 32, 0x5a));
	check("session: below the first number the root alone answers", look_up(2, 1) == accepted(0, 0));
	check("session: blocks left over", refused(look_up(2, 3), SUNDR_PATH_LENGTH, 1));
	check("session: blocks missing", refused(look_up(number, 1), SUNDR_PATH_LENGTH, 1)
		&& refused(look_up(number, 2), SUNDR_PATH_LENGTH, 2));
	check("session: no blocks", refused(look_up(number, 0), SUNDR_LENGTH, 0));
	check("session: another file's leaf", refused(look_up(numbers[place + 16], 3), SUNDR_WRONG_HASH, 2)
		&& all(found, 32, 0x5a));
	path[2 * SUNDR_TABLE_BLOCK_LEN + 641] ^= 1;
	check("session: a bit of the leaf", refused(look_up(number, 3), SUNDR_WRONG_HASH, 2));
	path[0] ^= 1;
	check("session: a bit of the root", refused(look_up(number, 3), SUNDR_WRONG_HASH, 0));
	check("session: the file's last block", check_block(2, 20000 - 16384) == accepted(16384, 20000 - 16384));
	file[16384] ^= 1;
	check("session: a bit of the block", refused(check_block(2, 20000 - 16384), SUNDR_WRONG_HASH, 1));
	check("session: a padded block", refused(check_block(2, 8192), SUNDR_LENGTH, 1));
	inode[516] ^= 1;
	check("session: a bit of the inode", refused(check_block(2, 20000 - 16384), SUNDR_WRONG_HASH, 0));
	sundr_sha256(inode, sizeof inode, file_handle, sizeof file_handle);
	check("session: a hash beyond the last block", refused(check_block(2, 20000 - 16384), SUNDR_MALFORMED, 0));
}

/* The next slot of a block: a number, big-endian, and a handle or a hash. */
static void add_slot(uint8_t *block, uint64_t number, const uint8_t value[32])
{
	uint8_t *slot = block + 2 + 40 * block[1]++;

	put(slot, (uint32_t)(number >> 32));
	put(slot + 4, (uint32_t)number);
	memcpy(slot + 8, value, 32);
}

static uint8_t neighbour[SUNDR_TABLE_BLOCK_LEN];

/* A path under fitting hashes to a leaf of the file 7 and another; a neighbour, if there is one, holds 20 alone. */
static void forge(uint64_t other, int has_neighbour)
{
	uint8_t *leaf = path + SUNDR_TABLE_BLOCK_LEN, hash[32];

	memset(path, 0, sizeof path);
	memset(neighbour, 0, sizeof neighbour);
	path[0] = 4;
	leaf[0] = neighbour[0] = 3;
	add_slot(leaf, 7, handles + 32 * 1);
	add_slot(leaf, other, handles + 32 * 2);
	sundr_sha256(leaf, SUNDR_TABLE_BLOCK_LEN, hash, sizeof hash);
	add_slot(path, 7, hash);
	add_slot(neighbour, 20, handles + 32 * 3);
	sundr_sha256(neighbour, SUNDR_TABLE_BLOCK_LEN, hash, sizeof hash);
	if (has_neighbour)
		add_slot(path, 20, hash);
	sundr_sha256(path, SUNDR_TABLE_BLOCK_LEN, root, sizeof root);
}

/* 02, request c: a leaf that holds numbers of its neighbour is refused, and what an accepted one holds is found. */
static void bounds(void)
{
	forge(20, 1);
	check("bounds: a leaf with its neighbour's first number is refused", refused(look_up(7, 2), SUNDR_MALFORMED, 1)
		&& refused(look_up(8, 2), SUNDR_MALFORMED, 1) && all(found, 32, 0x5a));
	forge(21, 1);
	check("bounds: with one more it is refused", refused(look_up(7, 2), SUNDR_MALFORMED, 1));
	forge(19, 1);
	check("bounds: with one less both files are found", look_up(19, 2) == accepted(1, 0) && all(found, 32, 2)
		&& look_up(7, 2) == accepted(1, 0) && all(found, 32, 1));
	forge(25, 1);
	check("bounds: a leaf with a file that its neighbour denies is refused", refused(look_up(7, 2), SUNDR_MALFORMED, 1)
		&& refused(look_up(25, 2), SUNDR_WRONG_HASH, 1));
	memcpy(path + SUNDR_TABLE_BLOCK_LEN, neighbour, sizeof neighbour);
	check("bounds: and the neighbour denies it", look_up(25, 2) == accepted(0, 0) && all(found, 32, 0x5a)
		&& look_up(20, 2) == accepted(1, 0) && all(found, 32, 3));
	forge(UINT64_MAX, 0);
	check("bounds: 2^64 - 1 is found in the last leaf", look_up(UINT64_MAX, 2) == accepted(1, 0) && all(found, 32, 2));
	forge(UINT64_MAX, 1);
	check("bounds: in another leaf 2^64 - 1 is refused", refused(look_up(7, 2), SUNDR_MALFORMED, 1));
}

/* The first bytes of a table of 17 files, spelt out; and numbers that do not ascend. */
static void layout(void)
{
	static const uint8_t first_leaf[] = {3, 16, 0, 0, 0, 0, 0, 0, 0, 3}, second_leaf[] = {3, 1, 0, 0, 0, 0, 0, 0, 0, 83};
	static const uint8_t above[] = {4, 2, 0, 0, 0, 0, 0, 0, 0, 3};
	const uint8_t *second = blocks + SUNDR_TABLE_BLOCK_LEN, *third = second + SUNDR_TABLE_BLOCK_LEN;
	uint8_t hash[32];

	memset(blocks, 0x5a, sizeof blocks);
	sundr_table_write(numbers, 17, handles, 32 * 17, blocks, sizeof blocks);
	check("layout: the first leaf", memcmp(blocks, first_leaf, 10) == 0 && all(blocks + 10, 32, 0));
	check("layout: the second leaf", memcmp(second, second_leaf, 10) == 0 && all(second + 10, 32, 16)
		&& all(second + 42, 600, 0));
	sundr_sha256(second, SUNDR_TABLE_BLOCK_LEN, hash, sizeof hash);
	check("layout: the block above", memcmp(third, above, 10) == 0 && third[49] == 83
		&& memcmp(third + 50, hash, 32) == 0 && all(third + 82, 560, 0));
	numbers[9] = numbers[8];
	check("an equal number is refused", refused(sundr_table_write(numbers, 17, handles, 32 * 17, blocks, 0),
		SUNDR_NOT_ASCENDING, 9));
	numbers[8] = UINT64_MAX;
	check("2^64 - 1 is above", refused(sundr_table_write(numbers, 17, handles, 32 * 17, blocks, 0),
		SUNDR_NOT_ASCENDING, 9));
	numbers[9] = 5 * 9 + 3;
	numbers[8] = 5 * 8 + 3;
}

int main(void)
{
	fill_table();
	p11();
	p12();
	vectors();
	layout();
	bounds();
	session();
	return finish();
}
