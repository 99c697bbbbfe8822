/*
 * Which blocks of a table make a file's path: the rule in the header's comment on sundr_table_write(), for every file of
 * tables of one, two and three levels, and for numbers that no file has.
 */
#include "sundr.h"

#include <string.h>

#include "bytes.h"
#include "check.h"

static uint64_t numbers[SUNDR_TABLE_MAX_FILES];
static uint8_t handles[SUNDR_TABLE_MAX_FILES * 32];
static uint8_t blocks[SUNDR_TABLE_MAX_BLOCKS * SUNDR_TABLE_BLOCK_LEN];
static uint8_t i_handle[SUNDR_HANDLE_LEN];

/* File j has a handle that no other has, and a number about 2 ^ 52 above the one before: the last ones are above 2 ^ 63. */
static void fill(void)
{
	uint32_t j;

	for (j = 0; j < SUNDR_TABLE_MAX_FILES; j++) {
		numbers[j] = 7 + j * UINT64_C(0xfffffffffffff);
		memset(handles + 32 * j, 0x5a, 32);
		put(handles + 32 * j, j);
	}
}

/* The rule: the path of file j of so many, root first, as numbers of blocks. How many there are is the result. */
static int path_of(size_t count, size_t j, size_t path[SUNDR_PATH_MAX_BLOCKS])
{
	size_t L = count == 0 ? 1 : (count + 15) / 16, F = (L + 15) / 16;

	if (L == 1) {
		path[0] = 0;
		return 1;
	}
	if (F == 1) {
		path[0] = L;
		path[1] = j / 16;
		return 2;
	}
	path[0] = L + F;
	path[1] = L + j / 256;
	path[2] = j / 16;
	return 3;
}

/* The lookup of a number along the first blocks of a path. */
static uint64_t look_up(uint64_t number, const size_t *path, int path_blocks, uint8_t found[32])
{
	uint8_t bytes[SUNDR_PATH_MAX_BLOCKS * SUNDR_TABLE_BLOCK_LEN];
	int i;

	for (i = 0; i < path_blocks; i++)
		memcpy(bytes + i * SUNDR_TABLE_BLOCK_LEN, blocks + path[i] * SUNDR_TABLE_BLOCK_LEN, SUNDR_TABLE_BLOCK_LEN);
	return sundr_lookup(i_handle, sizeof i_handle, number, bytes, (size_t)path_blocks * SUNDR_TABLE_BLOCK_LEN, found, 32);
}

/* Whether a lookup is accepted and says absent. */
static int is_absent(uint64_t number, const size_t *path, int path_blocks)
{
	uint8_t found[32];

	return look_up(number, path, path_blocks, found) == SUNDR_ACCEPTED;
}

/* Whether file j is found along its path, and the numbers next to it, up to the next file's, are absent along it. */
static int answers(size_t count, size_t j)
{
	uint64_t last = j + 1 < count ? numbers[j + 1] - 1 : UINT64_MAX;
	size_t path[SUNDR_PATH_MAX_BLOCKS];
	int path_blocks = path_of(count, j, path);
	uint8_t found[32];
	uint64_t answer = look_up(numbers[j], path, path_blocks, found);

	if (answer != (uint64_t)1 << 8 || memcmp(found, handles + 32 * j, 32) != 0) {
		printf("file %zu of %zu is not found: %#llx\n", j, count, (unsigned long long)answer);
		return 0;
	}
	if (!is_absent(numbers[j] + 1, path, path_blocks) || !is_absent(last, path, path_blocks)) {
		printf("file %zu of %zu: a number after it is not absent\n", j, count);
		return 0;
	}
	return 1;
}

/* Writes the table of so many files. Whether it has as many blocks as the rule counts, and the root is the last. */
static int writes(size_t count)
{
	uint64_t answer = sundr_table_write(numbers, count, handles, 32 * count, blocks, sizeof blocks);
	size_t path[SUNDR_PATH_MAX_BLOCKS];

	path_of(count, 0, path);
	if (sundr_refusal(answer) != SUNDR_ACCEPTED || sundr_first(answer) != path[0] + 1)
		return 0;
	sundr_sha256(blocks + path[0] * SUNDR_TABLE_BLOCK_LEN, SUNDR_TABLE_BLOCK_LEN, i_handle, sizeof i_handle);
	return 1;
}

static void table(size_t count)
{
	size_t path[SUNDR_PATH_MAX_BLOCKS], j;
	char name[64];
	int holds = 1;

	sprintf(name, "%zu files: the root is the last block", count);
	check(name, writes(count));
	if (count > 0) {
		for (j = 0; j < count; j++)
			holds = answers(count, j) && holds;
		sprintf(name, "%zu files: each is found along its path", count);
		check(name, holds);
	}
	path_of(count, 0, path);
	sprintf(name, "%zu files: a number below them is absent at the root", count);
	check(name, is_absent(0, path, 1) && is_absent(numbers[0] - 1, path, 1));
}

int main(void)
{
	static const size_t counts[] = {0, 1, 2, 15, 16, 17, 255, 256, 257, 272, 273, 300, 4095, 4096};
	size_t i;

	fill();
	for (i = 0; i < sizeof counts / sizeof counts[0]; i++)
		table(counts[i]);
	return finish();
}
