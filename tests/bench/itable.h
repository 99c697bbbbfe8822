/* The i-table of 4,096 files that contenders work on. */
#ifndef ITABLE_H
#define ITABLE_H

#include <stdlib.h>
#include <string.h>

#include "sundr.h"

/* The files' numbers and handles, and the table's blocks: 256 leaves, 16 blocks of kind 4, and the root. */
static uint64_t numbers[4096];
static uint8_t handles[4096 * 32], blocks[273 * 642], root[32];

static uint64_t write_table(void)
{
	return sundr_table_write(numbers, 4096, handles, sizeof handles, blocks, sizeof blocks);
}

static void fill_table(void)
{
	size_t i;

	for (i = 0; i < 4096; i++) {
		numbers[i] = i * 1000003;
		memset(handles + 32 * i, (int)i, 32);
	}
	if (sundr_first(write_table()) != 273)
		abort();
	sundr_sha256(blocks + 272 * 642, 642, root, sizeof root);
}

/* The path to a file, root first: three blocks. */
static void copy_path(size_t file, uint8_t *path)
{
	memcpy(path, blocks + 272 * 642, 642);
	memcpy(path + 642, blocks + (256 + file / 256) * 642, 642);
	memcpy(path + 2 * 642, blocks + file / 16 * 642, 642);
}

#endif
