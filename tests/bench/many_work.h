/*
 * What the contenders of many lookups in one call work on: a table's files, in the order asked, each along a path of
 * three blocks. The size, of all that is to be hashed, says which files: a block is to be hashed unless it is, byte for
 * byte, the block at the same depth of the question before.
 */
#ifndef MANY_WORK_H
#define MANY_WORK_H

#include "itable.h"
#include "worker.h"

/* Roots, blocks of kind 4 and leaves. */
enum {
	ONE = (1 + 1 + 1) * 642,
	NEIGHBOURS = (1 + 2 + 5) * 642,
	SPREAD = (1 + 16 + 64) * 642,
	RANDOM = (1 + 61 + 64) * 642,
	UNLIKE = (1 + 64 + 64) * 642
};

/* The questions, each path's number of blocks and the paths, and the answers, as the table itself has them. */
static size_t questions;
static uint64_t asked[64];
static uint8_t counts[64], paths[64 * 3 * 642], due[64 * 33];

/* The blocks to be hashed. */
static const uint8_t *message[64 * 3];
static size_t messages;

/* The file that question q asks for. */
static size_t file_asked(size_t size, size_t q)
{
	static uint64_t drawn;

	if (q == 0)
		drawn = 1;
	switch (size) {
	case NEIGHBOURS: /* across the middle of the table, from the middle of a leaf on */
		return 2024 + q;
	case SPREAD:
		return 64 * q;
	case RANDOM: /* by Knuth's generator, modulo 2^64 */
		drawn = drawn * 6364136223846793005 + 1442695040888963407;
		return drawn >> 52;
	case UNLIKE: /* from one block of kind 4 to the next, and a leaf further at each turn */
		return 256 * (q % 16) + 16 * (q / 16);
	default:
		return 4095;
	}
}

static void ask(size_t q, size_t file)
{
	uint8_t *path = paths + 3 * 642 * q;
	size_t depth;

	asked[q] = numbers[file];
	counts[q] = 3;
	copy_path(file, path);
	for (depth = 0; depth < 3; depth++, path += 642)
		if (q == 0 || memcmp(path, path - 3 * 642, 642) != 0)
			message[messages++] = path;
	due[33 * q] = 1;
	memcpy(due + 33 * q + 1, handles + 32 * file, 32);
}

void prepare(size_t size)
{
	size_t q;

	fill_table();
	questions = size == ONE ? 1 : 64;
	messages = 0;
	for (q = 0; q < questions; q++)
		ask(q, file_asked(size, q));
	if (642 * messages != size)
		abort();
}

#endif
