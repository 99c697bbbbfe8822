/*
 * What the contenders of a block store's calls work on: a store whose lowest places hold a block each, all of one length
 * and no two alike, and whose other places are free. The size, of all that is to be hashed, says how many there are and
 * how long: each held place is hashed once, for the wanted block is in the last of them, and for a store the block to be
 * stored once more. Where the size is 0, no place is held, and the wanted block is nowhere.
 */
#ifndef STORE_WORK_H
#define STORE_WORK_H

#include <stdlib.h>
#include <string.h>

#include "sundr.h"
#include "worker.h"

/* The lengths of the blocks, a place's bytes before its block, and the user who counts each of them. */
enum { SHORT = 100, LONG = 8192, HEAD = 2 + 16 * 2, USER = 5 };

static uint8_t store[64][HEAD + LONG];

/* The held places, the length of their blocks, and how often the user counts each. */
static size_t held, len;
static unsigned counted;

/* The wanted block, and its hash. */
static uint8_t block[LONG], wanted[32];

/* A hash of a block, so that contenders can be compared. */
static uint8_t hash[32];

static void put_two(uint8_t *at, unsigned number)
{
	at[0] = (uint8_t)(number >> 8);
	at[1] = (uint8_t)number;
}

static unsigned count_at(size_t p)
{
	const uint8_t *at = store[p] + 2 + 2 * USER;

	return (unsigned)at[0] << 8 | at[1];
}

/* The bytes of block p: the first one tells it from the others. */
static void write_block(size_t p, uint8_t *at)
{
	size_t i;

	for (i = 0; i < len; i++)
		at[i] = (uint8_t)(i * 31 + 7);
	at[0] = (uint8_t)p;
}

/* A store as it is when its blocks have been stored; of the size, so many blocks are not held. */
static void fill(size_t size, size_t not_held, unsigned count)
{
	size_t p;

	len = size % LONG == 0 ? LONG : SHORT;
	held = size / len - not_held;
	counted = count;
	memset(store, 0, sizeof store);
	for (p = 0; p < held; p++) {
		put_two(store[p], (unsigned)len);
		put_two(store[p] + 2 + 2 * USER, count);
		write_block(p, store[p] + HEAD);
	}
	write_block(held - 1, block);
	sundr_sha256(block, len, wanted, sizeof wanted);
}

/* Hashes each held block, the wanted one last. */
static inline void hash_held(void)
{
	size_t p;

	for (p = 0; p < held; p++)
		sundr_sha256(store[p] + HEAD, len, hash, sizeof hash);
}

/* The block of the one place that the user counts otherwise than before. */
static inline const uint8_t *recounted(void)
{
	size_t p = 0;

	while (p < held && count_at(p) == counted)
		p++;
	if (p == held)
		abort();
	return store[p] + HEAD;
}

/* The hash of a block, as the result. */
static inline size_t hash_of(const uint8_t *bytes, const uint8_t **result)
{
	sundr_sha256(bytes, len, hash, sizeof hash);
	*result = hash;
	return sizeof hash;
}

#endif
