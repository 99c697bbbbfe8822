/*
 * What the contenders of the choice work on: the wanted block, and another of its length, whose last bit differs. The
 * size, of all that is to be hashed, says how long they are and which is the reply: where it is the wanted one, it
 * alone is hashed, and where the cached part is, both.
 */
#ifndef CHOOSE_PARTS_H
#define CHOOSE_PARTS_H

#include <stdlib.h>
#include <string.h>

#include "sundr.h"
#include "worker.h"

/* The lengths: of an i-table's blocks, and of a file's. */
enum { SHORT = 642, LONG = 8192 };

static uint8_t block[LONG], other[LONG], wanted[32];

/* The reply and the cached part, the length of each, and which of them is the wanted block. */
static const uint8_t *parts[2];
static size_t len, due;

/* A hash of a part, so that contenders can be compared. */
static uint8_t hash[32];

void prepare(size_t size)
{
	size_t i;

	due = size == 2 * SHORT || size == 2 * LONG;
	len = size / (due + 1);
	for (i = 0; i < len; i++)
		block[i] = (uint8_t)(i * 31 + 7);
	memcpy(other, block, len);
	other[len - 1] ^= 1;
	parts[due] = block;
	parts[1 - due] = other;
	sundr_sha256(block, len, wanted, sizeof wanted);
}

#endif
