/* The message that every contender of SHA-256 hashes, and the place for its hash. */
#ifndef SHA256_MESSAGE_H
#define SHA256_MESSAGE_H

#include "worker.h"

static uint8_t message[65536], hash[32];
static size_t message_len;

static void fill(size_t size)
{
	size_t i;

	message_len = size;
	for (i = 0; i < size; i++)
		message[i] = (uint8_t)(i * 31 + 7);
}

size_t result(const uint8_t **bytes)
{
	*bytes = hash;
	return sizeof hash;
}

#endif
