/* The hashes that a store takes, and nothing else of it. */
#include "store_work.h"

void prepare(size_t size)
{
	fill(size, 1, 1);
}

void work(void)
{
	sundr_sha256(block, len, hash, sizeof hash);
	hash_held();
}

/* The last one, of the wanted block. */
size_t result(const uint8_t **bytes)
{
	*bytes = hash;
	return sizeof hash;
}
