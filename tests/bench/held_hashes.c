/* The hashes that a retrieval or an unreference takes, and nothing else of it. */
#include "store_work.h"

void prepare(size_t size)
{
	fill(size, 0, 1);
}

void work(void)
{
	hash_held();
}

/* The last one, of the wanted block. */
size_t result(const uint8_t **bytes)
{
	*bytes = hash;
	return sizeof hash;
}
