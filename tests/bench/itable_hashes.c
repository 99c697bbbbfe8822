/* The hashes that the work takes, and nothing else of it. */
#include "itable_work.h"

void prepare(size_t size)
{
	fill(size);
}

void work(void)
{
	size_t i;

	for (i = 0; i < messages; i++)
		sundr_sha256(message[i].bytes, message[i].len, hash, sizeof hash);
}
