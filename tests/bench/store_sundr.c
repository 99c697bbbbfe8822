#include "store_work.h"

/*
 * The user's count is 1, and is put back to it before each go: each time the work is done it is one more, which costs the
 * same whatever it is, and a go is far from the last count, 65,535.
 */
void prepare(size_t size)
{
	fill(size, 1, 1);
}

void work(void)
{
	uint64_t answer = sundr_store((uint8_t *)store, sizeof store, USER, block, len);

	if (sundr_refusal(answer) != SUNDR_ACCEPTED)
		abort();
}

/* The hash of the block whose count went up. */
size_t result(const uint8_t **bytes)
{
	return hash_of(recounted(), bytes);
}
