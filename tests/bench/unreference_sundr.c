#include "store_work.h"

/* The user's count is the last there is: each time the work is done it is one less, and never 0 before it is put back. */
void prepare(size_t size)
{
	fill(size, 0, 65535);
}

void work(void)
{
	uint64_t answer = sundr_unreference((uint8_t *)store, sizeof store, USER, wanted, sizeof wanted);

	if (sundr_refusal(answer) != SUNDR_ACCEPTED || sundr_first(answer) != 1)
		abort();
}

/* The hash of the block whose count went down. */
size_t result(const uint8_t **bytes)
{
	return hash_of(recounted(), bytes);
}
