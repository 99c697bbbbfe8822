#include "store_work.h"

static uint8_t out[LONG];

void prepare(size_t size)
{
	fill(size, 0, 1);
}

void work(void)
{
	uint64_t answer = sundr_retrieve((const uint8_t *)store, sizeof store, wanted, sizeof wanted, out, len);

	if (held == 0 ? sundr_refusal(answer) != SUNDR_NOT_HELD
		: sundr_refusal(answer) != SUNDR_ACCEPTED || sundr_first(answer) != len)
		abort();
}

/* The hash of what was retrieved. */
size_t result(const uint8_t **bytes)
{
	return hash_of(out, bytes);
}
