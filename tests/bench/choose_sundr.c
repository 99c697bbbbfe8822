#include "choose_parts.h"

static uint64_t answer;

void work(void)
{
	answer = sundr_block_choose(wanted, sizeof wanted, parts[0], len, parts[1], len);
	if (sundr_refusal(answer) != SUNDR_ACCEPTED || sundr_first(answer) != due || sundr_second(answer) != len)
		abort();
}

/* The hash of the block that was chosen. */
size_t result(const uint8_t **bytes)
{
	sundr_sha256(sundr_chosen(answer, parts[0], parts[1]), sundr_chosen_len(answer), hash, sizeof hash);
	*bytes = hash;
	return sizeof hash;
}
