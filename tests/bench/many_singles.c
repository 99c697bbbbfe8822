/* The same answers, each by a call of its own. */
#include "many_work.h"

static uint8_t answers[64 * 33];

void work(void)
{
	size_t q;

	for (q = 0; q < questions; q++) {
		uint8_t *entry = answers + 33 * q;
		uint64_t answer = sundr_lookup(root, sizeof root, asked[q], paths + 3 * 642 * q, 3 * 642, entry + 1, 32);

		if (sundr_refusal(answer) != SUNDR_ACCEPTED)
			abort();
		entry[0] = (uint8_t)sundr_first(answer);
	}
}

size_t result(const uint8_t **bytes)
{
	*bytes = answers;
	return 33 * questions;
}
