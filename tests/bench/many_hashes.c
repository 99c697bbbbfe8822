/* The hashes that the call takes, and nothing else of it. */
#include "many_work.h"

static uint8_t hash[32];

void work(void)
{
	size_t i;

	for (i = 0; i < messages; i++)
		sundr_sha256(message[i], 642, hash, sizeof hash);
}

/* No answer comes of them: the table's own stand here, for the library's to be compared with. */
size_t result(const uint8_t **bytes)
{
	*bytes = due;
	return 33 * questions;
}
