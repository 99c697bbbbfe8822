#include "sha256_message.h"
#include "sundr.h"

#include <stdlib.h>

void prepare(size_t size)
{
	fill(size);
}

void work(void)
{
	/* Asked, and so called, not jumped to: the stack is counted from a call. */
	if (sundr_sha256(message, message_len, hash, sizeof hash) != SUNDR_ACCEPTED)
		abort();
}
