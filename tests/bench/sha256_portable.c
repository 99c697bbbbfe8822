#include "portable_sha256.h"
#include "sha256_message.h"

void prepare(size_t size)
{
	fill(size);
}

void work(void)
{
	portable_sha256(message, message_len, hash);
}
