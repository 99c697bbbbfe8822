#include "server_work.h"

void prepare(size_t size)
{
	fill(size);
}

void work(void)
{
	if (sundr_server_make(held.server.users, &held.server) != SUNDR_ACCEPTED)
		abort();
}
