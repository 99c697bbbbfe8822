#include "reference.h"
#include "server_work.h"

void prepare(size_t size)
{
	fill(size);
}

void work(void)
{
	if (reference_make(held.server.users, &held.server) != 0)
		abort();
}
