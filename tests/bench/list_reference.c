#include "reference.h"
#include "server_work.h"

void prepare(size_t size)
{
	fill(size);
}

void work(void)
{
	if (reference_list(&held.server, held.list) != held.server.users)
		abort();
}
