#include "server_work.h"

void prepare(size_t size)
{
	fill(size);
}

void work(void)
{
	if (sundr_first(sundr_server_list(&held.server, held.list, sizeof held.list)) != held.server.users)
		abort();
}
