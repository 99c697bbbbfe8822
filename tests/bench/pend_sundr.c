#include "memory_work.h"
#include "sundr.h"

void work(void)
{
	if (sundr_memory_pend(users, user, version, sizeof version, held.file, sizeof held.file) != SUNDR_ACCEPTED)
		abort();
}
