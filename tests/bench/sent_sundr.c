#include "memory_work.h"
#include "sundr.h"

void work(void)
{
	held.file[1] = 1;
	if (sundr_memory_sent(users, user, held.file, sizeof held.file) != SUNDR_ACCEPTED)
		abort();
}
