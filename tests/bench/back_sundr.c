#include "memory_work.h"
#include "sundr.h"

void work(void)
{
	uint64_t answer = sundr_memory_back(users, user, held.file, sizeof held.file, held.old, sizeof held.old);

	if (sundr_refusal(answer) != SUNDR_ACCEPTED || sundr_first(answer) != sizeof held.old)
		abort();
}
