#include "memory_work.h"
#include "reference.h"

void work(void)
{
	if (reference_pend(users, user, version, held.file) != 0)
		abort();
}
