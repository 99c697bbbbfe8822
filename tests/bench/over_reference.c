#include "memory_work.h"
#include "reference.h"

void work(void)
{
	if (reference_over(users, user, version, held.file) != 0)
		abort();
}
