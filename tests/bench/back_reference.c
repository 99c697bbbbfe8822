#include "memory_work.h"
#include "reference.h"

void work(void)
{
	if (reference_back(users, user, held.file, held.old) != 0)
		abort();
}
