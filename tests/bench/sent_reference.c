#include "memory_work.h"
#include "reference.h"

void work(void)
{
	held.file[1] = 1;
	if (reference_sent(users, user, held.file) != 0)
		abort();
}
