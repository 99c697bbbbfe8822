#include "create_work.h"
#include "sundr.h"

void prepare(size_t size)
{
	fill(size);
}

void work(void)
{
	if (sundr_memory_create(users, user, file, sizeof file, counts, 16, handle, sizeof handle,
			new, sizeof new) != SUNDR_ACCEPTED)
		abort();
}
