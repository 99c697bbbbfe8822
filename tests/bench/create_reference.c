#include "create_work.h"
#include "reference.h"

void prepare(size_t size)
{
	fill(size);
}

void work(void)
{
	if (reference_create(users, user, file, counts, handle, new) != 0)
		abort();
}
