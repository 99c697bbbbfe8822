#include "check_list.h"
#include "sundr.h"

void prepare(size_t size)
{
	fill(size);
}

void work(void)
{
	if (sundr_memory_check(users, user, file, sizeof file, list, 98 * (size_t)users, marks, users,
			counts, 16, again, sizeof again) != SUNDR_ACCEPTED)
		abort();
}
