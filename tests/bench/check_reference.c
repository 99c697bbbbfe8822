#include "check_list.h"
#include "reference.h"

void prepare(size_t size)
{
	fill(size);
}

void work(void)
{
	if (reference_check(users, user, file, list, marks, counts, again) != 0)
		abort();
}
