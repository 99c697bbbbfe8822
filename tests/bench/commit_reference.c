#include "commit_record.h"
#include "reference.h"

void work(void)
{
	next();
	if (reference_commit(&held.server, record, sizeof record, 1) != 0)
		abort();
}
