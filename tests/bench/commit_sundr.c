#include "commit_record.h"

void work(void)
{
	next();
	if (sundr_server_commit(&held.server, record, sizeof record, 1) != SUNDR_ACCEPTED)
		abort();
}
