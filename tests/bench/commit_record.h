/* The users' records that every contender commits, one after the other. */
#ifndef COMMIT_RECORD_H
#define COMMIT_RECORD_H

#include "server_work.h"

static uint8_t record[98];

void prepare(size_t size)
{
	fill(size);
	memcpy(record, held.server.records + 98 * (size - 1), sizeof record);
}

/* The next user's next record, over the last one: it counts all there is. */
static void next(void)
{
	uint8_t *count;
	int i = 3;

	record[1] = (uint8_t)((record[1] + 1) % held.server.users);
	count = record + 34 + 4 * record[1];
	while (++count[i] == 0)
		i--;
}

#endif
