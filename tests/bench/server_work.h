/* What the contenders of the server's calls work on: a server with a record of each user, and room for its list. */
#ifndef SERVER_WORK_H
#define SERVER_WORK_H

#include <stdlib.h>
#include <string.h>

#include "sundr.h"
#include "worker.h"

static struct {
	struct sundr_server server;
	uint8_t list[16 * 98];
} held;

/* A server as it is when each user, from user 0 on, has committed once. */
static void fill(size_t size)
{
	size_t v, w;

	memset(&held, 0, sizeof held);
	held.server.users = (uint8_t)size;
	for (v = 0; v < size; v++) {
		uint8_t *record = held.server.records + 98 * v;

		record[0] = 1;
		record[1] = (uint8_t)v;
		for (w = 0; w <= v; w++)
			record[37 + 4 * w] = 1;
	}
}

size_t result(const uint8_t **bytes)
{
	*bytes = (const uint8_t *)&held;
	return sizeof held;
}

#endif
