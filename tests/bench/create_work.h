/* What the contenders of the making step work on: a memory file, the counts of a check, and the new i-handle. */
#ifndef CREATE_WORK_H
#define CREATE_WORK_H

#include <stdlib.h>
#include <string.h>

#include "worker.h"

static uint8_t file[100], handle[32], new[98];
static uint32_t counts[16];
static uint8_t users, user;

/* Each user has made some operations, and the client is to make its next one. */
static void fill(size_t size)
{
	size_t v;

	users = (uint8_t)size;
	user = (uint8_t)(size / 2);
	memset(file, 0, sizeof file);
	memset(counts, 0, sizeof counts);
	file[0] = 7;
	file[2] = 1;
	file[3] = user;
	memset(handle, 7, sizeof handle);
	for (v = 0; v < size; v++) {
		file[39 + 4 * v] = 100;
		counts[v] = 100 + (v == user);
	}
}

size_t result(const uint8_t **bytes)
{
	*bytes = new;
	return sizeof new;
}

#endif
