/* What the contenders of the four calls that write a memory file, or read it back, work on: a structure of the user's, a
 * file of it, and room for both. */
#ifndef MEMORY_WORK_H
#define MEMORY_WORK_H

#include <stdlib.h>
#include <string.h>

#include "worker.h"

static uint8_t version[98];
static struct {
	uint8_t file[100], old[98];
} held;
static uint8_t users, user;

/* Each user has made some operations. The file is sent. */
void prepare(size_t size)
{
	size_t v;

	users = (uint8_t)size;
	user = (uint8_t)(size / 2);
	memset(version, 0, sizeof version);
	memset(&held, 0, sizeof held);
	version[0] = 1;
	version[1] = user;
	memset(version + 2, 7, 32);
	for (v = 0; v < size; v++)
		version[37 + 4 * v] = 100;
	held.file[0] = 7;
	memcpy(held.file + 2, version, sizeof version);
}

size_t result(const uint8_t **bytes)
{
	*bytes = (const uint8_t *)&held;
	return sizeof held;
}

#endif
