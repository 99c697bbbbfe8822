/*
 * The counts that every contender compares: a pair for each standing, taken in turn. They differ at the last two users
 * at most, so that nobody can tell before the end.
 */
#ifndef COMPARE_PAIRS_H
#define COMPARE_PAIRS_H

#include "worker.h"

enum { PAIRS = 4 };

static struct {
	uint32_t x[16], y[16];
} pairs[PAIRS];

/* The pair whose turn it is, and what was said of each. */
static size_t at;
static uint8_t standings[PAIRS];

void prepare(size_t size)
{
	size_t i, v;

	for (i = 0; i < PAIRS; i++)
		for (v = 0; v < size; v++)
			pairs[i].x[v] = pairs[i].y[v] = (uint32_t)(100 + v);
	/* The first pair stays equal; x is before y, then after it, then apart from it. */
	pairs[1].y[size - 1]++;
	pairs[2].x[size - 1]++;
	pairs[3].x[size - 2]++;
	pairs[3].y[size - 1]++;
}

static void next(void)
{
	at = (at + 1) % PAIRS;
}

/* Each pair had its turn, whichever was last. */
size_t result(const uint8_t **bytes)
{
	int i;

	for (i = 0; i < PAIRS; i++)
		work();
	*bytes = standings;
	return sizeof standings;
}

#endif
