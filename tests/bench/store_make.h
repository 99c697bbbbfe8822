/* What the contenders of a block store's making write: 526,464 bytes, none of them zero before. */
#ifndef STORE_MAKE_H
#define STORE_MAKE_H

#include <stdlib.h>
#include <string.h>

#include "worker.h"

static uint8_t store[526464];

void prepare(size_t size)
{
	memset(store, 0x5a, size);
}

size_t result(const uint8_t **bytes)
{
	*bytes = store;
	return sizeof store;
}

#endif
