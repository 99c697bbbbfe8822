/* Bytes that more than one of the programs writes or compares. */
#ifndef BYTES_H
#define BYTES_H

#include <stdint.h>
#include <stdio.h>
#include <string.h>

/* Four bytes, big-endian. */
static inline void put(uint8_t *at, uint32_t number)
{
	at[0] = (uint8_t)(number >> 24);
	at[1] = (uint8_t)(number >> 16);
	at[2] = (uint8_t)(number >> 8);
	at[3] = (uint8_t)number;
}

/* Whether a hash, that of so many bytes, is the one given in hexadecimal. */
static inline int is_hash(const uint8_t hash[32], size_t len, const char *due)
{
	char hex[65];
	int i;

	for (i = 0; i < 32; i++)
		sprintf(hex + 2 * i, "%02x", hash[i]);
	if (strcmp(hex, due) != 0)
		printf("%zu bytes: %s, not %s\n", len, hex, due);
	return strcmp(hex, due) == 0;
}

#endif
