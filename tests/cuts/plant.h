/* Temporary files that a desk may find when it starts: as the cut left it, or one that must never be read. */
#ifndef PLANT_H
#define PLANT_H

#include "world.h"

enum plant {
	PLANT_NOTHING, /* as the cut left it */
	PLANT_HALF,    /* the first half of a file */
	PLANT_FORGED,  /* a whole file, pending, of a structure that the desk never made */
	PLANT_OLD,     /* the file of the turn before */
	PLANT_LONG,    /* a file and more behind it */
	PLANTS
};

/* The i-handle of a forged structure: no desk makes it. */
#define FORGED_BYTE 0xee

/* User 0's next structure, by the server's list, with a forged i-handle, pending. */
static inline struct content forged_file(void)
{
	struct content c = {.len = SUNDR_MEMORY_LEN};
	uint8_t *version = c.bytes + 2;
	int user;

	c.bytes[0] = 7;
	c.bytes[1] = SUNDR_STATE_PENDING;
	version[0] = 1;
	memset(version + 2, FORGED_BYTE, SUNDR_HANDLE_LEN);
	for (user = 0; user < USERS; user++)
		version[37 + 4 * user] = (uint8_t)(taken_count(user) + (user == 0));
	return c;
}

static inline int is_forged(const uint8_t *version)
{
	return sundr_i_handle(version)[0] == FORGED_BYTE;
}

static inline void lay_plant(enum plant plant, const struct content *old)
{
	struct content c = forged_file();

	if (plant == PLANT_NOTHING)
		return;
	if (plant == PLANT_HALF)
		c.len = SUNDR_MEMORY_LEN / 2;
	if (plant == PLANT_OLD)
		c = *old;
	if (plant == PLANT_LONG)
		c.len = CONTENT_MAX;
	lay(0, NEW_NAME, &c);
}

#endif
