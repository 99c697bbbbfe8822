/* What is judged of a desk, from outside: by what came to the server, by the disk, and by the order of its steps. */
#ifndef JUDGE_H
#define JUDGE_H

#include "calls.h"
#include "plant.h"
#include "start.h"

enum judgement {
	ONE_PER_COUNT, ON_DISK, ONCE, GOES_ON, NEW_UNREAD, WHOLE, SYNCED, JUDGEMENTS
};

static const char *const judgement_names[JUDGEMENTS] = {
	"no two different structures of one own count come to the server",
	"what comes is pending on the disk when it comes",
	"the work is committed once, under the next own count",
	"in the end the desk has done its work, and can go on",
	"no temporary file is read",
	"the file is whole at each cut, and never written in its place",
	"what comes was synced, the file and then the folder"
};

/* How often each was violated; and how often a desk ended as none of them may, the rig being broken. */
static unsigned long faults[JUDGEMENTS], broken;

/* Whether the temporary file, if there is one, was synced since it was opened. */
static int new_synced;

static inline int same(const struct content *x, const struct content *y)
{
	return x->len == y->len && (x->len < 0 || memcmp(x->bytes, y->bytes, (size_t)x->len) == 0);
}

/* Runs user 0's desk, and follows what its steps made durable. */
static inline int attempt(enum kind kind, uint32_t work, uint32_t cut)
{
	struct content now = get(0, FILE_NAME);
	unsigned long read_before = new_read, written_before = file_written;
	int code = run_desk(kind, 0, work, cut), dirty = !same(&now, &durable), whole = 1;
	uint32_t i, renames = 0;

	new_synced = 1;
	for (i = 0; i < watch->steps; i++)
		switch (watch->what[i]) {
		case STEP_OPEN_NEW:
			new_synced = 0;
			break;
		case STEP_SYNC_NEW:
			new_synced = 1;
			break;
		case STEP_RENAME:
			faults[SYNCED] += !new_synced;
			whole = new_synced;
			dirty = 1;
			now.len = SUNDR_MEMORY_LEN;
			memcpy(now.bytes, watch->renamed[renames++], SUNDR_MEMORY_LEN);
			break;
		case STEP_SYNC_FOLDER:
			dirty = 0;
			durable = now;
			/* The name lasts, and not what was never synced. */
			if (!whole)
				durable.len = 0;
			break;
		case STEP_SEND:
			faults[SYNCED] += dirty;
			break;
		}
	faults[NEW_UNREAD] += new_read != read_before;
	faults[WHOLE] += file_written != written_before;
	broken += code == FAILED;
	return code;
}

/* All that has come since the run's beginning, when so many had come. */
static inline void judge_arrivals(uint32_t beginning)
{
	uint32_t i, j;

	for (i = beginning; i < seen->arrivals; i++) {
		const struct arrival *x = &seen->arrival[i];

		faults[ON_DISK] += x->state != SUNDR_STATE_PENDING;
		faults[NEW_UNREAD] += is_forged(x->record);
		for (j = beginning; j < i; j++) {
			const struct arrival *y = &seen->arrival[j];
			uint8_t owner = sundr_owner(x->record);

			faults[ONE_PER_COUNT] += owner == sundr_owner(y->record)
				&& sundr_count(x->record, owner) == sundr_count(y->record, owner)
				&& memcmp(x->record, y->record, SUNDR_VERSION_LEN) != 0;
		}
	}
}

/* At a cut: a file of this user, as the library reads it. */
static inline void judge_file(void)
{
	struct content file = get(0, FILE_NAME);
	uint8_t old[SUNDR_VERSION_LEN];
	unsigned said;

	if (file.len < 0)
		file.len = 0;
	said = sundr_memory_back(USERS, 0, file.bytes, (size_t)file.len, old, sizeof old) & 0xff;
	faults[WHOLE] += said != SUNDR_ACCEPTED && said != SUNDR_PENDING;
}

/* In the end: user 0's work was taken once since the run's beginning, and the file and the server agree. */
static inline void judge_end(enum kind kind, int code, uint32_t beginning, uint32_t work)
{
	static const uint8_t marks[USERS] = {1, 1};
	struct content file = get(0, FILE_NAME);
	uint8_t list[USERS * SUNDR_VERSION_LEN], again[SUNDR_VERSION_LEN];
	uint32_t counts[SUNDR_MAX_USERS] = {0}, i, times = 0, others = 0;
	size_t records;

	for (i = beginning; i < seen->arrivals; i++) {
		const struct arrival *x = &seen->arrival[i];

		if (sundr_owner(x->record) != 0 || x->answer != SUNDR_ACCEPTED)
			continue;
		if (work_of(x->record) == work && sundr_count(x->record, 0) == work)
			times++;
		else
			others++;
	}
	faults[ONCE] += times != 1 || others != 0;

	records = sundr_first(sundr_server_list(&seen->server, list, sizeof list));
	faults[GOES_ON] += code != DONE || file.len != SUNDR_MEMORY_LEN
		|| file.bytes[1] != (kind == RIGHT_UNMARKED ? SUNDR_STATE_PENDING : SUNDR_STATE_SENT)
		|| memcmp(file.bytes + 2, taken(0), SUNDR_VERSION_LEN) != 0
		|| sundr_memory_check(USERS, 0, file.bytes, SUNDR_MEMORY_LEN, list, SUNDR_VERSION_LEN * records, marks, records,
			counts, SUNDR_MAX_USERS, again, sizeof again) != SUNDR_ACCEPTED
		|| counts[0] != work + 1;
}

#endif
