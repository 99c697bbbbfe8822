/*
 * The limit, as it is documented: if another user commits between the cut and the sending, the server refuses the pending
 * bytes for ever. The desk stays out, and signs nothing else under that count.
 */
#ifndef LIMIT_H
#define LIMIT_H

#include "../c/check.h"
#include "explore.h"

static inline void show_limit(void)
{
	struct world w;
	struct content file;
	uint32_t arrivals, send, i, same_bytes = 0;
	int out = 1, times;

	clear_faults();
	make_world(&w);
	set_back(&w);
	check("both users take a turn", attempt(RIGHT, 1, 0) == DONE && run_desk(RIGHT, 1, 1, 0) == DONE);
	keep(&w);
	attempt(RIGHT, 2, 0);
	send = first_step(STEP_SEND);
	set_back(&w);
	arrivals = seen->arrivals;
	check("user 0 is cut right before it sends", send > 1 && attempt(RIGHT, 2, send - 1) == CUT && unsent());
	file = get(0, FILE_NAME);
	check("user 1 commits meanwhile", run_desk(RIGHT, 1, 2, 0) == DONE);
	for (times = 0; times < 5; times++)
		out = out && attempt(RIGHT, 2, 0) == REFUSED_COMMIT + SUNDR_UNORDERED;
	check("user 0 sends again, and the server refuses it with 7, each time", out);
	check("user 1 goes on", run_desk(RIGHT, 1, 3, 0) == DONE);
	out = attempt(RIGHT, 2, 0) == REFUSED_COMMIT + SUNDR_UNORDERED;
	for (i = arrivals; i < seen->arrivals; i++)
		same_bytes += memcmp(seen->arrival[i].record, file.bytes + 2, SUNDR_VERSION_LEN) == 0;
	check("all that user 0 ever sent of that count is what was pending",
		out && same_bytes == 6 && seen->arrivals == arrivals + 8);
	judge_arrivals(arrivals);
	check("and its file is as it was", faults[ONE_PER_COUNT] == 0 && faults[ON_DISK] == 0
		&& memcmp(get(0, FILE_NAME).bytes, file.bytes, SUNDR_MEMORY_LEN) == 0);
}

#endif
