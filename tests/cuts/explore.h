/* All runs of a turn with up to so many cuts: one at each step, the next at each step after the restart, and so on. */
#ifndef EXPLORE_H
#define EXPLORE_H

#include "judge.h"

/* How a turn is run. */
struct setting {
	enum kind kind;
	int cuts;     /* the most cuts */
	int stride;   /* 0: the last of them at each step; else at one of so many, in turn */
	int earlier;  /* how many works each desk has done before */
	int lose;     /* how many records are lost on their way */
	int power;    /* a cut undoes what was not synced */
	int between;  /* user 1 takes a turn after each cut, unless that would shut user 0 out */
	int next;     /* in the end user 1 takes a turn, and then user 0 its next */
	int rolls;    /* in the end the server goes back to where it was at the beginning */
	int plants;   /* after each cut another temporary file is laid */
	int plant;    /* the first of them */
};

/* How many runs were judged to their end, and after how many steps the desk is done that is not cut. */
static unsigned long runs;
static uint32_t points;

/* Where the runs branch off: the server's list, how many records had come, and user 0's work. */
static struct sundr_server origin;
static uint32_t beginning, work;

static inline void clear_faults(void)
{
	memset(faults, 0, sizeof faults);
	runs = broken = 0;
}

static inline void other_turn(void)
{
	uint32_t theirs = taken_count(1) + 1;

	faults[GOES_ON] += run_desk(RIGHT, 1, theirs, 0) != DONE || taken_count(1) != theirs;
}

/* Whether user 0 has a structure on its disk that the server has not taken, so that another's commit shuts it out. */
static inline int unsent(void)
{
	struct content file = get(0, FILE_NAME);

	return file.len == SUNDR_MEMORY_LEN && file.bytes[1] == SUNDR_STATE_PENDING
		&& memcmp(file.bytes + 2, taken(0), SUNDR_VERSION_LEN) != 0;
}

/* What a power cut may do to what was not synced: the rename is undone, the new file is empty. */
static inline void lose_power(void)
{
	struct content file = get(0, FILE_NAME), empty = {.len = 0};

	if (!same(&file, &durable)) {
		if (!new_synced)
			file = empty;
		lay(0, NEW_NAME, &file);
		lay(0, FILE_NAME, &durable);
	} else if (!new_synced) {
		lay(0, NEW_NAME, &empty);
	}
}

/*
 * A server that has forgotten the work: the desk that has done it is out, with 5, and nothing leaves it. One that never
 * marks is out once its next work is done: of the last one alone it cannot know whether it came.
 */
static inline void roll_back(const struct setting *s)
{
	uint32_t arrivals = seen->arrivals;

	seen->server = origin;
	faults[GOES_ON] += attempt(s->kind, work + (s->next ? 2 : 1), 0) != REFUSED_CHECK + SUNDR_NOT_CURRENT
		|| seen->arrivals != arrivals;
	judge_arrivals(beginning);
}

/* The desk has ended by itself. Where its record was lost it is started again. */
static inline void end_run(const struct setting *s, int code)
{
	int tries;

	for (tries = 0; code == NO_ANSWER && tries < s->lose; tries++)
		code = attempt(s->kind, work, 0);
	judge_arrivals(beginning);
	judge_end(s->kind, code, beginning, work);
	runs++;
	if (s->next) {
		uint32_t arrivals;

		other_turn();
		arrivals = seen->arrivals;
		code = attempt(s->kind, work + 1, 0);
		judge_arrivals(beginning);
		judge_end(s->kind, code, arrivals, work + 1);
	}
	if (s->rolls)
		roll_back(s);
}

/*
 * All runs from here on, with up to so many cuts. The numbers of the cuts before, added, say which comes first of what is
 * taken in turn. A desk that breaks is enough to know.
 */
static inline void explore(const struct setting *s, const struct world *from, int cuts, uint32_t before)
{
	uint32_t stride = cuts == 1 && s->stride ? (uint32_t)s->stride : 1, cut;

	for (cut = 1 + before % stride; broken == 0; cut += stride) {
		int code;

		set_back(from);
		code = attempt(s->kind, work, cut);
		if (code != CUT) {
			if (cuts == s->cuts && s->lose == 0)
				points = cut - 1;
			end_run(s, code);
			return;
		}
		judge_arrivals(beginning);
		if (s->power)
			lose_power();
		judge_file();
		if (s->between && !unsent())
			other_turn();
		if (s->plants)
			lay_plant((enum plant)((before + cut) % PLANTS), &from->file[0]);
		if (cuts > 1) {
			struct world here;

			keep(&here);
			explore(s, &here, cuts - 1, before + cut);
		} else {
			end_run(s, attempt(s->kind, work, 0));
		}
	}
}

/* User 0's file, moved back to what was remembered before there were files, and over again: it is the same. */
static inline void move_back_and_over(void)
{
	struct content file = get(0, FILE_NAME), moved = {.len = SUNDR_MEMORY_LEN};
	uint8_t old[SUNDR_VERSION_LEN];
	uint64_t answer = sundr_memory_back(USERS, 0, file.bytes, SUNDR_MEMORY_LEN, old, sizeof old);

	faults[GOES_ON] += sundr_refusal(answer) != SUNDR_ACCEPTED
		|| sundr_memory_over(USERS, 0, old, sundr_first(answer), moved.bytes, SUNDR_MEMORY_LEN) != SUNDR_ACCEPTED
		|| !same(&file, &moved);
}

/* The works before, then all runs of user 0's next. */
static inline void explore_turn(const struct setting *s)
{
	struct world w;
	int i;

	make_world(&w);
	set_back(&w);
	for (i = 0; i < s->earlier; i++) {
		faults[GOES_ON] += attempt(RIGHT, taken_count(0) + 1, 0) != DONE;
		other_turn();
	}
	move_back_and_over();
	seen->lose = (uint32_t)s->lose;
	keep(&w);
	origin = seen->server;
	beginning = seen->arrivals;
	work = taken_count(0) + 1;
	explore(s, &w, s->cuts, (uint32_t)s->plant);
}

#endif
