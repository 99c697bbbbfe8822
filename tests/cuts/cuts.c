/*
 * A desk under cuts: the driver.
 *
 *     cuts DESK DISK QUICK
 *
 * DESK is the desk program, DISK a folder on a disk, and QUICK one where a sync is quick. The last line is
 * 'N passed, M failed'.
 */
#define _GNU_SOURCE
#include "../c/check.h"
#include "controls.h"
#include "explore.h"
#include "limit.h"
#include "traced.h"

/* All runs of a setting, with each number of lost records, and what is judged of them. */
static void runs_of(const char *name, struct setting s)
{
	unsigned long started_before = started, killed_before = killed;
	int i, most = s.lose;

	clear_faults();
	for (s.lose = 0; s.lose <= most; s.lose++)
		explore_turn(&s);
	printf("\n%s: %u cut points, up to %d cuts; %lu runs, %lu desks started, %lu killed\n",
		name, points, s.cuts, runs, started - started_before, killed - killed_before);
	for (i = 0; i < JUDGEMENTS; i++)
		check(judgement_names[i], faults[i] == 0);
	check("the right desk never fails", broken == 0);
}

/* The steps of a turn, and of a start that has to send again; and that no system call is left out. */
static void steps_of_a_turn(void)
{
	static long calls[CALLS_MAX];
	struct world w;
	uint32_t send;
	size_t n;

	make_world(&w);
	set_back(&w);
	n = trace_desk(1, calls);
	printf("The steps of a turn, %u; those of the library in capitals\n", watch->steps);
	print_steps();
	check("these are all the system calls that the desk makes", are_steps(calls, n));

	send = first_step(STEP_SEND);
	set_back(&w);
	check("the desk is cut right before it sends", send > 1 && run_desk(RIGHT, 0, 1, send - 1) == CUT);
	n = trace_desk(1, calls);
	printf("The steps of the start after that, %u\n", watch->steps);
	print_steps();
	check("it sends again, and makes nothing", first_step(STEP_SEND) > 0 && first_step(STEP_CREATE) == 0);
	check("these are all the system calls of that start", are_steps(calls, n));
}

int main(int argc, char **argv)
{
	if (argc != 4)
		return FAILED;
	desk_program = argv[1];
	map_shared();

	start_server(argv[2]);
	steps_of_a_turn();
	runs_of("a first turn, on the disk", (struct setting){.kind = RIGHT, .cuts = 2});
	end_server();

	start_server(argv[3]);
	runs_of("a first turn, the third cut at one step of seven",
		(struct setting){.kind = RIGHT, .cuts = 3, .stride = 7});
	runs_of("a third turn between another user's, a temporary file laid after each cut",
		(struct setting){.kind = RIGHT, .cuts = 2, .earlier = 2, .between = 1, .next = 1, .plants = 1});
	runs_of("a second turn with and without a lost record; what was not synced is undone; in the end the server rolls back",
		(struct setting){.kind = RIGHT, .cuts = 2, .earlier = 1, .lose = 1, .power = 1, .between = 1, .rolls = 1});
	runs_of("a second turn of a desk that never marks what it sent; in the end the server rolls back",
		(struct setting){.kind = RIGHT_UNMARKED, .cuts = 2, .earlier = 1, .power = 1, .between = 1, .next = 1, .rolls = 1});

	printf("\nThe limit\n");
	show_limit();

	printf("\nDesks that are wrong, after those that are not\n");
	all_controls();
	end_server();

	printf("\n%lu desks started, %lu killed\n", started, killed);
	return finish();
}
