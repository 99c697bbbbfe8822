/*
 * Desks that are wrong, each run with one cut at each step. The judge has to notice the thing that is wrong with it; and
 * nothing of the right desk that is run in the same way, or it would be the setting that is noticed.
 */
#ifndef CONTROLS_H
#define CONTROLS_H

#include "../c/check.h"
#include "explore.h"

/* What must be violated by each wrong desk. */
static const struct {
	enum kind kind;
	enum judgement due;
} controls[] = {
	{WRONG_SENDS_FIRST, ON_DISK},
	{WRONG_MARKS_FIRST, ONCE},
	{WRONG_MARKS_UNANSWERED, ONCE},
	{WRONG_SENDS_AND_CHECKS_FIRST, ON_DISK},
	{WRONG_MAKES_TWO, ONE_PER_COUNT},
	{WRONG_MARKS_COPY, ONE_PER_COUNT},
	{WRONG_FORGETS, ONE_PER_COUNT},
	{WRONG_READS_NEW, NEW_UNREAD},
	{WRONG_IN_PLACE, WHOLE},
	{WRONG_NOT_EMPTIED, GOES_ON},
	{WRONG_NEW_UNSYNCED, SYNCED},
	{WRONG_FOLDER_UNSYNCED, SYNCED},
	{WRONG_START_UNSYNCED, SYNCED},
};

static const char *const short_names[JUDGEMENTS] = {
	"one per count", "on disk", "once", "goes on", "temporary unread", "whole", "synced"
};

/* With each temporary file laid; with and without a lost record; with what was not synced kept and undone. */
static inline void control(enum kind kind)
{
	struct setting s = {.kind = kind, .cuts = 1, .earlier = 1, .between = 1, .rolls = 1, .plants = 1};

	for (s.plant = 0; s.plant < PLANTS; s.plant++) {
		s.lose = s.plant % 2;
		s.power = s.plant / 2 % 2;
		explore_turn(&s);
	}
}

static inline void print_violated(void)
{
	size_t i;

	printf("        in %lu runs; violated:", runs);
	for (i = 0; i < JUDGEMENTS; i++)
		if (faults[i] > 0)
			printf(" %s;", short_names[i]);
	printf("\n");
}

/* A desk that makes no mistake. */
static inline void no_mistake(enum kind kind)
{
	unsigned long all = 0;
	char name[200];
	size_t i;

	clear_faults();
	control(kind);
	for (i = 0; i < JUDGEMENTS; i++)
		all += faults[i];
	snprintf(name, sizeof name, "%s under the controls' settings: nothing violated", kind_names[kind]);
	check(name, all == 0 && broken == 0 && runs > PLANTS);
	if (all == 0)
		printf("        in %lu runs\n", runs);
	else
		print_violated();
}

static inline void all_controls(void)
{
	size_t i;

	no_mistake(RIGHT);
	no_mistake(WRONG_NOTHING);
	for (i = 0; i < sizeof controls / sizeof controls[0]; i++) {
		char name[200];

		clear_faults();
		control(controls[i].kind);
		snprintf(name, sizeof name, "control caught: a desk that %s", kind_names[controls[i].kind]);
		check(name, faults[controls[i].due] > 0 && broken == 0);
		print_violated();
	}
}

#endif
