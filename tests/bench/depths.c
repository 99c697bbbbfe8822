/*
 * How deep the calls of the header go: of each call's cases, the deepest that is accepted and the deepest that is
 * refused, in bytes of stack, counted as in the figures.
 */
#define _GNU_SOURCE
#include <stdio.h>
#include <stdlib.h>
#include <string.h>

#include "../c/stack_cases.h"
#include "paint.h"

/* The bytes of a case, if its answer is the one that is due. */
static size_t measured(int i)
{
	size_t bytes = stack_of(cases[i].make);

	if (answer != cases[i].due) {
		fprintf(stderr, "depths: %s, %s: another answer\n", cases[i].call, cases[i].on);
		exit(1);
	}
	return bytes;
}

/* A number as a cell of a table, with a comma before its last three digits. A call that refuses nothing has none. */
static void cell(size_t bytes)
{
	if (bytes == 0)
		printf(" none |");
	else if (bytes < 1000)
		printf(" %zu |", bytes);
	else
		printf(" %zu,%03zu |", bytes / 1000, bytes % 1000);
}

int main(void)
{
	int i = 0;

	prepare_cases();
	printf("| stack, bytes | deepest accepted | deepest refused |\n|---|--:|--:|\n");
	while (i < CASES) {
		const char *call = cases[i].call;
		size_t accepted = 0, refused = 0;

		for (; i < CASES && strcmp(cases[i].call, call) == 0; i++) {
			size_t *most = sundr_refusal(cases[i].due) == SUNDR_ACCEPTED ? &accepted : &refused;
			size_t bytes = measured(i);

			if (bytes > *most)
				*most = bytes;
		}
		printf("| `%s` |", call);
		cell(accepted);
		cell(refused);
		putchar('\n');
	}
	return 0;
}
