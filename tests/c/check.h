/* Named checks, counted; the last line is 'N passed, M failed'. */
#ifndef CHECK_H
#define CHECK_H

#include <stdio.h>

static int passed, failed;

static void check(const char *name, int holds)
{
	printf("%s %s\n", holds ? "ok     " : "FAILED ", name);
	if (holds)
		passed++;
	else
		failed++;
}

/* The counts as the last line, and the program's exit status. */
static int finish(void)
{
	printf("%d passed, %d failed\n", passed, failed);
	return failed != 0;
}

#endif
