/*
 * One contender, as a process:
 *
 *     CONTENDER                    for each line 'SIZE COUNT', prints the nanoseconds of COUNT times the work
 *     CONTENDER count SIZE COUNT   does the work COUNT times, for callgrind
 *     CONTENDER stack SIZE         prints the bytes of stack that the work takes
 *     CONTENDER result SIZE        prints what the work comes to, in hexadecimal
 */
#define _GNU_SOURCE
#include <stdio.h>
#include <stdlib.h>
#include <string.h>
#include <time.h>

#include "paint.h"
#include "worker.h"

/* The process's own time, in which other programs' turns are not. */
static long long now(void)
{
	struct timespec t;

	clock_gettime(CLOCK_PROCESS_CPUTIME_ID, &t);
	return t.tv_sec * 1000000000LL + t.tv_nsec;
}

static long long timed(size_t size, long count)
{
	long long start;

	prepare(size);
	work();
	start = now();
	while (count-- > 0)
		work();
	return now() - start;
}

int main(int argc, char **argv)
{
	const uint8_t *bytes;
	size_t size;
	long count;

	if (argc == 4 && strcmp(argv[1], "count") == 0) {
		timed(strtoul(argv[2], NULL, 10), atol(argv[3]) - 1);
	} else if (argc == 3 && strcmp(argv[1], "stack") == 0) {
		prepare(strtoul(argv[2], NULL, 10));
		work();
		printf("%zu\n", stack_of(work));
	} else if (argc == 3 && strcmp(argv[1], "result") == 0) {
		prepare(strtoul(argv[2], NULL, 10));
		work();
		for (size = result(&bytes); size > 0; size--)
			printf("%02x", *bytes++);
	} else {
		while (scanf("%zu %ld", &size, &count) == 2) {
			printf("%lld\n", timed(size, count));
			fflush(stdout);
		}
	}
	return 0;
}
