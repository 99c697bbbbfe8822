/* What a contender in the benchmark defines; worker.c runs it. Each is a program of its own. */
#ifndef WORKER_H
#define WORKER_H

#include <stddef.h>
#include <stdint.h>

/* Makes ready for work on an input of this size: so many bytes, or users. */
void prepare(size_t size);

/* Does the work once. */
void work(void);

/* What the last work came to, so that contenders can be compared; gives its length. */
size_t result(const uint8_t **bytes);

#endif
