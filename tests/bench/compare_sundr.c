#include "compare_pairs.h"
#include "sundr.h"

void work(void)
{
	next();
	standings[at] = (uint8_t)sundr_first(sundr_compare(pairs[at].x, pairs[at].y));
}
