#include "compare_pairs.h"
#include "reference.h"

void work(void)
{
	next();
	standings[at] = reference_compare(pairs[at].x, pairs[at].y);
}
