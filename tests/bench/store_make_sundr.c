#include "store_make.h"
#include "sundr.h"

void work(void)
{
	if (sundr_store_make(store, sizeof store) != SUNDR_ACCEPTED)
		abort();
}
