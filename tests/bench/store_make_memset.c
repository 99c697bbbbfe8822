#include "store_make.h"

void work(void)
{
	memset(store, 0, sizeof store);
}
