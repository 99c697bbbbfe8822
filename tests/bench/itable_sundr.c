#include "itable_work.h"

void prepare(size_t size)
{
	fill(size);
}

void work(void)
{
	uint64_t answer;

	switch (to_do) {
	case WRITE:
		answer = write_table();
		break;
	case LOOKUP:
		answer = sundr_lookup(root, sizeof root, numbers[4095], path, sizeof path, hash, sizeof hash);
		break;
	case DIRECT_READ:
		answer = sundr_large_block_check(large, sizeof large, large_inode, sizeof large_inode, 0,
			NULL, 0, block, sizeof block);
		break;
	case INDIRECT_READ:
		answer = sundr_large_block_check(large, sizeof large, large_inode, sizeof large_inode, 16,
			indirect, sizeof indirect, block, sizeof block);
		break;
	default:
		answer = sundr_block_check(file, sizeof file, inode, sizeof inode, 0, block, sizeof block);
	}
	if (sundr_refusal(answer) != SUNDR_ACCEPTED)
		abort();
}
