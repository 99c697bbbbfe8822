/* The cases of stack_cases.h that are of blocks: the checks of a file's block, the choice of one, and the block store. */
#ifndef STACK_BLOCKS_H
#define STACK_BLOCKS_H

#include "stack_lent.h"
#include "sundr.h"

static void check_block(void)
{
	answer = sundr_block_check(file_handle, sizeof file_handle, inode, sizeof inode, 0, block, sizeof block);
}

static void check_other_block(void)
{
	answer = sundr_block_check(file_handle, sizeof file_handle, inode, sizeof inode, 0, message, sizeof block);
}

static void check_direct_block(void)
{
	answer = sundr_large_block_check(large_handle, sizeof large_handle, large_inode, sizeof large_inode, 0,
		NULL, 0, block, sizeof block);
}

static void check_indirect_block(void)
{
	answer = sundr_large_block_check(large_handle, sizeof large_handle, large_inode, sizeof large_inode, 16,
		indirect, sizeof indirect, block, sizeof block);
}

static void check_other_indirect_block(void)
{
	answer = sundr_large_block_check(large_handle, sizeof large_handle, large_inode, sizeof large_inode, 16,
		indirect, sizeof indirect, message, sizeof block);
}

/* The inode has the block's hash, after its first five bytes. */
static void choose_reply(void)
{
	answer = sundr_block_choose(inode + 5, 32, block, sizeof block, message, sizeof block);
}

static void choose_cached(void)
{
	answer = sundr_block_choose(inode + 5, 32, message, sizeof block, block, sizeof block);
}

static void choose_neither(void)
{
	answer = sundr_block_choose(handle, sizeof handle, message, sizeof block, block, sizeof block);
}

static void choose_too_long(void)
{
	answer = sundr_block_choose(inode + 5, 32, block, sizeof block, message, sizeof message);
}

static void make_store(void)
{
	answer = sundr_store_make(written.made_store, sizeof written.made_store);
}

static void make_store_short(void)
{
	answer = sundr_store_make(written.made_store, sizeof written.made_store - 1);
}

/* User 15's count in the last place, so that a case finds it as every other time. */
static void count_in_last(uint8_t count)
{
	written.store[SUNDR_PLACE_LEN * 63 + 2 + 2 * 15 + 1] = count;
}

static void store_again(void)
{
	count_in_last(2);
	answer = sundr_store(written.store, sizeof written.store, 15, message, SUNDR_BLOCK_MAX_LEN - 63);
}

static void store_anew(void)
{
	count_in_last(0);
	answer = sundr_store(written.store, sizeof written.store, 15, message, SUNDR_BLOCK_MAX_LEN - 63);
}

static void store_in_full(void)
{
	answer = sundr_store(store, sizeof store, 15, message + 1, SUNDR_BLOCK_MAX_LEN);
}

static void retrieve_last(void)
{
	answer = sundr_retrieve(store, sizeof store, stored_hash, sizeof stored_hash,
		written.retrieved, sizeof written.retrieved);
}

static void retrieve_without_room(void)
{
	answer = sundr_retrieve(store, sizeof store, stored_hash, sizeof stored_hash,
		written.retrieved, SUNDR_BLOCK_MAX_LEN - 64);
}

static void retrieve_other(void)
{
	answer = sundr_retrieve(store, sizeof store, handle, sizeof handle, written.retrieved, sizeof written.retrieved);
}

static void unreference_last(void)
{
	count_in_last(2);
	answer = sundr_unreference(written.store, sizeof written.store, 15, stored_hash, sizeof stored_hash);
}

static void unreference_uncounted(void)
{
	answer = sundr_unreference(store, sizeof store, 14, stored_hash, sizeof stored_hash);
}

static void unreference_other(void)
{
	answer = sundr_unreference(store, sizeof store, 15, handle, sizeof handle);
}

#endif
