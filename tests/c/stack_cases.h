/*
 * Every call of include/sundr.h, accepted and refused, for stacks to be measured by: stack.c makes them on a small one,
 * ../bench/depths.c on a painted one. A refusal is by the test that is tried last, or after the last hash;
 * sundr_lookup_many() and sundr_block_choose() have one before their first hash too, the calls on a memory file one of each
 * number, and sundr_compare() has none. A case may be made any number of times, and its answer is the same.
 */
#ifndef STACK_CASES_H
#define STACK_CASES_H

#include "stack_blocks.h"
#include "stack_lent.h"
#include "stack_turn.h"
#include "sundr.h"

/* The answer of this number, 0 if accepted, and these two results or positions. */
#define ANSWER(number, first, second) ((uint64_t)(second) << 32 | (uint64_t)(first) << 8 | (number))

/* The answer is kept, and so the function is called, not jumped to: the stack is counted from a call. */
static void hash_0(void)
{
	answer = sundr_sha256(message, 0, written.hash[0], 32);
}

static void hash_55(void)
{
	answer = sundr_sha256(message, 55, written.hash[1], 32);
}

static void hash_56(void)
{
	answer = sundr_sha256(message, 56, written.hash[2], 32);
}

static void hash_64(void)
{
	answer = sundr_sha256(message, 64, written.hash[3], 32);
}

static void hash_65536(void)
{
	answer = sundr_sha256(message, 65536, written.hash[4], 32);
}

static void hash_65537(void)
{
	answer = sundr_sha256(message, 65537, written.hash[4], 32);
}

static void compare_same(void)
{
	answer = sundr_compare(listed_counts, listed_counts);
}

static void compare_next(void)
{
	answer = sundr_compare(listed_counts, next_counts);
}

static void compare_apart(void)
{
	answer = sundr_compare(listed_counts, apart_counts);
}

static void make_server(void)
{
	answer = sundr_server_make_at(16, written.made, sizeof written.made);
}

static void make_server_17(void)
{
	answer = sundr_server_make_at(17, written.made, sizeof written.made);
}

static void list_all(void)
{
	answer = sundr_server_list(&server, written.listed, sizeof written.listed);
}

static void list_without_room(void)
{
	answer = sundr_server_list(&server, written.listed, sizeof written.listed - 1);
}

static void commit_next(void)
{
	/* User 15's count as it was: the same record is not taken twice. */
	written.server.records[98 * 15 + 34 + 4 * 15 + 3] = 1;
	answer = sundr_server_commit(&written.server, record, sizeof record, 1);
}

static void commit_apart(void)
{
	answer = sundr_server_commit(&server, apart, sizeof apart, 1);
}

static void write_table(void)
{
	answer = sundr_table_write(numbers, 4096, handles, sizeof handles, written.blocks, sizeof written.blocks);
}

static void write_without_room(void)
{
	answer = sundr_table_write(numbers, 4096, handles, sizeof handles, written.blocks, sizeof written.blocks - 1);
}

static void look_up(void)
{
	answer = sundr_lookup(i_handle, sizeof i_handle, numbers[4095], path, sizeof path,
		written.found, sizeof written.found);
}

static void look_up_absent(void)
{
	answer = sundr_lookup(i_handle, sizeof i_handle, numbers[4095] + 1, path, sizeof path,
		written.found, sizeof written.found);
}

static void look_up_altered(void)
{
	answer = sundr_lookup(i_handle, sizeof i_handle, numbers[4095], altered, sizeof altered,
		written.found, sizeof written.found);
}

static void look_up_64(void)
{
	answer = sundr_lookup_many(i_handle, sizeof i_handle, asked, 64, counts, 64, paths, 64 * 3 * 642,
		written.entries, 64 * 33);
}

static void look_up_64_absent(void)
{
	answer = sundr_lookup_many(i_handle, sizeof i_handle, absent, 64, counts, 64, paths, 64 * 3 * 642,
		written.no_entries, 64 * 33);
}

static void look_up_64_altered(void)
{
	answer = sundr_lookup_many(i_handle, sizeof i_handle, asked, 64, counts, 64, altered_paths, sizeof altered_paths,
		written.entries, 64 * 33);
}

static void look_up_65(void)
{
	answer = sundr_lookup_many(i_handle, sizeof i_handle, asked, 65, counts, 65, paths, sizeof paths,
		written.entries, 65 * 33);
}

/* The cases, those of a call together: the call, on what, what makes it, and the answer that is due. */
static const struct {
	const char *call, *on;
	void (*make)(void);
	uint64_t due;
} cases[] = {
	{"sundr_sha256", "no bytes", hash_0, ANSWER(SUNDR_ACCEPTED, 0, 0)},
	{"sundr_sha256", "55 bytes", hash_55, ANSWER(SUNDR_ACCEPTED, 0, 0)},
	{"sundr_sha256", "56 bytes", hash_56, ANSWER(SUNDR_ACCEPTED, 0, 0)},
	{"sundr_sha256", "64 bytes", hash_64, ANSWER(SUNDR_ACCEPTED, 0, 0)},
	{"sundr_sha256", "65,536 bytes", hash_65536, ANSWER(SUNDR_ACCEPTED, 0, 0)},
	{"sundr_sha256", "65,537 bytes", hash_65537, ANSWER(SUNDR_LENGTH, 0, 0)},
	{"sundr_compare", "the same counts", compare_same, ANSWER(SUNDR_ACCEPTED, SUNDR_EQUAL, 0)},
	{"sundr_compare", "the last user's next", compare_next, ANSWER(SUNDR_ACCEPTED, SUNDR_BEFORE, 0)},
	{"sundr_compare", "the last two users' forked", compare_apart, ANSWER(SUNDR_ACCEPTED, SUNDR_APART, 0)},
	{"sundr_memory_check", "16 users", check_list, ANSWER(SUNDR_ACCEPTED, 0, 0)},
	{"sundr_memory_check", "16 users, send again", check_pending, ANSWER(SUNDR_SEND_AGAIN, 0, 0)},
	{"sundr_memory_check", "17 users", check_17_users, ANSWER(SUNDR_USERS, 0, 0)},
	{"sundr_memory_check", "16 users, 15 counts", check_15_counts, ANSWER(SUNDR_LENGTH, 0, 0)},
	{"sundr_memory_check", "16 users, send again, a byte short", check_without_room, ANSWER(SUNDR_LENGTH, 0, 0)},
	{"sundr_memory_check", "16 users, a file of another's", check_with_file_of_another,
		ANSWER(SUNDR_MALFORMED, SUNDR_MEMORY_POSITION, 0)},
	{"sundr_memory_check", "16 users, the last record malformed", check_malformed, ANSWER(SUNDR_MALFORMED, 15, 0)},
	{"sundr_memory_check", "16 users, the last record unsigned", check_unmarked, ANSWER(SUNDR_UNSIGNED, 15, 0)},
	{"sundr_memory_check", "16 users, no memory of the last record", check_without_memory,
		ANSWER(SUNDR_NOT_CURRENT, 0, 0)},
	{"sundr_memory_check", "16 users, at the last count", check_at_last, ANSWER(SUNDR_LAST_VERSION, 0, 0)},
	{"sundr_memory_check", "16 users, the last two forked", check_forked, ANSWER(SUNDR_UNORDERED, 14, 15)},
	{"sundr_memory_check", "16 users, the last ahead of the next", check_ahead, ANSWER(SUNDR_UNORDERED, 15, 16)},
	{"sundr_memory_create", "16 users", create_next, ANSWER(SUNDR_ACCEPTED, 0, 0)},
	{"sundr_memory_create", "16 users, user 16", create_for_no_user, ANSWER(SUNDR_USERS, 0, 0)},
	{"sundr_memory_create", "16 users, a byte short", create_without_room, ANSWER(SUNDR_LENGTH, 0, 0)},
	{"sundr_memory_create", "16 users, a file of another's", create_with_file_of_another,
		ANSWER(SUNDR_MALFORMED, SUNDR_MEMORY_POSITION, 0)},
	{"sundr_memory_create", "15 users, a count of user 15", create_beyond, ANSWER(SUNDR_MALFORMED, 0, 0)},
	{"sundr_memory_create", "16 users, at the last count", create_at_last, ANSWER(SUNDR_LAST_VERSION, 0, 0)},
	{"sundr_memory_create", "16 users, the counts once more", create_again, ANSWER(SUNDR_NOT_NEXT, 0, 0)},
	{"sundr_memory_pend", "16 users", pend_next, ANSWER(SUNDR_ACCEPTED, 0, 0)},
	{"sundr_memory_pend", "16 users, user 16", pend_for_no_user, ANSWER(SUNDR_USERS, 0, 0)},
	{"sundr_memory_pend", "16 users, a byte short", pend_without_room, ANSWER(SUNDR_LENGTH, 0, 0)},
	{"sundr_memory_pend", "16 users, a structure of another's", pend_of_another,
		ANSWER(SUNDR_MALFORMED, SUNDR_MEMORY_POSITION, 0)},
	{"sundr_memory_sent", "16 users", mark_sent, ANSWER(SUNDR_ACCEPTED, 0, 0)},
	{"sundr_memory_sent", "16 users, user 16", mark_for_no_user, ANSWER(SUNDR_USERS, 0, 0)},
	{"sundr_memory_sent", "16 users, a byte short", mark_short, ANSWER(SUNDR_LENGTH, 0, 0)},
	{"sundr_memory_sent", "16 users, a file of another's", mark_of_another,
		ANSWER(SUNDR_MALFORMED, SUNDR_MEMORY_POSITION, 0)},
	{"sundr_memory_over", "16 users", move_over, ANSWER(SUNDR_ACCEPTED, 0, 0)},
	{"sundr_memory_over", "16 users, no structure", move_none_over, ANSWER(SUNDR_ACCEPTED, 0, 0)},
	{"sundr_memory_over", "16 users, user 16", move_over_for_no_user, ANSWER(SUNDR_USERS, 0, 0)},
	{"sundr_memory_over", "16 users, a byte short", move_over_short, ANSWER(SUNDR_LENGTH, 0, 0)},
	{"sundr_memory_over", "16 users, a structure of another's", move_over_of_another,
		ANSWER(SUNDR_MALFORMED, SUNDR_MEMORY_POSITION, 0)},
	{"sundr_memory_back", "16 users", move_back, ANSWER(SUNDR_ACCEPTED, 98, 0)},
	{"sundr_memory_back", "16 users, no structure", move_none_back, ANSWER(SUNDR_ACCEPTED, 0, 0)},
	{"sundr_memory_back", "16 users, user 16", move_back_for_no_user, ANSWER(SUNDR_USERS, 0, 0)},
	{"sundr_memory_back", "16 users, a byte short", move_back_without_room, ANSWER(SUNDR_LENGTH, 0, 0)},
	{"sundr_memory_back", "16 users, a file of another's", move_back_of_another,
		ANSWER(SUNDR_MALFORMED, SUNDR_MEMORY_POSITION, 0)},
	{"sundr_memory_back", "16 users, pending", move_back_pending, ANSWER(SUNDR_PENDING, 0, 0)},
	{"sundr_server_make_at", "16 users", make_server, ANSWER(SUNDR_ACCEPTED, 0, 0)},
	{"sundr_server_make_at", "17 users", make_server_17, ANSWER(SUNDR_USERS, 0, 0)},
	{"sundr_server_list_at", "16 users", list_all, ANSWER(SUNDR_ACCEPTED, 16, 0)},
	{"sundr_server_list_at", "16 users, a byte short", list_without_room, ANSWER(SUNDR_NO_ROOM, 0, 0)},
	{"sundr_server_commit", "16 users", commit_next, ANSWER(SUNDR_ACCEPTED, 0, 0)},
	{"sundr_server_commit", "16 users, the last two forked", commit_apart, ANSWER(SUNDR_UNORDERED, 14, 0)},
	{"sundr_table_write", "4,096 files", write_table, ANSWER(SUNDR_ACCEPTED, 273, 0)},
	{"sundr_table_write", "4,096 files, a byte short", write_without_room, ANSWER(SUNDR_NO_ROOM, 0, 0)},
	{"sundr_lookup", "three blocks, found", look_up, ANSWER(SUNDR_ACCEPTED, 1, 0)},
	{"sundr_lookup", "three blocks, absent", look_up_absent, ANSWER(SUNDR_ACCEPTED, 0, 0)},
	{"sundr_lookup", "three blocks, a bit of the last altered", look_up_altered, ANSWER(SUNDR_WRONG_HASH, 2, 0)},
	{"sundr_lookup_many", "64 questions, three blocks each, found", look_up_64, ANSWER(SUNDR_ACCEPTED, 0, 0)},
	{"sundr_lookup_many", "64 questions, three blocks each, absent", look_up_64_absent, ANSWER(SUNDR_ACCEPTED, 0, 0)},
	{"sundr_lookup_many", "64 questions, a bit of the last block altered", look_up_64_altered,
		ANSWER(SUNDR_WRONG_HASH, 63, 2)},
	{"sundr_lookup_many", "65 questions", look_up_65, ANSWER(SUNDR_LENGTH, 0, 0)},
	{"sundr_block_check", "8,192 bytes", check_block, ANSWER(SUNDR_ACCEPTED, 0, 8192)},
	{"sundr_block_check", "8,192 other bytes", check_other_block, ANSWER(SUNDR_WRONG_HASH, 1, 0)},
	{"sundr_large_block_check", "8,192 bytes", check_direct_block, ANSWER(SUNDR_ACCEPTED, 0, 8192)},
	{"sundr_large_block_check", "8,192 bytes, through the indirect block", check_indirect_block,
		ANSWER(SUNDR_ACCEPTED, 131072, 8192)},
	{"sundr_large_block_check", "8,192 other bytes, through the indirect block", check_other_indirect_block,
		ANSWER(SUNDR_WRONG_HASH, 1, 0)},
	{"sundr_block_choose", "8,192 bytes, the reply", choose_reply, ANSWER(SUNDR_ACCEPTED, 0, 8192)},
	{"sundr_block_choose", "8,192 bytes, cached", choose_cached, ANSWER(SUNDR_ACCEPTED, 1, 8192)},
	{"sundr_block_choose", "8,192 bytes twice, neither wanted", choose_neither, ANSWER(SUNDR_WRONG_HASH, 0, 0)},
	{"sundr_block_choose", "65,537 bytes cached", choose_too_long, ANSWER(SUNDR_LENGTH, 0, 0)},
	{"sundr_store_make", "526,464 bytes", make_store, ANSWER(SUNDR_ACCEPTED, 0, 0)},
	{"sundr_store_make", "a byte short", make_store_short, ANSWER(SUNDR_LENGTH, 0, 0)},
	{"sundr_store", "64 places held, in the last of them again", store_again, ANSWER(SUNDR_ACCEPTED, 0, 0)},
	{"sundr_store", "63 places held, in the last anew", store_anew, ANSWER(SUNDR_ACCEPTED, 0, 0)},
	{"sundr_store", "64 places held, in none of them", store_in_full, ANSWER(SUNDR_NO_PLACE, 0, 0)},
	{"sundr_retrieve", "64 places held, from the last", retrieve_last,
		ANSWER(SUNDR_ACCEPTED, SUNDR_BLOCK_MAX_LEN - 63, 0)},
	{"sundr_retrieve", "64 places held, from the last, a byte short", retrieve_without_room, ANSWER(SUNDR_NO_ROOM, 0, 0)},
	{"sundr_retrieve", "64 places held, from none", retrieve_other, ANSWER(SUNDR_NOT_HELD, 0, 0)},
	{"sundr_unreference", "64 places held, from the last", unreference_last, ANSWER(SUNDR_ACCEPTED, 1, 0)},
	{"sundr_unreference", "64 places held, nothing from the last", unreference_uncounted, ANSWER(SUNDR_ACCEPTED, 0, 0)},
	{"sundr_unreference", "64 places held, from none", unreference_other, ANSWER(SUNDR_NOT_HELD, 0, 0)},
};

enum { CASES = sizeof cases / sizeof cases[0] };

#endif
