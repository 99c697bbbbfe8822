/*
 * The cases of stack_cases.h that are a client's: the check, the making step and the calls on a memory file, accepted and
 * refused with each number; and the check that answers "send again".
 */
#ifndef STACK_TURN_H
#define STACK_TURN_H

#include "stack_lent.h"
#include "sundr.h"

/* A check of so many users, by user 8 or 15, with this file, list and marks. It is a macro, so that the frame is the case's. */
#define CHECK(users, user, file, list, marks) \
	sundr_memory_check(users, user, file, 100, list, sizeof list, marks, sizeof marks, \
		written.counts, 16, written.again, sizeof written.again)

static void check_list(void)
{
	answer = CHECK(16, 8, files[8], list, marks);
}

static void check_pending(void)
{
	answer = CHECK(16, 15, pending_file, list, marks);
}

static void check_17_users(void)
{
	answer = CHECK(17, 8, files[8], list, marks);
}

static void check_15_counts(void)
{
	answer = sundr_memory_check(16, 8, files[8], 100, list, sizeof list, marks, sizeof marks,
		written.counts, 15, written.again, sizeof written.again);
}

static void check_without_room(void)
{
	answer = sundr_memory_check(16, 15, pending_file, 100, list, sizeof list, marks, sizeof marks,
		written.counts, 16, written.again, sizeof written.again - 1);
}

static void check_with_file_of_another(void)
{
	answer = CHECK(16, 8, files[7], list, marks);
}

static void check_malformed(void)
{
	answer = CHECK(16, 8, files[8], malformed, marks);
}

static void check_unmarked(void)
{
	answer = CHECK(16, 8, files[8], list, unmarked);
}

static void check_without_memory(void)
{
	answer = CHECK(16, 15, none_file, list, marks);
}

static void check_at_last(void)
{
	answer = CHECK(16, 15, last_file, last, marks);
}

static void check_forked(void)
{
	answer = CHECK(16, 8, files[8], forked, marks);
}

static void check_ahead(void)
{
	answer = CHECK(16, 8, files[8], ahead, marks);
}

/* A making step of so many users, by this one, with this file and these counts. */
#define CREATE(users, user, file, counts) \
	sundr_memory_create(users, user, file, 100, counts, 16, handle, sizeof handle, written.next, sizeof written.next)

static void create_next(void)
{
	answer = CREATE(16, 15, files[15], next_counts);
}

static void create_for_no_user(void)
{
	answer = CREATE(16, 16, files[15], next_counts);
}

static void create_without_room(void)
{
	answer = sundr_memory_create(16, 15, files[15], 100, next_counts, 16, handle, sizeof handle,
		written.next, sizeof written.next - 1);
}

static void create_with_file_of_another(void)
{
	answer = CREATE(16, 15, files[14], next_counts);
}

static void create_beyond(void)
{
	answer = CREATE(15, 14, files[14], next_counts);
}

static void create_at_last(void)
{
	answer = CREATE(16, 15, last_file, next_counts);
}

static void create_again(void)
{
	answer = CREATE(16, 15, files[15], listed_counts);
}

static void pend_next(void)
{
	answer = sundr_memory_pend(16, 15, record, sizeof record, written.pended, sizeof written.pended);
}

static void pend_for_no_user(void)
{
	answer = sundr_memory_pend(16, 16, record, sizeof record, written.pended, sizeof written.pended);
}

static void pend_without_room(void)
{
	answer = sundr_memory_pend(16, 15, record, sizeof record, written.pended, sizeof written.pended - 1);
}

static void pend_of_another(void)
{
	answer = sundr_memory_pend(16, 14, record, sizeof record, written.pended, sizeof written.pended);
}

static void mark_sent(void)
{
	answer = sundr_memory_sent(16, 15, written.marked, sizeof written.marked);
}

static void mark_for_no_user(void)
{
	answer = sundr_memory_sent(16, 16, written.marked, sizeof written.marked);
}

static void mark_short(void)
{
	answer = sundr_memory_sent(16, 15, written.marked, sizeof written.marked - 1);
}

static void mark_of_another(void)
{
	answer = sundr_memory_sent(16, 14, written.marked, sizeof written.marked);
}

static void move_over(void)
{
	answer = sundr_memory_over(16, 15, record, sizeof record, written.moved, sizeof written.moved);
}

static void move_none_over(void)
{
	answer = sundr_memory_over(16, 15, NULL, 0, written.none, sizeof written.none);
}

static void move_over_for_no_user(void)
{
	answer = sundr_memory_over(16, 16, record, sizeof record, written.moved, sizeof written.moved);
}

static void move_over_short(void)
{
	answer = sundr_memory_over(16, 15, record, sizeof record - 1, written.moved, sizeof written.moved);
}

static void move_over_of_another(void)
{
	answer = sundr_memory_over(16, 14, record, sizeof record, written.moved, sizeof written.moved);
}

static void move_back(void)
{
	answer = sundr_memory_back(16, 15, files[15], 100, written.back, sizeof written.back);
}

static void move_none_back(void)
{
	answer = sundr_memory_back(16, 15, none_file, 100, written.back, sizeof written.back);
}

static void move_back_for_no_user(void)
{
	answer = sundr_memory_back(16, 16, files[15], 100, written.back, sizeof written.back);
}

static void move_back_without_room(void)
{
	answer = sundr_memory_back(16, 15, files[15], 100, written.back, sizeof written.back - 1);
}

static void move_back_of_another(void)
{
	answer = sundr_memory_back(16, 15, files[14], 100, written.back, sizeof written.back);
}

static void move_back_pending(void)
{
	answer = sundr_memory_back(16, 15, pending_file, 100, written.back, sizeof written.back);
}

#endif
