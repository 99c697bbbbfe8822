/*
 * Desks that do a thing wrong, one each, for the judge to notice. Where a wrong desk does not make its mistake it does
 * as the right one: WRONG_NOTHING makes none, and nothing is to be noticed of it.
 */
#ifndef WRONG_H
#define WRONG_H

#include "calls.h"
#include "kinds.h"

/* In place of write_file(): each leaves out or swaps one thing of it. */
static inline void write_wrong(const uint8_t file[SUNDR_MEMORY_LEN], enum kind kind)
{
	const char *name = kind == WRONG_IN_PLACE ? FILE_NAME : NEW_NAME;
	int to = good(open(name, O_WRONLY | O_CREAT | (kind == WRONG_NOT_EMPTIED ? 0 : O_TRUNC), 0600));

	step(STEP_OPEN_NEW);
	write_halves(to, file);
	if (kind != WRONG_NEW_UNSYNCED) {
		good(fsync(to));
		step(STEP_SYNC_NEW);
	}
	good(close(to));
	step(STEP_CLOSE_NEW);
	if (kind == WRONG_IN_PLACE)
		return;
	good(rename(NEW_NAME, FILE_NAME));
	step_rename(file);
	if (kind != WRONG_FOLDER_UNSYNCED)
		sync_folder();
}

/*
 * The pending write after the next check, and nothing sent before it: what that check allows has the own count of what was
 * made, and both go out.
 */
static inline void make_two(struct desk *d)
{
	uint8_t first[SUNDR_VERSION_LEN];

	make(d);
	memcpy(first, d->version, sizeof first);
	ask_list(d);
	if (check_list(d) != SUNDR_ACCEPTED)
		_exit(FAILED);
	make(d);
	must(sundr_memory_pend(USERS, d->user, first, sizeof first, d->file, SUNDR_MEMORY_LEN));
	step(STEP_PEND);
	write_file(d->file);
	send_record(d, d->file + 2);
	receive_answer(d);
	pend(d);
	write_file(d->file);
	send_record(d, d->file + 2);
	receive_answer(d);
}

/* What it makes goes out, and it is told that the server has it. */
static inline void make_and_send(struct desk *d, enum kind kind)
{
	switch (kind) {
	case WRONG_SENDS_FIRST:
		make(d);
		send_record(d, d->version);
		receive_answer(d);
		pend(d);
		write_file(d->file);
		break;
	case WRONG_SENDS_AND_CHECKS_FIRST:
		make(d);
		pend(d);
		send_record(d, d->file + 2);
		receive_answer(d);
		ask_list(d);
		check_list(d);
		write_file(d->file);
		break;
	case WRONG_MAKES_TWO:
		make_two(d);
		break;
	case WRONG_MARKS_FIRST:
		make(d);
		pend(d);
		write_file(d->file);
		mark_sent(d);
		write_file(d->file);
		send_record(d, d->file + 2);
		receive_answer(d);
		break;
	case WRONG_MARKS_UNANSWERED:
		make(d);
		pend(d);
		write_file(d->file);
		send_record(d, d->file + 2);
		mark_sent(d);
		write_file(d->file);
		receive_answer(d);
		break;
	default:
		make(d);
		pend(d);
		write_wrong(d->file, kind);
		send_record(d, d->file + 2);
		receive_answer(d);
	}
}

static inline int wrong(struct desk *d, enum kind kind)
{
	struct desk copy = *d;

	for (;;) {
		unsigned said;

		if (holds_work(d) && state_is(d, SUNDR_STATE_SENT))
			return DONE;
		ask_list(d);
		said = check_list(d);
		if (said == SUNDR_SEND_AGAIN && kind == WRONG_FORGETS) {
			/* It takes what is pending for not made, and makes it anew on what the server shows of it. */
			must(sundr_memory_over(USERS, d->user, d->list, d->list_len == 0 || d->list[1] != d->user ? 0 : SUNDR_VERSION_LEN,
				d->file, SUNDR_MEMORY_LEN));
			continue;
		} else if (said == SUNDR_SEND_AGAIN) {
			send_record(d, d->again);
			receive_answer(d);
		} else if (said != SUNDR_ACCEPTED) {
			return REFUSED_CHECK + (int)said;
		} else if (!state_is(d, SUNDR_STATE_PENDING)) {
			make_and_send(d, kind);
		}
		/* The file as it was when the desk was started, and not as it stands. */
		if (kind == WRONG_MARKS_COPY)
			memcpy(d->file, copy.file, sizeof d->file);
		mark_sent(d);
		write_wrong(d->file, kind);
	}
}

#endif
