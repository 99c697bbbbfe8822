/*
 * A desk on the archive, with its memory file on a disk. Started with a work to commit, it ends with DONE once the server
 * has it; cut off at any step and started again, it goes on from its file. It knows nothing else of its last start.
 *
 *     desk USER WORK ATTEMPT KIND FD
 *
 * It works in the folder of its user. KIND is the desk's: the right one, or one of wrong.h. FD is the driver's watch.
 */
#include <sys/mman.h>

#include "wrong.h"

/* The right desk. What is not pending on the disk does not leave; what is pending leaves as it is there. */
static int right(struct desk *d)
{
	for (;;) {
		unsigned said;

		if (holds_work(d) && state_is(d, SUNDR_STATE_SENT))
			return DONE;
		ask_list(d);
		said = check_list(d);
		if (said == SUNDR_SEND_AGAIN) {
			send_record(d, d->again);
			receive_answer(d);
		} else if (said != SUNDR_ACCEPTED) {
			return REFUSED_CHECK + (int)said;
		} else if (!state_is(d, SUNDR_STATE_PENDING)) {
			make(d);
			pend(d);
			write_file(d->file);
			send_record(d, d->file + 2);
			receive_answer(d);
		}
		/* The server has it: it answered so, or its list shows it. */
		mark_sent(d);
		write_file(d->file);
	}
}

/*
 * Right as well: it never marks what it sent. A pending structure that the list shows is judged as if it were sent, and
 * the next is made on it.
 */
static int unmarked(struct desk *d)
{
	unsigned said;

	ask_list(d);
	said = check_list(d);
	if (said == SUNDR_SEND_AGAIN) {
		send_record(d, d->again);
	} else if (said != SUNDR_ACCEPTED) {
		return REFUSED_CHECK + (int)said;
	} else if (holds_work(d)) {
		return DONE;
	} else {
		make(d);
		pend(d);
		write_file(d->file);
		send_record(d, d->file + 2);
	}
	receive_answer(d);
	return DONE;
}

int main(int argc, char **argv)
{
	static struct desk d;
	enum kind kind;

	if (argc != 6)
		return FAILED;
	d.user = (uint8_t)atoi(argv[1]);
	d.work = (uint32_t)atoi(argv[2]);
	d.attempt = (uint32_t)atoi(argv[3]);
	kind = (enum kind)atoi(argv[4]);
	watch = mmap(NULL, sizeof *watch, PROT_READ | PROT_WRITE, MAP_SHARED, atoi(argv[5]), 0);
	if (watch == MAP_FAILED || chdir(d.user == 0 ? "a" : "b") != 0)
		return FAILED;

	d.file_len = read_name(kind == WRONG_READS_NEW && access(NEW_NAME, R_OK) == 0 ? NEW_NAME : FILE_NAME, d.file);
	/* Killed after its rename, the last start may have left what a later power cut would still undo. */
	if (kind != WRONG_START_UNSYNCED)
		sync_folder();
	if (kind <= RIGHT_UNMARKED && holds_work(&d) && state_is(&d, SUNDR_STATE_SENT))
		return DONE;
	reach_server(&d);
	if (kind == RIGHT_UNMARKED)
		return unmarked(&d);
	return kind == RIGHT ? right(&d) : wrong(&d, kind);
}
