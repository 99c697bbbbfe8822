/*
 * Whether the steps are all there are: the desk is run once more, not cut, and the kernel tells each of its system calls.
 * They have to be those of its steps, one for one and in this order.
 */
#ifndef TRACED_H
#define TRACED_H

#include <sys/ptrace.h>
#include <sys/syscall.h>
#include <sys/user.h>

#include "start.h"

#define CALLS_MAX 1000

/* The system call of a step; none, -1, of a step that is a call of the library. */
static inline long system_call(enum step what)
{
	switch (what) {
	case STEP_OPEN_FILE: case STEP_OPEN_NEW: case STEP_OPEN_FOLDER:
		return SYS_openat;
	case STEP_READ_FILE:
		return SYS_read;
	case STEP_WRITE_HALF: case STEP_WRITE_REST:
		return SYS_write;
	case STEP_SYNC_NEW: case STEP_SYNC_FOLDER:
		return SYS_fsync;
	case STEP_CLOSE_FILE: case STEP_CLOSE_NEW: case STEP_CLOSE_FOLDER:
		return SYS_close;
	case STEP_RENAME:
		return SYS_rename;
	case STEP_SOCKET:
		return SYS_socket;
	case STEP_CONNECT:
		return SYS_connect;
	case STEP_ASK: case STEP_SEND:
		return SYS_sendto;
	case STEP_LISTED: case STEP_ANSWER:
		return SYS_recvfrom;
	default:
		return -1;
	}
}

/* The system calls of a desk of user 0 from its chdir() on, which is what it does before its first step: their number. */
static inline size_t trace_desk(uint32_t work, long calls[CALLS_MAX])
{
	struct user_regs_struct at;
	size_t n = 0;
	int status, entry = 1, begun = 0;
	char arguments[5][16], *list[7];
	pid_t desk;

	desk_arguments(RIGHT, 0, work, arguments, list);
	begin_watch(0);
	desk = sure(fork());
	if (desk == 0) {
		if (ptrace(PTRACE_TRACEME, 0, NULL, NULL) == 0)
			execv(desk_program, list);
		_exit(FAILED);
	}
	sure(waitpid(desk, &status, 0));
	while (WIFSTOPPED(status)) {
		if (ptrace(PTRACE_SYSCALL, desk, NULL, NULL) != 0)
			sure(-1);
		sure(waitpid(desk, &status, 0));
		/* It stops at the entry of each system call, and at its end. */
		if (WIFSTOPPED(status) && entry) {
			if (ptrace(PTRACE_GETREGS, desk, NULL, &at) != 0)
				sure(-1);
			if (begun && n < CALLS_MAX)
				calls[n++] = (long)at.orig_rax;
			begun = begun || at.orig_rax == SYS_chdir;
		}
		entry = !entry;
	}
	await_server();
	return WIFEXITED(status) && WEXITSTATUS(status) == 0 ? n : 0;
}

/* Whether these are the steps' system calls, and then the exit. */
static inline int are_steps(const long calls[CALLS_MAX], size_t n)
{
	uint32_t i;
	size_t at = 0;

	for (i = 0; i < watch->steps; i++) {
		long due = system_call((enum step)watch->what[i]);

		if (due >= 0 && (at == n || calls[at++] != due))
			return 0;
	}
	return at + 1 == n && calls[at] == SYS_exit_group;
}

/* The names of the steps, the library's calls in capitals. */
static inline void print_steps(void)
{
	uint32_t i;

	for (i = 0; i < watch->steps; i++)
		printf("%s%s", i == 0 ? "" : i % 12 == 0 ? ",\n" : ", ", step_names[watch->what[i]]);
	printf("\n");
}

#endif
