/*
 * The steps of a desk: each call of the library and each system call, from its first read on. The driver numbers the one
 * after which the desk is cut. There the desk stops itself, and it is the driver that kills it.
 */
#ifndef STEP_H
#define STEP_H

#include <signal.h>
#include <stdint.h>
#include <stdlib.h>
#include <string.h>

#include "sundr.h"

enum step {
	STEP_OPEN_FILE = 1, STEP_READ_FILE, STEP_CLOSE_FILE,
	STEP_SOCKET, STEP_CONNECT, STEP_ASK, STEP_LISTED,
	STEP_CHECK, STEP_CREATE, STEP_PEND, STEP_SENT,
	STEP_OPEN_NEW, STEP_WRITE_HALF, STEP_WRITE_REST, STEP_SYNC_NEW, STEP_CLOSE_NEW, STEP_RENAME,
	STEP_OPEN_FOLDER, STEP_SYNC_FOLDER, STEP_CLOSE_FOLDER,
	STEP_SEND, STEP_ANSWER,
	STEP_KINDS
};

static const char *const step_names[STEP_KINDS] = {
	"", "open file", "read file", "close file", "socket", "connect", "ask", "listed", "CHECK", "CREATE", "PEND", "SENT",
	"open new", "write half", "write rest", "fsync new", "close new", "rename", "open folder", "fsync folder",
	"close folder", "send", "answer"
};

/* More than any desk takes to come to an end; one that goes on is ended. */
#define STEPS_MAX 100
#define RENAMES_MAX 3

/* Shared by a desk and the driver. It outlives the desk, and says how far it came. */
struct watch {
	uint32_t cut; /* stop after so many steps; 0: never */
	uint32_t steps, renames;
	uint8_t what[STEPS_MAX];
	uint8_t renamed[RENAMES_MAX][SUNDR_MEMORY_LEN]; /* what each rename has put in the file's place */
};

static struct watch *watch;

static inline void step(enum step what)
{
	if (watch->steps == STEPS_MAX)
		abort();
	watch->what[watch->steps++] = (uint8_t)what;
	if (watch->steps == watch->cut) {
		raise(SIGSTOP);
		abort();
	}
}

static inline void step_rename(const uint8_t file[SUNDR_MEMORY_LEN])
{
	if (watch->renames == RENAMES_MAX)
		abort();
	memcpy(watch->renamed[watch->renames++], file, SUNDR_MEMORY_LEN);
	step(STEP_RENAME);
}

#endif
