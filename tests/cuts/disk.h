/*
 * The desk's memory file, in the folder where it works: read by its real name alone; replaced by a new file that is
 * written, synced and renamed, and the folder synced.
 */
#ifndef DISK_H
#define DISK_H

#include <fcntl.h>
#include <stdio.h>
#include <unistd.h>

#include "step.h"

#define FILE_NAME "memory"
#define NEW_NAME "memory.new"

/* The desk ends so where the disk or the system fails it. */
#define FAILED 3

static inline int good(int result)
{
	if (result < 0)
		_exit(FAILED);
	return result;
}

static inline void sync_folder(void)
{
	int folder = good(open(".", O_RDONLY | O_DIRECTORY));

	step(STEP_OPEN_FOLDER);
	good(fsync(folder));
	step(STEP_SYNC_FOLDER);
	good(close(folder));
	step(STEP_CLOSE_FOLDER);
}

/* Reads a file of a name. One byte more than is due is room enough: the library refuses any other length. */
static inline size_t read_name(const char *name, uint8_t file[SUNDR_MEMORY_LEN + 1])
{
	int from = good(open(name, O_RDONLY));
	size_t len;

	step(STEP_OPEN_FILE);
	len = (size_t)good((int)read(from, file, SUNDR_MEMORY_LEN + 1));
	step(STEP_READ_FILE);
	good(close(from));
	step(STEP_CLOSE_FILE);
	return len;
}

/* In two halves, so that a cut can leave one of them. */
static inline void write_halves(int to, const uint8_t file[SUNDR_MEMORY_LEN])
{
	size_t half = SUNDR_MEMORY_LEN / 2;

	if (write(to, file, half) != (ssize_t)half)
		_exit(FAILED);
	step(STEP_WRITE_HALF);
	if (write(to, file + half, half) != (ssize_t)half)
		_exit(FAILED);
	step(STEP_WRITE_REST);
}

static inline void write_file(const uint8_t file[SUNDR_MEMORY_LEN])
{
	int to = good(open(NEW_NAME, O_WRONLY | O_CREAT | O_TRUNC, 0600));

	step(STEP_OPEN_NEW);
	write_halves(to, file);
	good(fsync(to));
	step(STEP_SYNC_NEW);
	good(close(to));
	step(STEP_CLOSE_NEW);
	good(rename(NEW_NAME, FILE_NAME));
	step_rename(file);
	sync_folder();
}

#endif
