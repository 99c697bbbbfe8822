/*
 * The server: its list by the library's calls, in a process of its own that outlives every desk. It notes whatever comes
 * to be committed, and looks at the disk of its desk when it comes.
 */
#ifndef SERVER_H
#define SERVER_H

#include <fcntl.h>
#include <stdio.h>
#include <stdlib.h>
#include <unistd.h>

#include "disk.h"
#include "wire.h"

#define ARRIVALS_MAX 40

/* In place of the number of a refusal: it left the desk, and was lost on its way. */
#define LOST 254

/* In place of a state: the desk's file does not have it. */
#define NOT_THERE 255

/* A record that came, what became of it, and the state of the file that had it then. */
struct arrival {
	uint8_t record[SUNDR_VERSION_LEN], answer, state;
};

/* Shared with the driver, which reads it, and sets it back to where another run branches off. */
struct seen {
	struct sundr_server server;
	uint32_t lose; /* how many of user 0's next records are lost on their way */
	uint32_t arrivals;
	struct arrival arrival[ARRIVALS_MAX];
};

static const char *const folders[USERS] = {"a", "b"};

static inline uint8_t state_on_disk(const uint8_t record[SUNDR_VERSION_LEN])
{
	uint8_t file[SUNDR_MEMORY_LEN + 1];
	char name[64];
	ssize_t len;
	int from;

	snprintf(name, sizeof name, "%s/%s", folders[sundr_owner(record) % USERS], FILE_NAME);
	from = open(name, O_RDONLY);
	if (from < 0)
		return NOT_THERE;
	len = read(from, file, sizeof file);
	close(from);
	return len == SUNDR_MEMORY_LEN && memcmp(file + 2, record, SUNDR_VERSION_LEN) == 0 ? file[1] : NOT_THERE;
}

/* Takes a record, or loses it: whether there is an answer. */
static inline int commit(struct seen *seen, const uint8_t record[SUNDR_VERSION_LEN], uint8_t *answer)
{
	struct arrival *arrival = &seen->arrival[seen->arrivals];

	if (seen->arrivals == ARRIVALS_MAX)
		abort();
	memcpy(arrival->record, record, SUNDR_VERSION_LEN);
	arrival->state = state_on_disk(record);
	arrival->answer = LOST;
	seen->arrivals++;
	if (seen->lose > 0 && sundr_owner(record) == 0) {
		seen->lose--;
		return 0;
	}
	*answer = arrival->answer = sundr_server_commit(&seen->server, record, SUNDR_VERSION_LEN, 1) & 0xff;
	return 1;
}

/* One connection, to its end. */
static inline void converse(struct seen *seen, int desk)
{
	uint8_t message[MESSAGE_MAX];
	ssize_t len;

	while ((len = recv(desk, message, sizeof message, 0)) > 0) {
		if (message[0] == 'l')
			len = 1 + SUNDR_VERSION_LEN
				* (ssize_t)sundr_first(sundr_server_list(&seen->server, message + 1, sizeof message - 1));
		else if (message[0] == 'c' && len == 1 + SUNDR_VERSION_LEN)
			len = commit(seen, message + 1, &message[1]) ? 2 : 0;
		if (len == 0)
			return;
		/* Nobody may be there any more. */
		if (send(desk, message, (size_t)len, MSG_NOSIGNAL) < 0)
			return;
	}
}

static inline void serve(struct seen *seen, int listener)
{
	for (;;) {
		int desk = accept(listener, NULL, NULL);

		if (desk < 0)
			_exit(FAILED);
		converse(seen, desk);
		close(desk);
	}
}

#endif
