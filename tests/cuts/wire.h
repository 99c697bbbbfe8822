/* What a desk and the server say to each other. A socket of packets keeps each message whole. */
#ifndef WIRE_H
#define WIRE_H

#include <string.h>
#include <sys/socket.h>
#include <sys/un.h>

#include "sundr.h"

#define USERS 2

/*
 * 'l': the list, please. Answered with 'l' and the records.
 * 'c' and a record: a commit. Answered with 'c' and the number of the refusal, 0 if it is taken.
 * 'd': done with all that came before? Answered with 'd': the server takes one connection after the other, each to its end.
 */
#define MESSAGE_MAX (1 + USERS * SUNDR_VERSION_LEN)

static inline struct sockaddr_un address(const char *path)
{
	struct sockaddr_un at;

	memset(&at, 0, sizeof at);
	at.sun_family = AF_UNIX;
	strncpy(at.sun_path, path, sizeof at.sun_path - 1);
	return at;
}

#endif
