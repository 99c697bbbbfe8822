/*
 * The world outside a desk: its server and the disks. It can be kept and set back, so that many runs branch off from one
 * point; and the driver puts there what a cut may leave.
 */
#ifndef WORLD_H
#define WORLD_H

#include <errno.h>
#include <sys/mman.h>
#include <sys/stat.h>
#include <sys/wait.h>

#include "server.h"

#define CONTENT_MAX 300

/* A file on a disk. */
struct content {
	int len; /* -1: it is not there */
	uint8_t bytes[CONTENT_MAX];
};

struct world {
	struct seen seen;
	struct content file[USERS], new_file[USERS];
	struct content durable;
};

static struct seen *seen;
static pid_t server;

/* What user 0's file is after a power cut: a rename counts once its folder is synced. */
static struct content durable;

/* The driver itself ends where a thing fails that is not to be judged. */
static inline int sure(int result)
{
	if (result < 0) {
		perror("cuts");
		exit(FAILED);
	}
	return result;
}

/* The record that the server has of a user, and how many operations it counts of it; 0 where there is none. */
static inline const uint8_t *taken(int user)
{
	return seen->server.records + SUNDR_VERSION_LEN * user;
}

static inline uint32_t taken_count(int user)
{
	return sundr_count(taken(user), (uint8_t)user);
}

static inline void name_of(char name[64], int user, const char *file)
{
	snprintf(name, 64, "%s/%s", folders[user], file);
}

static inline struct content get(int user, const char *file)
{
	struct content c = {.len = -1};
	char name[64];
	int from;

	name_of(name, user, file);
	from = open(name, O_RDONLY);
	if (from < 0)
		return c;
	c.len = sure((int)read(from, c.bytes, sizeof c.bytes));
	close(from);
	return c;
}

static inline void lay(int user, const char *file, const struct content *c)
{
	char name[64];
	int to;

	name_of(name, user, file);
	if (c->len < 0) {
		if (unlink(name) != 0 && errno != ENOENT)
			sure(-1);
		return;
	}
	to = sure(open(name, O_WRONLY | O_CREAT | O_TRUNC, 0600));
	if (write(to, c->bytes, (size_t)c->len) != c->len)
		sure(-1);
	close(to);
}

/* Once this is answered, the server has seen all that a desk sent before it was killed. */
static inline void await_server(void)
{
	struct sockaddr_un at = address("server");
	uint8_t message[MESSAGE_MAX] = {'d'};
	int link = sure(socket(AF_UNIX, SOCK_SEQPACKET, 0));

	sure(connect(link, (struct sockaddr *)&at, sizeof at));
	sure((int)send(link, message, 1, MSG_NOSIGNAL));
	if (recv(link, message, sizeof message, 0) != 1)
		sure(-1);
	close(link);
}

static inline void keep(struct world *w)
{
	int user;

	w->seen = *seen;
	w->durable = durable;
	for (user = 0; user < USERS; user++) {
		w->file[user] = get(user, FILE_NAME);
		w->new_file[user] = get(user, NEW_NAME);
	}
}

static inline void set_back(const struct world *w)
{
	int user;

	*seen = w->seen;
	durable = w->durable;
	for (user = 0; user < USERS; user++) {
		lay(user, FILE_NAME, &w->file[user]);
		lay(user, NEW_NAME, &w->new_file[user]);
	}
}

/* An empty server, and two desks whose memory, none, is moved over into files. */
static inline void make_world(struct world *w)
{
	int user;

	memset(w, 0, sizeof *w);
	sundr_server_make(USERS, &w->seen.server);
	for (user = 0; user < USERS; user++) {
		w->file[user].len = SUNDR_MEMORY_LEN;
		sundr_memory_over(USERS, (uint8_t)user, NULL, 0, w->file[user].bytes, SUNDR_MEMORY_LEN);
		w->new_file[user].len = -1;
	}
	w->durable = w->file[0];
}

#endif
