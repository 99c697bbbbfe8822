/* A desk, and what it does: each function is one call of the library, or one message. */
#ifndef CALLS_H
#define CALLS_H

#include "disk.h"
#include "wire.h"

/* How a desk ends: FAILED, or one of these; with the refusal's number added to the last three. */
#define DONE 0
#define NO_ANSWER 2
#define REFUSED_CHECK 40
#define REFUSED_COMMIT 80
#define REFUSED_CALL 120

struct desk {
	uint8_t user;
	uint32_t work, attempt; /* the work that is to be committed; a number that no other start of a desk has */
	uint8_t made;           /* how often it has made a structure */
	int server;
	uint8_t file[SUNDR_MEMORY_LEN + 1];
	size_t file_len;
	uint8_t list[USERS * SUNDR_VERSION_LEN], again[SUNDR_VERSION_LEN], version[SUNDR_VERSION_LEN];
	size_t list_len;
	uint32_t counts[SUNDR_MAX_USERS];
};

static inline void put_number(uint8_t *at, uint32_t number)
{
	at[0] = (uint8_t)(number >> 24);
	at[1] = (uint8_t)(number >> 16);
	at[2] = (uint8_t)(number >> 8);
	at[3] = (uint8_t)number;
}

/* The work that a version structure is of: its i-handle starts with the number. */
static inline uint32_t work_of(const uint8_t *version)
{
	const uint8_t *at = sundr_i_handle(version);

	return (uint32_t)at[0] << 24 | (uint32_t)at[1] << 16 | (uint32_t)at[2] << 8 | at[3];
}

static inline int state_is(const struct desk *d, uint8_t state)
{
	return d->file[1] == state;
}

static inline int holds_work(const struct desk *d)
{
	return !state_is(d, SUNDR_STATE_NONE) && work_of(d->file + 2) == d->work;
}

static inline void reach_server(struct desk *d)
{
	struct sockaddr_un at = address("../server");

	d->server = good(socket(AF_UNIX, SOCK_SEQPACKET, 0));
	step(STEP_SOCKET);
	good(connect(d->server, (struct sockaddr *)&at, sizeof at));
	step(STEP_CONNECT);
}

static inline void send_message(struct desk *d, const uint8_t *message, size_t len)
{
	if (send(d->server, message, len, MSG_NOSIGNAL) != (ssize_t)len)
		_exit(NO_ANSWER);
}

/* The answer to a message of this kind; the desk ends where there is none. */
static inline size_t receive(struct desk *d, uint8_t kind, uint8_t message[MESSAGE_MAX])
{
	ssize_t len = recv(d->server, message, MESSAGE_MAX, 0);

	if (len <= 0 || message[0] != kind)
		_exit(NO_ANSWER);
	return (size_t)len;
}

static inline void ask_list(struct desk *d)
{
	uint8_t message[MESSAGE_MAX] = {'l'};

	send_message(d, message, 1);
	step(STEP_ASK);
	d->list_len = receive(d, 'l', message) - 1;
	step(STEP_LISTED);
	memcpy(d->list, message + 1, d->list_len);
}

/* SUNDR_ACCEPTED, with counts; SUNDR_SEND_AGAIN, with the bytes; else the number of the refusal. */
static inline unsigned check_list(struct desk *d)
{
	static const uint8_t marks[USERS] = {1, 1};
	uint64_t answer = sundr_memory_check(USERS, d->user, d->file, d->file_len, d->list, d->list_len,
		marks, d->list_len / SUNDR_VERSION_LEN, d->counts, SUNDR_MAX_USERS, d->again, sizeof d->again);

	step(STEP_CHECK);
	return answer & 0xff;
}

/* The other three are never refused after an accepted check; where one is, the desk ends. */
static inline void must(uint64_t answer)
{
	if (answer != SUNDR_ACCEPTED)
		_exit(REFUSED_CALL + (int)(answer & 0xff));
}

/* Each attempt has another i-handle: a desk that makes its work anew cannot make the same bytes by chance. */
static inline void make(struct desk *d)
{
	uint8_t handle[SUNDR_HANDLE_LEN] = {0};

	put_number(handle, d->work);
	put_number(handle + 4, d->attempt);
	handle[8] = ++d->made;
	must(sundr_memory_create(USERS, d->user, d->file, d->file_len, d->counts, SUNDR_MAX_USERS,
		handle, sizeof handle, d->version, sizeof d->version));
	step(STEP_CREATE);
}

static inline void pend(struct desk *d)
{
	must(sundr_memory_pend(USERS, d->user, d->version, sizeof d->version, d->file, SUNDR_MEMORY_LEN));
	step(STEP_PEND);
}

static inline void mark_sent(struct desk *d)
{
	must(sundr_memory_sent(USERS, d->user, d->file, d->file_len));
	step(STEP_SENT);
}

static inline void send_record(struct desk *d, const uint8_t record[SUNDR_VERSION_LEN])
{
	uint8_t message[1 + SUNDR_VERSION_LEN] = {'c'};

	memcpy(message + 1, record, SUNDR_VERSION_LEN);
	send_message(d, message, sizeof message);
	step(STEP_SEND);
}

/* The server's answer to the record: the desk ends where it is not taken. */
static inline void receive_answer(struct desk *d)
{
	uint8_t message[MESSAGE_MAX];

	receive(d, 'c', message);
	step(STEP_ANSWER);
	if (message[1] != SUNDR_ACCEPTED)
		_exit(REFUSED_COMMIT + message[1]);
}

#endif
