/*
 * The papers' examples of a client's check, by the counts that it gives, and a server's session, through include/sundr.h.
 * What a check says while the memory is pending, memory.c has.
 */
#define _DEFAULT_SOURCE /* MAP_ANONYMOUS */

#include "sundr.h"

#include <stdlib.h>
#include <string.h>
#include <sys/mman.h>

#include "check.h"
#include "examples.h"

/* The sixteen counts, and the bytes of "send again", with room around them, so that one written outside is seen. */
struct answer {
	uint32_t before[8], counts[16], after[8];
	uint8_t again[98], behind[32];
};

/* Sixteen counts, and 98 bytes, in memory that can be read and not written. */
static const uint32_t locked[16];
static const uint8_t locked_again[98];

static uint64_t ask_into(const struct given *g, uint32_t *counts, uint8_t *again)
{
	return sundr_memory_check(2, g->user, g->file, 100, g->list, 98 * g->records, g->marks, g->records,
		counts, 16, again, 98);
}

static uint64_t ask(const struct given *g, struct answer *a)
{
	memset(a, 0x5a, sizeof *a);
	return ask_into(g, a->counts, a->again);
}

/*
 * Whether the list is accepted, these are the counts, those of users 2 to 15 are 0, and nothing beside them is written: the
 * bytes of "send again" may be read-only.
 */
static int accepts(struct given g, uint32_t a, uint32_t b)
{
	struct given before = g;
	struct answer got, due;
	uint64_t answer = ask(&g, &got);

	memset(&due, 0x5a, sizeof due);
	memset(due.counts, 0, sizeof due.counts);
	due.counts[0] = a;
	due.counts[1] = b;
	return answer == SUNDR_ACCEPTED && memcmp(&got, &due, sizeof due) == 0
		&& memcmp(&g, &before, sizeof g) == 0 && ask_into(&g, got.counts, (uint8_t *)locked_again) == answer;
}

/* Whether the list is refused with this number and these positions, and nothing is written: all may be read-only. */
static int refuses(struct given g, enum sundr_refusal_number number, uint32_t first, uint32_t second)
{
	struct given before = g;
	struct answer got, due;
	uint64_t answer = ask(&g, &got);

	memset(&due, 0x5a, sizeof due);
	return sundr_refusal(answer) == number && sundr_first(answer) == first && sundr_second(answer) == second
		&& memcmp(&got, &due, sizeof due) == 0 && memcmp(&g, &before, sizeof g) == 0
		&& ask_into(&g, (uint32_t *)locked, (uint8_t *)locked_again) == answer;
}

/* Refusals that the examples do not come to, and buffers at NULL. */
static void refusals(void)
{
	struct given g = given(2);
	const struct given none = given(0);
	uint32_t counts[17];
	uint8_t again[98];

	check("a user that there is not", refuses(g, SUNDR_USERS, 0, 0));

	g = given(0);
	remember(&g, B(0, 1));
	check("a memory of another user's", refuses(g, SUNDR_MALFORMED, 16, 0));

	g = given(0);
	add(&g, B(0, 1));
	add(&g, B(0, 1));
	check("an owner twice", refuses(g, SUNDR_MALFORMED, 1, 0));

	g = given(0);
	remember(&g, A(1, 0));
	add(&g, A(1, 0));
	add(&g, B(1, 1));
	g.marks[1] = 2;
	check("a mark of 2", refuses(g, SUNDR_UNSIGNED, 1, 0));

	g = given(0);
	remember(&g, A(4294967295, 0));
	add(&g, B(0, 1));
	check("the last number, and the list does not have it", refuses(g, SUNDR_NOT_CURRENT, 0, 0));
	g.records = 0;
	add(&g, A(4294967295, 0));
	add(&g, B(0, 1));
	check("the last number, and a fork", refuses(g, SUNDR_LAST_VERSION, 0, 0));

	check("no list, no marks, at NULL",
		sundr_memory_check(1, 0, none.file, 100, NULL, 0, NULL, 0, counts, 16, again, 98) == SUNDR_ACCEPTED);
	check("no file, no counts, no room for send again, at NULL",
		sundr_memory_check(1, 0, NULL, 0, NULL, 0, NULL, 0, counts, 16, again, 98) == SUNDR_LENGTH
		&& sundr_memory_check(1, 0, none.file, 100, NULL, 0, NULL, 0, NULL, 0, again, 98) == SUNDR_LENGTH
		&& sundr_memory_check(1, 0, none.file, 100, NULL, 0, NULL, 0, counts, 16, NULL, 0) == SUNDR_LENGTH);
	check("fifteen counts, and seventeen",
		sundr_memory_check(1, 0, none.file, 100, NULL, 0, NULL, 0, (uint32_t *)locked, 15, again, 98) == SUNDR_LENGTH
		&& sundr_memory_check(1, 0, none.file, 100, NULL, 0, NULL, 0, counts, 17, again, 98) == SUNDR_LENGTH);
	g = given(0);
	remember(&g, B(0, 1));
	add(&g, B(0, 0));
	check("fifteen counts, after the users and before all that is read",
		sundr_memory_check(2, 2, g.file, 100, g.list, 98, g.marks, 1, counts, 15, again, 98) == SUNDR_USERS
		&& sundr_memory_check(2, 0, g.file, 100, g.list, 98, g.marks, 1, counts, 15, again, 98) == SUNDR_LENGTH);
}

/* Whether the server's list is these records, with the bytes after them as they were. */
static int lists(const struct sundr_server *server, const uint8_t *records, uint32_t n)
{
	uint8_t got[17 * 98], due[17 * 98];
	uint64_t answer;

	memset(got, 0x5a, sizeof got);
	memset(due, 0x5a, sizeof due);
	if (n > 0)
		memcpy(due, records, 98 * n);
	answer = sundr_server_list(server, got, sizeof got);
	return sundr_refusal(answer) == SUNDR_ACCEPTED && sundr_first(answer) == n
		&& sundr_second(answer) == 0 && memcmp(got, due, sizeof due) == 0;
}

/* The server once more, in memory that can be read and not written. */
static struct sundr_server *read_only(const struct sundr_server *server)
{
	void *copy = mmap(NULL, sizeof *server, PROT_READ | PROT_WRITE, MAP_PRIVATE | MAP_ANONYMOUS, -1, 0);

	if (copy == MAP_FAILED)
		abort();
	memcpy(copy, server, sizeof *server);
	if (mprotect(copy, sizeof *server, PROT_READ) != 0)
		abort();
	return copy;
}

/* Whether a commit is refused so, and nothing is written: the server is as it was, and may be read-only. */
static int turns_away(struct sundr_server *server, struct version v, uint8_t mark,
	enum sundr_refusal_number number, uint32_t first)
{
	struct sundr_server before = *server, *locked = read_only(server);
	uint8_t record[98];
	uint64_t answer, again;

	encode(record, v);
	answer = sundr_server_commit(server, record, sizeof record, mark);
	again = sundr_server_commit(locked, record, sizeof record, mark);
	munmap(locked, sizeof *locked);
	return sundr_refusal(answer) == number && sundr_first(answer) == first && sundr_second(answer) == 0
		&& again == answer && memcmp(server, &before, sizeof before) == 0;
}

static void session(void)
{
	struct sundr_server server, before;
	uint8_t records[2 * 98], out[2 * 98];
	uint64_t answer;

	check("a server has 1,569 bytes", sizeof server == SUNDR_SERVER_LEN);

	memset(&server, 0xee, sizeof server);
	before = server;
	check("no server for no users", sundr_server_make(0, &server) == SUNDR_USERS
		&& memcmp(&server, &before, sizeof server) == 0);
	check("no server for 17 users", sundr_server_make(17, &server) == SUNDR_USERS
		&& memcmp(&server, &before, sizeof server) == 0);
	check("no server in 1,568 bytes", sundr_server_make_at(2, (uint8_t *)&server, 1568) == SUNDR_LENGTH
		&& memcmp(&server, &before, sizeof server) == 0);
	check("a server for two users", sundr_server_make(2, &server) == SUNDR_ACCEPTED && server.users == 2);
	check("it is empty", lists(&server, NULL, 0));
	check("an empty list, at NULL", sundr_server_list(&server, NULL, 0) == 0);

	encode(records + 98, B(0, 1));
	check("B's first record", sundr_server_commit(&server, records + 98, 98, 1) == SUNDR_ACCEPTED);
	check("it is listed", lists(&server, records + 98, 1));
	encode(records, A(1, 1));
	check("A's first record", sundr_server_commit(&server, records, 98, 1) == SUNDR_ACCEPTED);
	check("both are listed, A first", lists(&server, records, 2));

	before = server;
	answer = sundr_server_commit(&server, records, 97, 1);
	check("a record of 97 bytes", answer == SUNDR_LENGTH && memcmp(&server, &before, sizeof server) == 0);
	check("a record without an own operation", turns_away(&server, A(0, 1), 0, SUNDR_MALFORMED, 0));
	check("a record without a signature", turns_away(&server, A(2, 1), 0, SUNDR_UNSIGNED, 0));
	check("a record twice", turns_away(&server, A(1, 1), 1, SUNDR_NOT_CURRENT, 0));
	check("a number left out", turns_away(&server, A(3, 1), 1, SUNDR_NOT_CURRENT, 0));
	check("A does not count B", turns_away(&server, A(2, 0), 1, SUNDR_UNORDERED, 0));
	check("A counts too many of B", turns_away(&server, A(2, 2), 1, SUNDR_UNORDERED, 1));

	encode(records, A(2, 1));
	check("A's second record", sundr_server_commit(&server, records, 98, 1) == SUNDR_ACCEPTED);
	check("it replaces the first", lists(&server, records, 2));

	memset(out, 0x5a, sizeof out);
	memset(records, 0x5a, sizeof records);
	answer = sundr_server_list(&server, out, 2 * 98 - 1);
	check("no room for the list", answer == SUNDR_NO_ROOM && memcmp(out, records, sizeof out) == 0);
	answer = sundr_server_list_at((const uint8_t *)&server, 1568, out, sizeof out);
	check("a server of 1,568 bytes", answer == SUNDR_LENGTH && memcmp(out, records, sizeof out) == 0);
}

int main(void)
{
	examples(accepts, refuses);
	refusals();
	session();
	return finish();
}
