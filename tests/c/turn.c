/*
 * A client's turn by its calls, through include/sundr.h: the papers' examples, each checked, made and written as pending;
 * and a card that signs, whose touch comes late, or twice. What a client does that was cut off, memory.c has.
 */
#include "sundr.h"

#include <string.h>

#include "check.h"
#include "examples.h"

/* The check of an example, and the making step with the counts that it leaves: zeros where it left them alone. */
static void turn(const struct given *g, uint64_t *checked, uint32_t counts[16], uint64_t *made, uint8_t out[98])
{
	uint8_t handle[32], again[98];

	memset(handle, 0xc7, sizeof handle);
	memset(counts, 0, 16 * sizeof counts[0]);
	memset(out, 0x5a, 98);
	*checked = sundr_memory_check(2, g->user, g->file, 100, g->list, 98 * g->records, g->marks, g->records,
		counts, 16, again, sizeof again);
	*made = sundr_memory_create(2, g->user, g->file, 100, counts, 16, handle, sizeof handle, out, 98);
}

/* Whether the check gives these counts, the making step this user's structure with them, and that is a pending file. */
static int is_made(struct given g, uint32_t a, uint32_t b)
{
	uint32_t counts[16], due_counts[16] = {a, b};
	struct version next = {g.user, 0xc7, a, b};
	uint64_t checked, made;
	uint8_t out[98], file[100], due[100] = {7, SUNDR_STATE_PENDING};

	turn(&g, &checked, counts, &made, out);
	encode(due + 2, next);
	return checked == SUNDR_ACCEPTED && memcmp(counts, due_counts, sizeof counts) == 0
		&& made == SUNDR_ACCEPTED && memcmp(out, due + 2, sizeof out) == 0
		&& sundr_memory_pend(2, g.user, out, sizeof out, file, sizeof file) == SUNDR_ACCEPTED
		&& memcmp(file, due, sizeof due) == 0;
}

/* Whether the check refuses so, and nothing is made of sixteen zeros: at the last count 6 comes before 16. */
static int is_not_made(struct given g, enum sundr_refusal_number number, uint32_t first, uint32_t second)
{
	uint32_t counts[16], zeros[16] = {0};
	uint64_t checked, made;
	uint8_t out[98], due[98];

	turn(&g, &checked, counts, &made, out);
	memset(due, 0x5a, sizeof due);
	return sundr_refusal(checked) == number && sundr_first(checked) == first && sundr_second(checked) == second
		&& memcmp(counts, zeros, sizeof counts) == 0 && memcmp(out, due, sizeof due) == 0
		&& made == (number == SUNDR_LAST_VERSION ? SUNDR_LAST_VERSION : SUNDR_NOT_NEXT);
}

/* A client of two users: its memory file, the bytes of its last "send again", and the counts of its last check. */
struct client {
	uint8_t user, file[100], again[98];
	uint32_t counts[16];
};

static struct client client(uint8_t user)
{
	struct client c;

	memset(&c, 0, sizeof c);
	c.user = user;
	sundr_memory_over(2, user, NULL, 0, c.file, sizeof c.file);
	return c;
}

/* How many operations of a user the client remembers. */
static uint32_t remembers(const struct client *c, uint8_t user)
{
	return sundr_count(c->file + 2, user);
}

static uint64_t check_server(struct client *c, const struct sundr_server *server)
{
	static const uint8_t marks[2] = {1, 1};
	uint8_t list[2 * 98];
	size_t records = sundr_first(sundr_server_list(server, list, sizeof list));

	return sundr_memory_check(2, c->user, c->file, sizeof c->file, list, 98 * records, marks, records,
		c->counts, 16, c->again, sizeof c->again);
}

/* The card is touched: what is made is remembered, as pending. The i-handle is of one byte, repeated. */
static uint64_t touch(struct client *c, uint8_t byte)
{
	uint8_t handle[32], out[98];
	uint64_t answer;

	memset(handle, byte, sizeof handle);
	answer = sundr_memory_create(2, c->user, c->file, sizeof c->file, c->counts, 16, handle, sizeof handle,
		out, sizeof out);
	if (answer == SUNDR_ACCEPTED)
		answer = sundr_memory_pend(2, c->user, out, sizeof out, c->file, sizeof c->file);
	return answer;
}

/* What is remembered is sent, and marked so if the server accepts it. */
static uint64_t commit(struct client *c, struct sundr_server *server)
{
	uint64_t answer = sundr_server_commit(server, c->file + 2, 98, 1);

	if (answer == SUNDR_ACCEPTED)
		answer = sundr_memory_sent(2, c->user, c->file, sizeof c->file);
	return answer;
}

static int takes_turn(struct client *c, struct sundr_server *server)
{
	return check_server(c, server) == SUNDR_ACCEPTED && touch(c, 0x31) == SUNDR_ACCEPTED
		&& commit(c, server) == SUNDR_ACCEPTED;
}

static void touches(void)
{
	struct client a = client(0), b = client(1), before, older;
	struct sundr_server server;

	sundr_server_make(2, &server);
	check("a first turn of each", takes_turn(&a, &server) && takes_turn(&b, &server));

	before = a;
	check("A checks", check_server(&a, &server) == SUNDR_ACCEPTED && a.counts[0] == 2 && a.counts[1] == 1);
	check("the check leaves the file", memcmp(a.file, before.file, sizeof a.file) == 0);
	before = a;
	check("B takes a turn before A's card is touched", takes_turn(&b, &server));
	check("the making step does not know", touch(&a, 0x32) == SUNDR_ACCEPTED && remembers(&a, 1) == 1);
	check("the server refuses what is made of stale counts: 7, at B's record",
		commit(&a, &server) == (SUNDR_UNORDERED | (uint64_t)1 << 8));
	check("and A, who remembers it, is locked out: each check is send again",
		check_server(&a, &server) == SUNDR_SEND_AGAIN && memcmp(a.again, a.file + 2, 98) == 0);
	check("and the server refuses that again: 7, at B's record",
		sundr_server_commit(&server, a.again, 98, 1) == (SUNDR_UNORDERED | (uint64_t)1 << 8));

	a = before;
	check("checked again right before the touch, it is taken", takes_turn(&a, &server) && remembers(&a, 1) == 2);

	older = a;
	check("a second touch, from the same counts: 16", touch(&a, 0x33) == SUNDR_NOT_NEXT);
	check("nothing is made by it", memcmp(&a, &older, sizeof a) == 0);
	memcpy(a.counts, before.counts, sizeof a.counts);
	check("from the counts of an older check: 16", touch(&a, 0x33) == SUNDR_NOT_NEXT);
	memset(a.counts, 0, sizeof a.counts);
	check("from the zeros of no check: 16", touch(&a, 0x33) == SUNDR_NOT_NEXT);
	memcpy(a.counts, b.counts, sizeof a.counts);
	check("from the counts of B's check: 16", touch(&a, 0x33) == SUNDR_NOT_NEXT);
	check("after a check it is made", takes_turn(&a, &server));
}

int main(void)
{
	examples(is_made, is_not_made);
	touches();
	return finish();
}
