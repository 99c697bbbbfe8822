/*
 * The making step, through include/sundr.h: every refusal with all later faults behind it, the own count that is due in
 * each state of the memory file, and what is written, which is not judged. What it is after a check, turn.c has.
 */
#include "sundr.h"

#include "bytes.h"
#include "check.h"
#include "step.h"

/* ---- The refusals, in their order. ---- */

static void no_users(struct step *s)
{
	s->users = 0;
}

static void too_many_users(struct step *s)
{
	s->users = 17;
}

static void no_such_user(struct step *s)
{
	s->user = s->users;
}

static void short_file(struct step *s)
{
	s->file_len = 99;
}

static void fifteen_counts(struct step *s)
{
	s->counts_len = 15;
}

static void short_handle(struct step *s)
{
	s->handle_len = 31;
}

static void short_room(struct step *s)
{
	s->out_len = 97;
}

static void file_of_another_kind(struct step *s)
{
	s->file[0] = 1;
}

static void third_state(struct step *s)
{
	s->file[1] = 3;
}

static void none_before_structure(struct step *s)
{
	s->file[1] = SUNDR_STATE_NONE;
}

static void memory_of_another_kind(struct step *s)
{
	s->file[VERSION] = 2;
}

static void memory_of_another(struct step *s)
{
	s->file[VERSION + 1] = 0;
	put(s->file + COUNTS, 1);
}

static void memory_without_own(struct step *s)
{
	put(s->file + COUNTS + 4, 0);
}

static void memory_beyond(struct step *s)
{
	put(s->file + COUNTS + 4 * 15, 1);
}

static void counts_beyond(struct step *s)
{
	s->counts[15] = 1;
}

static void last_memory(struct step *s)
{
	put(s->file + COUNTS + 4, 4294967295);
}

static void count_again(struct step *s)
{
	s->counts[1] = 41;
}

static const struct {
	const char *name;
	void (*put_in)(struct step *);
	enum sundr_refusal_number number;
	uint32_t first;
} faults[] = {
	{"no users", no_users, SUNDR_USERS, 0},
	{"17 users", too_many_users, SUNDR_USERS, 0},
	{"a user that there is not", no_such_user, SUNDR_USERS, 0},
	{"a file of 99 bytes", short_file, SUNDR_LENGTH, 0},
	{"fifteen counts", fifteen_counts, SUNDR_LENGTH, 0},
	{"an i-handle of 31 bytes", short_handle, SUNDR_LENGTH, 0},
	{"room for 97 bytes", short_room, SUNDR_LENGTH, 0},
	{"a file of another kind", file_of_another_kind, SUNDR_MALFORMED, SUNDR_MEMORY_POSITION},
	{"state 3", third_state, SUNDR_MALFORMED, SUNDR_MEMORY_POSITION},
	{"state none, and a structure behind it", none_before_structure, SUNDR_MALFORMED, SUNDR_MEMORY_POSITION},
	{"a memory of another kind", memory_of_another_kind, SUNDR_MALFORMED, SUNDR_MEMORY_POSITION},
	{"a memory of another user's", memory_of_another, SUNDR_MALFORMED, SUNDR_MEMORY_POSITION},
	{"a memory without an own operation", memory_without_own, SUNDR_MALFORMED, SUNDR_MEMORY_POSITION},
	{"a memory that counts a user who is not", memory_beyond, SUNDR_MALFORMED, SUNDR_MEMORY_POSITION},
	{"a count of a user who is not", counts_beyond, SUNDR_MALFORMED, 0},
	{"a memory at the last count", last_memory, SUNDR_LAST_VERSION, 0},
	{"the own count once more", count_again, SUNDR_NOT_NEXT, 0},
};

/* How many there are, and the first that is not of a user or a length. */
enum { FAULTS = sizeof faults / sizeof faults[0], MALFORMED = 7 };

/* This fault and all that are tried later, in a step of user 1 of 3. It is put in last: others may write where it does. */
static struct step with_faults(int from)
{
	struct step s = step_of(3, 1);
	int i;

	for (i = FAULTS - 1; i >= from; i--)
		faults[i].put_in(&s);
	return s;
}

static void refusals(void)
{
	char name[80];
	int i;

	for (i = 0; i < FAULTS; i++) {
		struct step s = step_of(3, 1);

		faults[i].put_in(&s);
		check(faults[i].name, refuses(s, faults[i].number, faults[i].first));
		sprintf(name, "%s, and all that is tried later", faults[i].name);
		check(name, refuses(with_faults(i), faults[i].number, faults[i].first));
	}
}

/* Each length by one, and none: by itself, and with all that is tried after lengths. */
static void lengths(void)
{
	static const size_t file[] = {0, 98, 99, 101}, counts[] = {0, 1, 15, 17}, handle[] = {0, 31, 33, 98},
		room[] = {0, 97, 99, 100};
	struct step s = step_of(3, 1);
	int i, malformed, holds[4] = {1, 1, 1, 1};

	for (i = 0; i < 4; i++)
		for (malformed = 0; malformed < 2; malformed++) {
			struct step faulty = malformed ? with_faults(MALFORMED) : step_of(3, 1);

			s = faulty;
			s.file_len = file[i];
			holds[0] = refuses(s, SUNDR_LENGTH, 0) && holds[0];
			s = faulty;
			s.counts_len = counts[i];
			holds[1] = refuses(s, SUNDR_LENGTH, 0) && holds[1];
			s = faulty;
			s.handle_len = handle[i];
			holds[2] = refuses(s, SUNDR_LENGTH, 0) && holds[2];
			s = faulty;
			s.out_len = room[i];
			holds[3] = refuses(s, SUNDR_LENGTH, 0) && holds[3];
		}
	check("a file of 0, 98, 99 and 101 bytes", holds[0]);
	check("0, 1, 15 and 17 counts", holds[1]);
	check("an i-handle of 0, 31, 33 and 98 bytes", holds[2]);
	check("room for 0, 97, 99 and 100 bytes", holds[3]);

	s = step_of(3, 1);
	check("no file, no counts, no i-handle, no room, at NULL",
		sundr_memory_create(3, 1, NULL, 0, s.counts, 16, s.handle, 32, (uint8_t *)locked, 98) == SUNDR_LENGTH
		&& sundr_memory_create(3, 1, s.file, 100, NULL, 0, s.handle, 32, (uint8_t *)locked, 98) == SUNDR_LENGTH
		&& sundr_memory_create(3, 1, s.file, 100, s.counts, 16, NULL, 0, (uint8_t *)locked, 98) == SUNDR_LENGTH
		&& sundr_memory_create(3, 1, s.file, 100, s.counts, 16, s.handle, 32, NULL, 0) == SUNDR_LENGTH);
}

/* Every user of every number of users, and a count of each user who is not, whose place is 0 whoever it is. */
static void users_beyond(void)
{
	static const uint32_t some[] = {1, 256, 65536, 16777216, 0x80000000, 4294967295};
	int users, user, beyond, made = 1, refused = 1;
	size_t i;

	for (users = 1; users <= 16; users++)
		for (user = 0; user < users; user++) {
			struct step s = step_of((uint8_t)users, (uint8_t)user);

			made = makes(s) && made;
			for (beyond = users; beyond < 16; beyond++)
				for (i = 0; i < sizeof some / sizeof some[0]; i++) {
					s.counts[beyond] = some[i];
					refused = refuses(s, SUNDR_MALFORMED, 0) && refused;
					s.counts[beyond] = 0;
				}
		}
	check("each user of 1 to 16 makes the next structure", made);
	check("a count of any user who is not is refused, at 0", refused);
}

/* ---- The own count. ---- */

/*
 * Whether user 2 of 4, who remembers so many own operations, makes a structure of this own count where it is due, and
 * only there: sent and pending alike. Who remembers none has a file in state none.
 */
static int makes_own(uint32_t remembered, uint32_t own)
{
	struct step s = step_of(4, 2);
	int state, holds = 1;

	set_memory(&s, remembered);
	s.counts[2] = own;
	for (state = SUNDR_STATE_SENT; state <= SUNDR_STATE_PENDING; state++) {
		s.file[1] = (uint8_t)state;
		if (remembered == 0) {
			memset(s.file + VERSION, 0, 98);
			s.file[1] = SUNDR_STATE_NONE;
		}
		if (own == 0 || own - 1 != remembered)
			holds = refuses(s, remembered == 4294967295 ? SUNDR_LAST_VERSION : SUNDR_NOT_NEXT, 0) && holds;
		else
			holds = makes(s) && holds;
	}
	return holds;
}

static void own_counts(void)
{
	static const uint32_t counts[] = {0, 1, 2, 3, 254, 255, 256, 257, 65535, 65536, 65537, 16777216, 16777217, 33554432,
		2147483647, 2147483648, 2147483649, 4294967293, 4294967294, 4294967295};
	enum { COUNTS = sizeof counts / sizeof counts[0] };
	int i, j, none = 1, some = 1, last = 1;

	for (i = 0; i < COUNTS; i++) {
		int *holds = counts[i] == 0 ? &none : counts[i] == 4294967295 ? &last : &some;

		*holds = makes_own(counts[i], counts[i] + 1) && *holds;
		for (j = 0; j < COUNTS; j++)
			*holds = makes_own(counts[i], counts[j]) && *holds;
	}
	check("from a file in state none the own count is 1, and nothing else", none);
	check("it is one more than remembered, sent or pending, and nothing else", some);
	check("after the last count nothing is one more: 6, not 16", last);
}

/* ---- What is not judged. ---- */

static void unjudged(void)
{
	struct step s = step_of(4, 2);
	uint8_t out[98];
	int i, holds = 1;

	put(s.file + COUNTS, 9);
	put(s.file + COUNTS + 4, 4294967295);
	check("counts of others that are lower than remembered are written", makes(s));
	s.counts[0] = s.counts[1] = s.counts[3] = 0;
	check("none of others too", makes(s));
	s.counts[0] = s.counts[1] = s.counts[3] = 4294967295;
	check("and the greatest", makes(s));

	s = step_of(16, 2);
	for (i = 0; i < 16; i++)
		s.counts[i] = 0x01020304 + 0x04040404 * (uint32_t)i;
	set_memory(&s, s.counts[2] - 1);
	check("sixteen counts, no two bytes alike", makes(s) && make_into(&s, out) == SUNDR_ACCEPTED);
	for (i = 0; i < 64; i++)
		holds = out[34 + i] == i + 1 && holds;
	check("they are big-endian, that of user 0 first", holds);
}

int main(void)
{
	refusals();
	lengths();
	users_beyond();
	own_counts();
	unjudged();
	return finish();
}
