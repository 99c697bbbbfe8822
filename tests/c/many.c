/*
 * Many lookups in one call, through include/sundr.h: files of a table of three levels that are found, absent in a leaf
 * and absent at the root; each refusal, with its question and the place in that question's path; lengths that do not
 * fit; and the reader of the answers.
 */
#include "sundr.h"

#include <string.h>

#include "bytes.h"
#include "check.h"

enum { FILES = 300, LEAVES = 19, ROOT = 21, BLOCK = SUNDR_TABLE_BLOCK_LEN, ENTRY = SUNDR_ENTRY_LEN, MOST = 64 };

/*
 * File j has the number 10 * j + 5 and a handle of 32 bytes j mod 251: those of files 0 and 251 are all zero. After the
 * i-handle there is room for as much again.
 */
static uint8_t table[(ROOT + 1) * BLOCK], handles[FILES * 32], i_handle[64];

/* What is asked, one question more than is taken, with room for two long paths; and what is answered. */
static uint64_t numbers[MOST + 1];
static uint8_t counts[MOST + 1], paths[520 * BLOCK], out[(MOST + 2) * ENTRY];
static size_t questions, paths_len;

static uint64_t number_of(int file)
{
	return 10 * (uint64_t)file + 5;
}

static void write_table(void)
{
	uint64_t files[FILES];
	int j;

	for (j = 0; j < FILES; j++) {
		files[j] = number_of(j);
		memset(handles + 32 * j, j % 251, 32);
	}
	check("the table is written", sundr_table_write(files, FILES, handles, sizeof handles, table, sizeof table)
		== (ROOT + 1) << 8);
	sundr_sha256(table + ROOT * BLOCK, BLOCK, i_handle, 32);
}

static void add_block(const uint8_t *block)
{
	memcpy(paths + paths_len, block, BLOCK);
	paths_len += BLOCK;
	counts[questions - 1]++;
}

/* One more question, with no path yet. */
static void add_number(uint64_t number)
{
	numbers[questions] = number;
	counts[questions++] = 0;
}

/* One more question, with its path as the header's comment on sundr_table_write() has it. */
static void add(uint64_t number)
{
	add_number(number);
	add_block(table + ROOT * BLOCK);
	if (number >= number_of(0)) {
		size_t j = (size_t)(number - number_of(0)) / 10;

		add_block(table + (LEAVES + j / 256) * BLOCK);
		add_block(table + j / 16 * BLOCK);
	}
}

/* Three questions: for file 17, for the number after it, and for a number below all files. */
static void add_three(void)
{
	questions = paths_len = 0;
	add(number_of(17));
	add(number_of(17) + 1);
	add(4);
}

/* Asks with so many times these lengths more than fit: of the handle, the numbers, the counts, the paths and out. */
static uint64_t ask_with(int times, const int more[5])
{
	memset(out, 0x5a, sizeof out);
	return sundr_lookup_many(i_handle, 32 + (size_t)(times * more[0]), numbers, questions + (size_t)(times * more[1]),
		counts, questions + (size_t)(times * more[2]), paths, paths_len + (size_t)(times * more[3]),
		out, ENTRY * questions + (size_t)(times * more[4]));
}

static uint64_t ask(void)
{
	return ask_with(0, (const int[5]){0});
}

static int all(const uint8_t *bytes, size_t len, uint8_t value)
{
	while (len > 0 && bytes[len - 1] == value)
		len--;
	return len == 0;
}

/* Whether an answer is this refusal, and nothing was written. */
static int refused(uint64_t answer, enum sundr_refusal_number number, uint32_t question, uint32_t place)
{
	if (sundr_refusal(answer) == number && sundr_first(answer) == question && sundr_second(answer) == place)
		return all(out, sizeof out, 0x5a);
	printf("%#llx\n", (unsigned long long)answer);
	return 0;
}

static int is_refused(enum sundr_refusal_number number, uint32_t question, uint32_t place)
{
	return refused(ask(), number, question, place);
}

/* Whether the call is accepted, every answer is that of sundr_lookup(), and nothing is written after the last. */
static int answers_as_lookups(void)
{
	const uint8_t *path = paths;
	size_t q;

	if (ask() != 0 || !all(out + ENTRY * questions, sizeof out - ENTRY * questions, 0x5a))
		return 0;
	for (q = 0; q < questions; q++) {
		uint8_t entry[ENTRY] = {0};
		uint64_t answer = sundr_lookup(i_handle, 32, numbers[q], path, counts[q] * (size_t)BLOCK, entry + 1, 32);

		entry[0] = (uint8_t)sundr_first(answer);
		if (sundr_refusal(answer) != SUNDR_ACCEPTED || memcmp(entry, out + ENTRY * q, ENTRY) != 0)
			return 0;
		path += counts[q] * (size_t)BLOCK;
	}
	return 1;
}

static void answered(void)
{
	int j;

	add_three();
	check("three questions are accepted, with both results 0", ask() == 0);
	check("found: the byte 1 and the handle", out[0] == 1 && all(out + 1, 32, 17));
	check("absent in a leaf: 33 zeros", all(out + ENTRY, ENTRY, 0));
	check("absent at the root: 33 zeros", all(out + 2 * ENTRY, ENTRY, 0));
	check("nothing is written after the last", all(out + 3 * ENTRY, sizeof out - 3 * ENTRY, 0x5a));
	check("sundr_found() gives the handle where it lies", sundr_found(out, 0) == out + 1);
	check("sundr_found() gives NULL where there is no file", sundr_found(out, 1) == NULL && sundr_found(out, 2) == NULL);
	questions = paths_len = 0;
	add(number_of(251));
	check("a handle of zeros is found", ask() == 0 && out[0] == 1 && sundr_found(out, 0) == out + 1
		&& all(out + 1, 32, 0));
	for (questions = paths_len = 0, j = 9; j >= 0; j--)
		add(number_of(j * 30));
	check("descending", answers_as_lookups());
	add(number_of(7));
	add(number_of(7));
	add(number_of(270));
	check("one twice in a row, and one again", answers_as_lookups());
	for (questions = paths_len = 0, j = 0; j < MOST; j++)
		add(j % 9 == 0 ? (uint64_t)j % 5 : number_of(j * 53 % FILES) + (j % 4 == 0));
	check("64 questions, in no order", answers_as_lookups());
	check("no questions, at NULL", sundr_lookup_many(i_handle, 32, NULL, 0, NULL, 0, NULL, 0, NULL, 0) == 0);
	questions = paths_len = 0;
	check("no questions, at buffers", answers_as_lookups());
}

/* A block of the paths, by its place over all. In the three questions' these are 0 to 2, 3 to 5, and 6. */
static uint8_t *block(int place)
{
	return paths + place * BLOCK;
}

static void wrong_bits(void)
{
	static const int byte[] = {0, 1, 320, 641};
	int i, holds = 1;

	for (i = 0; i < 28; i++) {
		add_three();
		block(i % 7)[byte[i / 7]] ^= 1;
		holds = is_refused(SUNDR_WRONG_HASH, (uint32_t)(i % 7) / 3, (uint32_t)(i % 7) % 3) && holds;
	}
	check("8: a bit of each block, at its question and its place", holds);
}

static void refused_at_a_question(void)
{
	int i, place;

	add_three();
	memcpy(block(5), block(4), BLOCK);
	check("8: a leaf's place has the block above it", is_refused(SUNDR_WRONG_HASH, 1, 2));
	add_three();
	add_number(number_of(280));
	check("2: no blocks, at the last question", is_refused(SUNDR_LENGTH, 3, 0));
	add_block(block(0));
	check("9: one block of three", is_refused(SUNDR_PATH_LENGTH, 3, 1));
	add_block(table + (LEAVES + 1) * BLOCK);
	check("9: two blocks of three", is_refused(SUNDR_PATH_LENGTH, 3, 2));
	add_block(table);
	check("8: another's leaf", is_refused(SUNDR_WRONG_HASH, 3, 2));
	add_three();
	add_block(block(1));
	check("9: a block after the root that has no such file", is_refused(SUNDR_PATH_LENGTH, 2, 1));
	add_three();
	add(number_of(17));
	add_block(block(2));
	check("2: four blocks, at the last question", is_refused(SUNDR_LENGTH, 3, 0));
	block(4)[7] ^= 1;
	check("an earlier question's 8 comes before it", is_refused(SUNDR_WRONG_HASH, 1, 1));
	add_three();
	for (i = 0; i < 2; i++)
		for (add_number(4), place = 0; place < 255; place++)
			add_block(block(0));
	check("2: 255 blocks twice, at the first of both", is_refused(SUNDR_LENGTH, 3, 0));
	counts[3]--;
	check("2 for the whole call: one block more than is counted", is_refused(SUNDR_LENGTH, 0, 0));
}

/* The next slot of a block: a number, big-endian, and a handle or a hash. */
static void add_slot(uint8_t *to, uint64_t number, const uint8_t value[32])
{
	uint8_t *slot = to + 2 + 40 * to[1]++;

	put(slot, (uint32_t)(number >> 32));
	put(slot + 4, (uint32_t)number);
	memcpy(slot + 8, value, 32);
}

/* A root with the same leaf below the numbers 7 and 20: the leaf starts with 7. The i-handle is then that root's. */
static void under_two_slots(void)
{
	static uint8_t root[BLOCK] = {4}, leaf[BLOCK] = {3}, hash[32];
	static const uint64_t asked[] = {7, 8, 20};
	int i;

	add_slot(leaf, 7, handles + 32 * 40);
	sundr_sha256(leaf, BLOCK, hash, sizeof hash);
	add_slot(root, 7, hash);
	add_slot(root, 20, hash);
	sundr_sha256(root, BLOCK, i_handle, 32);
	for (questions = paths_len = 0, i = 0; i < 3; i++) {
		add_number(asked[i]);
		add_block(root);
		add_block(leaf);
	}
	check("3: the leaf of the question before, where another number leads", is_refused(SUNDR_MALFORMED, 2, 1));
	questions = 2;
	paths_len = 4 * BLOCK;
	check("without that question the others are answered", answers_as_lookups() && out[0] == 1 && all(out + 1, 32, 40));
}

/* The three questions, with lengths that are more or less than those that fit. */
static void lengths(void)
{
	static const struct {
		const char *name;
		int more[5];
	} given[] = {
		{"less or more: a byte of the handle", {1, 0, 0, 0, 0}},
		{"less or more: all of the handle", {32, 0, 0, 0, 0}},
		{"less or more: a number", {0, 1, 0, 0, 0}},
		{"less or more: a number, and an answer", {0, 1, 0, 0, ENTRY}},
		{"less or more: a count, the one more being 0", {0, 0, 1, 0, 0}},
		{"less or more: a count, and a block", {0, 0, 1, BLOCK, 0}},
		{"less or more: a byte of the paths", {0, 0, 0, 1, 0}},
		{"less or more: a block", {0, 0, 0, BLOCK, 0}},
		{"less or more: a byte of the answers", {0, 0, 0, 0, 1}},
		{"less or more: an answer", {0, 0, 0, 0, ENTRY}},
	};
	int i, times, holds;

	for (i = 0; i < (int)(sizeof given / sizeof given[0]); i++) {
		for (holds = 1, times = -1; times <= 1; times += 2) {
			add_three();
			counts[3] = 0;
			holds = refused(ask_with(times, given[i].more), SUNDR_LENGTH, 0, 0) && holds;
			/* The lengths come before the first question, which now would be refused. */
			block(0)[9] ^= 1;
			holds = refused(ask_with(times, given[i].more), SUNDR_LENGTH, 0, 0) && holds;
		}
		check(given[i].name, holds);
	}
	for (questions = paths_len = 0; questions <= MOST;)
		add(4);
	check("65 questions", is_refused(SUNDR_LENGTH, 0, 0));
}

int main(void)
{
	check("up to 64 questions, and 33 bytes for each", SUNDR_MANY_MAX_QUESTIONS == 64 && SUNDR_ENTRY_LEN == 33);
	write_table();
	answered();
	wrong_bits();
	refused_at_a_question();
	lengths();
	under_two_slots();
	return finish();
}
