/*
 * What a caller reads in an answer: the header's three readers against refusal_in, first_in and second_in of
 * crates/sundr/specs/Read.antt, which are written here anew, by division.
 */
#include "sundr.h"

#include "check.h"

/* 2 ^ 8, 2 ^ 24 and 2 ^ 32: one above the greatest refusal, first part and second part. */
#define REFUSALS ((uint64_t)256)
#define FIRSTS ((uint64_t)16777216)
#define SECONDS ((uint64_t)4294967296)

/* Whether each reader gives its part, and nothing of the others'. */
static int reads(uint64_t answer, uint64_t refusal, uint64_t first, uint64_t second)
{
	uint64_t got[3];

	got[0] = (uint64_t)sundr_refusal(answer);
	got[1] = sundr_first(answer);
	got[2] = sundr_second(answer);
	if (got[0] == refusal && got[1] == first && got[2] == second)
		return 1;
	printf("%#llx is read as %llu, %llu, %llu, not %llu, %llu, %llu\n", (unsigned long long)answer,
		(unsigned long long)got[0], (unsigned long long)got[1], (unsigned long long)got[2],
		(unsigned long long)refusal, (unsigned long long)first, (unsigned long long)second);
	return 0;
}

/* The definitions, for any number of 64 bits. */
static int is_read(uint64_t answer)
{
	return reads(answer, answer % REFUSALS, answer / REFUSALS % FIRSTS, answer / SECONDS % SECONDS);
}

/* Every single bit, or every two of them: set by themselves, and missing by themselves. */
static int bits(int pairs)
{
	uint64_t one, other;
	int i, j, holds = 1;

	for (i = 0, one = 1; i < 64; i++, one *= 2)
		for (j = 0, other = 1; j < 64; j++, other *= 2)
			if ((i != j) == pairs)
				holds = is_read(one | other) && is_read(UINT64_MAX - (one | other)) && holds;
	return holds;
}

/* 0, 1, the greatest but one and the greatest of each part with each of the others: each is read as it was put in. */
static int edges(void)
{
	uint64_t edge[3][4];
	int i, j, k, holds = 1;

	for (i = 0; i < 3; i++) {
		edge[i][0] = 0;
		edge[i][1] = 1;
		edge[i][2] = (i == 0 ? REFUSALS : i == 1 ? FIRSTS : SECONDS) - 2;
		edge[i][3] = edge[i][2] + 1;
	}
	for (i = 0; i < 4; i++)
		for (j = 0; j < 4; j++)
			for (k = 0; k < 4; k++) {
				uint64_t answer = edge[0][i] + REFUSALS * edge[1][j] + SECONDS * edge[2][k];

				holds = reads(answer, edge[0][i], edge[1][j], edge[2][k]) && is_read(answer) && holds;
			}
	return holds;
}

int main(void)
{
	check("an answer of no bits, and of all", reads(0, 0, 0, 0) && reads(UINT64_MAX, REFUSALS - 1, FIRSTS - 1, SECONDS - 1));
	check("an answer of every single bit, and of all but it", bits(0));
	check("an answer of every two bits, and of all but them", bits(1));
	check("an answer's parts at their edges, each with each", edges());
	check("send again is a number of its own", sundr_refusal(SUNDR_SEND_AGAIN) == SUNDR_SEND_AGAIN
		&& reads(SUNDR_SEND_AGAIN, REFUSALS - 1, 0, 0));
	check("one above the greatest refusal is a first position", reads(REFUSALS, 0, 1, 0));
	check("one above the greatest first position is a second one", reads(REFUSALS * FIRSTS, 0, 0, 1));
	check("one above the greatest of both is a second position", reads((REFUSALS - 1) + REFUSALS * (FIRSTS - 1) + 1, 0, 0, 1));
	check("one above the greatest second position is nothing", reads(SECONDS * (SECONDS - 1) + SECONDS, 0, 0, 0));
	return finish();
}
