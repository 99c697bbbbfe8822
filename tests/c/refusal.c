/* The sentences that a user is shown: one for each refusal that there is, one for "send again", and one for all others. */
#include "sundr.h"

#include <limits.h>
#include <string.h>

#include "check.h"

/* One above the last refusal. */
enum { REFUSALS = 18 };

/* Whether a sentence fits one line of a log or a dialogue. */
static int is_a_line(const char *text)
{
	return strlen(text) > 0 && strlen(text) <= 100 && strchr(text, '\n') == NULL;
}

/* Whether no number below this one has the same sentence. */
static int is_its_own(unsigned number)
{
	unsigned other;

	for (other = 0; other < number; other++)
		if (strcmp(sundr_refusal_text(number), sundr_refusal_text(other)) == 0)
			return 0;
	return 1;
}

static int is(unsigned number, const char *due)
{
	return strcmp(sundr_refusal_text(number), due) == 0;
}

int main(void)
{
	static const unsigned others[] = {REFUSALS, 254, 256, 256 + SUNDR_SEND_AGAIN, 256 + SUNDR_UNORDERED, INT_MAX, UINT_MAX};
	static const char *const about[REFUSALS] = {"accepted", "user", "length", "malformed", "signature", "last version",
		"no further version", "forked", "hash", "path", "no block", "ascend", "too short", "no free place",
		"count of the block", "holds no", "not your next version", "pending"};
	char name[64];
	unsigned i;

	for (i = 0; i < REFUSALS; i++) {
		sprintf(name, "%u has a sentence of its own, on one line", i);
		check(name, is_a_line(sundr_refusal_text(i)) && is_its_own(i));
	}
	for (i = 0; i < REFUSALS; i++) {
		sprintf(name, "%u says what it is about", i);
		check(name, strstr(sundr_refusal_text(i), about[i]) != NULL);
	}
	check("5: rolled back or hidden", is(SUNDR_NOT_CURRENT,
		"the server's list does not continue your last version: rolled back, or your record is hidden"));
	check("7: forked", is(SUNDR_UNORDERED, "two versions are not ordered: forked, or a record is hidden"));
	check("16: used before, or of no accepted check", is(SUNDR_NOT_NEXT,
		"these counts are not your next version's: used before, or of no accepted check"));
	check("17: not moved back", is(SUNDR_PENDING,
		"your last version is pending: it may not have reached the server, and does not move back"));
	check("255 is send again", SUNDR_SEND_AGAIN == 255 && is(SUNDR_SEND_AGAIN,
		"the list does not show your last version: send the same bytes again"));
	check("it has a line of its own", is_a_line(sundr_refusal_text(SUNDR_SEND_AGAIN)) && is_its_own(SUNDR_SEND_AGAIN));
	check("18 is no refusal, and says so", is_a_line(sundr_refusal_text(REFUSALS)) && is_its_own(REFUSALS));
	for (i = 1; i < sizeof others / sizeof others[0]; i++) {
		sprintf(name, "%u has the sentence of 18", others[i]);
		check(name, is(others[i], sundr_refusal_text(REFUSALS)));
	}
	return finish();
}
