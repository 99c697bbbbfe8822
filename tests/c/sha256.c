/* The published vectors of SHA-256, and its refusals, through include/sundr.h. */
#include "sundr.h"

#include <string.h>

#include "bytes.h"
#include "check.h"

/* A result with room around it, so that a byte written outside it is seen. */
struct result {
	uint8_t before[32], hash[32], after[32];
};

static struct result untouched(void)
{
	struct result r;

	memset(&r, 0x5a, sizeof r);
	return r;
}

/* Whether the message is accepted, its hash is the one given in hexadecimal, and no byte beside it is written. */
static int hashes(const uint8_t *message, size_t len, const char *due)
{
	struct result r = untouched(), u = untouched();
	uint64_t answer = sundr_sha256(message, len, r.hash, sizeof r.hash);

	return answer == SUNDR_ACCEPTED && is_hash(r.hash, len, due)
		&& memcmp(r.before, u.before, sizeof r.before) == 0
		&& memcmp(r.after, u.after, sizeof r.after) == 0;
}

/* Whether the call is refused for a length, with no position, and no byte is written. */
static int refuses(const uint8_t *message, size_t len, size_t out_len)
{
	struct result r = untouched(), u = untouched();
	uint64_t answer = sundr_sha256(message, len, r.hash, out_len);

	return sundr_refusal(answer) == SUNDR_LENGTH && sundr_first(answer) == 0
		&& sundr_second(answer) == 0 && memcmp(&r, &u, sizeof r) == 0;
}

/* FIPS 180-4's examples, and the empty message. */
static void published(void)
{
	const char *abc = "abc";
	const char *bits448 = "abcdbcdecdefdefgefghfghighijhijkijkljklmklmnlmnomnopnopq";
	const char *bits896 = "abcdefghbcdefghicdefghijdefghijkefghijklfghijklmghijklmn"
		"hijklmnoijklmnopjklmnopqklmnopqrlmnopqrsmnopqrstnopqrstu";
	static uint8_t million[1000000];

	check("FIPS 180-4: \"abc\"", hashes((const uint8_t *)abc, 3,
		"ba7816bf8f01cfea414140de5dae2223b00361a396177a9cb410ff61f20015ad"));
	check("FIPS 180-4: 448 bits", hashes((const uint8_t *)bits448, 56,
		"248d6a61d20638b8e5c026930c3e6039a33ce45964ff2167f6ecedd419db06c1"));
	check("FIPS 180-4: 896 bits", hashes((const uint8_t *)bits896, 112,
		"cf5b16a778af8380036ce59e7b0492370b249b11e8f07a51afac45037afee9d1"));
	check("FIPS 180-4: no bits", hashes((const uint8_t *)abc, 0,
		"e3b0c44298fc1c149afbf4c8996fb92427ae41e4649b934ca495991b7852b855"));
	check("no bits, at NULL", hashes(NULL, 0,
		"e3b0c44298fc1c149afbf4c8996fb92427ae41e4649b934ca495991b7852b855"));
	memset(million, 'a', sizeof million);
	check("FIPS 180-4: a million \"a\" is over the limit", refuses(million, sizeof million, 32));
}

/* Lengths at the edges of the padding and at the limit; byte i of each message is i mod 251. */
static void edges(void)
{
	static const struct {
		size_t len;
		const char *name, *hash;
	} edge[] = {
		{55, "55 bytes",
			"463eb28e72f82e0a96c0a4cc53690c571281131f672aa229e0d45ae59b598b59"},
		{56, "56 bytes",
			"da2ae4d6b36748f2a318f23e7ab1dfdf45acdc9d049bd80e59de82a60895f562"},
		{63, "63 bytes",
			"29af2686fd53374a36b0846694cc342177e428d1647515f078784d69cdb9e488"},
		{64, "64 bytes",
			"fdeab9acf3710362bd2658cdc9a29e8f9c757fcf9811603a8c447cd1d9151108"},
		{119, "119 bytes",
			"da18797ed7c3a777f0847f429724a2d8cd5138e6ed2895c3fa1a6d39d18f7ec6"},
		{120, "120 bytes",
			"f52b23db1fbb6ded89ef42a23ce0c8922c45f25c50b568a93bf1c075420bbb7c"},
		{65535, "65,535 bytes",
			"dda402a2c028f0cbbdbc5c6ebae965eed9c75f71236e7022b0386d3455d5ae2f"},
		{65536, "65,536 bytes",
			"4b640d85ab3ba30fd02c9fc9db4a8928f416322ad27022ea58a65aaee68a4df2"},
	};
	static uint8_t message[65537];
	size_t i;

	for (i = 0; i < sizeof message; i++)
		message[i] = (uint8_t)(i % 251);
	for (i = 0; i < sizeof edge / sizeof edge[0]; i++)
		check(edge[i].name, hashes(message, edge[i].len, edge[i].hash));
	check("65,537 bytes are refused", refuses(message, 65537, 32));
	check("a result of 31 bytes is refused", refuses(message, 3, 31));
	check("a result of 33 bytes is refused", refuses(message, 3, 33));
	check("a result of no bytes is refused", refuses(message, 3, 0));
}

int main(void)
{
	published();
	edges();
	return finish();
}
