/*
 * The server's blocks. It finds them by hash, and follows the hashes in them from an i-handle to a file. No client
 * has to believe what comes of that.
 */
#include <string.h>

#include "story.h"

enum { MAX_BLOCKS = 1024, LEAF = 3, SLOT_LEN = 8 + SUNDR_SHA256_LEN };

struct block {
	uint8_t hash[SUNDR_SHA256_LEN];
	uint8_t bytes[BLOCK_MAX];
	size_t len;
};

static struct block blocks[MAX_BLOCKS];
static size_t count;

static const struct block *find(const uint8_t *hash)
{
	size_t i;

	for (i = 0; i < count; i++)
		if (memcmp(blocks[i].hash, hash, SUNDR_SHA256_LEN) == 0)
			return &blocks[i];
	return NULL;
}

void upload_block(const uint8_t *bytes, size_t len, uint8_t *hash)
{
	must(sundr_refusal(sundr_sha256(bytes, len, hash, SUNDR_SHA256_LEN)) == SUNDR_ACCEPTED, "a hash");
	if (find(hash) != NULL)
		return;
	must(count < MAX_BLOCKS && len <= BLOCK_MAX, "room for a block");
	memcpy(blocks[count].hash, hash, SUNDR_SHA256_LEN);
	memcpy(blocks[count].bytes, bytes, len);
	blocks[count++].len = len;
}

static uint64_t number_at(const uint8_t *at)
{
	uint64_t number = 0;
	int i;

	for (i = 0; i < 8; i++)
		number = number << 8 | at[i];
	return number;
}

/* The hash in the slot of an i-table's block that a number leads to: the last slot not above it. */
static const uint8_t *lead(const struct block *block, uint64_t number)
{
	const uint8_t *slots = block->bytes + 2;
	size_t i = block->bytes[1];

	must(i > 0, "a table with files");
	while (i > 1 && number_at(slots + SLOT_LEN * (i - 1)) > number)
		i--;
	return slots + SLOT_LEN * (i - 1) + 8;
}

/* Copies the block of that hash out, and gives it. */
static const struct block *copy(const uint8_t *hash, uint8_t *out)
{
	const struct block *block = find(hash);

	must(block != NULL, "a block that was uploaded");
	memcpy(out, block->bytes, block->len);
	return block;
}

struct reply ask_for_block(const uint8_t *i_handle, uint64_t number, uint32_t index)
{
	struct reply reply;
	const struct block *block;
	const uint8_t *hash = i_handle;

	memset(&reply, 0, sizeof reply);
	do {
		block = copy(hash, reply.path + reply.path_len);
		reply.path_len += block->len;
		hash = lead(block, number);
	} while (block->bytes[0] != LEAF);
	reply.inode_len = copy(hash, reply.inode)->len;
	hash = reply.inode + 5 + SUNDR_SHA256_LEN * index;
	if (index >= SUNDR_DIRECT_BLOCKS) {
		reply.indirect_len = copy(reply.inode + SUNDR_INODE_LEN, reply.indirect)->len;
		hash = reply.indirect + 1 + SUNDR_SHA256_LEN * (index - SUNDR_DIRECT_BLOCKS);
	}
	reply.block_len = copy(hash, reply.block)->len;
	return reply;
}

struct reply ask_server(const uint8_t *i_handle, uint64_t number)
{
	return ask_for_block(i_handle, number, 0);
}
