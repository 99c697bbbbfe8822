/*
 * The check of a large file's block, through include/sundr.h: files by every boundary, file handles that were found
 * otherwise, each refusal with its place, and the read of a block from a table on.
 */
#include "sundr.h"

#include <string.h>

#include "bytes.h"
#include "check.h"

enum { BLOCK = SUNDR_FILE_BLOCK_LEN, DIRECT = SUNDR_DIRECT_BLOCKS, INDIRECT = SUNDR_INDIRECT_LEN };

/* A file of this length, byte i of which is i mod 251; its inode, its indirect block and its handle. */
static uint8_t file[SUNDR_LARGE_FILE_MAX_LEN];
static size_t file_len;

/* What a check is given; each has room for as much again, or for a byte. */
static struct request {
	uint8_t handle[33], inode[2 * SUNDR_LARGE_INODE_LEN], indirect[INDIRECT + 1], block[BLOCK + 1];
	size_t handle_len, inode_len, indirect_len, block_len;
	uint32_t index;
} request;

static uint64_t answer_of(enum sundr_refusal_number number, uint32_t first, size_t second)
{
	return (uint64_t)second << 32 | (uint64_t)first << 8 | (uint64_t)number;
}

/* The call, whose answer is to be this one, and which is to alter nothing. */
static int answers(enum sundr_refusal_number number, uint32_t first, size_t second)
{
	static struct request before;
	struct request *r = &request;
	uint64_t answer;

	memcpy(&before, r, sizeof before);
	answer = sundr_large_block_check(r->handle, r->handle_len, r->inode, r->inode_len, r->index,
		r->indirect, r->indirect_len, r->block, r->block_len);
	if (answer == answer_of(number, first, second) && memcmp(&before, r, sizeof before) == 0)
		return 1;
	printf("index %lu: %d %lu %lu\n", (unsigned long)r->index, (int)sundr_refusal(answer),
		(unsigned long)sundr_first(answer), (unsigned long)sundr_second(answer));
	return 0;
}

static int is_accepted(void)
{
	return answers(SUNDR_ACCEPTED, SUNDR_FILE_BLOCK_LEN * request.index, request.block_len);
}

/* The hashes that name indirect block and inode, as they are now; for the inode alone, and for both. */
static void name_inode(void)
{
	sundr_sha256(request.inode, request.inode_len, request.handle, 32);
}

static void name_indirect(void)
{
	sundr_sha256(request.indirect, request.indirect_len, request.inode + 517, 32);
	name_inode();
}

static size_t blocks(void)
{
	return (file_len + BLOCK - 1) / BLOCK;
}

/* The length of the block at this index, which the file has. */
static size_t length_of(size_t index)
{
	return index + 1 < blocks() ? BLOCK : file_len - BLOCK * index;
}

/* The check of a block of the file; where it has none at this index, of a byte. */
static void read_block(uint32_t index)
{
	request.index = index;
	request.handle_len = 32;
	request.inode_len = SUNDR_LARGE_INODE_LEN;
	request.indirect_len = index >= DIRECT && blocks() > DIRECT ? INDIRECT : 0;
	request.block_len = index < blocks() ? length_of(index) : 1;
	memcpy(request.block, file + (index < blocks() ? BLOCK * (size_t)index : 0), request.block_len);
}

/* The inode, the indirect block and the handle of the file of this length; the check of this block of it. */
static void store_and_read(size_t len, uint32_t index)
{
	size_t i;

	file_len = len;
	for (i = 0; i < len; i++)
		file[i] = (uint8_t)(i % 251);
	memset(&request, 0, sizeof request);
	request.inode[0] = 11;
	put(request.inode + 1, (uint32_t)len);
	request.indirect[0] = 12;
	for (i = 0; i < blocks(); i++)
		sundr_sha256(file + BLOCK * i, length_of(i),
			i < DIRECT ? request.inode + 5 + 32 * i : request.indirect + 1 + 32 * (i - DIRECT), 32);
	if (blocks() > DIRECT)
		sundr_sha256(request.indirect, INDIRECT, request.inode + 517, 32);
	sundr_sha256(request.inode, SUNDR_LARGE_INODE_LEN, request.handle, 32);
	read_block(index);
}

/* Whether a file of this length has so many blocks, each accepted at its offset and no byte shorter, and no more. */
static int has(size_t len, uint32_t due)
{
	static const uint32_t beyond[] = {0, 1, 16, 128, 65536};
	uint32_t i;

	store_and_read(len, 0);
	for (i = 0; i < due; i++) {
		read_block(i);
		if (!is_accepted())
			return 0;
		request.block_len--;
		if (!answers(SUNDR_LENGTH, 1, 0))
			return 0;
	}
	for (i = 0; i < sizeof beyond / sizeof beyond[0]; i++) {
		read_block(due + beyond[i]);
		if (!answers(SUNDR_NO_BLOCK, 0, 0))
			return 0;
	}
	read_block(UINT32_MAX);
	return answers(SUNDR_NO_BLOCK, 0, 0);
}

static void lengths(void)
{
	check("a file of no bytes has no blocks", has(0, 0));
	check("a file of 1 byte has 1 block", has(1, 1));
	check("a file of 8,192 bytes has 1 block", has(8192, 1));
	check("a file of 8,193 bytes has 2 blocks", has(8193, 2));
	check("a file of 131,071 bytes has 16 blocks", has(131071, 16));
	check("a file of 131,072 bytes has 16 blocks", has(131072, 16));
	check("a file of 131,073 bytes has 17 blocks", has(131073, 17));
	check("a file of 139,264 bytes has 17 blocks", has(139264, 17));
	check("a file of 139,265 bytes has 18 blocks", has(139265, 18));
	check("a file of 1,171,456 bytes has 143 blocks", has(1171456, 143));
	check("a file of 1,171,457 bytes has 144 blocks", has(1171457, 144));
	check("a file of 1,179,647 bytes has 144 blocks", has(1179647, 144));
	check("a file of 1,179,648 bytes has 144 blocks", has(1179648, 144));
}

/* File handles that were found with Python's hashlib, from the layouts. */
static void vectors(void)
{
	static const struct {
		size_t len;
		const char *name, *hash;
	} files[] = {
		{0, "file handle of no bytes",
			"f87de0aae32a55da475fbb9c30863f70b3831d3346be62f2bcf78d34185686ae"},
		{131072, "file handle of 131,072 bytes",
			"f8474b3acd9da121e1fa6b759929e327058e5771611a5135704df5a63ee95aba"},
		{131073, "file handle of 131,073 bytes",
			"f389563b165a77b64a85a6e1531cd0ae9613a141a7d2895817ad99e3913f4be9"},
		{1179648, "file handle of 1,179,648 bytes",
			"6501c5d47706c48f5c99131c062d72c62156134a7c2812595f66fb772f92bcbc"},
	};
	size_t i;

	for (i = 0; i < sizeof files / sizeof files[0]; i++) {
		store_and_read(files[i].len, 0);
		check(files[i].name, is_hash(request.handle, SUNDR_LARGE_INODE_LEN, files[i].hash));
	}
}

/* A check of the last block of a file of so many blocks. */
static void check_last(const char *name, int holds)
{
	char line[80];

	sprintf(line, "the last of %lu blocks, %s", (unsigned long)blocks(), name);
	check(line, holds);
}

/* Each refusal of the last block of a file, direct or not, at its place; each next one stands before it in the order. */
static void refusals(size_t len, uint32_t index)
{
	int direct = index < DIRECT;

	store_and_read(len, index);
	check_last("all is right: accepted", is_accepted());
	request.block[0] ^= 1;
	check_last("a bit of the block: 8, place 1", answers(SUNDR_WRONG_HASH, 1, 0));
	request.block_len++;
	check_last("a byte more of it: 2, place 1", answers(SUNDR_LENGTH, 1, 0));
	if (!direct) {
		request.indirect[0] = 11;
		name_indirect();
		check_last("an indirect block of kind 11: 3, place 2", answers(SUNDR_MALFORMED, 2, 0));
		request.indirect[1] ^= 1;
		check_last("a bit of it: 8, place 2", answers(SUNDR_WRONG_HASH, 2, 0));
	}
	request.indirect_len = direct ? INDIRECT : INDIRECT - 1;
	check_last(direct ? "an indirect block: 2, place 2" : "a byte less of it: 2, place 2", answers(SUNDR_LENGTH, 2, 0));
	request.index = (uint32_t)blocks();
	check_last("an index beyond the last block: 10", answers(SUNDR_NO_BLOCK, 0, 0));
	request.inode[0] = 6;
	name_inode();
	check_last("an inode of kind 6: 3", answers(SUNDR_MALFORMED, 0, 0));
	request.handle[31] ^= 1;
	check_last("a bit of the handle: 8", answers(SUNDR_WRONG_HASH, 0, 0));
	request.inode_len = 517;
	check_last("an inode of 517 bytes: 2", answers(SUNDR_LENGTH, 0, 0));
	request.inode_len = SUNDR_LARGE_INODE_LEN;
	request.handle_len = 33;
	check_last("a handle of 33 bytes: 2", answers(SUNDR_LENGTH, 0, 0));
}

/* Whether the inode is refused, in a direct read and in another, once this byte of it is so. */
static int is_malformed(size_t len, size_t at, uint8_t value)
{
	static const uint32_t index[] = {0, 16};
	int i, holds = 1;

	for (i = 0; i < 2; i++) {
		store_and_read(len, index[i]);
		request.inode[at] = value;
		name_inode();
		holds = holds && answers(SUNDR_MALFORMED, 0, 0);
	}
	return holds;
}

/* What the indirect block's hash is to be, and which hashes of the indirect block are used. */
static void indirect_blocks(void)
{
	store_and_read(131072, 15);
	check("the file of sixteen blocks has a zero indirect hash", request.inode[517] == 0 && is_accepted());
	check("any other is malformed", is_malformed(131072, 517, 1) && is_malformed(131072, 548, 128)
		&& is_malformed(1, 548, 1));
	store_and_read(131073, 0);
	memset(request.inode + 517, 0, 32);
	name_inode();
	check("in a file of seventeen a zero one is", answers(SUNDR_MALFORMED, 0, 0));
	request.inode[548] = 1;
	name_inode();
	check("and any other is taken by a direct read", is_accepted());
	check("1,179,649 bytes are malformed", is_malformed(1179648, 4, 1));
	check("a hash beyond the last block is", is_malformed(1, 37, 1) && is_malformed(1, 516, 1));

	store_and_read(131073, 15);
	check("block 15 of seventeen is whole", request.block_len == BLOCK && is_accepted());
	request.indirect_len = INDIRECT;
	check("and is refused with an indirect block, be it the right one", answers(SUNDR_LENGTH, 2, 0));
	read_block(16);
	check("block 16 of 131,073 bytes is one byte", request.block_len == 1 && is_accepted());
	request.indirect_len = 0;
	check("and is refused with none", answers(SUNDR_LENGTH, 2, 0));
	request.index = 17;
	check("block 17 is not there, with none", answers(SUNDR_NO_BLOCK, 0, 0));
	request.indirect[33] = 1;
	request.indirect_len = INDIRECT;
	name_indirect();
	check("nor with one, be it malformed", answers(SUNDR_NO_BLOCK, 0, 0));
	request.index = 16;
	check("for block 16 it is malformed", answers(SUNDR_MALFORMED, 2, 0));

	store_and_read(139265, 16);
	request.indirect[33] ^= 1;
	name_indirect();
	check("a used hash may be any, for another block", is_accepted());
	read_block(17);
	check("but not for its own", answers(SUNDR_WRONG_HASH, 1, 0));
	memset(request.indirect + 33, 0, 32);
	name_indirect();
	check("a used hash of zeros is no other case", answers(SUNDR_WRONG_HASH, 1, 0));
	request.indirect[65] = 1;
	name_indirect();
	check("a hash beyond the last block is malformed", answers(SUNDR_MALFORMED, 2, 0));
	read_block(16);
	check("whichever block is read", answers(SUNDR_MALFORMED, 2, 0));
}

/* The block that is wanted by this hash, and comes as a reply, where it lies; NULL if it is another. */
static const uint8_t *fetched(const uint8_t *wanted, const uint8_t *reply, size_t len)
{
	uint64_t answer = sundr_block_choose(wanted, 32, reply, len, NULL, 0);

	return sundr_chosen_len(answer) == len ? sundr_chosen(answer, reply, NULL) : NULL;
}

/* From a table on: the file is looked up; inode, indirect block and block are fetched by their hashes and checked. */
static void session(void)
{
	static uint8_t root[SUNDR_TABLE_BLOCK_LEN];
	uint64_t number = 7;
	uint8_t i_handle[32], found[32];
	const uint8_t *inode, *indirect, *block;

	store_and_read(1179648, 100);
	sundr_table_write(&number, 1, request.handle, 32, root, sizeof root);
	sundr_sha256(root, sizeof root, i_handle, 32);
	check("session: the file is found", sundr_lookup(i_handle, 32, number, root, sizeof root, found, 32) == 1 << 8);
	inode = fetched(found, request.inode, SUNDR_LARGE_INODE_LEN);
	indirect = inode ? fetched(inode + 517, request.indirect, INDIRECT) : NULL;
	block = indirect ? fetched(indirect + 1 + 32 * (100 - DIRECT), request.block, BLOCK) : NULL;
	check("session: its inode, indirect block and block 100 are fetched", block != NULL);
	check("session: it is block 100", block && sundr_large_block_check(found, 32, inode, SUNDR_LARGE_INODE_LEN, 100,
		indirect, INDIRECT, block, BLOCK) == answer_of(SUNDR_ACCEPTED, 819200, BLOCK));
	check("session: and not block 101", block && sundr_large_block_check(found, 32, inode, SUNDR_LARGE_INODE_LEN, 101,
		indirect, INDIRECT, block, BLOCK) == answer_of(SUNDR_WRONG_HASH, 1, 0));
	check("session: the other check refuses the inode", block && sundr_block_check(found, 32,
		inode, SUNDR_LARGE_INODE_LEN, 0, block, BLOCK) == answer_of(SUNDR_LENGTH, 0, 0));
	read_block(0);
	check("session: block 0, with no indirect block, at NULL", block && sundr_large_block_check(found, 32,
		inode, SUNDR_LARGE_INODE_LEN, 0, NULL, 0, request.block, BLOCK) == answer_of(SUNDR_ACCEPTED, 0, BLOCK));
}

int main(void)
{
	lengths();
	vectors();
	refusals(8193, 1);
	refusals(131073, 16);
	refusals(1171457, 143);
	indirect_blocks();
	session();
	return finish();
}
