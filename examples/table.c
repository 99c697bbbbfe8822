/*
 * A folder's files as an i-table, and the check of one file's block along its path.
 *
 *     table FOLDER FILE INDEX [SERVED]
 *
 * The writer makes the i-table of the files in FOLDER, and the i-handle, which is printed. The
 * reader has that i-handle, out of a record of a list that sundr_memory_check() accepted, and the
 * file's name. All else comes from the server, which nobody trusts: the path, the inode and the
 * block of that index. The server has the same folder; or it has SERVED, another one, and is
 * refused.
 *
 * A file's i-number is here the first 8 bytes of the SHA-256 of its name, so that the reader needs
 * nobody to tell it. In SUNDR it stands in a directory, itself a file in the table.
 *
 * Status 0: accepted. 1: refused, or no such file. 2: usage, or a folder that makes no table: there
 * may be 4,096 files, each a regular one of at most 131,072 bytes, and nothing else.
 */
#define _POSIX_C_SOURCE 200809L
#include <dirent.h>
#include <errno.h>
#include <stdio.h>
#include <stdlib.h>
#include <string.h>
#include <sys/stat.h>

#include "sundr.h"

/* What a writer makes of a folder, and a server keeps. */
struct tree {
	const char *folder;
	size_t count;
	uint64_t numbers[SUNDR_TABLE_MAX_FILES];
	uint8_t inodes[SUNDR_TABLE_MAX_FILES][SUNDR_INODE_LEN];
	uint8_t blocks[SUNDR_TABLE_MAX_BLOCKS][SUNDR_TABLE_BLOCK_LEN];
	size_t root;
};

/* What a server sends to a reader that asks for a block of a file. */
struct sent {
	uint8_t path[SUNDR_PATH_MAX_BLOCKS][SUNDR_TABLE_BLOCK_LEN];
	size_t path_blocks;
	uint8_t inode[SUNDR_INODE_LEN];
	uint8_t block[SUNDR_FILE_BLOCK_LEN];
	size_t block_len;
};

static void fail(const char *what, const char *why)
{
	fprintf(stderr, "%s: %s\n", what, why);
	exit(2);
}

static void hash(const uint8_t *bytes, size_t len, uint8_t *out)
{
	if (sundr_refusal(sundr_sha256(bytes, len, out, SUNDR_SHA256_LEN)) != SUNDR_ACCEPTED)
		fail("a hash", sundr_refusal_text(SUNDR_LENGTH));
}

static uint64_t number_of(const char *name)
{
	uint8_t of_name[SUNDR_SHA256_LEN];
	uint64_t number = 0;
	int i;

	hash((const uint8_t *)name, strlen(name), of_name);
	for (i = 0; i < 8; i++)
		number = number << 8 | of_name[i];
	return number;
}

/* Reads a file whole, into memory that the next call writes again; answers its length. */
static size_t load(const char *folder, const char *name, const uint8_t **out)
{
	static uint8_t bytes[SUNDR_FILE_MAX_LEN];
	char path[4096];
	struct stat status;
	FILE *file;
	size_t len;

	if (snprintf(path, sizeof path, "%s/%s", folder, name) >= (int)sizeof path)
		fail(name, strerror(ENAMETOOLONG));
	if (stat(path, &status) != 0)
		fail(path, strerror(errno));
	if (!S_ISREG(status.st_mode) || status.st_size > SUNDR_FILE_MAX_LEN)
		fail(path, "not a regular file of at most 131,072 bytes");
	file = fopen(path, "rb");
	if (file == NULL)
		fail(path, strerror(errno));
	len = fread(bytes, 1, sizeof bytes, file);
	if (ferror(file))
		fail(path, strerror(errno));
	fclose(file);
	*out = bytes;
	return len;
}

/* The length of a file's block, 0 if it has none of that index. */
static size_t block_len(size_t len, uint32_t index)
{
	uint64_t at = (uint64_t)SUNDR_FILE_BLOCK_LEN * index;

	if (at >= len)
		return 0;
	return len - at < SUNDR_FILE_BLOCK_LEN ? len - at : SUNDR_FILE_BLOCK_LEN;
}

/* ---- The writer: from files to inodes, file handles, the i-table. ---- */

static void write_inode(const uint8_t *bytes, size_t len, uint8_t *inode)
{
	uint32_t i;

	memset(inode, 0, SUNDR_INODE_LEN);
	inode[0] = 6;
	for (i = 0; i < 4; i++)
		inode[1 + i] = (uint8_t)(len >> (24 - 8 * i));
	for (i = 0; block_len(len, i) != 0; i++)
		hash(bytes + SUNDR_FILE_BLOCK_LEN * i, block_len(len, i), inode + 5 + SUNDR_SHA256_LEN * i);
}

static int is_file(const struct dirent *entry)
{
	return strcmp(entry->d_name, ".") != 0 && strcmp(entry->d_name, "..") != 0;
}

static int by_number(const struct dirent **a, const struct dirent **b)
{
	uint64_t x = number_of((*a)->d_name), y = number_of((*b)->d_name);

	return (x > y) - (x < y);
}

static void write_tree(const char *folder, struct tree *tree)
{
	static uint8_t handles[SUNDR_TABLE_MAX_FILES][SUNDR_HANDLE_LEN];
	const uint8_t *bytes;
	struct dirent **entries;
	int count = scandir(folder, &entries, is_file, by_number), i;
	uint64_t answer;

	if (count < 0)
		fail(folder, strerror(errno));
	if (count > SUNDR_TABLE_MAX_FILES)
		fail(folder, "more than 4,096 files");
	for (i = 0; i < count; i++) {
		size_t len = load(folder, entries[i]->d_name, &bytes);

		tree->numbers[i] = number_of(entries[i]->d_name);
		write_inode(bytes, len, tree->inodes[i]);
		hash(tree->inodes[i], SUNDR_INODE_LEN, handles[i]);
		free(entries[i]);
	}
	free(entries);
	answer = sundr_table_write(tree->numbers, count, handles[0], SUNDR_HANDLE_LEN * count,
		tree->blocks[0], sizeof tree->blocks);
	if (sundr_refusal(answer) != SUNDR_ACCEPTED)
		fail(folder, sundr_refusal_text(sundr_refusal(answer)));
	tree->folder = folder;
	tree->count = count;
	tree->root = sundr_first(answer) - 1;
}

/* ---- The server: it finds what a reader asks for. What it sends may be anything. ---- */

static void send_block(const struct tree *tree, size_t block, struct sent *sent)
{
	memcpy(sent->path[sent->path_blocks++], tree->blocks[block], SUNDR_TABLE_BLOCK_LEN);
}

static void serve(const struct tree *tree, const char *name, uint32_t index, struct sent *sent)
{
	uint64_t number = number_of(name);
	size_t leaves = (tree->count + 15) / 16, above = (leaves + 15) / 16, at_or_below = 0, j;
	const uint8_t *bytes;

	/* The path, as at sundr_table_write(): of this file, or the last one whose number is below. */
	memset(sent, 0, sizeof *sent);
	send_block(tree, tree->root, sent);
	while (at_or_below < tree->count && tree->numbers[at_or_below] <= number)
		at_or_below++;
	if (at_or_below == 0)
		return;
	j = at_or_below - 1;
	if (above > 1)
		send_block(tree, leaves + j / 256, sent);
	if (leaves > 1)
		send_block(tree, j / 16, sent);

	if (tree->numbers[j] == number) {
		memcpy(sent->inode, tree->inodes[j], SUNDR_INODE_LEN);
		sent->block_len = block_len(load(tree->folder, name, &bytes), index);
		if (sent->block_len != 0)
			memcpy(sent->block, bytes + SUNDR_FILE_BLOCK_LEN * index, sent->block_len);
	}
}

/* ---- The reader: from the i-handle to the file handle, from that to the inode and the block. ---- */

static int refuse(const char *what, uint64_t answer)
{
	printf("refused at the %s, %d: %s\n", what, sundr_refusal(answer),
		sundr_refusal_text(sundr_refusal(answer)));
	return 1;
}

static int read_block(const uint8_t *i_handle, const char *name, uint32_t index, const struct sent *sent)
{
	uint8_t handle[SUNDR_HANDLE_LEN];
	uint64_t answer = sundr_lookup(i_handle, SUNDR_HANDLE_LEN, number_of(name),
		sent->path[0], SUNDR_TABLE_BLOCK_LEN * sent->path_blocks, handle, sizeof handle);

	if (sundr_refusal(answer) != SUNDR_ACCEPTED)
		return refuse("path", answer);
	if (sundr_first(answer) == 0) {
		printf("%s: no such file\n", name);
		return 1;
	}
	answer = sundr_block_check(handle, sizeof handle, sent->inode, sizeof sent->inode, index,
		sent->block, sent->block_len);
	if (sundr_refusal(answer) != SUNDR_ACCEPTED)
		return refuse("block", answer);
	printf("%s: block %u, %u bytes at offset %u\n", name, index, sundr_second(answer), sundr_first(answer));
	return 0;
}

int main(int argc, char **argv)
{
	static struct tree written, served;
	static struct sent sent;
	uint8_t i_handle[SUNDR_HANDLE_LEN];
	unsigned long index;
	char *end;
	int i, status;

	if (argc != 4 && argc != 5)
		fail("usage", "table FOLDER FILE INDEX [SERVED]");
	index = strtoul(argv[3], &end, 10);
	if (end == argv[3] || *end != '\0' || index > UINT32_MAX)
		fail(argv[3], "not a number from 0 to 4,294,967,295");

	write_tree(argv[1], &written);
	hash(written.blocks[written.root], SUNDR_TABLE_BLOCK_LEN, i_handle);
	printf("i-handle ");
	for (i = 0; i < SUNDR_HANDLE_LEN; i++)
		printf("%02x", i_handle[i]);
	putchar('\n');

	write_tree(argv[argc == 5 ? 4 : 1], &served);
	serve(&served, argv[2], (uint32_t)index, &sent);
	status = read_block(i_handle, argv[2], (uint32_t)index, &sent);
	if (fflush(stdout) != 0)
		fail("standard output", strerror(errno));
	return status;
}
