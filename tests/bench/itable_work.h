/* What the contenders of the i-table work on: the size, of all that is to be hashed, says which work it is. */
#ifndef ITABLE_WORK_H
#define ITABLE_WORK_H

#include "itable.h"
#include "worker.h"

enum {
	WRITE = 273 * 642,
	LOOKUP = 3 * 642,
	BLOCK_CHECK = 517 + 8192,
	DIRECT_READ = 549 + 8192,
	INDIRECT_READ = 549 + 4097 + 8192
};

static size_t to_do;

/* The path to the table's last file; the file of one block; a large file of which it is a block. */
static uint8_t path[3 * 642], inode[517], block[8192], file[32];
static uint8_t large_inode[549], indirect[4097], large[32];

/* The messages to hash, the last one last, and its hash. */
static struct {
	const uint8_t *bytes;
	size_t len;
} message[273];
static size_t messages;
static uint8_t hash[32];

static void add(const uint8_t *bytes, size_t len)
{
	message[messages].bytes = bytes;
	message[messages].len = len;
	messages++;
}

static void fill_file(void)
{
	memset(block, 0x37, sizeof block);
	inode[0] = 6;
	inode[3] = sizeof block >> 8;
	sundr_sha256(block, sizeof block, inode + 5, 32);
	sundr_sha256(inode, sizeof inode, file, sizeof file);
}

/* The block is the only one; or the seventeenth, after sixteen of which there are only hashes. */
static void fill_large(size_t size)
{
	memcpy(large_inode, inode, sizeof inode);
	large_inode[0] = 11;
	if (size == INDIRECT_READ) {
		large_inode[2] = 131072 >> 16;
		memset(large_inode + 5, 0x51, 16 * 32);
		indirect[0] = 12;
		memcpy(indirect + 1, inode + 5, 32);
		sundr_sha256(indirect, sizeof indirect, large_inode + 517, 32);
	}
	sundr_sha256(large_inode, sizeof large_inode, large, sizeof large);
}

static void add_messages(size_t size)
{
	size_t i;

	switch (size) {
	case WRITE:
		for (i = 0; i < 273; i++)
			add(blocks + 642 * i, 642);
		return;
	case LOOKUP:
		for (i = 0; i < 3; i++)
			add(path + 642 * i, 642);
		return;
	case BLOCK_CHECK:
		add(inode, sizeof inode);
		break;
	case DIRECT_READ:
		add(large_inode, sizeof large_inode);
		break;
	case INDIRECT_READ:
		add(large_inode, sizeof large_inode);
		add(indirect, sizeof indirect);
	}
	add(block, sizeof block);
}

static void fill(size_t size)
{
	to_do = size;
	messages = 0;
	fill_table();
	copy_path(4095, path);
	fill_file();
	fill_large(size);
	add_messages(size);
}

/* The hash of the last message: of what was written, if the work writes. */
size_t result(const uint8_t **bytes)
{
	sundr_sha256(message[messages - 1].bytes, message[messages - 1].len, hash, sizeof hash);
	*bytes = hash;
	return sizeof hash;
}

#endif
