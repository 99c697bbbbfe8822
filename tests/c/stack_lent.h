/*
 * What the cases of stack_cases.h are lent, and what they write. All of it lies in static memory, so that the stack is the
 * call's alone.
 */
#ifndef STACK_LENT_H
#define STACK_LENT_H

#include <string.h>

#include "bytes.h"
#include "sundr.h"

/* What is hashed: byte i is i mod 251, and there is one more than are taken. */
static uint8_t message[SUNDR_SHA256_MAX_MESSAGE + 1];

/* A list of sixteen records, and the same where user 15's does not count user 14's operation: the two stand apart. */
static uint8_t list[16 * 98], forked[16 * 98], marks[16], handle[32];

/*
 * The list with another first byte of user 15's record; with that record at the last own count; and where it counts an
 * operation of user 14 that there is not. Marks of which the last is not 1.
 */
static uint8_t malformed[16 * 98], last[16 * 98], ahead[16 * 98], unmarked[16];

/*
 * The memory file of each user, its record in the list as sent; user 15's next record pending, and the record at the last
 * count as sent; and a file in state none.
 */
static uint8_t files[16][100], pending_file[100], last_file[100], none_file[100];

/* A server that holds the list; user 15's next record, and one that does not count user 14's operation. */
static struct sundr_server server;
static uint8_t record[98], apart[98];

/* The counts of that next record, of the one that lacks an operation, and of user 15's in the list. */
static uint32_t next_counts[16], apart_counts[16], listed_counts[16];

/* The files of a table, of which file i has the number 5 * i + 3; the path to the last, and one with a bit altered. */
static uint64_t numbers[4096];
static uint8_t handles[4096 * 32], path[3 * 642], altered[3 * 642], i_handle[32];

/*
 * Sixty-four questions to that table, of which question q is for file 64 * q + 63, in a leaf that no other has, and the
 * first of them once more; numbers that no file has, in the same leaves; and the sixty-four paths with a bit of the last
 * block altered.
 */
static uint64_t asked[65], absent[64];
static uint8_t counts[65], paths[65 * 3 * 642], altered_paths[64 * 3 * 642];

/* A file of one block; and one of seventeen such blocks, the last through the indirect block. */
static uint8_t inode[517], block[8192], file_handle[32];
static uint8_t large_inode[549], indirect[4097], large_handle[32];

/*
 * A block store of which every place holds a block of user 15, place p the first 8,192 - p bytes of the message: so a hash
 * ends with every number of bytes. The hash of the last place's block.
 */
static uint8_t store[SUNDR_STORE_LEN], stored_hash[32];

/*
 * All that the calls write. The record is committed to a server of its own, blocks are stored in a store of their own, and a
 * file that is marked as sent is a pending one before.
 */
static struct written {
	uint32_t counts[16];
	uint8_t again[98], pended[100], marked[100], moved[100], none[100], back[98];
	uint8_t hash[5][32], next[98], made[1569], listed[16 * 98], blocks[273 * 642], found[32];
	uint8_t entries[65 * 33], no_entries[64 * 33];
	struct sundr_server server;
	uint8_t made_store[SUNDR_STORE_LEN], store[SUNDR_STORE_LEN], retrieved[SUNDR_BLOCK_MAX_LEN];
} written;

/* What the last case answered. */
static uint64_t answer;

static void fill_lists(void)
{
	size_t v, w;

	for (v = 0; v < 16; v++) {
		uint8_t *version = list + 98 * v;

		version[0] = 1;
		version[1] = (uint8_t)v;
		for (w = 0; w <= v; w++)
			put(version + 34 + 4 * w, 1);
	}
	memset(marks, 1, sizeof marks);
	memcpy(forked, list, sizeof forked);
	put(forked + 98 * 15 + 34 + 4 * 14, 0);
	memcpy(malformed, list, sizeof malformed);
	malformed[98 * 15] = 2;
	memcpy(last, list, sizeof last);
	put(last + 98 * 15 + 34 + 4 * 15, 4294967295);
	memcpy(ahead, list, sizeof ahead);
	put(ahead + 98 * 15 + 34 + 4 * 14, 2);
	memset(unmarked, 1, sizeof unmarked - 1);
	server.users = 16;
	memcpy(server.records, list, sizeof list);
	memcpy(record, list + 98 * 15, sizeof record);
	put(record + 34 + 4 * 15, 2);
	memcpy(apart, record, sizeof apart);
	put(apart + 34 + 4 * 14, 0);
	sundr_counts(record, next_counts);
	sundr_counts(apart, apart_counts);
	sundr_counts(list + 98 * 15, listed_counts);
}

static void fill_file_of(uint8_t *to, uint8_t state, const uint8_t *version)
{
	to[0] = 7;
	to[1] = state;
	memcpy(to + 2, version, 98);
}

/* After the lists. */
static void fill_memory(void)
{
	size_t v;

	for (v = 0; v < 16; v++)
		fill_file_of(files[v], SUNDR_STATE_SENT, list + 98 * v);
	fill_file_of(pending_file, SUNDR_STATE_PENDING, record);
	fill_file_of(last_file, SUNDR_STATE_SENT, last + 98 * 15);
	none_file[0] = 7;
	none_file[1] = SUNDR_STATE_NONE;
}

static void fill_table(void)
{
	size_t i;

	for (i = 0; i < 4096; i++) {
		numbers[i] = 5 * i + 3;
		memset(handles + 32 * i, (int)(i % 251), 32);
	}
	sundr_table_write(numbers, 4096, handles, sizeof handles, written.blocks, sizeof written.blocks);
	memcpy(path, written.blocks + 642 * 272, 642);
	memcpy(path + 642, written.blocks + 642 * 271, 642);
	memcpy(path + 642 * 2, written.blocks + 642 * 255, 642);
	sundr_sha256(path, 642, i_handle, sizeof i_handle);
	memcpy(altered, path, sizeof altered);
	altered[sizeof altered - 1] ^= 1;
}

/* After the table: its blocks are where they are written. */
static void fill_questions(void)
{
	size_t q;

	for (q = 0; q < 65; q++) {
		size_t file = (64 * q + 63) % 4096;
		uint8_t *to = paths + 3 * 642 * q;

		asked[q] = numbers[file];
		counts[q] = 3;
		memcpy(to, written.blocks + 642 * 272, 642);
		memcpy(to + 642, written.blocks + 642 * (256 + file / 256), 642);
		memcpy(to + 642 * 2, written.blocks + 642 * (file / 16), 642);
	}
	for (q = 0; q < 64; q++)
		absent[q] = asked[q] + 1;
	memcpy(altered_paths, paths, sizeof altered_paths);
	altered_paths[sizeof altered_paths - 1] ^= 1;
}

static void fill_file(void)
{
	inode[0] = 6;
	put(inode + 1, sizeof block);
	sundr_sha256(block, sizeof block, inode + 5, 32);
	sundr_sha256(inode, sizeof inode, file_handle, sizeof file_handle);
}

/* After the file of one block, whose hash is that of each of these. */
static void fill_large_file(void)
{
	size_t i;

	large_inode[0] = 11;
	put(large_inode + 1, 17 * sizeof block);
	for (i = 0; i < 16; i++)
		memcpy(large_inode + 5 + 32 * i, inode + 5, 32);
	indirect[0] = 12;
	memcpy(indirect + 1, inode + 5, 32);
	sundr_sha256(indirect, sizeof indirect, large_inode + 517, 32);
	sundr_sha256(large_inode, sizeof large_inode, large_handle, sizeof large_handle);
}

/* After the message. */
static void fill_store(void)
{
	size_t p;

	for (p = 0; p < SUNDR_STORE_PLACES; p++) {
		uint8_t *place = store + SUNDR_PLACE_LEN * p;
		size_t len = SUNDR_BLOCK_MAX_LEN - p;

		place[0] = (uint8_t)(len / 256);
		place[1] = (uint8_t)(len % 256);
		place[2 + 2 * 15 + 1] = 2;
		memcpy(place + 34, message, len);
	}
	sundr_sha256(message, SUNDR_BLOCK_MAX_LEN - 63, stored_hash, sizeof stored_hash);
}

/* Makes ready for all the cases: all that they write is as if none had been made. */
static void prepare_cases(void)
{
	size_t i;

	for (i = 0; i < sizeof message; i++)
		message[i] = (uint8_t)(i % 251);
	fill_lists();
	fill_memory();
	fill_table();
	fill_questions();
	fill_file();
	fill_large_file();
	fill_store();
	memset(&written, 0x5a, sizeof written);
	memcpy(written.marked, pending_file, sizeof written.marked);
	written.server = server;
	memcpy(written.store, store, sizeof store);
}

#endif
