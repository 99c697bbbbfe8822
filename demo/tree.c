/* A user's files as blocks: the maintainer's driver tree, and the i-table of a user who has no files. */
#include <stdio.h>
#include <string.h>

#include "story.h"

enum { FIRST_NUMBER = CHANNEL_TABLE - 200 };

/* A file of one block: uploads the block and the inode, and gives the file handle. */
static void upload_file(const char *text, uint8_t *file_handle)
{
	uint8_t inode[SUNDR_INODE_LEN] = { 6 };

	inode[4] = (uint8_t)strlen(text);
	upload_block((const uint8_t *)text, strlen(text), inode + 5);
	upload_block(inode, sizeof inode, file_handle);
}

/* The firmware image: sixteen blocks are named by the inode, and the others by the indirect block. */
static void upload_image(const char *channels, uint8_t *file_handle)
{
	static uint8_t image[IMAGE_LEN];
	uint8_t inode[SUNDR_LARGE_INODE_LEN] = { 11 }, indirect[SUNDR_INDIRECT_LEN] = { 12 };
	uint8_t *hash = inode + 5;
	size_t at, len;

	for (at = 0; at < IMAGE_LEN; at++)
		image[at] = (uint8_t)(at + at / SUNDR_FILE_BLOCK_LEN);
	strcpy((char *)image + SUNDR_FILE_BLOCK_LEN * IMAGE_LAST, channels);
	inode[2] = IMAGE_LEN >> 16;
	inode[3] = IMAGE_LEN >> 8 & 0xff;
	inode[4] = IMAGE_LEN & 0xff;
	for (at = 0; at < IMAGE_LEN; at += len) {
		len = IMAGE_LEN - at < SUNDR_FILE_BLOCK_LEN ? IMAGE_LEN - at : SUNDR_FILE_BLOCK_LEN;
		if (at == SUNDR_FILE_BLOCK_LEN * SUNDR_DIRECT_BLOCKS)
			hash = indirect + 1;
		upload_block(image + at, len, hash);
		hash += SUNDR_SHA256_LEN;
	}
	upload_block(indirect, sizeof indirect, inode + SUNDR_INODE_LEN);
	upload_block(inode, sizeof inode, file_handle);
}

/* The blocks of an i-table, of which the root is the last: its hash is the i-handle. */
static void upload_table(const uint64_t *numbers, size_t count, const uint8_t *handles, uint8_t *i_handle)
{
	static uint8_t blocks[SUNDR_TABLE_MAX_BLOCKS * SUNDR_TABLE_BLOCK_LEN];
	uint64_t answer = sundr_table_write(numbers, count, handles, SUNDR_HANDLE_LEN * count, blocks, sizeof blocks);
	size_t i;

	must(sundr_refusal(answer) == SUNDR_ACCEPTED, "writing the i-table");
	for (i = 0; i < sundr_first(answer); i++)
		upload_block(blocks + SUNDR_TABLE_BLOCK_LEN * i, SUNDR_TABLE_BLOCK_LEN, i_handle);
}

void upload_tree(const char *channels, uint8_t *i_handle)
{
	uint64_t numbers[FILES];
	uint8_t handles[FILES * SUNDR_HANDLE_LEN];
	char text[64];
	int i;

	for (i = 0; i < FILES; i++) {
		numbers[i] = FIRST_NUMBER + i;
		snprintf(text, sizeof text, "file %d of the driver", i);
		if (numbers[i] == IMAGE)
			upload_image(channels, handles + SUNDR_HANDLE_LEN * i);
		else
			upload_file(numbers[i] == CHANNEL_TABLE ? channels : text, handles + SUNDR_HANDLE_LEN * i);
	}
	upload_table(numbers, FILES, handles, i_handle);
}

void upload_nothing(uint8_t *i_handle)
{
	upload_table(NULL, 0, NULL, i_handle);
}
