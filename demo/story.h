/*
 * The parts of the story. What a client holds is its struct client. The maintainer's tree and the server's blocks
 * are private to their files: the release desk has a list and a reply, and no other way to them.
 */
#ifndef STORY_H
#define STORY_H

#include "sundr.h"

enum { USERS = 2, MAINTAINER = 0, RELEASE_DESK = 1, FILES = 300, CHANNEL_TABLE = 4242 };

/* The firmware image: its file, its length, and its last block, which begins with what the channel table says. */
enum { IMAGE = 4300, IMAGE_LEN = 200000, IMAGE_LAST = (IMAGE_LEN - 1) / SUNDR_FILE_BLOCK_LEN };

/* Ends the program with status 1 unless this holds. */
void must(int holds, const char *what);

/* The longest block of the story. */
enum { BLOCK_MAX = SUNDR_FILE_BLOCK_LEN };

/* What a client keeps of a file that it read: the inode, and the block. */
struct cache {
	uint8_t inode[SUNDR_INODE_LEN];
	size_t inode_len;
	uint8_t block[BLOCK_MAX];
	size_t block_len;
};

/* A client: its user, the i-handle of its own files, its memory file, and the file it read last. */
struct client {
	uint8_t user;
	uint8_t i_handle[SUNDR_HANDLE_LEN];
	uint8_t file[SUNDR_MEMORY_LEN];
	struct cache cache;
};

/* The structure that it made last, where there is one. */
static inline const uint8_t *last_of(const struct client *client)
{
	return client->file + 2;
}

/* A server's list as it is sent: the records, and a good mark for each. */
struct sent {
	uint8_t list[SUNDR_MAX_USERS * SUNDR_VERSION_LEN];
	uint8_t marks[SUNDR_MAX_USERS];
	size_t records;
};

/* desk.c: puts a check to the desk program, and shows what it prints, which has to be the library's answer. */
void show_desk(const struct client *client, const struct sent *sent, uint64_t answer, const uint32_t *counts);
extern const char *desk_program;

/*
 * blocks.c: the server's blocks, each under its hash, and what it replies when it is asked for a block of a file, with
 * an indirect block where that is needed; or for a file, that is for its first block.
 */
struct reply {
	uint8_t path[SUNDR_PATH_MAX_BLOCKS * SUNDR_TABLE_BLOCK_LEN];
	size_t path_len;
	uint8_t inode[SUNDR_LARGE_INODE_LEN];
	size_t inode_len;
	uint8_t indirect[SUNDR_INDIRECT_LEN];
	size_t indirect_len;
	uint8_t block[BLOCK_MAX];
	size_t block_len;
};

void upload_block(const uint8_t *bytes, size_t len, uint8_t *hash);
struct reply ask_for_block(const uint8_t *i_handle, uint64_t number, uint32_t index);
struct reply ask_server(const uint8_t *i_handle, uint64_t number);

/* tree.c: a user's files, made into blocks and uploaded; the i-handle is all that stays with the user. */
void upload_tree(const char *channels, uint8_t *i_handle);
void upload_nothing(uint8_t *i_handle);

#endif
