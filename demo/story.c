/*
 * The order's story, replayed: a driver tree on a server that nobody trusts, a maintainer and a release desk. Each
 * step calls the library, and each check of a list that is shown is also put to the desk program. Whatever comes out
 * otherwise than told ends the program with status 1.
 *
 *     story PATH_OF_DESK
 */
#include <stdarg.h>
#include <stdio.h>
#include <stdlib.h>
#include <string.h>

#include "story.h"

static void tell(const char *format, ...)
{
	va_list args;

	va_start(args, format);
	vprintf(format, args);
	va_end(args);
	putchar('\n');
	fflush(stdout);
}

void must(int holds, const char *what)
{
	if (!holds) {
		fprintf(stderr, "story: not as told: %s\n", what);
		exit(1);
	}
}

static void must_accept(uint64_t answer, const char *what)
{
	must(sundr_refusal(answer) == SUNDR_ACCEPTED, what);
}

static void must_refuse(uint64_t answer, enum sundr_refusal_number number, uint32_t first, uint32_t second)
{
	must(sundr_refusal(answer) == number, "the refusal's number");
	must(sundr_first(answer) == first && sundr_second(answer) == second, "the refusal's positions");
}

/* ---- An operation: the server's list is checked, and the new structure made, signed and committed. ---- */

static struct sent send_list(const struct sundr_server *server)
{
	struct sent sent;
	uint64_t answer = sundr_server_list(server, sent.list, sizeof sent.list);

	must_accept(answer, "the listing");
	sent.records = sundr_first(answer);
	memset(sent.marks, 1, sizeof sent.marks);
	return sent;
}

/* Whose the server's lock is, from a listing to the commit. Meanwhile the server sends no list to anybody else. */
enum { NOBODY = SUNDR_MAX_USERS };
static uint8_t lock_of = NOBODY;

/* Whether the server sends a client its list, or turns it away. */
static int is_sent_list(const struct client *client, const struct sundr_server *server, struct sent *sent)
{
	if (lock_of != NOBODY && lock_of != client->user)
		return 0;
	*sent = send_list(server);
	return 1;
}

/* The client's first memory file: it remembers nothing. */
static void start(struct client *client)
{
	must_accept(sundr_memory_over(USERS, client->user, NULL, 0, client->file, sizeof client->file), "a first file");
}

/* What the last check gave that was neither accepted nor refused: the structure to be sent again. */
static uint8_t again[SUNDR_VERSION_LEN];

/* The client's check of a list. Accepted, it gives the counts of the client's next structure, and alters no memory. */
static uint64_t check(const struct client *client, const struct sent *sent, uint32_t *counts, int shown)
{
	uint64_t answer = sundr_memory_check(USERS, client->user, client->file, sizeof client->file,
		sent->list, SUNDR_VERSION_LEN * sent->records, sent->marks, sent->records,
		counts, SUNDR_MAX_USERS, again, sizeof again);

	if (shown)
		show_desk(client, sent, answer, counts);
	return answer;
}

/* The making step, from the counts of a check. Accepted, the client remembers its new structure, as pending, and signs it. */
static uint64_t create(struct client *client, const uint32_t *counts)
{
	uint8_t next[SUNDR_VERSION_LEN];
	uint64_t answer = sundr_memory_create(USERS, client->user, client->file, sizeof client->file,
		counts, SUNDR_MAX_USERS, client->i_handle, SUNDR_HANDLE_LEN, next, sizeof next);

	if (sundr_refusal(answer) == SUNDR_ACCEPTED)
		answer = sundr_memory_pend(USERS, client->user, next, sizeof next, client->file, sizeof client->file);
	return answer;
}

/* A commit that the server takes: the client's memory is marked as sent. */
static void send_structure(struct client *client, struct sundr_server *server, const char *what)
{
	must_accept(sundr_server_commit(server, last_of(client), SUNDR_VERSION_LEN, 1), what);
	must_accept(sundr_memory_sent(USERS, client->user, client->file, sizeof client->file), "a mark");
}

/* A turn that is accepted, at a server that takes it; gives the list that was checked. */
static struct sent turn(struct client *client, struct sundr_server *server, int shown)
{
	struct sent sent;
	uint32_t counts[SUNDR_MAX_USERS];

	must(is_sent_list(client, server, &sent), "a turn's list");
	must_accept(check(client, &sent, counts, shown), "a turn's check");
	must_accept(create(client, counts), "a turn's making step");
	send_structure(client, server, "a turn's commit");
	return sent;
}

static void commit(struct client *maintainer, struct sundr_server *server, const char *channels)
{
	tell("The maintainer commits a tree whose channel table says \"%s\".", channels);
	upload_tree(channels, maintainer->i_handle);
	turn(maintainer, server, 1);
}

/* ---- A fetch: from an accepted list to a text, each link taken from what was accepted before it. ---- */

/* The maintainer's record in a list that a check has accepted. */
static const uint8_t *maintainers_record(const struct sent *accepted)
{
	size_t i = 0;

	while (i < accepted->records && sundr_owner(accepted->list + SUNDR_VERSION_LEN * i) != MAINTAINER)
		i++;
	must(i < accepted->records, "the maintainer's record");
	return accepted->list + SUNDR_VERSION_LEN * i;
}

/* The handle of a file that is there, by a reply's path under an i-handle. */
static uint64_t look_up(const uint8_t *i_handle, uint64_t number, const struct reply *reply, uint8_t *file_handle)
{
	uint64_t answer = sundr_lookup(i_handle, SUNDR_HANDLE_LEN, number,
		reply->path, reply->path_len, file_handle, SUNDR_HANDLE_LEN);

	if (sundr_refusal(answer) == SUNDR_ACCEPTED)
		must(sundr_first(answer) == 1, "the file's place in the i-table");
	return answer;
}

/* A file of one block, where it lies. */
struct file {
	const uint8_t *inode;
	const uint8_t *block;
	size_t block_len;
};

/*
 * A file from a reply, or from what the client kept, piece by piece: the inode under the file handle, then the block
 * under the hash in that inode, and then both are checked.
 */
static uint64_t read_file(const struct client *client, const struct reply *reply, const uint8_t *file_handle,
	struct file *file)
{
	const struct cache *kept = &client->cache;
	uint64_t answer = sundr_block_choose(file_handle, SUNDR_HANDLE_LEN, reply->inode, reply->inode_len,
		kept->inode, kept->inode_len);

	if (sundr_refusal(answer) != SUNDR_ACCEPTED)
		return answer;
	must(sundr_chosen_len(answer) == SUNDR_INODE_LEN, "an inode's length");
	file->inode = sundr_chosen(answer, reply->inode, kept->inode);
	answer = sundr_block_choose(file->inode + 5, SUNDR_SHA256_LEN, reply->block, reply->block_len,
		kept->block, kept->block_len);
	if (sundr_refusal(answer) != SUNDR_ACCEPTED)
		return answer;
	file->block = sundr_chosen(answer, reply->block, kept->block);
	file->block_len = sundr_chosen_len(answer);
	return sundr_block_check(file_handle, SUNDR_HANDLE_LEN, file->inode, SUNDR_INODE_LEN, 0,
		file->block, file->block_len);
}

/* The first four bytes of a hash, to be read. */
static void hex(const uint8_t *hash, char *text)
{
	sprintf(text, "%02x%02x%02x%02x", hash[0], hash[1], hash[2], hash[3]);
}

static void hash_hex(const uint8_t *bytes, size_t len, char *text)
{
	uint8_t hash[SUNDR_SHA256_LEN];

	must_accept(sundr_sha256(bytes, len, hash, sizeof hash), "a hash");
	hex(hash, text);
}

/* The chain of an accepted fetch: the hash of each link is what the link before it gave. */
static void tell_chain(const uint8_t *record, const struct reply *reply, const uint8_t *file_handle,
	const struct file *file)
{
	char i_handle[9], root[9], handle[9], inode[9], first[9], block[9];

	hex(sundr_i_handle(record), i_handle);
	hash_hex(reply->path, SUNDR_TABLE_BLOCK_LEN, root);
	hex(file_handle, handle);
	hash_hex(file->inode, SUNDR_INODE_LEN, inode);
	hex(file->inode + 5, first);
	hash_hex(file->block, file->block_len, block);
	must(strcmp(root, i_handle) == 0 && strcmp(inode, handle) == 0 && strcmp(block, first) == 0, "each link's hash");
	tell("  link               hash        what it gives");
	tell("  list               (checked)   record of user %u", sundr_owner(record));
	tell("  record of user %u   (signed)    i-handle %s", sundr_owner(record), i_handle);
	tell("  path of %u blocks   %s    file handle %s, for file %d",
		(unsigned)(reply->path_len / SUNDR_TABLE_BLOCK_LEN), root, handle, CHANNEL_TABLE);
	tell("  inode              %s    block hash %s", inode, first);
	tell("  block              %s    \"%.*s\"", block, (int)file->block_len, (const char *)file->block);
}

/* Keeps a file that was read, of which a piece may lie there already. */
static void keep(struct cache *cache, const struct file *file)
{
	memmove(cache->inode, file->inode, SUNDR_INODE_LEN);
	cache->inode_len = SUNDR_INODE_LEN;
	memmove(cache->block, file->block, file->block_len);
	cache->block_len = file->block_len;
}

enum how { QUIETLY, SHOWN, LINK_BY_LINK };

/* A fetch by the release desk: its turn, then the channel table, which has to say this. */
static void fetch(struct client *desk, struct sundr_server *server, const char *due, enum how how)
{
	struct sent accepted = turn(desk, server, how != QUIETLY);
	const uint8_t *record = maintainers_record(&accepted);
	struct reply reply = ask_server(sundr_i_handle(record), CHANNEL_TABLE);
	uint8_t file_handle[SUNDR_HANDLE_LEN];
	struct file file;

	must_accept(look_up(sundr_i_handle(record), CHANNEL_TABLE, &reply, file_handle), "the reply's path");
	must_accept(read_file(desk, &reply, file_handle, &file), "the file");
	must(file.block_len == strlen(due) && memcmp(file.block, due, strlen(due)) == 0, "the channel table");
	if (how == SHOWN)
		tell("It reads \"%.*s\".", (int)file.block_len, (const char *)file.block);
	else if (how == LINK_BY_LINK)
		tell_chain(record, &reply, file_handle, &file);
	keep(&desk->cache, &file);
}

/* ---- The scenes. ---- */

static void legend(void)
{
	tell("\nSUNDR: files on a server that nobody has to trust. A story in thirteen scenes.\n");
	tell("  user 0, the maintainer     keeps a driver tree on the server: %d files, of which file %d is",
		FILES, CHANNEL_TABLE);
	tell("                             the channel table, the radio channels that a board may use, and");
	tell("                             file %d the firmware image, %d bytes that boards are flashed with",
		IMAGE, IMAGE_LEN);
	tell("  user 1, the release desk   fetches the channel table, and builds boards with it");
	tell("  the server                 a rented machine, which stores what both send, and may lie\n");
	tell("Each operation of a user ends with a version structure, a small record that this user signs. It");
	tell("counts the operations of each user that its signer has seen, and holds the i-handle: a hash, by");
	tell("which all files of the signer can be checked. The server's list has the last structure of each");
	tell("user. A client checks the list, and only if it accepts does it sign its own next structure.\n");
	tell("A fetch is an operation too, and is signed too. So reading leaves a trace: what a user has once");
	tell("read, the server cannot later hide from that user.\n");
	tell("The library leaves it to its caller to make signatures and to check them. In this story every");
	tell("signature is good, also those that a lying server sends.\n");
	tell("What stands to the right of a bar is printed by the desk program, which makes the same check by");
	tell("itself and has to agree with the library:\n");
	tell("  desk 1 of 2      user 1, of 2 users, checks the list");
	tell("  accept 2 1       accepted: the new structure counts 2 operations of user 0 and 1 of user 1");
	tell("  refuse 7 0 1     refused for reason 7, at records 0 and 1 of the list (0 0 where it names none)");
}

static void the_correction(struct client *maintainer, struct client *desk, struct sundr_server *server,
	struct sundr_server *old_disk)
{
	tell("\n1. The correction\n");
	commit(maintainer, server, "channels 1 to 11");
	tell("The release desk fetches it. It has no files of its own, and signs an empty table's i-handle.");
	fetch(desk, server, "channels 1 to 11", SHOWN);
	*old_disk = *server;
	tell("That is wrong: there are 13 channels.");
	commit(maintainer, server, "channels 1 to 13");
	tell("The release desk fetches the corrected table.");
	fetch(desk, server, "channels 1 to 13", SHOWN);
}

static void tell_list(const struct sent *sent)
{
	size_t i;

	for (i = 0; i < sent->records; i++) {
		const uint8_t *record = sent->list + SUNDR_VERSION_LEN * i;

		tell("  record %u, of user %u, counts %u %u", (unsigned)i, sundr_owner(record),
			sundr_count(record, MAINTAINER), sundr_count(record, RELEASE_DESK));
	}
}

static void tell_refusal(uint64_t answer)
{
	tell("Refused with %d:", sundr_refusal(answer));
	tell("  \"%s\"", sundr_refusal_text(sundr_refusal(answer)));
}

/* The standing of one record's counts to another's, which has to be this, in these words. */
static void tell_standing(const uint8_t *record, const uint8_t *other, enum sundr_standing due, const char *words)
{
	uint32_t x[SUNDR_MAX_USERS], y[SUNDR_MAX_USERS];
	uint64_t answer;

	sundr_counts(record, x);
	sundr_counts(other, y);
	answer = sundr_compare(x, y);
	must_accept(answer, "a comparison");
	must(sundr_first(answer) == due && sundr_second(answer) == 0, "how two records stand");
	tell("  %u %u is %s %u %u", x[MAINTAINER], x[RELEASE_DESK], words, y[MAINTAINER], y[RELEASE_DESK]);
}

/*
 * "Did you have my change?", of what a user signed, asked of one whose last record this is: answered from one count.
 * All sixteen counts have to agree with it.
 */
static void tell_had(const uint8_t *change, const uint8_t *last, enum sundr_standing due, const char *words)
{
	uint8_t user = sundr_owner(change);
	uint32_t operation = sundr_count(change, user), counted = sundr_count(last, user);

	must((counted >= operation) == (due == SUNDR_EQUAL || due == SUNDR_BEFORE), "an answer from one count");
	tell("  operation %u: %s, %u are counted", operation, counted >= operation ? "yes" : "no", counted);
	tell_standing(change, last, due, words);
}

static void the_old_disk(struct client *desk, const struct sundr_server *old_disk)
{
	struct sent sent = send_list(old_disk);
	uint32_t counts[SUNDR_MAX_USERS];
	uint64_t answer;

	tell("\n2. The old disk\n");
	tell("The host restores the disk as it was before the correction. The release desk, whose last structure");
	tell("counts %u %u, fetches again, and is sent the list of the old disk:",
		sundr_count(last_of(desk), MAINTAINER), sundr_count(last_of(desk), RELEASE_DESK));
	tell_list(&sent);
	answer = check(desk, &sent, counts, 1);
	must_refuse(answer, SUNDR_NOT_CURRENT, 0, 0);
	tell_refusal(answer);
	tell("The release desk's record in that list is older than its last one, and not forked:");
	tell_standing(sent.list + SUNDR_VERSION_LEN, last_of(desk), SUNDR_BEFORE, "before");
	tell("The release desk has signed that it saw the correction, and the list is from before that. So no");
	tell("board is built with the old table. Once, without this check, four thousand were.");
}

static void the_fork(struct client *maintainer, struct client *desk, struct sundr_server *server)
{
	struct sundr_server shown_to_desk = *server;
	const struct client before = *desk;
	struct sent sent;
	uint32_t counts[SUNDR_MAX_USERS];
	uint64_t answer;

	tell("\n3. The fork\n");
	tell("The host puts the new disk back. But now the server keeps two lists, and shows each user one");
	tell("that lacks the other's new operations.");
	commit(maintainer, server, "channels 1 to 13, 36 to 48");
	tell("The release desk fetches, and is shown the other list.");
	fetch(desk, &shown_to_desk, "channels 1 to 13", SHOWN);
	commit(maintainer, server, "channels 1 to 13, 36 to 64");
	tell("The release desk fetches, and is shown the other list.");
	fetch(desk, &shown_to_desk, "channels 1 to 13", SHOWN);
	tell("From one side nobody can see this: each list goes on from what its reader signed. But it is for");
	tell("good. The server sends the release desk the last structures of both:");
	sent = send_list(server);
	memcpy(sent.list + SUNDR_VERSION_LEN, last_of(desk), SUNDR_VERSION_LEN);
	tell_list(&sent);
	answer = check(desk, &sent, counts, 1);
	must_refuse(answer, SUNDR_UNORDERED, 0, 1);
	tell_refusal(answer);
	tell("Neither is merely older than the other, as their counts show:");
	tell_standing(maintainers_record(&sent), last_of(desk), SUNDR_APART, "apart from");
	tell("Each record lacks operations that the other counts. It is proved that no client ever accepts a");
	tell("list with both, or with later ones, as long as no signature is forged. So the server has to keep");
	tell("the two users apart for good, and one telephone call between them shows it.");
	tell("In that call the release desk asks of its last operation before the fork, and of its very last: \"did");
	tell("you have it?\" The maintainer answers from one number, the count of user 1 in the maintainer's record:");
	tell_had(last_of(&before), last_of(maintainer), SUNDR_BEFORE, "before");
	tell_had(last_of(desk), last_of(maintainer), SUNDR_APART, "apart from");
	tell("It is proved that one number is enough, where both are honest and no signature is forged: what counts");
	tell("an operation has all that the operation's maker had when making it.");
}

static void honest_turns(struct client *maintainer, struct client *desk, struct sundr_server *server)
{
	struct sent last;
	int i;

	tell("\n4. A thousand honest turns\n");
	tell("The same two users, from the start, at an honest server.");
	must_accept(sundr_server_make(USERS, server), "an empty server");
	start(maintainer);
	start(desk);
	upload_tree("channels 1 to 13", maintainer->i_handle);
	for (i = 0; i < 1000; i++)
		if (i % 3 < 2)
			turn(maintainer, server, 0);
		else
			fetch(desk, server, "channels 1 to 13", QUIETLY);
	last = send_list(server);
	tell("%d turns, and none is refused: %u of the maintainer and %u of the release desk.", i,
		sundr_count(maintainers_record(&last), MAINTAINER), sundr_count(last_of(desk), RELEASE_DESK));
}

static void from_list_to_text(struct client *desk, struct sundr_server *server)
{
	tell("\n5. From the list to the text\n");
	tell("The release desk fetches once more, and believes nothing that the server sends. The list has to");
	tell("pass the check; then each link gives a hash, which the next must have. The path is blocks of the");
	tell("table of all files, from the root, whose hash is shown, to the leaf with file %d. The inode", CHANNEL_TABLE);
	tell("lists the hashes of a file's blocks.");
	fetch(desk, server, "channels 1 to 13", LINK_BY_LINK);
}

/* A turn, and a reply to it that has to be refused at this position. */
static void try_reply(struct client *desk, struct sundr_server *server, const char *what,
	const struct reply *reply, uint32_t position)
{
	struct sent accepted = turn(desk, server, 0);
	uint8_t file_handle[SUNDR_HANDLE_LEN];
	uint64_t answer = look_up(sundr_i_handle(maintainers_record(&accepted)), CHANNEL_TABLE, reply, file_handle);

	if (sundr_refusal(answer) == SUNDR_ACCEPTED)
		answer = sundr_block_check(file_handle, sizeof file_handle, reply->inode, reply->inode_len, 0,
			reply->block, reply->block_len);
	must_refuse(answer, SUNDR_WRONG_HASH, position, 0);
	tell("  %-7s%d at %u   %s", what, sundr_refusal(answer), sundr_first(answer),
		sundr_refusal_text(sundr_refusal(answer)));
}

static void swapped_pieces(struct client *desk, struct sundr_server *server, const struct sundr_server *old_disk)
{
	/* Slot 0 of a server's list is the maintainer's. */
	struct reply now = ask_server(sundr_i_handle(server->records), CHANNEL_TABLE);
	struct reply old = ask_server(sundr_i_handle(old_disk->records), CHANNEL_TABLE);
	struct reply lie;
	const size_t leaf = 2 * SUNDR_TABLE_BLOCK_LEN;

	tell("\n6. Swapped pieces\n");
	tell("The list is good, but the server swaps one piece of the tree for that of the old disk. The release");
	tell("desk looks at the reply alone, and each time refuses, with a number at a position. In a path, 0 is");
	tell("the root and 2 the leaf; in a file, 0 is the inode and 1 the block.");
	lie = now;
	memcpy(lie.path, old.path, SUNDR_TABLE_BLOCK_LEN);
	try_reply(desk, server, "root", &lie, 0);
	lie = now;
	memcpy(lie.path + leaf, old.path + leaf, SUNDR_TABLE_BLOCK_LEN);
	try_reply(desk, server, "leaf", &lie, 2);
	lie = now;
	memcpy(lie.inode, old.inode, sizeof lie.inode);
	try_reply(desk, server, "inode", &lie, 0);
	lie = now;
	memcpy(lie.block, old.block, sizeof lie.block);
	try_reply(desk, server, "block", &lie, 1);
}

static uint8_t *slot(uint8_t *block, size_t i)
{
	return block + 2 + (8 + SUNDR_SHA256_LEN) * i;
}

/*
 * A table that another tool made: the leaf of the channel table has another file's number in its last slot, which leads
 * to the last leaf. Every hash is right. The leaf is below slot 12 of a block that is below the root's first slot.
 */
static void a_file_that_is_denied(const struct sundr_server *server)
{
	enum { STRAY = 5000, LEAF_SLOT = 12 };
	struct reply reply = ask_server(sundr_i_handle(server->records), CHANNEL_TABLE);
	uint8_t *root = reply.path, *middle = root + SUNDR_TABLE_BLOCK_LEN, *leaf = middle + SUNDR_TABLE_BLOCK_LEN;
	uint8_t i_handle[SUNDR_HANDLE_LEN], file_handle[SUNDR_HANDLE_LEN];
	uint64_t answer;

	tell("\n7. A file that is shown and denied\n");
	tell("A table that another tool made: the leaf of file %d has file %d in its last slot, whose number leads", CHANNEL_TABLE, STRAY);
	tell("to the last leaf. Who walks over all leaves sees it, and the lookup denies it. Every hash is right.");
	slot(leaf, 15)[6] = STRAY >> 8;
	slot(leaf, 15)[7] = STRAY & 0xff;
	upload_block(leaf, SUNDR_TABLE_BLOCK_LEN, slot(middle, LEAF_SLOT) + 8);
	upload_block(middle, SUNDR_TABLE_BLOCK_LEN, slot(root, 0) + 8);
	upload_block(root, SUNDR_TABLE_BLOCK_LEN, i_handle);
	reply = ask_server(i_handle, STRAY);
	answer = sundr_lookup(i_handle, sizeof i_handle, STRAY, reply.path, reply.path_len, file_handle, sizeof file_handle);
	must(answer == 0, "no such file");
	tell("  file %d   no such file, by the last leaf", STRAY);
	reply = ask_server(i_handle, CHANNEL_TABLE);
	answer = look_up(i_handle, CHANNEL_TABLE, &reply, file_handle);
	must_refuse(answer, SUNDR_MALFORMED, 2, 0);
	tell("  file %d   %d at %u   %s", CHANNEL_TABLE, sundr_refusal(answer), sundr_first(answer),
		sundr_refusal_text(sundr_refusal(answer)));
}

/* A fetch by the release desk that gets this reply, and how it ends. */
static uint64_t fetch_from(struct client *desk, struct sundr_server *server, const struct reply *reply,
	struct file *file)
{
	struct sent accepted = turn(desk, server, 0);
	uint8_t file_handle[SUNDR_HANDLE_LEN];

	must_accept(look_up(sundr_i_handle(maintainers_record(&accepted)), CHANNEL_TABLE, reply, file_handle),
		"the reply's path");
	return read_file(desk, reply, file_handle, file);
}

/* One that has to be accepted, and to read the block here. */
static void tell_choice(struct client *desk, struct sundr_server *server, const char *came, const struct reply *reply,
	const char *which, const uint8_t *here)
{
	struct file file;

	must_accept(fetch_from(desk, server, reply, &file), "the chosen block");
	must(file.block == here, "where the block lies");
	tell("  %-24s%-16s\"%.*s\"", came, which, (int)file.block_len, (const char *)file.block);
	keep(&desk->cache, &file);
}

static void from_the_cache(struct client *maintainer, struct client *desk, struct sundr_server *server,
	const struct sundr_server *old_disk)
{
	/* Slot 0 of a server's list is the maintainer's. */
	struct reply now = ask_server(sundr_i_handle(server->records), CHANNEL_TABLE);
	struct reply old = ask_server(sundr_i_handle(old_disk->records), CHANNEL_TABLE);
	struct reply nothing = now, lie = now;
	struct file file;
	uint64_t answer;

	tell("\n8. A block from the cache\n");
	tell("The release desk keeps the file that it read last. It fetches again, and what comes in the place of");
	tell("the block is not always the block. The hash in the inode says whether to read what came or what");
	tell("was kept. Neither is copied: the block is read where it lies.");
	tell("  what came               what is read");
	nothing.block_len = 0;
	tell_choice(desk, server, "nothing", &nothing, "the block kept", desk->cache.block);
	memcpy(lie.block, old.block, sizeof lie.block);
	tell_choice(desk, server, "the old disk's block", &lie, "the block kept", desk->cache.block);
	tell_choice(desk, server, "the block", &now, "what came", now.block);
	commit(maintainer, server, "channels 1 to 14");
	tell("The release desk fetches, and the old disk's block comes. What was kept is not the block either:");
	now = ask_server(sundr_i_handle(server->records), CHANNEL_TABLE);
	memcpy(now.block, old.block, sizeof now.block);
	answer = fetch_from(desk, server, &now, &file);
	must_refuse(answer, SUNDR_WRONG_HASH, 0, 0);
	must(sundr_chosen_len(answer) == 0, "no bytes");
	tell_refusal(answer);
}

/* The files that a build needs, their paths end to end, and what the lookup along each path answers. */
enum { NEEDED = 60, FIRST_NEEDED = 4200, NOT_THERE = 5000 };

struct needed {
	uint64_t numbers[NEEDED];
	uint8_t counts[NEEDED];
	uint8_t paths[NEEDED * SUNDR_PATH_MAX_BLOCKS * SUNDR_TABLE_BLOCK_LEN];
	size_t paths_len;
	uint8_t due[NEEDED * SUNDR_ENTRY_LEN];
};

static void ask_for(const uint8_t *i_handle, uint64_t number, struct needed *needed, int q)
{
	struct reply reply = ask_server(i_handle, number);
	uint8_t *entry = needed->due + SUNDR_ENTRY_LEN * q;
	uint64_t answer = sundr_lookup(i_handle, SUNDR_HANDLE_LEN, number, reply.path, reply.path_len,
		entry + 1, SUNDR_HANDLE_LEN);

	must_accept(answer, "a single lookup");
	entry[0] = (uint8_t)sundr_first(answer);
	needed->numbers[q] = number;
	needed->counts[q] = (uint8_t)(reply.path_len / SUNDR_TABLE_BLOCK_LEN);
	memcpy(needed->paths + needed->paths_len, reply.path, reply.path_len);
	needed->paths_len += reply.path_len;
}

static uint64_t look_up_all(const uint8_t *i_handle, const struct needed *needed, uint8_t *answers)
{
	return sundr_lookup_many(i_handle, SUNDR_HANDLE_LEN, needed->numbers, NEEDED, needed->counts, NEEDED,
		needed->paths, needed->paths_len, answers, NEEDED * SUNDR_ENTRY_LEN);
}

static void tell_entry(const struct needed *needed, int q, const uint8_t *answers)
{
	const uint8_t *entry = answers + SUNDR_ENTRY_LEN * q;
	char handle[9];

	hex(entry + 1, handle);
	tell("  %-11d%u   %s", q, (unsigned)needed->numbers[q], entry[0] == 1 ? handle : "no such file");
}

static void a_builds_start(struct client *desk, struct sundr_server *server, const struct sundr_server *old_disk)
{
	enum { CHANNELS = CHANNEL_TABLE - FIRST_NEEDED, LAST = NEEDED - 1 };
	struct sent accepted = turn(desk, server, 0);
	const uint8_t *i_handle = sundr_i_handle(maintainers_record(&accepted));
	struct reply old = ask_server(sundr_i_handle(old_disk->records), CHANNEL_TABLE);
	const size_t leaf = 2 * SUNDR_TABLE_BLOCK_LEN;
	struct needed needed = { .paths_len = 0 };
	uint8_t answers[sizeof needed.due], before[sizeof needed.due];
	uint64_t answer;
	int q;

	tell("\n9. A build's start\n");
	tell("A build begins, and needs %d files at once. The server sends a path for each; the release desk asks", NEEDED);
	tell("in one call, with the paths end to end. The answers are those of %d lookups, in the order asked.", NEEDED);
	for (q = 0; q < NEEDED; q++)
		ask_for(i_handle, q == LAST ? NOT_THERE : FIRST_NEEDED + q, &needed, q);
	must_accept(look_up_all(i_handle, &needed, answers), "the build's files");
	must(memcmp(answers, needed.due, sizeof answers) == 0, "the answers of the single lookups");
	tell("  question   file   file handle");
	tell_entry(&needed, 0, answers);
	tell_entry(&needed, CHANNELS, answers);
	tell_entry(&needed, LAST, answers);
	tell("Now the path of question %d comes with the old disk's leaf. One refused question refuses all: the", CHANNELS);
	tell("call tells which question, and which block of its path, and writes no answer.");
	memcpy(needed.paths + old.path_len * CHANNELS + leaf, old.path + leaf, SUNDR_TABLE_BLOCK_LEN);
	memset(answers, 0x5a, sizeof answers);
	memcpy(before, answers, sizeof before);
	answer = look_up_all(i_handle, &needed, answers);
	must_refuse(answer, SUNDR_WRONG_HASH, CHANNELS, 2);
	must(memcmp(answers, before, sizeof before) == 0, "no answer");
	tell("  %d at question %u, block %u   %s", sundr_refusal(answer), sundr_first(answer), sundr_second(answer),
		sundr_refusal_text(sundr_refusal(answer)));
}

/* A block of the firmware image, from a reply. */
static uint64_t check_image(const uint8_t *file_handle, const struct reply *reply, uint32_t index)
{
	return sundr_large_block_check(file_handle, SUNDR_HANDLE_LEN, reply->inode, reply->inode_len, index,
		reply->indirect, reply->indirect_len, reply->block, reply->block_len);
}

static void tell_read(const uint8_t *file_handle, const struct reply *reply, uint32_t index)
{
	uint64_t answer = check_image(file_handle, reply, index);

	must_accept(answer, "a block of the image");
	must(sundr_first(answer) == SUNDR_FILE_BLOCK_LEN * index && sundr_second(answer) == reply->block_len,
		"the block's place in the image");
	tell("  %-8u%-32s%u bytes, from byte %u on", index,
		reply->indirect_len == 0 ? "the inode" : "the inode and indirect block",
		sundr_second(answer), sundr_first(answer));
}

/* The last block, which has to be refused at this position. */
static void tell_old(const uint8_t *file_handle, const char *what, const struct reply *reply, uint32_t position)
{
	uint64_t answer = check_image(file_handle, reply, IMAGE_LAST);

	must_refuse(answer, SUNDR_WRONG_HASH, position, 0);
	tell("  %-21s%d at %u   %s", what, sundr_refusal(answer), sundr_first(answer),
		sundr_refusal_text(sundr_refusal(answer)));
}

static void the_firmware_image(struct client *desk, struct sundr_server *server, const struct sundr_server *old_disk)
{
	enum { DIRECT = 3 };
	static const char due[] = "channels 1 to 14";
	struct sent accepted = turn(desk, server, 0);
	const uint8_t *i_handle = sundr_i_handle(maintainers_record(&accepted));
	struct reply early = ask_for_block(i_handle, IMAGE, DIRECT), last = ask_for_block(i_handle, IMAGE, IMAGE_LAST);
	struct reply old = ask_for_block(sundr_i_handle(old_disk->records), IMAGE, IMAGE_LAST);
	uint8_t file_handle[SUNDR_HANDLE_LEN];

	tell("\n10. The firmware image\n");
	tell("The image has %d blocks. Its inode lists the hashes of the first %d, and that of an indirect block,",
		IMAGE_LAST + 1, SUNDR_DIRECT_BLOCKS);
	tell("which lists the others. So the release desk checks each block by itself, with no more than these:");
	must_accept(look_up(i_handle, IMAGE, &last, file_handle), "the reply's path");
	tell("  block   came with                       what is read");
	tell_read(file_handle, &early, DIRECT);
	tell_read(file_handle, &last, IMAGE_LAST);
	must(memcmp(last.block, due, sizeof due) == 0, "the image's channels");
	tell("The last block begins with \"%s\". Now the server sends that of the old disk's image,", due);
	tell("then the old indirect block with it, which lists it, and then the old inode, which lists both. In a");
	tell("large file, 0 is the inode, 1 the block and 2 the indirect block.");
	memcpy(last.block, old.block, sizeof last.block);
	tell_old(file_handle, "block", &last, 1);
	memcpy(last.indirect, old.indirect, sizeof last.indirect);
	tell_old(file_handle, "and indirect block", &last, 2);
	memcpy(last.inode, old.inode, sizeof last.inode);
	tell_old(file_handle, "and inode", &last, 0);
	tell("However much of the old image fits together, no board is flashed with it.");
}

/* ---- The server's block store: 64 places, each with a length, a count for each user, and room for a block. ---- */

static uint8_t store[SUNDR_STORE_LEN];

/* Where a place has its length, its counts and its block. */
enum { LENGTH_AT = 0, COUNTS_AT = 2, BLOCK_AT = COUNTS_AT + 2 * SUNDR_MAX_USERS };

/* The number in two bytes of a place: its block's length, or a user's count. */
static unsigned number_in(size_t place, size_t at)
{
	const uint8_t *bytes = store + SUNDR_PLACE_LEN * place + at;

	return (unsigned)bytes[0] << 8 | bytes[1];
}

/* All counts of the places from this one on. */
static unsigned counts_from(size_t place)
{
	unsigned sum = 0;
	size_t at;

	for (; place < SUNDR_STORE_PLACES; place++)
		for (at = COUNTS_AT; at < BLOCK_AT; at += 2)
			sum += number_in(place, at);
	return sum;
}

/*
 * A call, its answer, and how often each of the two users counts the block in place 0, which has to be so often. Nobody
 * counts anything else.
 */
static void tell_counts(const char *call, const char *answer, unsigned maintainers, unsigned desks)
{
	must(number_in(0, COUNTS_AT + 2 * MAINTAINER) == maintainers, "the maintainer's count");
	must(number_in(0, COUNTS_AT + 2 * RELEASE_DESK) == desks, "the release desk's count");
	must(counts_from(0) == maintainers + desks && counts_from(1) == 0, "no other count");
	tell("  %-27s%-30s%u %u", call, answer, maintainers, desks);
}

static void store_block(const struct client *client, const void *block, size_t len)
{
	must_accept(sundr_store(store, sizeof store, client->user, block, len), "a block for the store");
}

/* One that the user counts. */
static void give_back(const struct client *client, const uint8_t *hash)
{
	uint64_t answer = sundr_unreference(store, sizeof store, client->user, hash, SUNDR_SHA256_LEN);

	must_accept(answer, "a block that is held");
	must(sundr_first(answer) == 1, "one that was taken");
}

/* The block of a hash, which has to be this text; the counts are as they were. */
static void tell_retrieved(const uint8_t *hash, const char *due, unsigned maintainers, unsigned desks)
{
	uint8_t block[BLOCK_MAX];
	char text[40];
	uint64_t answer = sundr_retrieve(store, sizeof store, hash, SUNDR_SHA256_LEN, block, sizeof block);

	must_accept(answer, "a block that is held");
	must(sundr_first(answer) == strlen(due) && memcmp(block, due, strlen(due)) == 0, "the block that was stored");
	snprintf(text, sizeof text, "%u bytes, \"%s\"", sundr_first(answer), due);
	tell_counts("anybody retrieves it", text, maintainers, desks);
}

static void room_given_back(const struct client *maintainer, const struct client *desk, const struct sundr_server *server)
{
	static const char due[] = "channels 1 to 14", other[] = "channels 1 to 14, 36 to 64";
	/* Slot 0 of a server's list is the maintainer's. */
	struct reply reply = ask_server(sundr_i_handle(server->records), CHANNEL_TABLE);
	const uint8_t *hash = reply.inode + 5;
	uint8_t block[BLOCK_MAX];
	char text[9];
	uint64_t answer;

	tell("\n11. Room that is given back\n");
	tell("The server's own side: it keeps blocks in a store of %d places, each with a count for each user, and",
		SUNDR_STORE_PLACES);
	tell("has found out elsewhere who asks. The maintainer stores the block of the channel table. The release");
	tell("desk stores the same bytes, and no second place is taken: one block is held, which both count.");
	must_accept(sundr_store_make(store, sizeof store), "an empty store");
	hex(hash, text);
	tell("  block %s             answer                        place 0 counts, for users 0 and 1", text);
	store_block(maintainer, reply.block, reply.block_len);
	tell_counts("user 0 stores it", "accepted", 1, 0);
	tell_retrieved(hash, due, 1, 0);
	store_block(desk, reply.block, reply.block_len);
	tell_counts("user 1 stores it", "accepted", 1, 1);
	tell("Each gives it back, and it is held as long as one of them counts it:");
	give_back(maintainer, hash);
	tell_counts("user 0 gives it back", "1 taken", 0, 1);
	tell_retrieved(hash, due, 0, 1);
	give_back(desk, hash);
	tell_counts("user 1 gives it back", "1 taken", 0, 0);
	answer = sundr_retrieve(store, sizeof store, hash, SUNDR_SHA256_LEN, block, sizeof block);
	must_refuse(answer, SUNDR_NOT_HELD, 0, 0);
	tell_counts("anybody retrieves it", "refused with 15", 0, 0);
	tell("  \"%s\"", sundr_refusal_text(sundr_refusal(answer)));
	tell("The place is free, and the next block takes it:");
	store_block(maintainer, other, strlen(other));
	must(number_in(0, LENGTH_AT) == strlen(other), "the next block's length");
	must(memcmp(store + BLOCK_AT, other, strlen(other)) == 0, "the next block in place 0");
	tell_counts("user 0 stores another", "accepted, in place 0", 1, 0);
}

/* The card is touched: the maintainer's new structure is made from the counts of a check, and has these. */
static void touch(struct client *maintainer, const uint32_t *counts)
{
	uint32_t made[SUNDR_MAX_USERS];

	must_accept(create(maintainer, counts), "what a touch makes");
	sundr_counts(last_of(maintainer), made);
	must(memcmp(made, counts, sizeof made) == 0, "the counts that the check gave");
	tell("  touch          accepted   the new structure counts %u %u", made[MAINTAINER], made[RELEASE_DESK]);
}

/* The third answer of a check. The desk program has no part in it: its input has no state, and it takes all as sent. */
static void tell_again(uint64_t answer)
{
	must(answer == SUNDR_SEND_AGAIN, "send again");
	tell("  check          %d        %s", sundr_refusal(answer), sundr_refusal_text(sundr_refusal(answer)));
}

/* What comes of a touch after another user's turn. The memory and the server are copies. */
static void touch_late(struct client maintainer, struct sundr_server server, const uint32_t *counts)
{
	const struct sundr_server before = server;
	const uint8_t *desks = server.records + SUNDR_VERSION_LEN * RELEASE_DESK;
	struct sent sent;
	uint32_t next[SUNDR_MAX_USERS];
	uint64_t answer;

	touch(&maintainer, counts);
	answer = sundr_server_commit(&server, last_of(&maintainer), SUNDR_VERSION_LEN, 1);
	must_refuse(answer, SUNDR_UNORDERED, RELEASE_DESK, 0);
	must(memcmp(&server, &before, sizeof server) == 0, "a server that takes nothing");
	tell("  commit         %d at %u     %s", sundr_refusal(answer), sundr_first(answer),
		sundr_refusal_text(sundr_refusal(answer)));
	answer = create(&maintainer, counts);
	must_refuse(answer, SUNDR_NOT_NEXT, 0, 0);
	tell("  second touch   %d         %s", sundr_refusal(answer), sundr_refusal_text(sundr_refusal(answer)));
	tell("The server refuses it at user 1, whose record counts %u %u: the new structure lacks that fetch, and is",
		sundr_count(desks, MAINTAINER), sundr_count(desks, RELEASE_DESK));
	tell("never taken. But it is signed and remembered, and what is signed cannot be taken back. No list of an");
	tell("honest server has it, and the maintainer is locked out: a check says to send it again, in vain.");
	sent = send_list(&server);
	tell_again(check(&maintainer, &sent, next, 0));
	must_refuse(sundr_server_commit(&server, again, sizeof again, 1), SUNDR_UNORDERED, RELEASE_DESK, 0);
}

/* The maintainer's turn with the card. Somebody who comes between the check and the touch has to be turned away. */
static void card_turn(struct client *maintainer, struct sundr_server *server, const struct client *comes)
{
	struct sent sent;
	uint32_t counts[SUNDR_MAX_USERS];

	must(is_sent_list(maintainer, server, &sent), "the list before a touch");
	must_accept(check(maintainer, &sent, counts, 1), "the check before a touch");
	if (comes != NULL) {
		must(!is_sent_list(comes, server, &sent), "a list that is not sent");
		tell("  user %u comes   turned away: the lock is user %u's", comes->user, lock_of);
	}
	touch(maintainer, counts);
	send_structure(maintainer, server, "the commit after a touch");
	tell("  commit         accepted");
}

static void the_card(struct client *maintainer, struct client *desk, struct sundr_server *server)
{
	struct sent sent;
	uint32_t counts[SUNDR_MAX_USERS];

	tell("\n12. The card\n");
	tell("The maintainer's key is now a card, which somebody has to touch for each signature. For this there");
	tell("are two calls: the check tells what a list is worth and gives the next counts; the making step makes");
	tell("the new structure of them, once the card is touched. Both users start again, at an honest server.");
	must_accept(sundr_server_make(USERS, server), "an empty server");
	start(maintainer);
	start(desk);
	commit(maintainer, server, "channels 1 to 11");
	tell("The release desk fetches it.");
	fetch(desk, server, "channels 1 to 11", SHOWN);
	tell("The maintainer checks the list, to commit a correction. But the card is not at hand.");
	upload_tree("channels 1 to 13", maintainer->i_handle);
	sent = send_list(server);
	must_accept(check(maintainer, &sent, counts, 1), "the check without a card");
	tell("Meanwhile the release desk fetches again.");
	fetch(desk, server, "channels 1 to 11", SHOWN);
	tell("Now the card is there, but the counts are overtaken. Suppose it is touched now: this is played on");
	tell("copies of the maintainer's memory and of the server. The making step judges no list:");
	touch_late(*maintainer, *server, counts);
	tell("So it would be, but the card was not touched. The maintainer checks again, right before the touch:");
	card_turn(maintainer, server, NULL);
	tell("This is sound if no turn comes between that check and the commit. It is so for sure, however long the");
	tell("touch takes, where the server keeps its lock from the listing to the commit. The next time it does,");
	tell("and the release desk, which comes meanwhile, is sent no list:");
	upload_tree("channels 1 to 14", maintainer->i_handle);
	lock_of = MAINTAINER;
	card_turn(maintainer, server, desk);
	lock_of = NOBODY;
	tell("The lock is free, and the release desk fetches.");
	fetch(desk, server, "channels 1 to 14", SHOWN);
}

/* What the maintainer's disk says. */
static void tell_file(const struct client *maintainer, uint8_t state, const char *words)
{
	must(maintainer->file[1] == state, "the file's state");
	tell("  memory file    %-10s the structure counts %u %u", words,
		sundr_count(last_of(maintainer), MAINTAINER), sundr_count(last_of(maintainer), RELEASE_DESK));
}

static void the_power_cut(struct client *maintainer, struct client *desk, struct sundr_server *server)
{
	/* What is left of the maintainer: the file on the disk. */
	struct client left = { .user = MAINTAINER };
	struct sent sent = send_list(server);
	uint32_t counts[SUNDR_MAX_USERS], next[SUNDR_MAX_USERS];
	uint64_t answer;

	tell("\n13. The power cut\n");
	tell("The maintainer commits once more. The check accepts, the structure is made, and it is written to the");
	tell("maintainer's memory file, as pending: that comes before it is signed and before anything is sent.");
	upload_tree("channels 1 to 14, 36 to 48", maintainer->i_handle);
	must_accept(check(maintainer, &sent, counts, 1), "the check before the cut");
	must_accept(create(maintainer, counts), "what is made before the cut");
	tell_file(maintainer, SUNDR_STATE_PENDING, "pending");
	tell("Then the machine dies, before it sends. All that is left is the file. Started again, the maintainer");
	tell("cannot know whether the structure was sent, gets the list, and checks it:");
	memcpy(left.file, maintainer->file, sizeof left.file);
	*maintainer = left;
	sent = send_list(server);
	tell_again(check(maintainer, &sent, next, 0));
	must(memcmp(again, last_of(maintainer), sizeof again) == 0, "the same bytes");
	answer = create(maintainer, counts);
	must_refuse(answer, SUNDR_NOT_NEXT, 0, 0);
	tell("  making step    %d         %s", sundr_refusal(answer), sundr_refusal_text(sundr_refusal(answer)));
	tell("Nothing else can be made of that count, so nobody ever sees two structures with it. No list is");
	tell("accepted by this answer: the same bytes are signed and sent, and the server takes them.");
	send_structure(maintainer, server, "the same bytes, sent again");
	tell("  commit         accepted");
	tell_file(maintainer, SUNDR_STATE_SENT, "sent");
	tell("The release desk fetches, and the maintainer's next check goes on.");
	fetch(desk, server, "channels 1 to 14, 36 to 48", SHOWN);
	commit(maintainer, server, "channels 1 to 14, 36 to 64");
}

int main(int argc, char **argv)
{
	struct client maintainer = { .user = MAINTAINER };
	struct client desk = { .user = RELEASE_DESK };
	struct sundr_server server, old_disk;

	must(argc == 2, "usage: story PATH_OF_DESK");
	desk_program = argv[1];
	start(&maintainer);
	start(&desk);
	upload_nothing(desk.i_handle);
	must_accept(sundr_server_make(USERS, &server), "an empty server");

	legend();
	the_correction(&maintainer, &desk, &server, &old_disk);
	the_old_disk(&desk, &old_disk);
	the_fork(&maintainer, &desk, &server);
	honest_turns(&maintainer, &desk, &server);
	from_list_to_text(&desk, &server);
	swapped_pieces(&desk, &server, &old_disk);
	a_file_that_is_denied(&server);
	from_the_cache(&maintainer, &desk, &server, &old_disk);
	a_builds_start(&desk, &server, &old_disk);
	the_firmware_image(&desk, &server, &old_disk);
	room_given_back(&maintainer, &desk, &server);
	the_card(&maintainer, &desk, &server);
	the_power_cut(&maintainer, &desk, &server);
	tell("\nAll came out as told, in the library and, where a bar stands, in the desk program too.");
	return 0;
}
