/* The second implementation, tests/src/reference, as reference.rs, reference_create.rs, reference_memory.rs,
 * reference_server.rs and reference_standing.rs export it. */
#ifndef REFERENCE_H
#define REFERENCE_H

#include <stddef.h>
#include <stdint.h>

struct sundr_server;

/* Gives the standing's number. */
uint8_t reference_compare(const uint32_t x[16], const uint32_t y[16]);

/* The check of a list that has a record of each user. Gives 0, 255 to send again, or the refusal's number. */
uint8_t reference_check(uint8_t users, uint8_t user, const uint8_t file[100], const uint8_t list[16 * 98],
	const uint8_t marks[16], uint32_t counts[16], uint8_t again[98]);

/* The making step. Gives 0, or the refusal's number. */
uint8_t reference_create(uint8_t users, uint8_t user, const uint8_t file[100], const uint32_t counts[16],
	const uint8_t handle[32], uint8_t out[98]);

/* The four calls that write a memory file or read it back. They give 0, or the refusal's number. */
uint8_t reference_pend(uint8_t users, uint8_t user, const uint8_t version[98], uint8_t file[100]);
uint8_t reference_sent(uint8_t users, uint8_t user, uint8_t file[100]);
uint8_t reference_over(uint8_t users, uint8_t user, const uint8_t old[98], uint8_t file[100]);
uint8_t reference_back(uint8_t users, uint8_t user, const uint8_t file[100], uint8_t old[98]);

/* Gives 0, or the refusal's number. */
uint8_t reference_make(uint8_t users, struct sundr_server *server);

/* Gives the number of records. */
uint32_t reference_list(const struct sundr_server *server, uint8_t out[16 * 98]);

/* Gives 0, or the refusal's number. */
uint8_t reference_commit(struct sundr_server *server, const uint8_t *record, size_t record_len, uint8_t mark);

#endif
