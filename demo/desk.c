/* The desk program's side of a check: its input, a run of it, and what it has to print. */
#define _POSIX_C_SOURCE 200809L
#include <stdio.h>
#include <string.h>
#include <unistd.h>

#include "story.h"

const char *desk_program;

/* The lines that say a check's answer, as the desk program has to print them. */
static void due_lines(uint8_t user, uint64_t answer, const uint32_t *counts, char *lines, size_t size)
{
	int at = snprintf(lines, size, "desk %d of %d\n", user, USERS);

	if (sundr_refusal(answer) == SUNDR_ACCEPTED)
		snprintf(lines + at, size - at, "accept %u %u\n", counts[MAINTAINER], counts[RELEASE_DESK]);
	else
		snprintf(lines + at, size - at, "refuse %d %u %u\n",
			sundr_refusal(answer), sundr_first(answer), sundr_second(answer));
}

/* A check as the desk program's input, from the start of a file. It has the structure of a memory file, and no state. */
static FILE *input(const struct client *client, const struct sent *sent)
{
	FILE *file = tmpfile();
	size_t i, remembered = client->file[1] != SUNDR_STATE_NONE;

	must(file != NULL, "a file for the desk program's input");
	fputc(USERS, file);
	fputc(client->user, file);
	fwrite(client->i_handle, 1, SUNDR_HANDLE_LEN, file);
	fputc((int)remembered, file);
	fwrite(last_of(client), SUNDR_VERSION_LEN, remembered, file);
	for (i = 0; i < sent->records; i++) {
		fputc(sent->marks[i], file);
		fwrite(sent->list + SUNDR_VERSION_LEN * i, 1, SUNDR_VERSION_LEN, file);
	}
	rewind(file);
	return file;
}

void show_desk(const struct client *client, const struct sent *sent, uint64_t answer, const uint32_t *counts)
{
	FILE *from = input(client, sent), *program;
	char command[512], printed[512], due[64];
	size_t len, i;

	must(dup2(fileno(from), STDIN_FILENO) == STDIN_FILENO, "the desk program's input");
	fclose(from);
	snprintf(command, sizeof command, "'%s'", desk_program);
	fflush(stdout);
	program = popen(command, "r");
	must(program != NULL, "the desk program");
	len = fread(printed, 1, sizeof printed, program);
	for (i = 0; i < len; i++)
		printf("%s%c", i == 0 || printed[i - 1] == '\n' ? "    | " : "", printed[i]);
	fflush(stdout);
	must(pclose(program) == 0, "the desk program's end");
	due_lines(client->user, answer, counts, due, sizeof due);
	must(len == strlen(due) && memcmp(printed, due, len) == 0, "what the desk program prints");
}
