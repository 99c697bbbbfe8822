/* The kinds of desks: two right ones, one that goes the wrong ones' way and makes no mistake, and the wrong ones. */
#ifndef KINDS_H
#define KINDS_H

enum kind {
	RIGHT,
	RIGHT_UNMARKED,
	WRONG_NOTHING,
	WRONG_SENDS_FIRST,
	WRONG_MARKS_FIRST,
	WRONG_MARKS_UNANSWERED,
	WRONG_SENDS_AND_CHECKS_FIRST,
	WRONG_MAKES_TWO,
	WRONG_MARKS_COPY,
	WRONG_FORGETS,
	WRONG_READS_NEW,
	WRONG_IN_PLACE,
	WRONG_NOT_EMPTIED,
	WRONG_NEW_UNSYNCED,
	WRONG_FOLDER_UNSYNCED,
	WRONG_START_UNSYNCED,
	KINDS
};

static const char *const kind_names[KINDS] = {
	"the right desk",
	"a right desk that never marks",
	"the wrong desks' code without a mistake",
	"sends before the pending write",
	"marks as sent before it sends",
	"marks as sent before the commit's answer",
	"sends before the pending write, and checks the next list before it too",
	"writes pending after the next check, on which it makes another of the same count",
	"marks a stale copy as sent",
	"makes anew when it is told to send again",
	"reads the temporary file where there is one",
	"writes the file in its place",
	"writes over an old temporary file without emptying it",
	"renames a file that is not synced",
	"sends before the folder is synced",
	"does not sync the folder when it starts",
};

#endif
