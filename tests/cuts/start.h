/* Starts the server, and a desk, and kills the desk where it is to be cut. */
#ifndef START_H
#define START_H

#include <spawn.h>
#include <sys/inotify.h>
#include <sys/prctl.h>

#include "kinds.h"
#include "world.h"

extern char **environ;

/* A desk that was cut has no status. */
#define CUT -1

static const char *desk_program;
static int watch_fd, folder_fd = -1;
static unsigned long started, killed;

/* How often a desk of user 0 read a temporary file, or opened it to read; and how often it wrote to the file itself. */
static unsigned long new_read, file_written;

/* The kernel tells of the files in user 0's folder. */
static inline void watch_folder(void)
{
	if (folder_fd >= 0)
		close(folder_fd);
	folder_fd = sure(inotify_init1(IN_NONBLOCK | IN_CLOEXEC));
	sure(inotify_add_watch(folder_fd, folders[0], IN_ACCESS | IN_MODIFY | IN_CLOSE_NOWRITE));
}

/* What it told since it was last asked: the driver's own doings, which do not count, or those of a desk. */
static inline void note_reads(int count)
{
	union {
		struct inotify_event event;
		char bytes[4096];
	} buffer;
	ssize_t len, at;

	while ((len = read(folder_fd, &buffer, sizeof buffer)) > 0)
		for (at = 0; count && at < len;) {
			struct inotify_event event;
			const char *name = buffer.bytes + at + sizeof event;

			memcpy(&event, buffer.bytes + at, sizeof event);
			if (event.len > 0 && strcmp(name, NEW_NAME) == 0 && (event.mask & (IN_ACCESS | IN_CLOSE_NOWRITE)))
				new_read++;
			if (event.len > 0 && strcmp(name, FILE_NAME) == 0 && (event.mask & IN_MODIFY))
				file_written++;
			at += (ssize_t)(sizeof event + event.len);
		}
	if (errno != EAGAIN)
		sure(-1);
}

static inline void map_shared(void)
{
	watch_fd = sure(memfd_create("watch", 0));
	sure(ftruncate(watch_fd, sizeof *watch));
	watch = mmap(NULL, sizeof *watch, PROT_READ | PROT_WRITE, MAP_SHARED, watch_fd, 0);
	seen = mmap(NULL, sizeof *seen, PROT_READ | PROT_WRITE, MAP_SHARED | MAP_ANONYMOUS, -1, 0);
	if (watch == MAP_FAILED || seen == MAP_FAILED)
		sure(-1);
}

/* Goes into a folder, and starts a server there. */
static inline void start_server(const char *folder)
{
	struct sockaddr_un at = address("server");
	int listener, user;

	sure(chdir(folder));
	for (user = 0; user < USERS; user++)
		if (mkdir(folders[user], 0700) != 0 && errno != EEXIST)
			sure(-1);
	unlink("server");
	listener = sure(socket(AF_UNIX, SOCK_SEQPACKET | SOCK_CLOEXEC, 0));
	sure(bind(listener, (struct sockaddr *)&at, sizeof at));
	sure(listen(listener, 8));
	fflush(stdout);
	server = sure(fork());
	if (server == 0) {
		/* It outlives the desks, and not the driver. */
		sure(prctl(PR_SET_PDEATHSIG, SIGKILL));
		serve(seen, listener);
	}
	close(listener);
	watch_folder();
}

static inline void end_server(void)
{
	kill(server, SIGKILL);
	waitpid(server, NULL, 0);
}

/* A desk's arguments: every start has another number. */
static inline void desk_arguments(enum kind kind, int user, uint32_t work, char arguments[5][16], char *list[7])
{
	int numbers[5] = {user, (int)work, (int)++started, kind, watch_fd}, i;

	list[0] = "desk";
	for (i = 0; i < 5; i++) {
		snprintf(arguments[i], sizeof arguments[i], "%d", numbers[i]);
		list[i + 1] = arguments[i];
	}
	list[6] = NULL;
}

static inline void begin_watch(uint32_t cut)
{
	watch->cut = cut;
	watch->steps = watch->renames = 0;
}

/* How the desk ended by itself, or CUT: it was killed after so many steps, 0 for never. */
static inline int run_desk(enum kind kind, int user, uint32_t work, uint32_t cut)
{
	char arguments[5][16], *list[7];
	int status;
	pid_t desk;

	desk_arguments(kind, user, work, arguments, list);
	begin_watch(cut);
	note_reads(0);
	if (posix_spawn(&desk, desk_program, NULL, NULL, list, environ) != 0)
		sure(-1);
	sure(waitpid(desk, &status, WUNTRACED));
	if (WIFSTOPPED(status)) {
		sure(kill(desk, SIGKILL));
		sure(waitpid(desk, &status, 0));
		killed++;
	}
	note_reads(1);
	await_server();
	if (WIFSIGNALED(status) && WTERMSIG(status) == SIGKILL)
		return CUT;
	return WIFEXITED(status) ? WEXITSTATUS(status) : FAILED;
}

/* The first step of this kind that the last desk made; 0 where it made none. */
static inline uint32_t first_step(enum step what)
{
	uint32_t i;

	for (i = 0; i < watch->steps; i++)
		if (watch->what[i] == what)
			return i + 1;
	return 0;
}

#endif
