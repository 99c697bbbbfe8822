/*
 * Every call of include/sundr.h on a stack of 4,096 bytes, as a router has: one after the other, between pages that
 * cannot be touched. Each answer is the one that is due, and what is written is what an ordinary stack gives.
 *
 * On the small stack there is nothing but the calls: what they answer is told afterwards. Their memcpy and memset must
 * be bound before, or the dynamic linker looks for them on that stack, and its own frame is what is measured: hence
 * -Wl,-z,now in tests/run.
 */
#define _GNU_SOURCE /* ucontext.h, MAP_ANONYMOUS */

#include "sundr.h"

#include <signal.h>
#include <stdlib.h>
#include <string.h>
#include <sys/mman.h>
#include <ucontext.h>

#include "bytes.h"
#include "check.h"
#include "stack_cases.h"

/* At most a page. -DSTACK=1024 tries fewer. */
#ifndef STACK
#define STACK 4096
#endif

/* What cannot be touched, on either side: more than a page, for a frame can step over one. */
enum { PAGE = 4096, GUARD = 256 * PAGE };

/* The small stack, the ordinary one to come back to, and where a fault was, if there was one. */
static uint8_t *stack;
static ucontext_t here;
static volatile int faulted;
static uint8_t *fault_at;

/* The case that is made, and what became of each. */
static volatile int at;
static struct {
	uint64_t answer;
	int faulted;
	uint8_t *fault_at;
} kept[CASES];

/* Comes back to the ordinary stack, whatever is left undone on the small one. */
static void leave(int number, siginfo_t *info, void *context)
{
	(void)number;
	(void)context;
	faulted = 1;
	fault_at = info->si_addr;
	setcontext(&here);
}

/* A fault is for leave(), on a third stack: the small one has no room for it. */
static void catch_faults(void)
{
	static uint8_t room[1 << 16];
	stack_t third = {.ss_sp = room, .ss_size = sizeof room};
	struct sigaction action = {.sa_sigaction = leave, .sa_flags = SA_SIGINFO | SA_ONSTACK};

	if (sigaltstack(&third, NULL) != 0 || sigaction(SIGSEGV, &action, NULL) != 0 || sigaction(SIGBUS, &action, NULL) != 0)
		abort();
}

/* A stack right above what cannot be touched; if it is a whole page, also right below. */
static void make_stack(void)
{
	uint8_t *guard = mmap(NULL, GUARD + PAGE + GUARD, PROT_NONE, MAP_PRIVATE | MAP_ANONYMOUS, -1, 0);

	stack = guard + GUARD;
	if (guard == MAP_FAILED || mprotect(stack, PAGE, PROT_READ | PROT_WRITE) != 0)
		abort();
}

/* Runs f on the small stack. Whether it came to its end. */
static int runs(void (*f)(void))
{
	static ucontext_t there;

	faulted = 0;
	getcontext(&there);
	there.uc_stack.ss_sp = stack;
	there.uc_stack.ss_size = STACK;
	there.uc_link = &here;
	makecontext(&there, f, 0);
	swapcontext(&here, &there);
	return !faulted;
}

/* Writes as many bytes as the stack has, of which a few are used already. */
static void too_deep(void)
{
	volatile uint8_t frame[STACK];
	size_t i;

	for (i = 0; i < sizeof frame; i++)
		frame[i] = 0;
	answer = frame[0];
}

static void make_cases(void)
{
	for (; at < CASES; at++) {
		cases[at].make();
		kept[at].answer = answer;
	}
}

/* Makes all the cases in one go; after a fault, those that are left in another. */
static void make_all(void)
{
	while (!runs(make_cases)) {
		kept[at].faulted = 1;
		kept[at].fault_at = fault_at;
		at++;
	}
}

/* Whether a case came to its end, with the answer that is due. */
static int is_due(int i)
{
	if (kept[i].faulted)
		printf("a fault, %td bytes below the stack's end\n", stack - kept[i].fault_at);
	else if (kept[i].answer != cases[i].due)
		printf("%#llx, not %#llx\n", (unsigned long long)kept[i].answer, (unsigned long long)cases[i].due);
	return !kept[i].faulted && kept[i].answer == cases[i].due;
}

/* The hashes that the cases wrote, beside FIPS 180-4's of no bytes, and those of sha256.c. */
static void hashes(void)
{
	static const struct {
		size_t len;
		const char *name, *hash;
	} due[] = {
		{0, "the hash of no bytes",
			"e3b0c44298fc1c149afbf4c8996fb92427ae41e4649b934ca495991b7852b855"},
		{55, "the hash of 55 bytes",
			"463eb28e72f82e0a96c0a4cc53690c571281131f672aa229e0d45ae59b598b59"},
		{56, "the hash of 56 bytes",
			"da2ae4d6b36748f2a318f23e7ab1dfdf45acdc9d049bd80e59de82a60895f562"},
		{64, "the hash of 64 bytes",
			"fdeab9acf3710362bd2658cdc9a29e8f9c757fcf9811603a8c447cd1d9151108"},
		{65536, "the hash of 65,536 bytes",
			"4b640d85ab3ba30fd02c9fc9db4a8928f416322ad27022ea58a65aaee68a4df2"},
	};
	size_t i;

	for (i = 0; i < sizeof due / sizeof due[0]; i++)
		check(due[i].name, is_hash(written.hash[i], due[i].len, due[i].hash));
}

int main(void)
{
	static struct written ordinary;
	char name[80];
	int i;

	prepare_cases();
	for (i = 0; i < CASES; i++)
		cases[i].make();
	memcpy(&ordinary, &written, sizeof ordinary);
	prepare_cases();

	make_stack();
	catch_faults();
	check("a function that takes more than the stack is caught", !runs(too_deep));
	make_all();
	for (i = 0; i < CASES; i++) {
		sprintf(name, "%s: %s", cases[i].call, cases[i].on);
		check(name, is_due(i));
	}
	hashes();
	check("all that is written is as on an ordinary stack", memcmp(&written, &ordinary, sizeof written) == 0);
	return finish();
}
