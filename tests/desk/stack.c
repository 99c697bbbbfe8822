/*
 * Runs the desk program's main on a stack of its own, below which nothing can be touched, and writes to
 * descriptor 3 how many bytes of it were used, the return address included:
 *
 *     DESK_STACK=BYTES LD_PRELOAD=stack.so target/bin/desk
 *
 * A main that needs more ends by SIGSEGV. DESK_PAINT is the byte that fills the stack before; where main writes that
 * byte nothing is seen, so measure with two. DESK_PART is how many bytes one read or one write moves at most.
 */
#define _GNU_SOURCE
#include <dlfcn.h>
#include <stdint.h>
#include <stdio.h>
#include <stdlib.h>
#include <string.h>
#include <sys/mman.h>
#include <unistd.h>

typedef int program(int argc, char **argv, char **environment);

static program *desk;
static ssize_t (*libc_read)(int, void *, size_t);
static ssize_t (*libc_write)(int, const void *, size_t);
static size_t part;

static size_t number(const char *name, size_t otherwise)
{
	const char *text = getenv(name);

	return text ? strtoul(text, NULL, 10) : otherwise;
}

/* Calls the program's main with all of the stack below `top`. */
static int call(uint8_t *top, int argc, char **argv, char **environment)
{
	uint64_t result = (uint64_t)desk;

	__asm__ volatile("xchg %%rsp, %%rbx\n\tcall *%%rax\n\tmov %%rbx, %%rsp"
			 : "+b"(top), "+a"(result), "+D"(argc), "+S"(argv), "+d"(environment)
			 :
			 : "rcx", "r8", "r9", "r10", "r11", "xmm0", "xmm1", "xmm2", "xmm3", "xmm4", "xmm5", "xmm6",
			   "xmm7", "xmm8", "xmm9", "xmm10", "xmm11", "xmm12", "xmm13", "xmm14", "xmm15", "cc", "memory");
	return (int)result;
}

/* In place of main. The stack's lowest byte is a page's first. Below it many pages are shut: a frame can step over one. */
static int on_a_stack(int argc, char **argv, char **environment)
{
	size_t page = sysconf(_SC_PAGESIZE), size = number("DESK_STACK", 1 << 16) & ~15UL, untouched = 0;
	size_t room = (size + page - 1) / page * page, guard = 256 * page;
	uint8_t *pages = mmap(NULL, guard + room, PROT_NONE, MAP_PRIVATE | MAP_ANONYMOUS, -1, 0);
	uint8_t *stack = pages + guard, paint = number("DESK_PAINT", 0x5a);
	int status;

	if (pages == MAP_FAILED || mprotect(stack, room, PROT_READ | PROT_WRITE) != 0)
		abort();
	memset(stack, paint, size);
	status = call(stack + size, argc, argv, environment);
	while (untouched < size && stack[untouched] == paint)
		untouched++;
	dprintf(3, "%zu\n", size - untouched);
	return status;
}

/* These three take the place of the C library's, and call them. */
ssize_t read(int fd, void *buf, size_t size)
{
	return libc_read(fd, buf, size < part ? size : part);
}

ssize_t write(int fd, const void *buf, size_t size)
{
	return libc_write(fd, buf, size < part ? size : part);
}

int __libc_start_main(program *main, int argc, char **argv, void (*init)(void), void (*fini)(void), void (*end)(void),
		      void *top)
{
	int (*start)(program *, int, char **, void (*)(void), void (*)(void), void (*)(void), void *);

	start = dlsym(RTLD_NEXT, "__libc_start_main");
	libc_read = dlsym(RTLD_NEXT, "read");
	libc_write = dlsym(RTLD_NEXT, "write");
	part = number("DESK_PART", SIZE_MAX);
	desk = main;
	return start(on_a_stack, argc, argv, init, fini, end, top);
}
