/* The stack that a function takes, found by painting one. */
#ifndef PAINT_H
#define PAINT_H

#include <stddef.h>
#include <stdint.h>
#include <string.h>
#include <ucontext.h>

/* Calls f on a stack painted with one byte, and returns how far down the paint is gone. */
static size_t depth(void (*f)(void), uint8_t paint)
{
	static uint8_t stack[1 << 18];
	static ucontext_t here, there;
	size_t i = 0;

	memset(stack, paint, sizeof stack);
	getcontext(&there);
	there.uc_stack.ss_sp = stack;
	there.uc_stack.ss_size = sizeof stack;
	there.uc_link = &here;
	makecontext(&there, f, 0);
	swapcontext(&here, &there);
	while (i < sizeof stack && stack[i] == paint)
		i++;
	return sizeof stack - i;
}

static void nothing(void)
{
}

/* Two paints, for the work may write one of them. */
static size_t deepest(void (*f)(void))
{
	size_t a = depth(f, 0x5a), b = depth(f, 0xc3);

	return a > b ? a : b;
}

/* The bytes of stack that f takes, over those of a function that does nothing. */
static size_t stack_of(void (*f)(void))
{
	return deepest(f) - deepest(nothing);
}

#endif
