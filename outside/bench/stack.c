#define _XOPEN_SOURCE 700
#include "stack.h"

#include <stdio.h>
#include <stdlib.h>
#include <string.h>
#include <ucontext.h>

enum { STACK_BYTES = 1 << 20, PAINT = 0xa5 };

static unsigned char stack[STACK_BYTES] __attribute__((aligned(4096)));
static ucontext_t here, there;
static void (*job_now)(void *);
static void *with_now;

/* makecontext only hands over numbers of int, so the job stands in a variable. */
static void run_job(void)
{
    job_now(with_now);
}

static void nothing(void *with)
{
    (void)with;
}

static size_t untouched(void)
{
    size_t bytes = 0;
    while (bytes < sizeof stack && stack[bytes] == PAINT)
        bytes++;
    return bytes;
}

static size_t deepest(void (*job)(void *), void *with)
{
    memset(stack, PAINT, sizeof stack);
    job_now = job;
    with_now = with;
    getcontext(&there);
    there.uc_stack.ss_sp = stack;
    there.uc_stack.ss_size = sizeof stack;
    there.uc_link = &here;
    makecontext(&there, run_job, 0);
    swapcontext(&here, &there);
    size_t left = untouched();
    if (left == 0) {
        fprintf(stderr, "bench: the painted stack is too small\n");
        exit(1);
    }
    return sizeof stack - left;
}

size_t stack_of(void (*job)(void *), void *with)
{
    size_t empty = deepest(nothing, NULL);
    return deepest(job, with) - empty;
}
