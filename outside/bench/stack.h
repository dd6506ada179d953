/* How much stack a job takes at its deepest. */
#ifndef STACK_H
#define STACK_H

#include <stddef.h>

/* Runs the job on a painted stack of its own, and gives the bytes between the top and the lowest one that was written. What an empty job takes
   is not counted. */
size_t stack_of(void (*job)(void *), void *with);

#endif
