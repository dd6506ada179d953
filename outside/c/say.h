/* What an answer, the refusal of an angle sheet and that of a join say in a sentence: for the examples check.c, sheet.c and join.c. */
#ifndef SAY_H
#define SAY_H

#include <stddef.h>
#include <stdio.h>

#include "havirozan.h"

/* The sentence of an answer's five numbers, with a line's end: of a violation, of a refusal, or of a graph that conforms. */
void say_answer(FILE *to, const havirozan_finding *answer);

/* The sentence of a refusal of a sheet, with a line's end. What is wrong in the line is not told, so it says what a good one is. */
void say_sheet(FILE *to, havirozan_outcome refusal);

/* The sentence of a refusal to join, with a line's end. `join_graphs` tells which graph is bad and not where, nor which count is too high: the
   places are what `find_tables` says of the two. */
void say_join(FILE *to, havirozan_outcome refusal, const havirozan_places *first, const havirozan_places *second);

/* Whether the bytes are a text with a line as an angle sheet has them: a first line with a semicolon and then a date, or an angle. */
int looks_like_sheet(const unsigned char *bytes, size_t count);

#endif
