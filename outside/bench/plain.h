/* `check`, `check_all` and `join_graphs` in plain C, for speed alone, to measure the proved ones against: plain.c keeps the forms that these must have, free.c,
   which has `check` alone, does not. Each promises what include/havirozan.h says of it, and each is there by both compilers. */
#ifndef PLAIN_H
#define PLAIN_H

#include "havirozan.h"

#include <stddef.h>

typedef unsigned int plain_check(const unsigned char *graph, size_t graph_bytes,
                                 const unsigned char *schema, size_t schema_bytes,
                                 unsigned char *answer, size_t answer_bytes);

typedef havirozan_listed plain_check_all(const unsigned char *graph, size_t graph_bytes,
                                         const unsigned char *schema, size_t schema_bytes,
                                         havirozan_finding *list, size_t list_records);

typedef havirozan_outcome plain_join_graphs(const unsigned char *first, size_t first_bytes,
                                            const unsigned char *second, size_t second_bytes,
                                            unsigned char *out, size_t out_bytes);

plain_join_graphs plain_gcc_join_graphs, plain_clang_join_graphs;
plain_check_all plain_gcc_check_all, plain_clang_check_all;
plain_check plain_gcc_check, plain_clang_check, free_gcc_check, free_clang_check;

#endif
