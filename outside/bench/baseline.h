/* The proved functions' jobs in plain C, to measure them against. Each promises what include/havirozan.h says of its namesake. */
#ifndef BASELINE_H
#define BASELINE_H

#include "havirozan.h"

unsigned int baseline_check(const unsigned char *graph, size_t graph_bytes,
                            const unsigned char *schema, size_t schema_bytes,
                            unsigned char *answer, size_t answer_bytes);

havirozan_outcome baseline_write_graph(const void *nodes, size_t nodes_bytes,
                                       const void *edges, size_t edges_bytes,
                                       const void *rows, size_t rows_bytes,
                                       const void *text, size_t text_bytes,
                                       unsigned int labels, unsigned int names,
                                       unsigned char *out, size_t out_bytes);

havirozan_places baseline_find_tables(const unsigned char *graph, size_t graph_bytes);

havirozan_outcome baseline_read_sheet(const unsigned char *sheet, size_t sheet_bytes, unsigned char *out, size_t out_bytes);

#endif
