/* The four rules as queries in SQLite, over a graph and a schema that were put into tables before. */
#ifndef SQL_H
#define SQL_H

#include <stddef.h>

struct sql;

const char *sql_version(void);

/* Tables in memory with the rows of two files. The files must have been accepted: their rows are trusted here. */
struct sql *sql_load(const char *tables, const char *rules, const unsigned char *graph, size_t graph_bytes,
                     const unsigned char *schema, size_t schema_bytes);

/* Runs the queries and gives the five numbers of the answer. */
void sql_check(struct sql *sql, unsigned int numbers[5]);

void sql_close(struct sql *sql);

#endif
