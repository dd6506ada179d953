/* The loader: rows of the two files into tables; and the queries of rules.sql, prepared once and run as often as one likes. */
#include "sql.h"

#include <sqlite3.h>
#include <stdint.h>
#include <stdio.h>
#include <stdlib.h>
#include <string.h>

enum { NUMBERS = 5, MOST_QUERIES = 16, OF_NODES = 0, OF_EDGES = 1 };

struct sql {
    sqlite3 *db;
    sqlite3_stmt *queries[MOST_QUERIES];
    int count;
};

const char *sql_version(void)
{
    return sqlite3_libversion();
}

static void must(struct sql *q, int is_good, const char *what)
{
    if (is_good)
        return;
    fprintf(stderr, "bench: SQLite, %s: %s\n", what, sqlite3_errmsg(q->db));
    exit(1);
}

static uint64_t number(const unsigned char *p, int bytes)
{
    uint64_t n = 0;
    while (bytes-- > 0)
        n = n << 8 | p[bytes];
    return n;
}

/* ---- inserting */

static sqlite3_stmt *prepared(struct sql *q, const char *text)
{
    sqlite3_stmt *statement;
    must(q, sqlite3_prepare_v2(q->db, text, -1, &statement, NULL) == SQLITE_OK, text);
    return statement;
}

static void insert(struct sql *q, sqlite3_stmt *statement, const int64_t *values, int count)
{
    for (int i = 0; i < count; i++)
        sqlite3_bind_int64(statement, i + 1, values[i]);
    must(q, sqlite3_step(statement) == SQLITE_DONE, "insert");
    sqlite3_reset(statement);
}

/* A maximum that means "any" is null: no number is above it. */
static void insert_schema_edge(struct sql *q, sqlite3_stmt *statement, int64_t id, const unsigned char *row)
{
    int64_t values[9] = { id, (int64_t)number(row, 8), (int64_t)number(row + 8, 4), (int64_t)number(row + 12, 4),
                          (int64_t)number(row + 22, 2) };
    for (int i = 0; i < 9; i++) {
        if (i >= 5)
            values[i] = (int64_t)number(row + 24 + 4 * (i - 5), 4);
        if (values[i] == UINT32_MAX && (i == 6 || i == 8))
            sqlite3_bind_null(statement, i + 1);
        else
            sqlite3_bind_int64(statement, i + 1, values[i]);
    }
    must(q, sqlite3_step(statement) == SQLITE_DONE, "insert");
    sqlite3_reset(statement);
}

/* A value as SQLite would hold it; what a Text says is never looked at by the rules, but a table of a graph would have it. */
static void bind_value(sqlite3_stmt *statement, int place, const unsigned char *row, const unsigned char *text)
{
    uint64_t bits = number(row + 8, 8);
    double real;
    memcpy(&real, &bits, sizeof real);
    if (row[2] == 3)
        sqlite3_bind_double(statement, place, real);
    else if (row[2] == 5)
        sqlite3_bind_blob(statement, place, text + bits, (int)number(row + 4, 4), SQLITE_TRANSIENT);
    else
        sqlite3_bind_int64(statement, place, (int64_t)bits);
}

struct rows {
    const unsigned char *first, *text;
};

static void insert_properties(struct sql *q, sqlite3_stmt *statement, int of, uint64_t object, const unsigned char *run, struct rows rows)
{
    uint64_t first = number(run, 4), end = first + number(run + 4, 4);
    for (uint64_t r = first; r < end; r++) {
        const unsigned char *row = rows.first + 16 * r;
        int64_t values[4] = { of, (int64_t)object, (int64_t)number(row, 2), row[2] };
        bind_value(statement, 5, row, rows.text);
        insert(q, statement, values, 4);
    }
}

static void insert_listed(struct sql *q, sqlite3_stmt *statement, int of, uint64_t object, const unsigned char *run, const unsigned char *rows)
{
    uint64_t first = number(run, 4), end = first + number(run + 4, 2);
    for (uint64_t r = first; r < end; r++) {
        const unsigned char *row = rows + 4 * r;
        int64_t values[5] = { of, (int64_t)object, (int64_t)number(row, 2), row[2], row[3] };
        insert(q, statement, values, 5);
    }
}

static void load_graph(struct sql *q, const unsigned char *graph, size_t bytes)
{
    const unsigned char *trailer = graph + bytes - 28, *nodes = trailer - number(trailer + 20, 4);
    uint64_t node_count = number(trailer, 4), edge_count = number(trailer + 4, 4);
    const unsigned char *edges = nodes + 16 * node_count, *rows = edges + 24 * edge_count;
    struct rows all = { rows, rows + 16 * number(trailer + 8, 4) };
    sqlite3_stmt *node = prepared(q, "insert into node values (?, ?)");
    sqlite3_stmt *edge = prepared(q, "insert into edge values (?, ?, ?, ?)");
    sqlite3_stmt *property = prepared(q, "insert into property values (?, ?, ?, ?, ?)");
    for (uint64_t i = 0; i < node_count; i++) {
        const unsigned char *row = nodes + 16 * i;
        insert(q, node, (int64_t[]){ (int64_t)i, (int64_t)number(row, 8) }, 2);
        insert_properties(q, property, OF_NODES, i, row + 8, all);
    }
    for (uint64_t e = 0; e < edge_count; e++) {
        const unsigned char *row = edges + 24 * e;
        insert(q, edge, (int64_t[]){ (int64_t)e, (int64_t)number(row, 8), (int64_t)number(row + 8, 4), (int64_t)number(row + 12, 4) }, 4);
        insert_properties(q, property, OF_EDGES, e, row + 16, all);
    }
    sqlite3_finalize(node);
    sqlite3_finalize(edge);
    sqlite3_finalize(property);
}

static void load_schema(struct sql *q, const unsigned char *schema, size_t bytes)
{
    const unsigned char *trailer = schema + bytes - 20, *nodes = trailer - number(trailer + 12, 4);
    uint64_t node_count = number(trailer, 2), edge_count = number(trailer + 2, 2);
    const unsigned char *edges = nodes + 16 * node_count, *rows = edges + 40 * edge_count;
    sqlite3_stmt *node = prepared(q, "insert into schema_node values (?, ?, ?)");
    sqlite3_stmt *edge = prepared(q, "insert into schema_edge values (?, ?, ?, ?, ?, ?, ?, ?, ?)");
    sqlite3_stmt *listed = prepared(q, "insert into schema_property values (?, ?, ?, ?, ?)");
    for (uint64_t j = 0; j < node_count; j++) {
        const unsigned char *row = nodes + 16 * j;
        insert(q, node, (int64_t[]){ (int64_t)j, (int64_t)number(row, 8), (int64_t)number(row + 14, 2) }, 3);
        insert_listed(q, listed, OF_NODES, j, row + 8, rows);
    }
    for (uint64_t s = 0; s < edge_count; s++) {
        const unsigned char *row = edges + 40 * s;
        insert_schema_edge(q, edge, (int64_t)s, row);
        insert_listed(q, listed, OF_EDGES, s, row + 16, rows);
    }
    sqlite3_finalize(node);
    sqlite3_finalize(edge);
    sqlite3_finalize(listed);
}

/* ---- the queries: one with columns has those of the answer */

static void execute(struct sql *q, const char *text)
{
    must(q, sqlite3_exec(q->db, text, NULL, NULL, NULL) == SQLITE_OK, text);
}

static void prepare_queries(struct sql *q, const char *text)
{
    while (*text != '\0') {
        sqlite3_stmt *statement;
        must(q, sqlite3_prepare_v2(q->db, text, -1, &statement, &text) == SQLITE_OK, "prepare");
        if (statement == NULL)
            continue;
        must(q, q->count < MOST_QUERIES, "too many queries");
        int columns = sqlite3_column_count(statement);
        must(q, columns == 0 || columns == NUMBERS, "a query with other columns");
        q->queries[q->count++] = statement;
    }
}

struct sql *sql_load(const char *tables, const char *rules, const unsigned char *graph, size_t graph_bytes,
                     const unsigned char *schema, size_t schema_bytes)
{
    struct sql *q = calloc(1, sizeof *q);
    if (q == NULL || sqlite3_open(":memory:", &q->db) != SQLITE_OK) {
        fprintf(stderr, "bench: SQLite cannot be opened\n");
        exit(1);
    }
    execute(q, "pragma temp_store = memory");
    execute(q, tables);
    execute(q, "begin");
    load_graph(q, graph, graph_bytes);
    load_schema(q, schema, schema_bytes);
    execute(q, "commit");
    execute(q, "analyze");
    prepare_queries(q, rules);
    return q;
}

/* Runs one query; says whether it gave a row. */
static int run_query(struct sql *q, sqlite3_stmt *statement, unsigned int numbers[NUMBERS])
{
    int step = sqlite3_step(statement);
    must(q, step == SQLITE_ROW || step == SQLITE_DONE, sqlite3_sql(statement));
    for (int i = 0; step == SQLITE_ROW && i < NUMBERS; i++)
        numbers[i] = (unsigned int)sqlite3_column_int64(statement, i);
    sqlite3_reset(statement);
    return step == SQLITE_ROW;
}

void sql_check(struct sql *q, unsigned int numbers[NUMBERS])
{
    memset(numbers, 0, NUMBERS * sizeof *numbers);
    execute(q, "begin");
    for (int i = 0; i < q->count; i++)
        if (run_query(q, q->queries[i], numbers))
            break;
    execute(q, "commit");
}

void sql_close(struct sql *q)
{
    for (int i = 0; i < q->count; i++)
        sqlite3_finalize(q->queries[i]);
    sqlite3_close(q->db);
    free(q);
}
