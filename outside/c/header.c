/*
 * The header and the border: compiled as C89 and as C++, and run, with the library and, by HAVIROZAN_BARE_NAMES, with the archive
 * that rt makes. It prints a line for each thing that is not as promised, and then fails. The length of the answer block is tried on empty files: the graph is refused for its length. For the rest
 * there is a little graph, and a schema to which it conforms, a little sheet with its graph, and what the two graphs become when they are joined; all stand below byte
 * by byte.
 */
#include "havirozan.h"
#include "havirozan.h"

#include <stdio.h>
#include <string.h>

#define BLOCK 32

static int wrong = 0;

static void expect(int holds, const char *what)
{
    if (!holds) {
        printf("header: not so: %s\n", what);
        wrong = 1;
    }
}

/* Whether the bytes from `from` to `to` still have the value that they were given. */
static int kept(const unsigned char *block, size_t from, size_t to)
{
    size_t i;
    for (i = from; i < to; i++)
        if (block[i] != 0xee)
            return 0;
    return 1;
}

/* ---- the version */

static void try_version(void)
{
    char text[32];
    sprintf(text, "%u.%u.%u", HAVIROZAN_VERSION / 10000U, HAVIROZAN_VERSION / 100U % 100U, HAVIROZAN_VERSION % 100U);
    expect(strcmp(text, HAVIROZAN_VERSION_TEXT) == 0, "the version's number and its text say the same");
#if HAVIROZAN_VERSION < 500
    expect(0, "the version can be compared by #if");
#endif
#ifndef HAVIROZAN_BARE_NAMES
    expect(havirozan_version() == HAVIROZAN_VERSION, "the library has the header's version");
#endif
}

/* ---- check: the length of the answer block */

static void try_blocks(void)
{
    unsigned char block[BLOCK];
    size_t bytes;
    unsigned int code;

    expect(HAVIROZAN_ANSWER_BYTES == 20, "the answer has 20 bytes");
    expect(havirozan_check(NULL, 0, NULL, 0, NULL, 0) == HAVIROZAN_SHORT_ANSWER, "three null blocks of 0 bytes get code 1");

    for (bytes = 0; bytes < HAVIROZAN_ANSWER_BYTES; bytes++) {
        memset(block, 0xee, sizeof block);
        code = havirozan_check(NULL, 0, NULL, 0, block, bytes);
        expect(code == HAVIROZAN_SHORT_ANSWER, "a block of fewer than 20 bytes gets code 1");
        expect(kept(block, 0, BLOCK), "a block of fewer than 20 bytes is not written");
    }
    for (bytes = HAVIROZAN_ANSWER_BYTES; bytes <= BLOCK; bytes++) {
        memset(block, 0xee, sizeof block);
        code = havirozan_check(NULL, 0, NULL, 0, block, bytes);
        expect(code == HAVIROZAN_GRAPH_LENGTH, "an empty graph file gets code 2");
        expect(HAVIROZAN_NUMBER(block, HAVIROZAN_AT_CODE) == code, "the code is also written");
        expect(HAVIROZAN_NUMBER(block, HAVIROZAN_AT_PLACE) == 0, "the place of a length refusal is 0");
        expect(HAVIROZAN_NUMBER(block, HAVIROZAN_AT_SCHEMA_PLACE) == 0, "the schema place of a refusal is 0");
        expect(HAVIROZAN_NUMBER(block, HAVIROZAN_AT_COUNT) == 0, "the count of a refusal is 0");
        expect(HAVIROZAN_NUMBER(block, HAVIROZAN_AT_PROPERTY) == 0, "the property of a refusal is 0");
        expect(kept(block, HAVIROZAN_ANSWER_BYTES, BLOCK), "bytes from 20 on keep their values");
    }
}

/* ---- the row structs, field by field as the file has them */

static void try_rows(void)
{
    expect(sizeof(havirozan_node) == 16, "a node row has 16 bytes");
    expect(offsetof(havirozan_node, labels) == 0, "a node's labels are at 0");
    expect(offsetof(havirozan_node, first) == 8, "a node's first is at 8");
    expect(offsetof(havirozan_node, count) == 12, "a node's count is at 12");

    expect(sizeof(havirozan_edge) == 24, "an edge row has 24 bytes");
    expect(offsetof(havirozan_edge, labels) == 0, "an edge's labels are at 0");
    expect(offsetof(havirozan_edge, source) == 8, "an edge's source is at 8");
    expect(offsetof(havirozan_edge, target) == 12, "an edge's target is at 12");
    expect(offsetof(havirozan_edge, first) == 16, "an edge's first is at 16");
    expect(offsetof(havirozan_edge, count) == 20, "an edge's count is at 20");

    expect(sizeof(havirozan_property) == 16, "a property row has 16 bytes");
    expect(offsetof(havirozan_property, name) == 0, "a property's name is at 0");
    expect(offsetof(havirozan_property, kind) == 2, "a property's kind is at 2");
    expect(offsetof(havirozan_property, zero) == 3, "a property's zero is at 3");
    expect(offsetof(havirozan_property, length) == 4, "a property's length is at 4");
    expect(offsetof(havirozan_property, value) == 8, "a property's value is at 8");

    expect(sizeof(havirozan_finding) == 20, "a record of the list has 20 bytes");
    expect(offsetof(havirozan_finding, code) == HAVIROZAN_AT_CODE, "a record's code is where the answer's is");
    expect(offsetof(havirozan_finding, place) == HAVIROZAN_AT_PLACE, "a record's place is where the answer's is");
    expect(offsetof(havirozan_finding, schema_place) == HAVIROZAN_AT_SCHEMA_PLACE, "a record's schema place is where the answer's is");
    expect(offsetof(havirozan_finding, count) == HAVIROZAN_AT_COUNT, "a record's count is where the answer's is");
    expect(offsetof(havirozan_finding, property) == HAVIROZAN_AT_PROPERTY, "a record's property is where the answer's is");

    expect(sizeof(havirozan_listed) == 12, "what is returned beside the list has 12 bytes");
    expect(offsetof(havirozan_listed, refusal) == 0, "the refusal comes first");
    expect(offsetof(havirozan_listed, place) == 4, "its place comes second");
    expect(offsetof(havirozan_listed, total) == 8, "the total comes third");

    expect(sizeof(havirozan_outcome) == 2 * sizeof(unsigned int), "an outcome is two numbers");
    expect(sizeof(havirozan_places) == 12 * sizeof(unsigned int), "the places are twelve numbers");
}

/* ---- a little graph, as tables and as the file that they make */

#define NODES 2
#define EDGES 1
#define ROWS 4
#define TEXT 3
#define LABELS 64
#define NAMES 256
#define FILE_BYTES 151

#define NODES_BYTES (NODES * sizeof(havirozan_node))
#define EDGES_BYTES (EDGES * sizeof(havirozan_edge))
#define ROWS_BYTES (ROWS * sizeof(havirozan_property))

#define THE_INTEGER 1
#define THE_REAL 2
#define THE_DATE 3

/* Each table has a row of zeros more than the graph, so that a part of a row can be lent. `fill` puts in two of the values. */
static const havirozan_node nodes[NODES + 1] = {{0x8877665544332211UL, 0, 1}, {0UL, 1, 2}, {0UL, 0, 0}};
static const havirozan_edge edges[EDGES + 1] = {{0x0102030405060708UL, 1, 0, 3, 1}, {0UL, 0, 0, 0, 0}};
static havirozan_property rows[ROWS + 1] = {
    {255, HAVIROZAN_TEXT, 0, 2, 1UL},
    {3, HAVIROZAN_INTEGER, 0, 0, 0UL},
    {4, HAVIROZAN_REAL, 0, 0, 0UL},
    {0, HAVIROZAN_DATE, 0, 0, 20260314UL},
    {0, 0, 0, 0, 0UL}
};
static const unsigned char text[TEXT] = {0x4c, 0x42, 0xff};

static const unsigned char file[FILE_BYTES] = {
    /* the nodes */
    0x11, 0x22, 0x33, 0x44, 0x55, 0x66, 0x77, 0x88, 0, 0, 0, 0, 1, 0, 0, 0,
    0, 0, 0, 0, 0, 0, 0, 0, 1, 0, 0, 0, 2, 0, 0, 0,
    /* the edge */
    8, 7, 6, 5, 4, 3, 2, 1, 1, 0, 0, 0, 0, 0, 0, 0, 3, 0, 0, 0, 1, 0, 0, 0,
    /* the property rows: two bytes of text, the Integer -2, the Real -1.5, 14 March 2026 */
    255, 0, 5, 0, 2, 0, 0, 0, 1, 0, 0, 0, 0, 0, 0, 0,
    3, 0, 2, 0, 0, 0, 0, 0, 0xfe, 0xff, 0xff, 0xff, 0xff, 0xff, 0xff, 0xff,
    4, 0, 3, 0, 0, 0, 0, 0, 0, 0, 0, 0, 0, 0, 0xf8, 0xbf,
    0, 0, 4, 0, 0, 0, 0, 0, 0xda, 0x25, 0x35, 0x01, 0, 0, 0, 0,
    /* the text */
    0x4c, 0x42, 0xff,
    /* the trailer: four numbers, 64 labels, 256 names, back 123, the mark */
    2, 0, 0, 0, 1, 0, 0, 0, 4, 0, 0, 0, 3, 0, 0, 0, 64, 0, 0, 1, 123, 0, 0, 0, 0x47, 0x50, 0x48, 0x31
};

/* ---- check: the five numbers, of the little graph and a schema to which it conforms */

#define SCHEMA_BYTES 108

static const unsigned char schema[SCHEMA_BYTES] = {
    /* the schema nodes: the first lists row 0, the second rows 1 and 2 */
    0x11, 0x22, 0x33, 0x44, 0x55, 0x66, 0x77, 0x88, 0, 0, 0, 0, 1, 0, 0, 0,
    0, 0, 0, 0, 0, 0, 0, 0, 1, 0, 0, 0, 2, 0, 0, 0,
    /* the schema edge from 1 to 0 lists row 3; both intervals are 1 to 1 */
    8, 7, 6, 5, 4, 3, 2, 1, 1, 0, 0, 0, 0, 0, 0, 0, 3, 0, 0, 0, 1, 0, 0, 0,
    1, 0, 0, 0, 1, 0, 0, 0, 1, 0, 0, 0, 1, 0, 0, 0,
    /* the schema property rows, all mandatory: name, type, flag */
    255, 0, 5, 0,
    3, 0, 2, 0,
    4, 0, 3, 0,
    0, 0, 4, 0,
    /* the trailer: three numbers, 64 labels, 256 names, back 88, the mark */
    2, 0, 1, 0, 4, 0, 0, 0, 64, 0, 0, 1, 88, 0, 0, 0, 0x53, 0x43, 0x48, 0x31
};

/* where the first bytes of the schema edge and of the schema property rows are */
#define EDGE_AT 32
#define ROW_AT(row) (72 + 4 * (row))

/* The most violations that one of the changes below makes. */
#define VIOLATIONS 3

/* The schema with two bytes changed, and what is owed then: the five numbers of the answer, or of each violation; zeros behind them. */
static const struct {
    size_t at, also_at;
    unsigned char byte, also;
    unsigned int owed[VIOLATIONS][5];
    const char *what;
} changes[] = {
    {0, 0, 0x11, 0x11, {{0, 0, 0, 0, 0}}, "the little graph conforms: 0 0 0 0 0"},

    /* another name, the same that is optional, another type */
    {ROW_AT(0), ROW_AT(0), 254, 254, {{22, 0, 0, 1, 254}, {25, 0, 0, 2, 0}, {31, 1, 0, 0, 0}}, "node 0 lacks 254: 22 0 0 1 254"},
    {ROW_AT(0), ROW_AT(0) + 3, 254, 1, {{22, 0, 0, 2, 255}, {25, 0, 0, 2, 0}, {31, 1, 0, 0, 0}}, "255 is not listed: 22 0 0 2 255"},
    {ROW_AT(0) + 2, ROW_AT(0) + 2, 4, 4, {{22, 0, 0, 3, 255}, {25, 0, 0, 2, 0}, {31, 1, 0, 0, 0}}, "255 has another type: 22 0 0 3 255"},
    {ROW_AT(3), ROW_AT(3), 7, 7, {{24, 0, 0, 1, 7}, {31, 1, 0, 0, 0}, {33, 0, 0, 0, 0}}, "edge 0 lacks 7: 24 0 0 1 7"},
    {ROW_AT(3), ROW_AT(3) + 3, 7, 1, {{24, 0, 0, 2, 0}, {31, 1, 0, 0, 0}, {33, 0, 0, 0, 0}}, "0 is not listed: 24 0 0 2 0"},
    {ROW_AT(3) + 2, ROW_AT(3) + 2, 5, 5, {{24, 0, 0, 3, 0}, {31, 1, 0, 0, 0}, {33, 0, 0, 0, 0}}, "0 has another type: 24 0 0 3 0"},
    /* both rows of node 1: the lowest name is told */
    {ROW_AT(1), ROW_AT(2), 7, 8, {{22, 1, 1, 1, 7}, {25, 0, 0, 1, 0}, {33, 0, 0, 0, 0}}, "node 1 lacks 7 and 8: 22 1 1 1 7"},
    {ROW_AT(1) + 2, ROW_AT(2) + 2, 1, 1, {{22, 1, 1, 3, 3}, {25, 0, 0, 1, 0}, {33, 0, 0, 0, 0}}, "3 and 4 have another type: 22 1 1 3 3"},

    /* with every other code the property is 0 */
    {0, 0, 0x10, 0x10, {{21, 0, 0, 0, 0}, {25, 0, 0, 2, 0}, {31, 1, 0, 0, 0}}, "no schema node has these labels: 21 0 0 0 0"},
    {EDGE_AT, EDGE_AT, 9, 9, {{23, 0, 0, 0, 0}, {31, 1, 0, 0, 0}, {33, 0, 0, 0, 0}}, "no schema edge has these labels: 23 0 0 0 0"},
    {EDGE_AT + 8, EDGE_AT + 8, 0, 0, {{25, 0, 0, 1, 0}, {31, 0, 0, 0, 0}, {33, 0, 0, 0, 0}}, "the source misfits: 25 0 0 1 0"},
    {EDGE_AT + 12, EDGE_AT + 12, 1, 1, {{25, 0, 0, 2, 0}, {31, 1, 0, 0, 0}, {33, 1, 0, 0, 0}}, "the target misfits: 25 0 0 2 0"},
    {EDGE_AT + 32, EDGE_AT + 36, 2, 2, {{31, 1, 0, 1, 0}}, "node 1 has 1 of 2 outgoing edges: 31 1 0 1 0"},
    {EDGE_AT + 32, EDGE_AT + 36, 0, 0, {{32, 1, 0, 1, 0}}, "node 1 has 1 of 0 outgoing edges: 32 1 0 1 0"},
    {EDGE_AT + 24, EDGE_AT + 28, 2, 2, {{33, 0, 0, 1, 0}}, "node 0 has 1 of 2 incoming edges: 33 0 0 1 0"},
    {EDGE_AT + 24, EDGE_AT + 28, 0, 0, {{34, 0, 0, 1, 0}}, "node 0 has 1 of 0 incoming edges: 34 0 0 1 0"},
    {ROW_AT(3) + 3, ROW_AT(3) + 3, 2, 2, {{15, 3, 0, 0, 0}}, "a bad schema property row: 15 3 0 0 0"}
};

/* The schema with the change of this number. */
static void change(unsigned char *changed, size_t i)
{
    memcpy(changed, schema, sizeof schema);
    changed[changes[i].at] = changes[i].byte;
    changed[changes[i].also_at] = changes[i].also;
}

static void try_numbers(void)
{
    /* where the header says that each of the five starts */
    const size_t at[5] = {HAVIROZAN_AT_CODE, HAVIROZAN_AT_PLACE, HAVIROZAN_AT_SCHEMA_PLACE, HAVIROZAN_AT_COUNT, HAVIROZAN_AT_PROPERTY};
    unsigned char changed[SCHEMA_BYTES], block[BLOCK];
    size_t bytes, i, n;
    unsigned int code;

    for (i = 0; i < sizeof changes / sizeof changes[0]; i++) {
        change(changed, i);
        for (bytes = HAVIROZAN_ANSWER_BYTES; bytes <= BLOCK; bytes++) {
            memset(block, 0xee, sizeof block);
            code = havirozan_check(file, sizeof file, changed, sizeof changed, block, bytes);
            expect(code == changes[i].owed[0][0], changes[i].what);
            for (n = 0; n < 5; n++) {
                expect(at[n] == 4 * n, "the five numbers follow each other");
                expect(HAVIROZAN_NUMBER(block, at[n]) == changes[i].owed[0][n], changes[i].what);
            }
            expect(kept(block, HAVIROZAN_ANSWER_BYTES, BLOCK), "bytes from 20 on keep their values");
        }
        memset(block, 0xee, sizeof block);
        code = havirozan_check(file, sizeof file, changed, sizeof changed, block, HAVIROZAN_ANSWER_BYTES - 1);
        expect(code == HAVIROZAN_SHORT_ANSWER && kept(block, 0, BLOCK), "a block of 19 bytes gets code 1 alone, whatever the files are");
    }
}

/* ---- check_all: the list of each change, with every room */

/* Whether a record is these five numbers. */
static int finding_is(havirozan_finding got, unsigned int code, unsigned int place, unsigned int schema_place, unsigned int count,
                      unsigned int property)
{
    return got.code == code && got.place == place && got.schema_place == schema_place && got.count == count && got.property == property;
}

static int listed_is(havirozan_listed got, unsigned int refusal, unsigned int place, unsigned int total)
{
    return got.refusal == refusal && got.place == place && got.total == total;
}

/* Whether the list's records from `from` on still have the value that they were given. */
static int records_kept(const havirozan_finding *list, size_t from, size_t to)
{
    return kept((const unsigned char *)list, from * sizeof list[0], to * sizeof list[0]);
}

static void try_lists(void)
{
    unsigned char changed[SCHEMA_BYTES], block[HAVIROZAN_ANSWER_BYTES];
    /* more than there are violations, so that some records are beyond those written */
    havirozan_finding list[VIOLATIONS + 3];
    havirozan_listed got;
    size_t i, n, room, written;
    unsigned int refusal, total, code;

    for (i = 0; i < sizeof changes / sizeof changes[0]; i++) {
        change(changed, i);
        refusal = changes[i].owed[0][0] < HAVIROZAN_NODE_LABELS ? changes[i].owed[0][0] : 0;
        for (total = 0; total < VIOLATIONS && changes[i].owed[total][0] >= HAVIROZAN_NODE_LABELS; total++)
            ;
        for (room = 0; room <= sizeof list / sizeof list[0]; room++) {
            memset(list, 0xee, sizeof list);
            got = havirozan_check_all(file, sizeof file, changed, sizeof changed, list, room);
            written = room < total ? room : total;
            expect(listed_is(got, refusal, refusal != 0 ? changes[i].owed[0][1] : 0, total), changes[i].what);
            expect(HAVIROZAN_LISTED_CONFORMS(got) == (changes[i].owed[0][0] == 0), "HAVIROZAN_LISTED_CONFORMS says yes to 0 0 0 0 0 alone");
            for (n = 0; n < written; n++)
                expect(finding_is(list[n], changes[i].owed[n][0], changes[i].owed[n][1], changes[i].owed[n][2], changes[i].owed[n][3],
                                  changes[i].owed[n][4]), changes[i].what);
            expect(records_kept(list, written, sizeof list / sizeof list[0]), "records beyond those written keep their values");
            code = havirozan_check(file, sizeof file, changed, sizeof changed, block, sizeof block);
            expect(written == 0 || memcmp(&list[0], block, sizeof list[0]) == 0, "the first record has the answer's five numbers");
            expect((got.refusal == 0 && got.total == 0) == (code == 0), "refusal and total are both 0 exactly if check returns 0");
        }
        expect(listed_is(havirozan_check_all(file, sizeof file, changed, sizeof changed, NULL, 0), refusal,
                         refusal != 0 ? changes[i].owed[0][1] : 0, total), "a null list without room is good for counting");
    }
}

/* Files that are refused get what `check` gives them, and no record is touched. */
static void refused_alike(const unsigned char *graph, size_t graph_bytes, const unsigned char *types, size_t types_bytes)
{
    unsigned char block[HAVIROZAN_ANSWER_BYTES];
    havirozan_finding list[2];
    havirozan_listed got;
    const unsigned int code = havirozan_check(graph, graph_bytes, types, types_bytes, block, sizeof block);
    memset(list, 0xee, sizeof list);
    got = havirozan_check_all(graph, graph_bytes, types, types_bytes, list, 2);
    expect(code >= HAVIROZAN_GRAPH_LENGTH && code <= HAVIROZAN_SCHEMA_PROPERTY, "a file that breaks off is refused");
    expect(listed_is(got, code, HAVIROZAN_NUMBER(block, HAVIROZAN_AT_PLACE), 0), "the refusal and its place are check's, and the total is 0");
    expect(!HAVIROZAN_LISTED_CONFORMS(got), "a refusal is no yes, though its total is 0");
    expect(records_kept(list, 0, 2), "a refusal touches no record");
    expect(listed_is(havirozan_check_all(graph, graph_bytes, types, types_bytes, NULL, 0), got.refusal, got.place, 0),
           "a refusal is the same without room");
}

static void try_refused_lists(void)
{
    /* the start of node 1's run, the edge's source, the date: 6, 7 and 8 have a place */
    static const size_t bad_at[3] = {24, 40, 112};
    unsigned char changed[FILE_BYTES];
    size_t i;

    expect(listed_is(havirozan_check_all(NULL, 0, NULL, 0, NULL, 0), HAVIROZAN_GRAPH_LENGTH, 0, 0), "null blocks without a byte get 2 0 0");
    refused_alike(NULL, 0, NULL, 0);
    for (i = 0; i < FILE_BYTES; i++) {
        refused_alike(file, i, schema, SCHEMA_BYTES);
        refused_alike(file, i, schema, 0);
        refused_alike(file + FILE_BYTES - i, i, schema, SCHEMA_BYTES);
    }
    for (i = 0; i < SCHEMA_BYTES; i++) {
        refused_alike(file, FILE_BYTES, schema, i);
        refused_alike(file, FILE_BYTES, schema + SCHEMA_BYTES - i, i);
    }
    for (i = 0; i < 3; i++) {
        memcpy(changed, file, sizeof changed);
        changed[bad_at[i]] ^= 0x40;
        refused_alike(changed, FILE_BYTES, schema, SCHEMA_BYTES);
    }
}

/* ---- write_graph */

/* Puts the values into the rows that take a C number, as the header says. */
static void fill(void)
{
    const long whole = -2L;
    const double real = -1.5;
    rows[THE_INTEGER].value = (unsigned long)whole;
    memcpy(&rows[THE_REAL].value, &real, sizeof rows[THE_REAL].value);
}

static havirozan_outcome write_little(unsigned char *out, size_t out_bytes)
{
    return havirozan_write_graph(nodes, NODES_BYTES, edges, EDGES_BYTES, rows, ROWS_BYTES, text, TEXT, LABELS, NAMES, out, out_bytes);
}

static int outcome_is(havirozan_outcome got, unsigned int code, unsigned int number)
{
    return got.code == code && got.number == number;
}

static void try_write(void)
{
    unsigned char block[FILE_BYTES + BLOCK];
    size_t bytes;

    expect(HAVIROZAN_GRAPH_BYTES(NODES, EDGES, ROWS, TEXT) == FILE_BYTES, "the header's length of a file is the file's");
    expect(outcome_is(write_little(NULL, 0), HAVIROZAN_SHORT_OUTPUT, 0), "a null output of 0 bytes gets 42 and 0");

    for (bytes = 0; bytes < FILE_BYTES; bytes++) {
        memset(block, 0xee, sizeof block);
        expect(outcome_is(write_little(block, bytes), HAVIROZAN_SHORT_OUTPUT, 0), "an output shorter than the file gets 42 and 0");
        expect(kept(block, 0, sizeof block), "an output shorter than the file is not written");
    }
    for (bytes = FILE_BYTES; bytes <= sizeof block; bytes++) {
        memset(block, 0xee, sizeof block);
        expect(outcome_is(write_little(block, bytes), 0, FILE_BYTES), "a long enough output gets 0 and the length");
        expect(memcmp(block, file, FILE_BYTES) == 0, "the file is written, byte by byte");
        expect(kept(block, FILE_BYTES, sizeof block), "bytes after the file keep their values");
    }

    memset(block, 0xee, sizeof block);
    expect(outcome_is(havirozan_write_graph(NULL, 0, NULL, 0, NULL, 0, NULL, 0, 0, 0, block, sizeof block), 0, HAVIROZAN_GRAPH_TRAILER_BYTES),
           "four null tables of 0 bytes are a graph of 28 bytes");
    expect(memcmp(block, "\0\0\0\0\0\0\0\0\0\0\0\0\0\0\0\0\0\0\0\0\0\0\0\0\107\120\110\061", HAVIROZAN_GRAPH_TRAILER_BYTES) == 0,
           "the empty graph is zeros and the mark");
    expect(kept(block, HAVIROZAN_GRAPH_TRAILER_BYTES, sizeof block), "bytes after the empty graph keep their values");
}

/* Tables that are refused, each with an output that is long enough and with none: 41 is tried before 42. */
static void refused(size_t nodes_bytes, size_t edges_bytes, size_t rows_bytes, size_t text_bytes, unsigned int labels,
                    unsigned int names, const char *what)
{
    unsigned char block[FILE_BYTES + BLOCK];
    memset(block, 0xee, sizeof block);
    expect(outcome_is(havirozan_write_graph(nodes, nodes_bytes, edges, edges_bytes, rows, rows_bytes, text, text_bytes, labels, names,
                                            block, sizeof block), HAVIROZAN_TABLES, 0), what);
    expect(kept(block, 0, sizeof block), "refused tables are not written");
    expect(outcome_is(havirozan_write_graph(nodes, nodes_bytes, edges, edges_bytes, rows, rows_bytes, text, text_bytes, labels, names,
                                            NULL, 0), HAVIROZAN_TABLES, 0), "41 is tried before 42");
}

static void try_refused_tables(void)
{
    /* an exponent of ones: no fraction is infinity, any other fraction is no number */
    const unsigned long infinite = 0x7ff0000000000000UL, no_number = 0x7ff8000000000000UL;
    const havirozan_property real = rows[THE_REAL], date = rows[THE_DATE];
    size_t part;

    /* the whole rows alone would be good */
    for (part = 1; part < sizeof nodes[0]; part++)
        refused(NODES_BYTES + part, EDGES_BYTES, ROWS_BYTES, TEXT, LABELS, NAMES, "a part of a node row gets 41 and 0");
    for (part = 1; part < sizeof edges[0]; part++)
        refused(NODES_BYTES, EDGES_BYTES + part, ROWS_BYTES, TEXT, LABELS, NAMES, "a part of an edge row gets 41 and 0");
    for (part = 1; part < sizeof rows[0]; part++)
        refused(NODES_BYTES, EDGES_BYTES, ROWS_BYTES + part, TEXT, LABELS, NAMES, "a part of a property row gets 41 and 0");

    refused(NODES_BYTES - sizeof nodes[0], EDGES_BYTES, ROWS_BYTES, TEXT, LABELS, NAMES, "an edge without its node gets 41 and 0");
    refused(NODES_BYTES, EDGES_BYTES, ROWS_BYTES - sizeof rows[0], TEXT, LABELS, NAMES, "a run past the rows gets 41 and 0");
    refused(NODES_BYTES, EDGES_BYTES, ROWS_BYTES, TEXT - 1, LABELS, NAMES, "a text part outside the text gets 41 and 0");
    refused(NODES_BYTES, EDGES_BYTES, ROWS_BYTES, TEXT, LABELS - 1, NAMES, "a label at the label count gets 41 and 0");
    refused(NODES_BYTES, EDGES_BYTES, ROWS_BYTES, TEXT, LABELS, NAMES - 1, "a name at the name count gets 41 and 0");
    refused(NODES_BYTES, EDGES_BYTES, ROWS_BYTES, TEXT, LABELS + 1, NAMES, "65 labels get 41 and 0");
    refused(NODES_BYTES, EDGES_BYTES, ROWS_BYTES, TEXT, LABELS, NAMES + 1, "257 names get 41 and 0");
    /* the file has 16 bits for each of the two */
    refused(NODES_BYTES, EDGES_BYTES, ROWS_BYTES, TEXT, 65536U + LABELS, NAMES, "65,600 labels get 41 and 0");
    refused(NODES_BYTES, EDGES_BYTES, ROWS_BYTES, TEXT, LABELS, 65536U + NAMES, "65,792 names get 41 and 0");

    rows[THE_REAL].value = infinite;
    refused(NODES_BYTES, EDGES_BYTES, ROWS_BYTES, TEXT, LABELS, NAMES, "an infinite Real gets 41 and 0");
    rows[THE_REAL].value = no_number;
    refused(NODES_BYTES, EDGES_BYTES, ROWS_BYTES, TEXT, LABELS, NAMES, "a Real that is no number gets 41 and 0");
    rows[THE_REAL] = real;
    /* without the edge, its row belongs to nothing; its name would rise */
    rows[THE_DATE].name = 5;
    refused(NODES_BYTES, 0, ROWS_BYTES, TEXT, LABELS, NAMES, "a property row in no run gets 41 and 0");
    rows[THE_DATE] = date;
}

/* ---- find_tables */

/* Whether the places are a refusal: ten zeros after the code and the place. */
static int refusal_is(havirozan_places got, unsigned int code, unsigned int place)
{
    havirozan_places owed;
    memset(&owed, 0, sizeof owed);
    owed.code = code;
    owed.place = place;
    return memcmp(&got, &owed, sizeof owed) == 0;
}

static void try_find(void)
{
    /* behind a preface of an odd number of bytes, so that no row lies where its struct could */
    const size_t preface = 7;
    unsigned char found[7 + FILE_BYTES], again[FILE_BYTES];
    havirozan_places at;
    havirozan_outcome written;
    size_t i;

    expect(refusal_is(havirozan_find_tables(NULL, 0), HAVIROZAN_GRAPH_LENGTH, 0), "a null file of 0 bytes gets 2 and zeros");
    for (i = 0; i < FILE_BYTES; i++)
        expect(refusal_is(havirozan_find_tables(file, i), i < HAVIROZAN_GRAPH_TRAILER_BYTES ? HAVIROZAN_GRAPH_LENGTH : HAVIROZAN_GRAPH_MARK, 0),
               "a file that breaks off gets 2 or 3 and zeros");
    expect(refusal_is(havirozan_find_tables(file + 1, FILE_BYTES - 1), HAVIROZAN_GRAPH_BACK, 0), "a file without its first byte gets 5 and zeros");

    at = havirozan_find_tables(file, FILE_BYTES);
    expect(at.code == 0 && at.place == 0, "the file that was written is accepted");
    expect(at.nodes_at == 0 && at.nodes == NODES, "its nodes are found");
    expect(at.edges_at == 32 && at.edges == EDGES, "its edge is found");
    expect(at.rows_at == 56 && at.rows == ROWS, "its property rows are found");
    expect(at.text_at == 120 && at.text == TEXT, "its text is found");
    expect(at.labels == LABELS && at.names == NAMES, "its two counts are found");

    memset(found, 0x31, preface);
    memcpy(found + preface, file, FILE_BYTES);
    at = havirozan_find_tables(found, sizeof found);
    expect(at.code == 0 && at.place == 0, "a preface is accepted");
    expect(at.nodes_at == preface && at.edges_at == preface + 32 && at.rows_at == preface + 56 && at.text_at == preface + 120,
           "the offsets count the preface");
    expect(memcmp(found + at.nodes_at, nodes, NODES_BYTES) == 0 && memcmp(found + at.edges_at, edges, EDGES_BYTES) == 0 &&
           memcmp(found + at.rows_at, rows, ROWS_BYTES) == 0 && memcmp(found + at.text_at, text, TEXT) == 0,
           "the tables that are found are those that were written");
    written = havirozan_write_graph(found + at.nodes_at, at.nodes * sizeof nodes[0], found + at.edges_at, at.edges * sizeof edges[0],
                                    found + at.rows_at, at.rows * sizeof rows[0], found + at.text_at, at.text, at.labels, at.names,
                                    again, sizeof again);
    expect(outcome_is(written, 0, FILE_BYTES) && memcmp(again, file, FILE_BYTES) == 0,
           "a file that is read and written again is the same without its preface");

    /* the date, and the start of node 1's run */
    found[at.rows_at + THE_DATE * sizeof rows[0] + 9] ^= 0x40;
    expect(refusal_is(havirozan_find_tables(found, sizeof found), HAVIROZAN_GRAPH_PROPERTY, THE_DATE),
           "a bad property row gets 8, its place and zeros");
    found[at.nodes_at + sizeof nodes[0] + 8] ^= 1;
    expect(refusal_is(havirozan_find_tables(found, sizeof found), HAVIROZAN_GRAPH_NODE, 1), "a bad node row gets 6, its place and zeros");

    /* an empty graph behind a preface: each table would start where the trailer does */
    memset(found, 0, preface + HAVIROZAN_GRAPH_TRAILER_BYTES);
    memcpy(found + preface + HAVIROZAN_GRAPH_TRAILER_BYTES - 4, file + FILE_BYTES - 4, 4);
    at = havirozan_find_tables(found, preface + HAVIROZAN_GRAPH_TRAILER_BYTES);
    expect(at.nodes_at == preface && at.edges_at == preface && at.rows_at == preface && at.text_at == preface,
           "an empty table has the offset where it would start");
    at.nodes_at = at.edges_at = at.rows_at = at.text_at = 0;
    expect(refusal_is(at, 0, 0), "an empty graph has code 0 and no more numbers");
}

/* ---- the greatest graph: each table is at its ceiling, and each node has the names 0 to 15 */

static havirozan_node most_nodes[HAVIROZAN_GRAPH_MOST_NODES + 1U];
static havirozan_edge most_edges[HAVIROZAN_GRAPH_MOST_EDGES + 1U];
static havirozan_property most_rows[HAVIROZAN_GRAPH_MOST_PROPERTIES + 1U];
static unsigned char most_text[HAVIROZAN_GRAPH_MOST_TEXT + 1U];
static unsigned char most_out[HAVIROZAN_GRAPH_MOST_WRITTEN];

static havirozan_outcome write_most(unsigned int n, unsigned int e, unsigned int p, unsigned int t, size_t out_bytes)
{
    return havirozan_write_graph(most_nodes, n * sizeof most_nodes[0], most_edges, e * sizeof most_edges[0],
                                 most_rows, p * sizeof most_rows[0], most_text, t, HAVIROZAN_MOST_LABELS, HAVIROZAN_MOST_NAMES, most_out, out_bytes);
}

static void try_most(void)
{
    const unsigned int n = HAVIROZAN_GRAPH_MOST_NODES, e = HAVIROZAN_GRAPH_MOST_EDGES, p = HAVIROZAN_GRAPH_MOST_PROPERTIES,
                       t = HAVIROZAN_GRAPH_MOST_TEXT, each = p / n;
    havirozan_places at;
    unsigned int i;

    for (i = 0; i < n; i++) {
        most_nodes[i].first = i * each;
        most_nodes[i].count = each;
    }
    for (i = 0; i < p; i++) {
        most_rows[i].name = (unsigned short)(i % each);
        most_rows[i].kind = HAVIROZAN_INTEGER;
    }
    for (i = 0; i <= e; i++)
        most_edges[i].first = p;
    most_nodes[n].first = p;

    expect(HAVIROZAN_GRAPH_BYTES(n, e, p, t) == HAVIROZAN_GRAPH_MOST_WRITTEN, "the greatest graph has the bytes that the header says");
    expect(outcome_is(write_most(n, e, p, t, sizeof most_out - 1), HAVIROZAN_SHORT_OUTPUT, 0), "a byte less is too short for it");
    expect(outcome_is(write_most(n, e, p, t, sizeof most_out), 0, HAVIROZAN_GRAPH_MOST_WRITTEN), "the greatest graph is written");
    at = havirozan_find_tables(most_out, sizeof most_out);
    expect(at.code == 0 && at.nodes == n && at.edges == e && at.rows == p && at.text == t, "the greatest graph is found again");

    expect(outcome_is(write_most(n + 1, e, p, t, sizeof most_out), HAVIROZAN_TABLES, 0), "1,025 nodes get 41 and 0");
    expect(outcome_is(write_most(n, e + 1, p, t, sizeof most_out), HAVIROZAN_TABLES, 0), "4,097 edges get 41 and 0");
    expect(outcome_is(write_most(n, e, p, t + 1, sizeof most_out), HAVIROZAN_TABLES, 0), "262,145 text bytes get 41 and 0");
    /* the last edge takes the row that is too many, so that nothing else is wrong */
    most_edges[e - 1].count = 1;
    most_rows[p].kind = HAVIROZAN_INTEGER;
    expect(outcome_is(write_most(n, e, p + 1, t, sizeof most_out), HAVIROZAN_TABLES, 0), "16,385 property rows get 41 and 0");
}

/* ---- the longest lists: of the greatest graph, which stands in most_out. Its nodes and edges have no label. */

static havirozan_finding most_list[HAVIROZAN_MOST_VIOLATIONS + 1U];

/* A schema with one schema node, without a label and open, and 64 schema edges with label 0 from it to itself, all intervals 1 to 1.
   Each node fits and owes every schema edge one edge out and one in, and no edge fits. */
#define WIDE_TOTAL (HAVIROZAN_GRAPH_MOST_EDGES + 2U * HAVIROZAN_SCHEMA_MOST_EDGES * HAVIROZAN_GRAPH_MOST_NODES)
static unsigned char wide_schema[16U + 64U * 40U + 20U];

static void make_wide_schema(void)
{
    static const unsigned char trailer[20] = {1, 0, 64, 0, 0, 0, 0, 0, 1, 0, 0, 0, 16, 10, 0, 0, 0x53, 0x43, 0x48, 0x31};
    unsigned int i, n;
    wide_schema[14] = HAVIROZAN_OPEN;
    for (i = 0; i < 64; i++) {
        wide_schema[16 + 40 * i] = 1;
        for (n = 24; n < 40; n += 4)
            wide_schema[16 + 40 * i + n] = 1;
    }
    memcpy(wide_schema + sizeof wide_schema - sizeof trailer, trailer, sizeof trailer);
}

/* Whether the record is the one with this number: all edges, then at each schema edge all nodes, first out and then in. */
static int wide_finding_is(havirozan_finding got, unsigned int i)
{
    const unsigned int n = HAVIROZAN_GRAPH_MOST_NODES, e = HAVIROZAN_GRAPH_MOST_EDGES, each = HAVIROZAN_SCHEMA_MOST_EDGES * n;
    if (i < e)
        return finding_is(got, HAVIROZAN_EDGE_LABELS, i, 0, 0, 0);
    if (i - e < each)
        return finding_is(got, HAVIROZAN_TOO_FEW_OUT, (i - e) % n, (i - e) / n, 0, 0);
    return finding_is(got, HAVIROZAN_TOO_FEW_IN, (i - e - each) % n, (i - e - each) / n, 0, 0);
}

static void try_most_listed(void)
{
    static const size_t rooms[] = {0, 1, WIDE_TOTAL - 1U, WIDE_TOTAL, WIDE_TOTAL + 1U, HAVIROZAN_MOST_VIOLATIONS};
    static const unsigned char no_types[20] = {0, 0, 0, 0, 0, 0, 0, 0, 0, 0, 0, 0, 0, 0, 0, 0, 0x53, 0x43, 0x48, 0x31};
    const unsigned int n = HAVIROZAN_GRAPH_MOST_NODES, e = HAVIROZAN_GRAPH_MOST_EDGES;
    size_t written, i, r;
    int good;

    make_wide_schema();
    expect(n + WIDE_TOTAL == HAVIROZAN_MOST_VIOLATIONS, "the header's greatest number of violations is that of the ceilings");
    for (r = 0; r < sizeof rooms / sizeof rooms[0]; r++) {
        written = rooms[r] < WIDE_TOTAL ? rooms[r] : WIDE_TOTAL;
        memset(most_list, 0xee, sizeof most_list);
        expect(listed_is(havirozan_check_all(most_out, sizeof most_out, wide_schema, sizeof wide_schema, most_list, rooms[r]), 0, 0,
                         WIDE_TOTAL), "135,168 violations are counted, whatever the room");
        for (good = 1, i = 0; i < written; i++)
            good = good && wide_finding_is(most_list[i], (unsigned int)i);
        expect(good, "the first ones are written, in their order");
        expect(records_kept(most_list, written, HAVIROZAN_MOST_VIOLATIONS + 1U), "records beyond those written keep their values");
    }

    /* no schema node and no schema edge: each node and each edge is at fault */
    memset(most_list, 0xee, sizeof most_list);
    expect(listed_is(havirozan_check_all(most_out, sizeof most_out, no_types, sizeof no_types, most_list, HAVIROZAN_MOST_VIOLATIONS), 0, 0,
                     n + e), "5,120 violations are counted");
    for (good = 1, i = 0; i < n; i++)
        good = good && finding_is(most_list[i], HAVIROZAN_NODE_LABELS, (unsigned int)i, 0, 0, 0);
    for (i = 0; i < e; i++)
        good = good && finding_is(most_list[n + i], HAVIROZAN_EDGE_LABELS, (unsigned int)i, 0, 0, 0);
    expect(good && records_kept(most_list, n + e, HAVIROZAN_MOST_VIOLATIONS + 1U), "each node and each edge is listed, and no more");
}

/* ---- read_sheet */

#define SHEET_FILE_BYTES 263

/* A sheet as a pointer and a length, for it may hold a 0. */
#define SHEET(bytes) bytes, sizeof bytes - 1
#define FIRST "LB;2026-03-14\n"

static havirozan_outcome read_text(const char *sheet, size_t bytes, unsigned char *out, size_t out_bytes)
{
    return havirozan_read_sheet((const unsigned char *)sheet, bytes, out, out_bytes);
}

/* Two angles and a serial of three bytes, of which one is no letter; both ends of a line. */
static const char little_sheet[] = "LB\377;2026-03-14\r\n-45;1,05\n7;-0\r\n";

static const unsigned char sheet_file[SHEET_FILE_BYTES] = {
    /* the nodes: Sensor, Run, two Angles */
    1, 0, 0, 0, 0, 0, 0, 0, 0, 0, 0, 0, 1, 0, 0, 0,
    2, 0, 0, 0, 0, 0, 0, 0, 1, 0, 0, 0, 1, 0, 0, 0,
    4, 0, 0, 0, 0, 0, 0, 0, 2, 0, 0, 0, 2, 0, 0, 0,
    4, 0, 0, 0, 0, 0, 0, 0, 4, 0, 0, 0, 2, 0, 0, 0,
    /* the edges: OF from 1 to 0, AT from 1 to 2 and from 1 to 3; the empty runs start at 6 */
    8, 0, 0, 0, 0, 0, 0, 0, 1, 0, 0, 0, 0, 0, 0, 0, 6, 0, 0, 0, 0, 0, 0, 0,
    16, 0, 0, 0, 0, 0, 0, 0, 1, 0, 0, 0, 2, 0, 0, 0, 6, 0, 0, 0, 0, 0, 0, 0,
    16, 0, 0, 0, 0, 0, 0, 0, 1, 0, 0, 0, 3, 0, 0, 0, 6, 0, 0, 0, 0, 0, 0, 0,
    /* the property rows: three bytes of text, 14 March 2026, -45 and 1.05, 7 and negative zero */
    0, 0, 5, 0, 3, 0, 0, 0, 0, 0, 0, 0, 0, 0, 0, 0,
    1, 0, 4, 0, 0, 0, 0, 0, 0xda, 0x25, 0x35, 0x01, 0, 0, 0, 0,
    3, 0, 2, 0, 0, 0, 0, 0, 0xd3, 0xff, 0xff, 0xff, 0xff, 0xff, 0xff, 0xff,
    4, 0, 3, 0, 0, 0, 0, 0, 0xcd, 0xcc, 0xcc, 0xcc, 0xcc, 0xcc, 0xf0, 0x3f,
    3, 0, 2, 0, 0, 0, 0, 0, 7, 0, 0, 0, 0, 0, 0, 0,
    4, 0, 3, 0, 0, 0, 0, 0, 0, 0, 0, 0, 0, 0, 0, 0x80,
    /* the text */
    0x4c, 0x42, 0xff,
    /* the trailer: four numbers, 5 labels, 5 names, back 235, the mark */
    4, 0, 0, 0, 3, 0, 0, 0, 6, 0, 0, 0, 3, 0, 0, 0, 5, 0, 5, 0, 235, 0, 0, 0, 0x47, 0x50, 0x48, 0x31
};

static void try_sheet(void)
{
    unsigned char block[SHEET_FILE_BYTES + BLOCK];
    havirozan_places at;
    size_t bytes;

    expect(HAVIROZAN_SHEET_FIRST == 51 && HAVIROZAN_SHEET_LINE == 52, "the refusals of a sheet are 51 and 52");
    expect(HAVIROZAN_GRAPH_BYTES(4, 3, 6, 3) == SHEET_FILE_BYTES, "the header's length of a sheet's file is the file's");
    expect(outcome_is(havirozan_read_sheet(NULL, 0, NULL, 0), HAVIROZAN_SHEET_FIRST, 1), "two null blocks of 0 bytes get 51 and 1");
    expect(outcome_is(read_text(SHEET(little_sheet), NULL, 0), HAVIROZAN_SHORT_OUTPUT, 0), "of a good sheet a null output of 0 bytes gets 42 and 0");

    for (bytes = 0; bytes < SHEET_FILE_BYTES; bytes++) {
        memset(block, 0xee, sizeof block);
        expect(outcome_is(read_text(SHEET(little_sheet), block, bytes), HAVIROZAN_SHORT_OUTPUT, 0),
               "an output shorter than a sheet's file gets 42 and 0");
        expect(kept(block, 0, sizeof block), "an output shorter than a sheet's file is not written");
    }
    for (bytes = SHEET_FILE_BYTES; bytes <= sizeof block; bytes++) {
        memset(block, 0xee, sizeof block);
        expect(outcome_is(read_text(SHEET(little_sheet), block, bytes), 0, SHEET_FILE_BYTES), "a good sheet gets 0 and the length");
        expect(memcmp(block, sheet_file, SHEET_FILE_BYTES) == 0, "a sheet's file is written, byte by byte");
        expect(kept(block, SHEET_FILE_BYTES, sizeof block), "bytes after a sheet's file keep their values");
    }
    at = havirozan_find_tables(sheet_file, SHEET_FILE_BYTES);
    expect(at.code == 0 && at.nodes == 4 && at.edges == 3 && at.rows == 6 && at.text == 3, "a sheet's file is accepted");

    /* the sheet cut off after each of its bytes: only after an end it is good */
    for (bytes = 0; bytes < sizeof little_sheet - 1; bytes++) {
        unsigned int line = 1;
        size_t i;
        for (i = 0; i < bytes; i++)
            line += little_sheet[i] == '\n';
        if (bytes > 0 && little_sheet[bytes - 1] == '\n')
            expect(outcome_is(read_text(little_sheet, bytes, NULL, 0), HAVIROZAN_SHORT_OUTPUT, 0), "a sheet of fewer lines is good");
        else
            expect(outcome_is(read_text(little_sheet, bytes, NULL, 0), line == 1 ? HAVIROZAN_SHEET_FIRST : HAVIROZAN_SHEET_LINE, line),
                   "a sheet that breaks off gets 51 or 52 and its last line");
    }
}

/* Sheets that are refused, with the line that is told. */
static const struct {
    const char *sheet;
    size_t bytes;
    unsigned int code, number;
    const char *what;
} bad_sheets[] = {
    {SHEET(""), 51, 1, "an empty sheet: 51 1"},
    {SHEET("\n"), 51, 1, "an empty first line: 51 1"},
    {SHEET("LB;2026-03-14"), 51, 1, "a first line without an end: 51 1"},
    {SHEET("LB;2026-03-14\r"), 51, 1, "a first line with a CR alone: 51 1"},
    {SHEET("LB;2026-03-14\r\r\n"), 51, 1, "a first line with two CRs: 51 1"},
    {SHEET("LB;2026-03-14\r45;1\n"), 51, 1, "a first line ended by a CR alone: 51 1"},
    {SHEET(";2026-03-14\n"), 51, 1, "no serial: 51 1"},
    {SHEET("012345678901234567890123456789012;2026-03-14\n"), 51, 1, "a serial of 33 bytes: 51 1"},
    {SHEET("L\rB;2026-03-14\n"), 51, 1, "a serial with a CR: 51 1"},
    {SHEET("L\nB;2026-03-14\n"), 51, 1, "a serial with an LF: 51 1"},
    {SHEET("L;B;2026-03-14\n"), 51, 1, "a serial with a semicolon: 51 1"},
    {SHEET("LB2026-03-14\n"), 51, 1, "a first line without a semicolon: 51 1"},
    {SHEET("LB,2026-03-14\n"), 51, 1, "a comma for the semicolon: 51 1"},
    {SHEET("LB;\n"), 51, 1, "no date: 51 1"},
    {SHEET("LB;20260314\n"), 51, 1, "a date of digits alone: 51 1"},
    {SHEET("LB;2026-3-14\n"), 51, 1, "a month of one digit: 51 1"},
    {SHEET("LB;2026/03/14\n"), 51, 1, "a date with slashes: 51 1"},
    {SHEET("LB;14-03-2026\n"), 51, 1, "a date with the day first: 51 1"},
    {SHEET("LB; 2026-03-14\n"), 51, 1, "a blank before the date: 51 1"},
    {SHEET("LB;2026-03-14 \n"), 51, 1, "a blank behind the date: 51 1"},
    {SHEET("LB;2026-03-14;\n"), 51, 1, "a semicolon behind the date: 51 1"},
    {SHEET("LB;12026-03-14\n"), 51, 1, "a year of five digits: 51 1"},
    {SHEET("LB;202x-03-14\n"), 51, 1, "a letter in the year: 51 1"},
    {SHEET("LB;0000-03-14\n"), 51, 1, "year 0: 51 1"},
    {SHEET("LB;2026-00-14\n"), 51, 1, "month 0: 51 1"},
    {SHEET("LB;2026-13-14\n"), 51, 1, "month 13: 51 1"},
    {SHEET("LB;2026-03-00\n"), 51, 1, "day 0: 51 1"},
    {SHEET("LB;2026-04-31\n"), 51, 1, "31 April: 51 1"},
    {SHEET("LB;2026-02-29\n"), 51, 1, "29 February 2026: 51 1"},
    {SHEET("LB;2100-02-29\n"), 51, 1, "29 February 2100: 51 1"},
    {SHEET("LB;2026-02-29\n45;1;05\n"), 51, 1, "both lines bad: 51 1"},

    {SHEET(FIRST "\n"), 52, 2, "an empty line: 52 2"},
    {SHEET(FIRST "\r\n"), 52, 2, "a line of CR LF: 52 2"},
    {SHEET(FIRST "45;1,05"), 52, 2, "a line without an end: 52 2"},
    {SHEET(FIRST "45;1,05\r"), 52, 2, "a line with a CR alone: 52 2"},
    {SHEET(FIRST "45;1,05\r\r\n"), 52, 2, "a line with two CRs: 52 2"},
    {SHEET(FIRST "45;1,05\n\r"), 52, 3, "LF CR: 52 3"},
    {SHEET(FIRST "45;1;05\n"), 52, 2, "a semicolon for the decimal comma: 52 2"},
    {SHEET(FIRST "45;1.05\n"), 52, 2, "a decimal point: 52 2"},
    {SHEET(FIRST "45,1,05\n"), 52, 2, "a comma for the semicolon: 52 2"},
    {SHEET(FIRST "45\n"), 52, 2, "no coefficient and no semicolon: 52 2"},
    {SHEET(FIRST "45;\n"), 52, 2, "no coefficient: 52 2"},
    {SHEET(FIRST ";1,05\n"), 52, 2, "no degrees: 52 2"},
    {SHEET(FIRST "-;1,05\n"), 52, 2, "degrees of a minus alone: 52 2"},
    {SHEET(FIRST "45;-\n"), 52, 2, "a coefficient of a minus alone: 52 2"},
    {SHEET(FIRST "--45;1,05\n"), 52, 2, "two minuses: 52 2"},
    {SHEET(FIRST "45;--1,05\n"), 52, 2, "two minuses: 52 2"},
    {SHEET(FIRST "+45;1,05\n"), 52, 2, "a plus: 52 2"},
    {SHEET(FIRST "45;+1,05\n"), 52, 2, "a plus: 52 2"},
    {SHEET(FIRST "45-;1,05\n"), 52, 2, "a minus behind: 52 2"},
    {SHEET(FIRST "1045;1,05\n"), 52, 2, "degrees of four digits: 52 2"},
    {SHEET(FIRST "0045;1,05\n"), 52, 2, "degrees of four digits, two of them zeros: 52 2"},
    {SHEET(FIRST "45,5;1,05\n"), 52, 2, "half a degree: 52 2"},
    {SHEET(FIRST "45;1234567\n"), 52, 2, "seven digits: 52 2"},
    {SHEET(FIRST "45;1234567,1\n"), 52, 2, "seven digits before the comma: 52 2"},
    {SHEET(FIRST "45;1,1234567\n"), 52, 2, "seven digits after the comma: 52 2"},
    {SHEET(FIRST "45;1,\n"), 52, 2, "no digit after the comma: 52 2"},
    {SHEET(FIRST "45;,05\n"), 52, 2, "no digit before the comma: 52 2"},
    {SHEET(FIRST "45;1,0,5\n"), 52, 2, "two commas: 52 2"},
    {SHEET(FIRST "45;1,-05\n"), 52, 2, "a minus after the comma: 52 2"},
    {SHEET(FIRST "45;1e5\n"), 52, 2, "an exponent: 52 2"},
    {SHEET(FIRST "45;1,05;\n"), 52, 2, "a semicolon at the end: 52 2"},
    {SHEET(FIRST " 45;1,05\n"), 52, 2, "a blank in front: 52 2"},
    {SHEET(FIRST "45;1,05 \n"), 52, 2, "a blank at the end: 52 2"},
    {SHEET(FIRST "45;1,05\0\n"), 52, 2, "a zero byte at the end: 52 2"},
    /* the bytes beside the digits, and digits with the high bit */
    {SHEET(FIRST "4/;1,05\n"), 52, 2, "a slash: 52 2"},
    {SHEET(FIRST "4:;1,05\n"), 52, 2, "a colon: 52 2"},
    {SHEET(FIRST "45;1,0/\n"), 52, 2, "a slash: 52 2"},
    {SHEET(FIRST "45;1,0:\n"), 52, 2, "a colon: 52 2"},
    {SHEET(FIRST "45;\261,05\n"), 52, 2, "a digit with the high bit: 52 2"},

    {SHEET(FIRST "0;1\n45;1,05\n60;1;12\n75;1;31\n"), 52, 4, "the lowest of two bad lines: 52 4"},
    {SHEET(FIRST "0;1\n\n"), 52, 3, "an empty line at the end: 52 3"},
    {SHEET(FIRST "0;1\n" FIRST), 52, 3, "a first line once more: 52 3"}
};

static void try_bad_sheets(void)
{
    unsigned char block[SHEET_FILE_BYTES + BLOCK];
    size_t i;
    for (i = 0; i < sizeof bad_sheets / sizeof bad_sheets[0]; i++) {
        memset(block, 0xee, sizeof block);
        expect(outcome_is(read_text(bad_sheets[i].sheet, bad_sheets[i].bytes, block, sizeof block), bad_sheets[i].code, bad_sheets[i].number),
               bad_sheets[i].what);
        expect(kept(block, 0, sizeof block), "of a refused sheet nothing is written");
        expect(outcome_is(read_text(bad_sheets[i].sheet, bad_sheets[i].bytes, NULL, 0), bad_sheets[i].code, bad_sheets[i].number),
               "51 and 52 are tried before 42");
    }
}

/* First lines that are good, and what they say. */
static const struct {
    const char *sheet;
    size_t bytes, serial;
    unsigned long date;
} firsts[] = {
    {SHEET("L;2024-02-29\n"), 1, 20240229},
    {SHEET("LB;2000-02-29\r\n"), 2, 20000229},
    {SHEET("\0 \377,;0001-01-01\n"), 4, 10101},
    /* a byte order mark is bytes like any other */
    {SHEET("\357\273\277LB;2026-03-14\n"), 5, 20260314},
    {SHEET("01234567890123456789012345678901;9999-12-31\n"), 32, 99991231}
};

static void try_firsts(void)
{
    unsigned char block[SHEET_FILE_BYTES];
    havirozan_property row[2];
    havirozan_places at;
    havirozan_outcome got;
    size_t i;
    for (i = 0; i < sizeof firsts / sizeof firsts[0]; i++) {
        got = read_text(firsts[i].sheet, firsts[i].bytes, block, sizeof block);
        expect(outcome_is(got, 0, (unsigned int)HAVIROZAN_GRAPH_BYTES(2, 1, 2, firsts[i].serial)), "a first line alone is a sheet");
        at = havirozan_find_tables(block, got.number);
        expect(at.code == 0 && at.nodes == 2 && at.edges == 1 && at.rows == 2 && at.text == firsts[i].serial, "its graph has two nodes and an edge");
        if (at.rows != 2)
            continue;
        memcpy(row, block + at.rows_at, sizeof row);
        expect(memcmp(block + at.text_at, firsts[i].sheet, firsts[i].serial) == 0 && row[0].kind == HAVIROZAN_TEXT && row[0].value == 0 &&
               row[0].length == firsts[i].serial, "the serial is the text, byte by byte");
        expect(row[1].kind == HAVIROZAN_DATE && row[1].value == firsts[i].date, "the date is the one of the first line");
    }
}

/* Angles, and their two values. The compiler's own reading of the decimal number is the nearest double, too. */
static const struct {
    const char *line;
    long degrees;
    double coefficient;
} angles[] = {
    {"45;1,05", 45, 1.05},
    {"-45;-1,05", -45, -1.05},
    {"0;0", 0, 0.0},
    {"-0;-0", 0, -0.0},
    {"-000;-000000,000000", 0, -0.0},
    {"0;0,0", 0, 0.0},
    {"007;000001,500000", 7, 1.5},
    {"359;12", 359, 12.0},
    {"-999;-999999", -999, -999999.0},
    {"999;999999,999999", 999, 999999.999999},
    {"1;0,000001", 1, 0.000001},
    {"1;123456,7", 1, 123456.7},
    /* divided digit by digit, or by adding the two sides, or times a hundredth, this would be another double */
    {"1;1,14", 1, 1.14},
    {"1;0,3", 1, 0.3},
    {"1;4,35", 1, 4.35}
};

/* The bits of a row's value are compared, since negative zero is equal to zero. */
static void try_angles(void)
{
    char sheet[64];
    unsigned char block[SHEET_FILE_BYTES];
    havirozan_property row[2];
    havirozan_places at;
    havirozan_outcome got;
    size_t i;
    for (i = 0; i < sizeof angles / sizeof angles[0]; i++) {
        sprintf(sheet, FIRST "%s\n", angles[i].line);
        got = read_text(sheet, strlen(sheet), block, sizeof block);
        at = havirozan_find_tables(block, got.number);
        expect(got.code == 0 && at.code == 0 && at.rows == 4, angles[i].line);
        if (at.rows != 4)
            continue;
        memcpy(row, block + at.rows_at + 2 * sizeof row[0], sizeof row);
        expect(row[0].kind == HAVIROZAN_INTEGER && row[0].value == (unsigned long)angles[i].degrees, angles[i].line);
        expect(row[1].kind == HAVIROZAN_REAL && memcmp(&row[1].value, &angles[i].coefficient, sizeof row[1].value) == 0, angles[i].line);
    }
}

/* ---- the longest sheet: a serial of 32 bytes, 180 angles of the most digits, CR LF at every end */

#define LONGEST_FIRST "01234567890123456789012345678901;9999-12-31\r\n"
#define LONGEST_LINE "-999;-999999,999999\r\n"

static unsigned char longest[HAVIROZAN_SHEET_MOST_BYTES + sizeof LONGEST_LINE];

static void try_longest(void)
{
    const size_t first = sizeof LONGEST_FIRST - 1, line = sizeof LONGEST_LINE - 1;
    const unsigned int n = HAVIROZAN_SHEET_MOST_ANGLES;
    havirozan_places at;
    size_t i;

    memcpy(longest, LONGEST_FIRST, first);
    for (i = 0; i < n + 1; i++)
        memcpy(longest + first + i * line, LONGEST_LINE, line);

    expect(first + n * line == HAVIROZAN_SHEET_MOST_BYTES, "the longest sheet has the bytes that the header says");
    expect(HAVIROZAN_GRAPH_BYTES(n + 2, n + 1, 2 * n + 2, HAVIROZAN_SHEET_MOST_SERIAL) == HAVIROZAN_SHEET_MOST_WRITTEN,
           "its file has the bytes that the header says");
    expect(outcome_is(havirozan_read_sheet(longest, HAVIROZAN_SHEET_MOST_BYTES, most_out, HAVIROZAN_SHEET_MOST_WRITTEN - 1), HAVIROZAN_SHORT_OUTPUT, 0),
           "a byte less is too short for it");
    expect(outcome_is(havirozan_read_sheet(longest, HAVIROZAN_SHEET_MOST_BYTES, most_out, HAVIROZAN_SHEET_MOST_WRITTEN), 0, HAVIROZAN_SHEET_MOST_WRITTEN),
           "the longest sheet is written");
    at = havirozan_find_tables(most_out, HAVIROZAN_SHEET_MOST_WRITTEN);
    expect(at.code == 0 && at.nodes == n + 2 && at.edges == n + 1 && at.rows == 2 * n + 2 && at.text == HAVIROZAN_SHEET_MOST_SERIAL,
           "its file is accepted");

    /* line 182, from its first byte on */
    for (i = HAVIROZAN_SHEET_MOST_BYTES + 1; i <= first + (n + 1) * line; i++)
        expect(outcome_is(havirozan_read_sheet(longest, i, most_out, sizeof most_out), HAVIROZAN_SHEET_LINE, n + 2), "a 181st angle gets 52 and 182");
    /* a bad line before it, the last angle's, comes first; cut to a byte more than the longest sheet, it gets the same */
    longest[first + n * line - 3] = ';';
    expect(outcome_is(havirozan_read_sheet(longest, first + (n + 1) * line, most_out, sizeof most_out), HAVIROZAN_SHEET_LINE, n + 1) &&
           outcome_is(havirozan_read_sheet(longest, HAVIROZAN_SHEET_MOST_BYTES + 1, most_out, sizeof most_out), HAVIROZAN_SHEET_LINE, n + 1),
           "a bad line before a 181st angle is told, also where the sheet is cut");
    /* one line that never ends, and one angle that never ends */
    memset(longest, '1', sizeof longest);
    expect(outcome_is(havirozan_read_sheet(longest, sizeof longest, most_out, sizeof most_out), HAVIROZAN_SHEET_FIRST, 1) &&
           outcome_is(havirozan_read_sheet(longest, HAVIROZAN_SHEET_MOST_BYTES + 1, most_out, sizeof most_out), HAVIROZAN_SHEET_FIRST, 1),
           "a first line that is too long gets 51 and 1, also where the sheet is cut");
    memcpy(longest, LONGEST_FIRST, first);
    expect(outcome_is(havirozan_read_sheet(longest, sizeof longest, most_out, sizeof most_out), HAVIROZAN_SHEET_LINE, 2) &&
           outcome_is(havirozan_read_sheet(longest, HAVIROZAN_SHEET_MOST_BYTES + 1, most_out, sizeof most_out), HAVIROZAN_SHEET_LINE, 2),
           "an angle that is too long gets 52 and 2, also where the sheet is cut");
}

/* ---- join_graphs: the little graph and the sheet's, as the file that they become */

#define JOINED_BYTES 386

static const unsigned char joined_file[JOINED_BYTES] = {
    /* the nodes: the little graph's as they are, the sheet's with their runs moved by 3, the rows of the former */
    0x11, 0x22, 0x33, 0x44, 0x55, 0x66, 0x77, 0x88, 0, 0, 0, 0, 1, 0, 0, 0,
    0, 0, 0, 0, 0, 0, 0, 0, 1, 0, 0, 0, 2, 0, 0, 0,
    1, 0, 0, 0, 0, 0, 0, 0, 3, 0, 0, 0, 1, 0, 0, 0,
    2, 0, 0, 0, 0, 0, 0, 0, 4, 0, 0, 0, 1, 0, 0, 0,
    4, 0, 0, 0, 0, 0, 0, 0, 5, 0, 0, 0, 2, 0, 0, 0,
    4, 0, 0, 0, 0, 0, 0, 0, 7, 0, 0, 0, 2, 0, 0, 0,
    /* the edges: the little graph's run is moved by 6, the sheet's nodes' rows; the ends of the sheet's are moved by 2 and their runs by 4 */
    8, 7, 6, 5, 4, 3, 2, 1, 1, 0, 0, 0, 0, 0, 0, 0, 9, 0, 0, 0, 1, 0, 0, 0,
    8, 0, 0, 0, 0, 0, 0, 0, 3, 0, 0, 0, 2, 0, 0, 0, 10, 0, 0, 0, 0, 0, 0, 0,
    16, 0, 0, 0, 0, 0, 0, 0, 3, 0, 0, 0, 4, 0, 0, 0, 10, 0, 0, 0, 0, 0, 0, 0,
    16, 0, 0, 0, 0, 0, 0, 0, 3, 0, 0, 0, 5, 0, 0, 0, 10, 0, 0, 0, 0, 0, 0, 0,
    /* the property rows of the little graph's nodes */
    255, 0, 5, 0, 2, 0, 0, 0, 1, 0, 0, 0, 0, 0, 0, 0,
    3, 0, 2, 0, 0, 0, 0, 0, 0xfe, 0xff, 0xff, 0xff, 0xff, 0xff, 0xff, 0xff,
    4, 0, 3, 0, 0, 0, 0, 0, 0, 0, 0, 0, 0, 0, 0xf8, 0xbf,
    /* those of the sheet's nodes: the offset of the Text is moved by 3, and nothing else */
    0, 0, 5, 0, 3, 0, 0, 0, 3, 0, 0, 0, 0, 0, 0, 0,
    1, 0, 4, 0, 0, 0, 0, 0, 0xda, 0x25, 0x35, 0x01, 0, 0, 0, 0,
    3, 0, 2, 0, 0, 0, 0, 0, 0xd3, 0xff, 0xff, 0xff, 0xff, 0xff, 0xff, 0xff,
    4, 0, 3, 0, 0, 0, 0, 0, 0xcd, 0xcc, 0xcc, 0xcc, 0xcc, 0xcc, 0xf0, 0x3f,
    3, 0, 2, 0, 0, 0, 0, 0, 7, 0, 0, 0, 0, 0, 0, 0,
    4, 0, 3, 0, 0, 0, 0, 0, 0, 0, 0, 0, 0, 0, 0, 0x80,
    /* that of the little graph's edge */
    0, 0, 4, 0, 0, 0, 0, 0, 0xda, 0x25, 0x35, 0x01, 0, 0, 0, 0,
    /* the text of both */
    0x4c, 0x42, 0xff, 0x4c, 0x42, 0xff,
    /* the trailer: four sums, 64 labels and 256 names, which are the greater ones, back 358, the mark */
    6, 0, 0, 0, 4, 0, 0, 0, 10, 0, 0, 0, 6, 0, 0, 0, 64, 0, 0, 1, 102, 1, 0, 0, 0x47, 0x50, 0x48, 0x31
};

static void try_join(void)
{
    unsigned char block[JOINED_BYTES + BLOCK], with_preface[7 + SHEET_FILE_BYTES];
    havirozan_places at;
    size_t bytes;

    expect(HAVIROZAN_JOINED_COUNT == 44, "a joined count above its ceiling is 44");
    expect(HAVIROZAN_GRAPH_BYTES(6, 4, 10, 6) == JOINED_BYTES, "the header's length of a joined file is the file's");
    for (bytes = 0; bytes < JOINED_BYTES; bytes++) {
        memset(block, 0xee, sizeof block);
        expect(outcome_is(havirozan_join_graphs(file, FILE_BYTES, sheet_file, SHEET_FILE_BYTES, block, bytes), HAVIROZAN_SHORT_OUTPUT, 0),
               "an output shorter than the joined file gets 42 and 0");
        expect(kept(block, 0, sizeof block), "an output shorter than the joined file is not written");
    }
    for (bytes = JOINED_BYTES; bytes <= sizeof block; bytes++) {
        memset(block, 0xee, sizeof block);
        expect(outcome_is(havirozan_join_graphs(file, FILE_BYTES, sheet_file, SHEET_FILE_BYTES, block, bytes), 0, JOINED_BYTES),
               "two good graphs get 0 and the length");
        expect(memcmp(block, joined_file, JOINED_BYTES) == 0, "the joined file is written, byte by byte");
        expect(kept(block, JOINED_BYTES, sizeof block), "bytes after the joined file keep their values");
    }
    at = havirozan_find_tables(joined_file, JOINED_BYTES);
    expect(at.code == 0 && at.nodes == 6 && at.edges == 4 && at.rows == 10 && at.text == 6 && at.labels == LABELS && at.names == NAMES,
           "the joined file is accepted");
    expect(outcome_is(havirozan_join_graphs(file, FILE_BYTES, sheet_file, SHEET_FILE_BYTES, NULL, 0), HAVIROZAN_SHORT_OUTPUT, 0),
           "of two good graphs a null output of 0 bytes gets 42 and 0");

    memset(with_preface, 0xee, 7);
    memcpy(with_preface + 7, sheet_file, SHEET_FILE_BYTES);
    expect(outcome_is(havirozan_join_graphs(file, FILE_BYTES, with_preface, sizeof with_preface, block, sizeof block), 0, JOINED_BYTES) &&
           memcmp(block, joined_file, JOINED_BYTES) == 0, "a preface is left out");
    at = havirozan_find_tables(block, havirozan_join_graphs(with_preface, sizeof with_preface, file, FILE_BYTES, block, sizeof block).number);
    expect(at.code == 0 && at.nodes_at == 0 && at.nodes == 6 && at.edges == 4 && at.rows == 10 && at.text == 6 && at.labels == LABELS && at.names == NAMES,
           "the other way round it has as many of all, and the greater counts, too");
}

/* The little graph with itself, the same block lent twice: each violation stands in the list twice, the second time with its place moved by the
   two nodes or by the one edge. */
static void try_join_twice(void)
{
    unsigned char twice[2 * FILE_BYTES], changed[SCHEMA_BYTES];
    havirozan_finding list[2 * VIOLATIONS + 1];
    const unsigned int *owed, length = 2 * FILE_BYTES - HAVIROZAN_GRAPH_TRAILER_BYTES;
    havirozan_listed all;
    size_t i, n;

    memset(twice, 0xee, sizeof twice);
    expect(outcome_is(havirozan_join_graphs(file, FILE_BYTES, file, FILE_BYTES, twice, sizeof twice), 0, length),
           "a block is joined with itself");
    expect(kept(twice, length, sizeof twice), "bytes after it keep their values");
    for (i = 0; i < sizeof changes / sizeof changes[0]; i++) {
        change(changed, i);
        all = havirozan_check_all(twice, length, changed, sizeof changed, list, sizeof list / sizeof list[0]);
        if (changes[i].owed[0][0] <= HAVIROZAN_SCHEMA_PROPERTY) {
            expect(listed_is(all, changes[i].owed[0][0], changes[i].owed[0][1], 0), "joined twice it conforms as it does once, or the schema is refused");
            continue;
        }
        for (n = 0; n < VIOLATIONS && changes[i].owed[n][0] != 0; n++) {
            const unsigned int moved = changes[i].owed[n][0] >= HAVIROZAN_EDGE_LABELS && changes[i].owed[n][0] <= HAVIROZAN_EDGE_ENDS ? EDGES : NODES;
            owed = changes[i].owed[n];
            expect(2 * n + 1 < all.total && finding_is(list[2 * n], owed[0], owed[1], owed[2], owed[3], owed[4]) &&
                   finding_is(list[2 * n + 1], owed[0], owed[1] + moved, owed[2], owed[3], owed[4]), changes[i].what);
        }
        expect(listed_is(all, 0, 0, (unsigned int)(2 * n)), "joined twice it has twice the violations");
    }
}

/* The little graph with a byte changed, or cut short, and the refusal that it gets. */
static const struct {
    unsigned int code;
    size_t cut, at;
    unsigned char byte;
} bad_graphs[] = {
    {0, 0, 0, 0x11},
    {2, FILE_BYTES - 27, 0, 0x11},
    {3, 0, FILE_BYTES - 1, 0x32},
    {4, 0, FILE_BYTES - 27, 8},
    {5, 0, FILE_BYTES - 8, 124},
    {6, 0, 24, 2},
    {7, 0, 44, 2},
    {8, 0, 58, 6}
};

/* Each as the first with each as the second. What is refused is so whatever the output is. */
static void try_bad_joins(void)
{
    unsigned char first[FILE_BYTES], second[FILE_BYTES], block[2 * FILE_BYTES];
    const size_t count = sizeof bad_graphs / sizeof bad_graphs[0];
    unsigned int code, which;
    size_t i, j;

    expect(outcome_is(havirozan_join_graphs(NULL, 0, NULL, 0, NULL, 0), HAVIROZAN_GRAPH_LENGTH, 0), "three null blocks of 0 bytes get 2 and 0");
    expect(outcome_is(havirozan_join_graphs(file, FILE_BYTES, NULL, 0, NULL, 0), HAVIROZAN_GRAPH_LENGTH, 1), "a second of 0 bytes gets 2 and 1");
    for (i = 0; i < count; i++) {
        for (j = 0; j < count; j++) {
            memcpy(first, file, FILE_BYTES);
            memcpy(second, file, FILE_BYTES);
            first[bad_graphs[i].at] = bad_graphs[i].byte;
            second[bad_graphs[j].at] = bad_graphs[j].byte;
            if (i == 0 && j == 0)
                continue;
            code = bad_graphs[i].code != 0 ? bad_graphs[i].code : bad_graphs[j].code;
            which = bad_graphs[i].code == 0;
            memset(block, 0xee, sizeof block);
            expect(outcome_is(havirozan_join_graphs(first + bad_graphs[i].cut, FILE_BYTES - bad_graphs[i].cut, second + bad_graphs[j].cut,
                                                    FILE_BYTES - bad_graphs[j].cut, block, sizeof block), code, which),
                   "a bad graph gets its code, and 0 for the first or 1 for the second, the first before the second");
            expect(kept(block, 0, sizeof block), "of a bad graph nothing is written");
            expect(outcome_is(havirozan_join_graphs(first + bad_graphs[i].cut, FILE_BYTES - bad_graphs[i].cut, second + bad_graphs[j].cut,
                                                    FILE_BYTES - bad_graphs[j].cut, NULL, 0), code, which), "2 to 8 are tried before 42");
        }
    }
}

/* Two halves of the greatest graph; and the same with one more node, edge, property row or text byte, which the other half does not leave room for. */
static unsigned char half[HAVIROZAN_GRAPH_MOST_WRITTEN], half_and_one[HAVIROZAN_GRAPH_MOST_WRITTEN], most_joined[HAVIROZAN_GRAPH_MOST_WRITTEN + BLOCK];

static void try_most_joined(void)
{
    const unsigned int n = HAVIROZAN_GRAPH_MOST_NODES / 2U, e = HAVIROZAN_GRAPH_MOST_EDGES / 2U, p = HAVIROZAN_GRAPH_MOST_PROPERTIES / 2U,
                       t = HAVIROZAN_GRAPH_MOST_TEXT / 2U, half_bytes = (HAVIROZAN_GRAPH_MOST_WRITTEN - HAVIROZAN_GRAPH_TRAILER_BYTES) / 2U + HAVIROZAN_GRAPH_TRAILER_BYTES;
    havirozan_outcome written;
    unsigned int i;

    most_nodes[n].first = p;
    most_nodes[n].count = 0;
    for (i = 0; i <= e; i++)
        most_edges[i].first = p;
    expect(outcome_is(write_most(n, e, p, t, sizeof most_out), 0, half_bytes), "half of the greatest graph is written");
    memcpy(half, most_out, half_bytes);
    memset(most_joined, 0xee, sizeof most_joined);
    expect(outcome_is(havirozan_join_graphs(half, half_bytes, half, half_bytes, most_joined, HAVIROZAN_GRAPH_MOST_WRITTEN - 1U), HAVIROZAN_SHORT_OUTPUT, 0) &&
           kept(most_joined, 0, sizeof most_joined), "a byte less than two halves is too short for them");
    expect(outcome_is(havirozan_join_graphs(half, half_bytes, half, half_bytes, most_joined, HAVIROZAN_GRAPH_MOST_WRITTEN), 0, HAVIROZAN_GRAPH_MOST_WRITTEN) &&
           kept(most_joined, HAVIROZAN_GRAPH_MOST_WRITTEN, sizeof most_joined), "two halves are joined, in the room that is enough for every two graphs");
    expect(havirozan_find_tables(most_joined, HAVIROZAN_GRAPH_MOST_WRITTEN).code == 0, "the greatest joined graph is accepted");

    for (i = 0; i < 4; i++) {
        most_edges[e - 1].count = i == 2;
        written = write_most(n + (i == 0), e + (i == 1), p + (i == 2), t + (i == 3), sizeof most_out);
        expect(written.code == 0, "half of the greatest graph and one more are written");
        memcpy(half_and_one, most_out, written.number);
        memset(most_joined, 0xee, sizeof most_joined);
        expect(outcome_is(havirozan_join_graphs(half, half_bytes, half_and_one, written.number, most_joined, sizeof most_joined), HAVIROZAN_JOINED_COUNT, 0) &&
               outcome_is(havirozan_join_graphs(half_and_one, written.number, half, half_bytes, most_joined, sizeof most_joined), HAVIROZAN_JOINED_COUNT, 0) &&
               kept(most_joined, 0, sizeof most_joined), "one more node, edge, property row or text byte than a graph has gets 44 and 0, and nothing is written");
        expect(outcome_is(havirozan_join_graphs(half, half_bytes, half_and_one, written.number, NULL, 0), HAVIROZAN_JOINED_COUNT, 0), "44 is tried before 42");
        half_and_one[written.number - 1] = 0x32;
        expect(outcome_is(havirozan_join_graphs(half, half_bytes, half_and_one, written.number, NULL, 0), HAVIROZAN_GRAPH_MARK, 1), "2 to 8 are tried before 44");
    }
}

int main(void)
{
    try_version();
    try_blocks();
    try_rows();
    try_numbers();
    try_lists();
    try_refused_lists();
    fill();
    try_write();
    try_refused_tables();
    try_find();
    try_most();
    try_most_listed();
    try_sheet();
    try_bad_sheets();
    try_firsts();
    try_angles();
    try_longest();
    try_join();
    try_join_twice();
    try_bad_joins();
    try_most_joined();
    return wrong;
}
