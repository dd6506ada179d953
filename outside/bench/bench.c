/*
 * Measures the proved functions against plain C, the second program and, for `check`, SQL, in one process and one run.
 *
 *     bench time SQL INPUTS OUT ROUNDS TURN MOST [SPARED]    times the pairs, the sheets and the joins in INPUTS and writes the measurement to OUT
 *     bench agree SQL DATA PAIRS SHEET..                     compares what the programs give on each pair that the file PAIRS names, and on each sheet
 *     bench joins DATA JOINS [DATA JOINS]..                  the same of the two graphs in each line of each file JOINS
 *
 * SQL is the folder of tables.sql and rules.sql; it is spared the pairs that SPARED names. In each round every program has its turn at every function on
 * every input, until it has spent MOST milliseconds on it. A turn repeats the call for about TURN milliseconds. The time is that of the processor
 * in this process, so that other work on the machine counts as little as possible.
 *
 * The plain C is there by two compilers, so that the faster one can be taken: `check`, `check_all` and `join_graphs` are plain.c, the others are baseline.c
 * and sheet.c. Besides there are free.c, by both, and the `check` of baseline.c.
 *
 * It fails where two programs do not agree in every number, or in a byte of what `write_graph`, `read_sheet` or `join_graphs` writes. Compiled with WITHOUT_SQL it leaves
 * SQL out; with WITHOUT_CLANG, the C by clang; with WITHOUT_OURS, the proved functions, whose archive is for x86-64 alone.
 */
#define _POSIX_C_SOURCE 200809L
/* it is linked with the archive itself */
#define HAVIROZAN_BARE_NAMES
#include <stdint.h>
#include <stdio.h>
#include <stdlib.h>
#include <string.h>
#include <time.h>

#include "baseline.h"
#include "havirozan.h"
#include "plain.h"
#include "stack.h"
#ifndef WITHOUT_SQL
#include "sql.h"
#endif

typedef unsigned int check_entry(const unsigned char *, size_t, const unsigned char *, size_t, unsigned char *, size_t);
typedef havirozan_listed list_entry(const unsigned char *, size_t, const unsigned char *, size_t, havirozan_finding *, size_t);
typedef havirozan_outcome write_entry(const void *, size_t, const void *, size_t, const void *, size_t, const void *, size_t,
                                      unsigned int, unsigned int, unsigned char *, size_t);
typedef havirozan_places find_entry(const unsigned char *, size_t);
typedef havirozan_outcome read_entry(const unsigned char *, size_t, unsigned char *, size_t);
typedef havirozan_outcome join_entry(const unsigned char *, size_t, const unsigned char *, size_t, unsigned char *, size_t);

check_entry second_check;
list_entry second_check_all;
write_entry second_write_graph, clang_write_graph;
find_entry second_find_tables, clang_find_tables;
read_entry second_read_sheet, clang_read_sheet;
join_entry second_join_graphs;

enum { CHECK, LIST, WRITE, FIND, READ, JOIN, FUNCTION_COUNT };
enum { ANSWER_NUMBERS = HAVIROZAN_ANSWER_BYTES / 4 };
enum { GRAPHS = 3, JUDGED = 5, PAIRS = 7, SHEETS = 9, INPUTS = 13 };
enum { MOST_ROUNDS = 101, PATH_BYTES = 4096, MOST_NUMBERS = 12, SPARE = 64, PAINT = 0xa5, LARGE = 100000 };

/* The pairs, then the sheets, and then the joins. To the functions that take a graph alone `rule4` and `several` are `ceilings` and `worst`; the last two pairs are for
   `check_all` alone, since `check` stops at the first violation. */
static const char *const NAMES[INPUTS] = { "bench", "ceilings", "worst", "rule4", "several", "faulty", "numbers", "good", "most",
                                           "benches", "halves", "texts", "rows" };

struct block {
    unsigned char *bytes;
    size_t size;
};

/* What is lent to `write_graph`: the node rows, the edge rows, the property rows and the text, where they lie; and room for the file. */
struct lent {
    struct block tables[4], room;
    unsigned int labels, names;
};

/* The files of a pair and what `write_graph` and `check_all` are lent, or a sheet and the room for its graph, or two graphs and the room for the joined one;
   and what is owed: the numbers of each function, the output block after `write_graph`, `read_sheet` or `join_graphs`, and the list after `check_all`. Block
   and list are longer than any room in them, so that what is written after the room is seen. */
struct input {
    const char *name;
    struct block graph, schema, sheet, second, out, owed_out, list, owed_list;
    struct lent lent;
    size_t records; /* the room in the list */
    unsigned int owed[FUNCTION_COUNT][MOST_NUMBERS];
    double load_ns;
    struct sql *sql;
};

static void die(const char *what, const char *which)
{
    fprintf(stderr, "bench: %s%s\n", what, which);
    exit(1);
}

/* ---- files */

static struct block block_of(size_t size)
{
    struct block b = { malloc(size), size };
    if (b.bytes == NULL)
        die("no memory", "");
    return b;
}

/* A file's bytes, and a 0 after them for those that are text. A file that is not there has none. */
static struct block load(const char *folder, const char *name)
{
    struct block b = block_of(HAVIROZAN_GRAPH_MOST_BYTES + 2);
    char path[PATH_BYTES];
    snprintf(path, sizeof path, "%s/%s", folder, name);
    FILE *file = fopen(path, "rb");
    b.size = 0;
    if (file != NULL) {
        b.size = fread(b.bytes, 1, HAVIROZAN_GRAPH_MOST_BYTES + 1, file);
        fclose(file);
    }
    b.bytes[b.size] = 0;
    return b;
}

/* ---- the programs */

/* What a program does not have is NULL. SQL has none of the functions: it is asked in another way, and about `check` alone. */
struct program {
    const char *name;
    check_entry *check;
    list_entry *list;
    write_entry *write;
    find_entry *find;
    read_entry *read;
    join_entry *join;
    int on_stack; /* whether it needs no more than its stack, so that this is worth measuring */
};

static const struct program PROGRAMS[] = {
#ifndef WITHOUT_OURS
    { "ours", check, check_all, write_graph, find_tables, read_sheet, join_graphs, 1 },
#endif
    { "gcc", plain_gcc_check, plain_gcc_check_all, baseline_write_graph, baseline_find_tables, baseline_read_sheet, plain_gcc_join_graphs, 1 },
    { "gcc_free", free_gcc_check, NULL, NULL, NULL, NULL, NULL, 0 },
#ifndef WITHOUT_CLANG
    { "clang", plain_clang_check, plain_clang_check_all, clang_write_graph, clang_find_tables, clang_read_sheet, plain_clang_join_graphs, 1 },
    { "clang_free", free_clang_check, NULL, NULL, NULL, NULL, NULL, 0 },
#endif
    { "before", baseline_check, NULL, NULL, NULL, NULL, NULL, 1 },
    { "second", second_check, second_check_all, second_write_graph, second_find_tables, second_read_sheet, second_join_graphs, 0 },
#ifndef WITHOUT_SQL
    { "sql", NULL, NULL, NULL, NULL, NULL, NULL, 0 },
#endif
};

enum { COUNT = sizeof PROGRAMS / sizeof PROGRAMS[0] };

/* ---- the functions, each giving its numbers for a program and an input */

static void by_check(const struct program *p, const struct input *in, unsigned int *numbers)
{
    unsigned char answer[HAVIROZAN_ANSWER_BYTES];
#ifndef WITHOUT_SQL
    if (p->check == NULL) {
        sql_check(in->sql, numbers);
        return;
    }
#endif
    memset(answer, PAINT, sizeof answer); /* else a number that is not written could be that of the program before */
    unsigned int code = p->check(in->graph.bytes, in->graph.size, in->schema.bytes, in->schema.size, answer, sizeof answer);
    for (unsigned int i = 0; i < ANSWER_NUMBERS; i++)
        numbers[i] = HAVIROZAN_NUMBER(answer, 4 * i);
    if (numbers[0] != code)
        die("the code that is returned is not the one that is written, on ", in->name);
}

static void by_list(const struct program *p, const struct input *in, unsigned int *numbers)
{
    havirozan_listed listed = p->list(in->graph.bytes, in->graph.size, in->schema.bytes, in->schema.size, (havirozan_finding *)in->list.bytes, in->records);
    numbers[0] = listed.refusal;
    numbers[1] = listed.place;
    numbers[2] = listed.total;
}

static void by_write(const struct program *p, const struct input *in, unsigned int *numbers)
{
    const struct lent *l = &in->lent;
    const struct block *t = l->tables;
    havirozan_outcome outcome = p->write(t[0].bytes, t[0].size, t[1].bytes, t[1].size, t[2].bytes, t[2].size, t[3].bytes,
                                         t[3].size, l->labels, l->names, l->room.bytes, l->room.size);
    numbers[0] = outcome.code;
    numbers[1] = outcome.number;
}

static void by_find(const struct program *p, const struct input *in, unsigned int *numbers)
{
    havirozan_places places = p->find(in->graph.bytes, in->graph.size);
    _Static_assert(sizeof places == MOST_NUMBERS * sizeof *numbers, "twelve numbers");
    memcpy(numbers, &places, sizeof places);
}

static void by_read(const struct program *p, const struct input *in, unsigned int *numbers)
{
    havirozan_outcome outcome = p->read(in->sheet.bytes, in->sheet.size, in->lent.room.bytes, in->lent.room.size);
    numbers[0] = outcome.code;
    numbers[1] = outcome.number;
}

static void by_join(const struct program *p, const struct input *in, unsigned int *numbers)
{
    havirozan_outcome outcome = p->join(in->graph.bytes, in->graph.size, in->second.bytes, in->second.size, in->lent.room.bytes, in->lent.room.size);
    numbers[0] = outcome.code;
    numbers[1] = outcome.number;
}

static const struct function {
    const char *name;
    void (*run)(const struct program *, const struct input *, unsigned int *);
    unsigned int numbers; /* how many it gives */
    int from, to;         /* the inputs on which it is timed: from the one, and before the other */
    int writes;           /* whether it writes a file or a list */
} FUNCTIONS[FUNCTION_COUNT] = {
    [CHECK] = { "check", by_check, ANSWER_NUMBERS, 0, JUDGED, 0 },
    [LIST] = { "check_all", by_list, 3, 0, PAIRS, 1 },
    [WRITE] = { "write_graph", by_write, 2, 0, GRAPHS, 1 },
    [FIND] = { "find_tables", by_find, MOST_NUMBERS, 0, GRAPHS, 0 },
    [READ] = { "read_sheet", by_read, 2, PAIRS, SHEETS, 1 },
    [JOIN] = { "join_graphs", by_join, 2, SHEETS, INPUTS, 1 },
};

static int is_sheet(const struct input *in)
{
    return in->sheet.bytes != NULL;
}

static int is_join(const struct input *in)
{
    return in->second.bytes != NULL;
}

/* A sheet is for `read_sheet`, two graphs are for `join_graphs`, and a pair for the others. SQL's tables are not there where it is spared a pair. */
static int is_asked(int f, const struct program *p, const struct input *in)
{
    const int pair = !is_sheet(in) && !is_join(in);
    switch (f) {
    case CHECK: return pair && (p->check != NULL || in->sql != NULL);
    case LIST: return pair && p->list != NULL;
    case WRITE: return pair && p->write != NULL;
    case FIND: return pair && p->find != NULL;
    case READ: return is_sheet(in) && p->read != NULL;
    default: return is_join(in) && p->join != NULL;
    }
}

/* ---- what is owed is what the first program gives */

static void paint(const struct input *in)
{
    memset(in->out.bytes, PAINT, in->out.size);
    memset(in->list.bytes, PAINT, in->list.size);
}

static void owe(struct input *in)
{
    paint(in);
    for (int f = 0; f < FUNCTION_COUNT; f++)
        if (is_asked(f, &PROGRAMS[0], in))
            FUNCTIONS[f].run(&PROGRAMS[0], in, in->owed[f]);
    memcpy(in->owed_out.bytes, in->out.bytes, in->out.size);
    memcpy(in->owed_list.bytes, in->list.bytes, in->list.size);
}

static int same_bytes(struct block a, struct block b)
{
    return memcmp(a.bytes, b.bytes, a.size) == 0;
}

static void tell(const struct program *p, const unsigned int *numbers, unsigned int count)
{
    fprintf(stderr, "    %s gives", p->name);
    for (unsigned int i = 0; i < count; i++)
        fprintf(stderr, " %u", numbers[i]);
    fprintf(stderr, "\n");
}

/* Ends all unless these numbers, and what a function writes, are what is owed. */
static void must_agree(int f, const struct program *p, const struct input *in, const unsigned int *numbers)
{
    unsigned int count = FUNCTIONS[f].numbers;
    int same = memcmp(numbers, in->owed[f], count * sizeof *numbers) == 0;
    if (same && (!FUNCTIONS[f].writes || (f == LIST ? same_bytes(in->list, in->owed_list) : same_bytes(in->out, in->owed_out))))
        return;
    fprintf(stderr, "bench: %s on %s: %s\n", FUNCTIONS[f].name, in->name, same ? "other bytes are written" : "other numbers");
    tell(&PROGRAMS[0], in->owed[f], count);
    tell(p, numbers, count);
    exit(1);
}

/* ---- pairs, sheets and joins */

/* The tables of the graph file where they lie in it, or empty ones, if it is refused. */
static struct lent lend(struct block graph, struct block out)
{
    havirozan_places at = PROGRAMS[0].find(graph.bytes, graph.size);
    return (struct lent){
        .tables = {
            { graph.bytes + at.nodes_at, at.nodes * HAVIROZAN_GRAPH_NODE_BYTES },
            { graph.bytes + at.edges_at, at.edges * HAVIROZAN_GRAPH_EDGE_BYTES },
            { graph.bytes + at.rows_at, at.rows * HAVIROZAN_GRAPH_PROPERTY_BYTES },
            { graph.bytes + at.text_at, at.text },
        },
        .room = { out.bytes, out.size - SPARE },
        .labels = at.labels,
        .names = at.names,
    };
}

static struct input load_pair(const char *name, const char *folder, const char *graph, const char *schema)
{
    struct input in = { .name = name, .graph = load(folder, graph), .schema = load(folder, schema) };
    /* what is written is no longer than the file with the tables, or than the smallest one */
    in.out = block_of(in.graph.size + HAVIROZAN_GRAPH_TRAILER_BYTES + SPARE);
    in.owed_out = block_of(in.out.size);
    in.lent = lend(in.graph, in.out);
    /* room for all violations, and a record behind it */
    in.records = PROGRAMS[0].list(in.graph.bytes, in.graph.size, in.schema.bytes, in.schema.size, NULL, 0).total + 1;
    in.list = block_of((in.records + 1) * sizeof(havirozan_finding));
    in.owed_list = block_of(in.list.size);
    return in;
}

static struct input load_sheet(const char *name, const char *folder, const char *sheet)
{
    struct input in = { .name = name, .sheet = load(folder, sheet), .out = block_of(HAVIROZAN_SHEET_MOST_WRITTEN + SPARE), .list = block_of(1), .owed_list = block_of(1) };
    in.owed_out = block_of(in.out.size);
    in.lent.room = (struct block){ in.out.bytes, in.out.size - SPARE };
    return in;
}

/* Where both names are the same, both are the same block, which is lent twice. */
static struct input load_join(const char *name, const char *folder, const char *first, const char *second)
{
    struct input in = { .name = name, .graph = load(folder, first), .list = block_of(1), .owed_list = block_of(1) };
    in.second = strcmp(first, second) == 0 ? in.graph : load(folder, second);
    in.out = block_of(in.graph.size + in.second.size + SPARE);
    in.owed_out = block_of(in.out.size);
    in.lent.room = (struct block){ in.out.bytes, in.out.size - SPARE };
    return in;
}

static void free_input(const struct input *in)
{
    if (in->second.bytes != in->graph.bytes)
        free(in->second.bytes);
    free(in->graph.bytes);
    free(in->schema.bytes);
    free(in->sheet.bytes);
    free(in->out.bytes);
    free(in->owed_out.bytes);
    free(in->list.bytes);
    free(in->owed_list.bytes);
}

/* Whether the files are good, so that there are tables of them to ask SQL about. */
static int is_accepted(const struct input *in)
{
    return in->owed[CHECK][0] == 0 || in->owed[CHECK][0] > 20;
}

/* ---- SQL's tables */

static struct block tables, rules;

static void load_sql_text(const char *folder)
{
    tables = load(folder, "tables.sql");
    rules = load(folder, "rules.sql");
    if (tables.size == 0 || rules.size == 0)
        die("no tables.sql or rules.sql in ", folder);
}

static double now_ns(void)
{
    struct timespec t;
    clock_gettime(CLOCK_PROCESS_CPUTIME_ID, &t);
    return (double)t.tv_sec * 1e9 + (double)t.tv_nsec;
}

static void fill_sql(struct input *in)
{
#ifndef WITHOUT_SQL
    double start = now_ns();
    in->sql = sql_load((const char *)tables.bytes, (const char *)rules.bytes, in->graph.bytes, in->graph.size,
                       in->schema.bytes, in->schema.size);
    in->load_ns = now_ns() - start;
#else
    in->load_ns = 0;
#endif
}

static void close_sql(struct input *in)
{
#ifndef WITHOUT_SQL
    if (in->sql != NULL)
        sql_close(in->sql);
    in->sql = NULL;
#else
    (void)in;
#endif
}

/* ---- agreement */

static unsigned int chance(unsigned int below)
{
    static uint64_t state = 1;
    state = state * 6364136223846793005u + 1442695040888963407u;
    return (unsigned int)(state >> 33) % below;
}

static void compare(struct input *in, int with_sql)
{
    unsigned int numbers[MOST_NUMBERS];
    owe(in);
    if (with_sql && is_accepted(in))
        fill_sql(in);
    for (int f = 0; f < FUNCTION_COUNT; f++) {
        for (int p = 1; p < COUNT; p++) {
            if (!is_asked(f, &PROGRAMS[p], in))
                continue;
            paint(in);
            FUNCTIONS[f].run(&PROGRAMS[p], in, numbers);
            must_agree(f, &PROGRAMS[p], in, numbers);
        }
    }
    close_sql(in);
}

/* Changes what is lent besides the bytes of the tables: a table is cut short, somewhere or by a row, or has some bytes more, which are the trailer's
   at the latest; a count is another one; or there is less room. */
static void change_lent(struct lent *l)
{
    static const size_t ROW[4] = { HAVIROZAN_GRAPH_NODE_BYTES, HAVIROZAN_GRAPH_EDGE_BYTES, HAVIROZAN_GRAPH_PROPERTY_BYTES, 1 };
    unsigned int which = chance(4);
    size_t *size = &l->tables[which].size;
    switch (chance(7)) {
    case 0: *size = chance((unsigned int)*size + 1); break;
    case 1: *size -= *size < ROW[which] ? 0 : ROW[which]; break;
    case 2: *size += chance(16); break;
    case 3: l->labels = chance(80); break;
    case 4: l->names = chance(300); break;
    case 5: *(chance(2) ? &l->labels : &l->names) += 65536; break;
    default: l->room.size = chance((unsigned int)l->room.size + 1); break;
    }
}

/* Changes a byte for a moment, mostly to a small number, since rows are full of these. Where it is the schema's, the writer does not see it, and so what
   it is lent is changed, too. */
static void compare_damaged(struct input *in, struct block *b)
{
    struct lent kept = in->lent;
    size_t records = in->records;
    if (b->size == 0)
        return;
    unsigned char *at = b->bytes + chance((unsigned int)b->size), kept_byte = *at;
    *at = (unsigned char)(chance(3) == 0 ? chance(256) : chance(6));
    if (b == &in->schema)
        change_lent(&in->lent);
    in->records = chance((unsigned int)records + 1);
    compare(in, chance(64) == 0);
    *at = kept_byte;
    in->lent = kept;
    in->records = records;
}

static void agree(const char *data, const char *pairs)
{
    char graph[256], schema[256], both[600];
    unsigned int whole = 0, damaged = 0, named = 0, several = 0, cut = 0, written = 0, bad_tables = 0, short_outputs = 0;
    FILE *list = fopen(pairs, "r");
    if (list == NULL)
        die("cannot read ", pairs);
    while (fscanf(list, "%255s %255s", graph, schema) == 2) {
        snprintf(both, sizeof both, "%s and %s", graph, schema);
        struct input in = load_pair(both, data, graph, schema);
        compare(&in, 1);
        whole++;
        for (int i = 0; i < (in.graph.size < LARGE ? 40 : 8); i++, damaged++) {
            compare_damaged(&in, i % 2 ? &in.schema : &in.graph);
            named += in.owed[CHECK][0] == HAVIROZAN_NODE_RECORD || in.owed[CHECK][0] == HAVIROZAN_EDGE_RECORD;
            several += in.owed[LIST][2] > 1;
            cut += in.owed[LIST][2] > in.records;
            written += in.owed[WRITE][0] == 0;
            bad_tables += in.owed[WRITE][0] == HAVIROZAN_TABLES;
            short_outputs += in.owed[WRITE][0] == HAVIROZAN_SHORT_OUTPUT;
        }
        free_input(&in);
    }
    fclose(list);
    if (whole == 0)
        die("no pairs in ", pairs);
    printf("bench: all agree on %u pairs, and on %u with a byte or what is lent changed: %u name a property; %u list several violations, %u more than "
           "there is room for; %u written, %u bad tables, %u short outputs\n", whole, damaged, named, several, cut, written, bad_tables, short_outputs);
}

/* Changes a byte of the sheet, mostly to one that sheets have, takes it out or puts one in; makes a digit another digit, which a good sheet mostly
   survives; cuts the sheet; or leaves less room. A quarter of the changes are near the start, so that the first line has its share. */
static void change_sheet(struct block *sheet, struct block *room)
{
    static const char USUAL[] = "0123456789;,-\r\n .+";
    unsigned int size = (unsigned int)sheet->size, at = chance(chance(4) == 0 && size > 40 ? 40 : size + 1);
    unsigned char *place = sheet->bytes + at, byte = (unsigned char)(chance(8) ? USUAL[chance(sizeof USUAL - 1)] : (int)chance(256));
    switch (chance(8)) {
    case 0: room->size = chance((unsigned int)room->size + 1); break;
    case 1: sheet->size = at; break;
    case 2:
        memmove(place + 1, place, size - at);
        *place = byte;
        sheet->size++;
        break;
    case 3:
        if (at < size)
            memmove(place, place + 1, --sheet->size - at);
        break;
    case 4:
        if (at < size)
            *place = byte;
        break;
    default:
        if (at < size && *place >= '0' && *place <= '9')
            *place = (unsigned char)('0' + chance(10));
        break;
    }
}

static void agree_on_sheets(char **sheets, int count)
{
    unsigned int damaged = 0, written = 0, first = 0, later = 0, short_outputs = 0;
    for (int i = 0; i < count; i++) {
        struct input in = load_sheet(sheets[i], ".", sheets[i]);
        const struct block sheet = in.sheet, room = in.lent.room;
        compare(&in, 0);
        for (int k = 0; k < 1000; k++, damaged++) {
            in.sheet = block_of(sheet.size + 2);
            memcpy(in.sheet.bytes, sheet.bytes, sheet.size);
            in.sheet.size = sheet.size;
            for (unsigned int changes = 1 + chance(2); changes > 0; changes--)
                change_sheet(&in.sheet, &in.lent.room);
            compare(&in, 0);
            written += in.owed[READ][0] == 0;
            first += in.owed[READ][0] == HAVIROZAN_SHEET_FIRST;
            later += in.owed[READ][0] == HAVIROZAN_SHEET_LINE;
            short_outputs += in.owed[READ][0] == HAVIROZAN_SHORT_OUTPUT;
            free(in.sheet.bytes);
            in.sheet = sheet;
            in.lent.room = room;
        }
        free_input(&in);
    }
    printf("bench: all agree on %d sheets, and on %u that were changed: %u written, %u bad first lines, %u bad later lines, %u short outputs\n", count,
           damaged, written, first, later, short_outputs);
}

/* Changes a byte for a moment, of the first graph, of the second or of both where they are one block, every third time in a trailer; or leaves less room. */
static void compare_changed_join(struct input *in)
{
    const struct block b = chance(2) ? in->graph : in->second, room = in->lent.room;
    unsigned char nothing = 0, *at = &nothing;
    if (chance(6) == 0)
        in->lent.room.size = chance((unsigned int)room.size + 1);
    else if (b.size >= HAVIROZAN_GRAPH_TRAILER_BYTES && chance(3) == 0)
        at = b.bytes + b.size - 1 - chance(HAVIROZAN_GRAPH_TRAILER_BYTES);
    else if (b.size != 0)
        at = b.bytes + chance((unsigned int)b.size);
    unsigned char kept = *at;
    *at = (unsigned char)(chance(3) == 0 ? chance(256) : chance(6));
    compare(in, 0);
    *at = kept;
    in->lent.room = room;
}

/* How many joins there were, whole and changed, and what became of them. */
static struct { unsigned int whole, changed, written, refused[2], too_many, short_outputs; } joined;

static void count_join(const unsigned int *numbers)
{
    joined.written += numbers[0] == 0;
    joined.too_many += numbers[0] == HAVIROZAN_JOINED_COUNT;
    joined.short_outputs += numbers[0] == HAVIROZAN_SHORT_OUTPUT;
    if (numbers[0] != 0 && numbers[0] <= HAVIROZAN_GRAPH_PROPERTY)
        joined.refused[numbers[1] & 1]++;
}

static void agree_on_joins(const char *data, const char *joins)
{
    char first[256], second[256], both[600];
    FILE *list = fopen(joins, "r");
    if (list == NULL)
        die("cannot read ", joins);
    while (fscanf(list, "%255s %255s", first, second) == 2) {
        snprintf(both, sizeof both, "%s and %s", first, second);
        struct input in = load_join(both, data, first, second);
        compare(&in, 0);
        joined.whole++;
        count_join(in.owed[JOIN]);
        for (int i = 0; i < (in.out.size < LARGE ? 40 : 8); i++, joined.changed++) {
            compare_changed_join(&in);
            count_join(in.owed[JOIN]);
        }
        free_input(&in);
    }
    fclose(list);
}

static void agree_on_all_joins(char **words, int count)
{
    for (int i = 0; i < count; i += 2)
        agree_on_joins(words[i], words[i + 1]);
    if (!joined.written || !joined.refused[0] || !joined.refused[1] || !joined.too_many || !joined.short_outputs)
        die("the joins leave an outcome out", "");
    printf("bench: all agree on %u joins, and on %u with a byte or the room changed: %u written, %u first and %u second graphs refused, %u counts too high, "
           "%u short outputs\n", joined.whole, joined.changed, joined.written, joined.refused[0], joined.refused[1], joined.too_many, joined.short_outputs);
}

/* ---- stack */

struct stack_job {
    int function;
    const struct program *program;
    const struct input *in;
};

static void stack_job(void *with)
{
    const struct stack_job *job = with;
    static unsigned int numbers[MOST_NUMBERS];
    FUNCTIONS[job->function].run(job->program, job->in, numbers);
}

/* ---- time */

struct series {
    double ns[MOST_ROUNDS];
    unsigned int count, batch;
    double spent_ns;
};

static struct series all[FUNCTION_COUNT][INPUTS][COUNT];

static void take(struct series *s, double ns)
{
    s->ns[s->count++] = ns;
    s->spent_ns += ns * s->batch;
}

static double turn(int f, const struct program *p, const struct input *in, unsigned int batch)
{
    unsigned int numbers[MOST_NUMBERS];
    if (FUNCTIONS[f].writes)
        paint(in);
    double start = now_ns();
    for (unsigned int i = 0; i < batch; i++)
        FUNCTIONS[f].run(p, in, numbers);
    double end = now_ns();
    must_agree(f, p, in, numbers);
    return (end - start) / batch;
}

/* The first call is not counted, since pages and, in an emulator, the code itself are fetched by it; but where it takes half a second or
   more, that is nothing, and it is the first turn. */
static void calibrate(int f, const struct program *p, const struct input *in, struct series *s, double turn_ns)
{
    s->batch = 1;
    double one = turn(f, p, in, 1);
    if (one > 5e8) {
        take(s, one);
        return;
    }
    one = turn(f, p, in, 1);
    if (one < turn_ns)
        s->batch = (unsigned int)(turn_ns / (one < 100 ? 100 : one)) + 1;
}

static int ascending(const void *a, const void *b)
{
    double x = *(const double *)a, y = *(const double *)b;
    return (x > y) - (x < y);
}

/* Another program begins in each round, so that none is always the one after SQL. */
static void go_round(int f, const struct input *in, struct series *series, unsigned int round, double most_ns)
{
    for (unsigned int k = 0; k < COUNT; k++) {
        unsigned int p = (round + k) % COUNT;
        struct series *s = &series[p];
        if (is_asked(f, &PROGRAMS[p], in) && s->count < MOST_ROUNDS && (s->count == 0 || s->spent_ns < most_ns))
            take(s, turn(f, &PROGRAMS[p], in, s->batch));
    }
}

static void measure(const struct input *inputs, unsigned int rounds, double turn_ns, double most_ns)
{
    for (int f = 0; f < FUNCTION_COUNT; f++)
        for (int i = FUNCTIONS[f].from; i < FUNCTIONS[f].to; i++)
            for (int p = 0; p < COUNT; p++)
                if (is_asked(f, &PROGRAMS[p], &inputs[i]))
                    calibrate(f, &PROGRAMS[p], &inputs[i], &all[f][i][p], turn_ns);
    for (unsigned int round = 0; round < rounds; round++)
        for (int f = 0; f < FUNCTION_COUNT; f++)
            for (int i = FUNCTIONS[f].from; i < FUNCTIONS[f].to; i++)
                go_round(f, &inputs[i], all[f][i], round, most_ns);
    for (int f = 0; f < FUNCTION_COUNT; f++)
        for (int i = 0; i < INPUTS; i++)
            for (int p = 0; p < COUNT; p++)
                qsort(all[f][i][p].ns, all[f][i][p].count, sizeof(double), ascending);
}

/* ---- the measurement, as JSON */

static double median(const struct series *s)
{
    return (s->ns[(s->count - 1) / 2] + s->ns[s->count / 2]) / 2;
}

static void write_program(FILE *out, int f, const struct program *p, const struct input *in, const struct series *s)
{
    fprintf(out, "\"%s\": {\"median_ns\": %.1f, \"least_ns\": %.1f, \"turns\": %u, \"batch\": %u", p->name, median(s),
            s->ns[0], s->count, s->batch);
    if (p->on_stack) {
        struct stack_job job = { f, p, in };
        fprintf(out, ", \"stack\": %zu", stack_of(stack_job, &job));
    }
    fprintf(out, "}");
}

static void write_function(FILE *out, int f, const struct input *in, const struct series *series)
{
    fprintf(out, ",\n   \"%s\": {", FUNCTIONS[f].name);
    for (int p = 0; p < COUNT; p++) {
        if (series[p].count == 0)
            continue;
        fprintf(out, p > 0 ? ",\n    " : "\n    ");
        write_program(out, f, &PROGRAMS[p], in, &series[p]);
    }
    fprintf(out, "}");
}

static void write_answer(FILE *out, const unsigned int *numbers)
{
    fprintf(out, "   \"answer\": [");
    for (int i = 0; i < ANSWER_NUMBERS; i++)
        fprintf(out, i > 0 ? ", %u" : "%u", numbers[i]);
    fprintf(out, "],\n");
}

static void write_pair(FILE *out, const struct input *in)
{
    const unsigned char *edges = in->graph.bytes + in->graph.size - 24, *schema_edges = in->schema.bytes + in->schema.size - 18;
    unsigned int looks = 2 * HAVIROZAN_NUMBER(edges, 0) * (schema_edges[0] + 256u * schema_edges[1]);
    fprintf(out, "  {\"name\": \"%s\", \"graph_bytes\": %zu, \"schema_bytes\": %zu, \"written_bytes\": %u, \"looks\": %u, \"violations\": %u,\n",
            in->name, in->graph.size, in->schema.size, in->owed[WRITE][1], looks, in->owed[LIST][2]);
    write_answer(out, in->owed[CHECK]);
    fprintf(out, "   \"sql_load_ns\": %.0f", in->load_ns);
}

static void write_input(FILE *out, const struct input *in, int i)
{
    if (is_sheet(in))
        fprintf(out, "  {\"name\": \"%s\", \"sheet_bytes\": %zu, \"written_bytes\": %u", in->name, in->sheet.size, in->owed[READ][1]);
    else if (is_join(in))
        fprintf(out, "  {\"name\": \"%s\", \"joined_bytes\": %u", in->name, in->owed[JOIN][1]);
    else
        write_pair(out, in);
    for (int f = 0; f < FUNCTION_COUNT; f++)
        if (i >= FUNCTIONS[f].from && i < FUNCTIONS[f].to)
            write_function(out, f, in, all[f][i]);
    fprintf(out, "}");
}

static void write_all(const char *path, const struct input *inputs)
{
    const char *sql = "none";
    FILE *out = fopen(path, "w");
    if (out == NULL)
        die("cannot write ", path);
#ifndef WITHOUT_SQL
    sql = sql_version();
#endif
    fprintf(out, "{\"sqlite\": \"%s\", \"inputs\": [\n", sql);
    for (int i = 0; i < INPUTS; i++) {
        write_input(out, &inputs[i], i);
        fprintf(out, i + 1 < INPUTS ? ",\n" : "\n");
    }
    fprintf(out, "]}\n");
    if (fclose(out) != 0)
        die("cannot write ", path);
}

static struct input load_input(const char *folder, const char *name, const char *spared)
{
    char graph[64], schema[64];
    snprintf(graph, sizeof graph, "%s.graph", name);
    snprintf(schema, sizeof schema, "%s.schema", name);
    struct input in = load_pair(name, folder, graph, schema);
    owe(&in);
    if (!is_accepted(&in))
        die("a file is missing or refused, of ", name);
    if (strstr(spared, name) == NULL)
        fill_sql(&in);
    return in;
}

static struct input load_sheet_input(const char *folder, const char *name)
{
    char file[64];
    snprintf(file, sizeof file, "%s.csv", name);
    struct input in = load_sheet(name, folder, file);
    owe(&in);
    if (in.owed[READ][0] != 0)
        die("a sheet is missing or refused: ", name);
    return in;
}

static struct input load_join_input(const char *folder, const char *name)
{
    char first[64], second[64];
    snprintf(first, sizeof first, "%s.first.graph", name);
    snprintf(second, sizeof second, "%s.second.graph", name);
    struct input in = load_join(name, folder, first, second);
    owe(&in);
    if (in.owed[JOIN][0] != 0)
        die("a graph is missing or refused, or there are too many rows, of ", name);
    return in;
}

static unsigned int number_of(const char *word, unsigned int most)
{
    unsigned long n = strtoul(word, NULL, 10);
    if (n < 1 || n > most)
        die("not a number that makes sense: ", word);
    return (unsigned int)n;
}

static void time_all(char **words, const char *spared)
{
    struct input inputs[INPUTS];
    load_sql_text(words[0]);
    for (int i = 0; i < INPUTS; i++)
        inputs[i] = i < PAIRS ? load_input(words[1], NAMES[i], spared) : i < SHEETS ? load_sheet_input(words[1], NAMES[i]) : load_join_input(words[1], NAMES[i]);
    measure(inputs, number_of(words[3], MOST_ROUNDS), number_of(words[4], 10000) * 1e6, number_of(words[5], 1000000) * 1e6);
    write_all(words[2], inputs);
}

int main(int argc, char **argv)
{
    if (argc > 5 && strcmp(argv[1], "agree") == 0) {
        load_sql_text(argv[2]);
        agree(argv[3], argv[4]);
        agree_on_sheets(argv + 5, argc - 5);
        return 0;
    }
    if (argc > 3 && argc % 2 == 0 && strcmp(argv[1], "joins") == 0) {
        agree_on_all_joins(argv + 2, argc - 2);
        return 0;
    }
    if ((argc == 8 || argc == 9) && strcmp(argv[1], "time") == 0) {
        time_all(argv + 2, argc == 9 ? argv[8] : "");
        return 0;
    }
    fprintf(stderr, "usage: bench time SQL INPUTS OUT ROUNDS TURN MOST [SPARED], bench agree SQL DATA PAIRS SHEET.., or bench joins DATA JOINS ..\n");
    return 2;
}
