/*
 * The proved functions' jobs in plain C, written as one would write them for speed, by the same algorithm as the proved crates:
 * each table is read once, where it lies; a mask for each node says which schema nodes it fits; rules 3 and 4 count in
 * one pass over the edges for each schema edge. The tests stand in the same order, so that both look at the same rows.
 * A file is written from tables that passed the same row tests, by one memcpy for each table.
 */
#include "baseline.h"

#include <stdbool.h>
#include <stdint.h>
#include <string.h>

enum {
    NODES = 1024,
    GRAPH_NODE = 16, GRAPH_EDGE = 24, GRAPH_ROW = 16, GRAPH_TRAILER = 28,
    SCHEMA_NODE = 16, SCHEMA_EDGE = 40, SCHEMA_ROW = 4, SCHEMA_TRAILER = 20
};

#define GRAPH_MARK 0x31485047
#define ANY UINT32_MAX
#define NONE UINT32_MAX
#define NO_NAME 65536

/* The five numbers of an answer. A code of 0 says that nothing is wrong. */
struct answer {
    uint32_t code, place, schema, count, property;
};

/* What is wrong with a record: the first of 1 (b), 2 (c), 3 (d) that is broken, and the name of the lowest row at fault. In an
   accepted file names rise, so that no lower name is at fault by this letter. A letter of 0 says that the record fits. */
struct fault {
    uint32_t letter, name;
};

/* The counts of tables, and where they start: in a file, or wherever they were lent. A schema has no text. */
struct file {
    const uint8_t *nodes, *edges, *rows;
    uint32_t node_count, edge_count, row_count, text, labels, names;
};

/* What node and edge rows of both files share. */
struct head {
    uint64_t labels;
    uint32_t first, count;
};

/* Where the next run has to start, and the lowest bad property row before that. */
struct walk {
    uint32_t next, bad;
};

/* Only 22 and 24 name a property. */
static struct answer answer_of(uint32_t code, uint32_t place, uint32_t schema, uint32_t count)
{
    return (struct answer){ code, place, schema, count, 0 };
}

static struct answer answer_of_record(uint32_t code, uint32_t place, uint32_t schema, struct fault f)
{
    return (struct answer){ code, place, schema, f.letter, f.name };
}

static struct answer refusal(uint32_t code, uint32_t place)
{
    return answer_of(code, place, 0, 0);
}

/* ---- numbers, low byte first: compiled, each is one load or one store */

static inline uint32_t u16(const uint8_t *p)
{
    return (uint32_t)(p[0] | p[1] << 8);
}

static inline uint32_t u32(const uint8_t *p)
{
    return (uint32_t)p[0] | (uint32_t)p[1] << 8 | (uint32_t)p[2] << 16 | (uint32_t)p[3] << 24;
}

static inline uint64_t u64(const uint8_t *p)
{
    return u32(p) | (uint64_t)u32(p + 4) << 32;
}

static inline void put_u16(uint8_t *p, uint32_t v)
{
    p[0] = (uint8_t)v;
    p[1] = (uint8_t)(v >> 8);
}

static inline void put_u32(uint8_t *p, uint32_t v)
{
    p[0] = (uint8_t)v;
    p[1] = (uint8_t)(v >> 8);
    p[2] = (uint8_t)(v >> 16);
    p[3] = (uint8_t)(v >> 24);
}

/* ---- the heads of rows: the run stands last in a node row, and after the ends in an edge row */

static inline struct head graph_head(const uint8_t *row, size_t run)
{
    return (struct head){ u64(row), u32(row + run), u32(row + run + 4) };
}

static inline struct head schema_head(const uint8_t *row, size_t run)
{
    return (struct head){ u64(row), u32(row + run), u16(row + run + 4) };
}

static inline struct head node_head(const struct file *g, uint32_t i)
{
    return graph_head(g->nodes + (size_t)GRAPH_NODE * i, 8);
}

static inline struct head edge_head(const struct file *g, uint32_t e)
{
    return graph_head(g->edges + (size_t)GRAPH_EDGE * e, 16);
}

static inline struct head schema_node_head(const struct file *s, uint32_t j)
{
    return schema_head(s->nodes + (size_t)SCHEMA_NODE * j, 8);
}

static inline struct head schema_edge_head(const struct file *s, uint32_t j)
{
    return schema_head(s->edges + (size_t)SCHEMA_EDGE * j, 16);
}

static bool good_head(const struct file *f, struct head h, uint32_t start)
{
    return h.first == start && h.count <= f->row_count - start && (f->labels > 63 || h.labels >> f->labels == 0);
}

static bool good_ends(const uint8_t *edge, uint32_t nodes)
{
    return u32(edge + 8) < nodes && u32(edge + 12) < nodes;
}

/* ---- property values */

static const uint8_t MONTHS[2][12] = {
    { 31, 28, 31, 30, 31, 30, 31, 31, 30, 31, 30, 31 },
    { 31, 29, 31, 30, 31, 30, 31, 31, 30, 31, 30, 31 },
};

static bool is_leap(uint64_t year)
{
    return year % 4 == 0 && (year % 100 != 0 || year % 400 == 0);
}

static bool is_date(uint64_t n)
{
    uint64_t year = n / 10000, month = n / 100 % 100, day = n % 100;
    if (year < 1 || year > 9999 || month < 1 || month > 12)
        return false;
    return 1 <= day && day <= MONTHS[is_leap(year)][month - 1];
}

static bool good_value(uint32_t text, uint8_t kind, uint32_t length, uint64_t value)
{
    if (kind == 5)
        return value <= text && length <= text - value;
    if (length != 0)
        return false;
    switch (kind) {
    case 1: return value <= 1;
    case 2: return true;
    case 3: return (value >> 52 & 2047) != 2047;
    case 4: return is_date(value);
    default: return false;
    }
}

static bool good_property(const struct file *f, const uint8_t *row)
{
    return row[3] == 0 && good_value(f->text, row[2], u32(row + 4), u64(row + 8));
}

static bool good_listed(const uint8_t *row)
{
    return 1 <= row[2] && row[2] <= 5 && row[3] <= 1;
}

/* ---- runs: rows are only looked at until the first bad one */

static uint32_t bad_property(const struct file *f, uint32_t first, uint32_t end)
{
    for (uint32_t r = first; r < end; r++) {
        const uint8_t *row = f->rows + (size_t)GRAPH_ROW * r;
        if (u16(row) >= f->names || (r > first && u16(row) <= u16(row - GRAPH_ROW)) || !good_property(f, row))
            return r;
    }
    return NONE;
}

static uint32_t bad_listed(const struct file *f, uint32_t first, uint32_t end)
{
    for (uint32_t r = first; r < end; r++) {
        const uint8_t *row = f->rows + (size_t)SCHEMA_ROW * r;
        if (u16(row) >= f->names || (r > first && u16(row) <= u16(row - SCHEMA_ROW)) || !good_listed(row))
            return r;
    }
    return NONE;
}

static void pass_properties(const struct file *f, struct walk *w, uint32_t count)
{
    if (w->bad == NONE)
        w->bad = bad_property(f, w->next, w->next + count);
    w->next += count;
}

static void pass_listed(const struct file *f, struct walk *w, uint32_t count)
{
    if (w->bad == NONE)
        w->bad = bad_listed(f, w->next, w->next + count);
    w->next += count;
}

/* The lowest bad property row: the first that is in no run is bad too. */
static uint32_t bad_row(const struct file *f, struct walk w)
{
    if (w.bad == NONE && w.next < f->row_count)
        return w.next;
    return w.bad;
}

/* ---- the graph file */

/* Whether the counts are within the ceilings. */
static bool graph_held(size_t nodes, size_t edges, size_t rows, size_t text, size_t labels, size_t names)
{
    return nodes <= NODES && edges <= 4096 && rows <= 16384 && text <= 262144 && labels <= 64 && names <= 256;
}

static struct answer open_graph(const uint8_t *bytes, size_t size, struct file *f)
{
    if (size < GRAPH_TRAILER || size > 1048576)
        return refusal(2, 0);
    const uint8_t *t = bytes + size - GRAPH_TRAILER;
    if (u32(t + 24) != GRAPH_MARK)
        return refusal(3, 0);
    f->node_count = u32(t), f->edge_count = u32(t + 4), f->row_count = u32(t + 8), f->text = u32(t + 12);
    f->labels = u16(t + 16), f->names = u16(t + 18);
    if (!graph_held(f->node_count, f->edge_count, f->row_count, f->text, f->labels, f->names))
        return refusal(4, 0);
    uint32_t back = u32(t + 20);
    if (back != GRAPH_NODE * f->node_count + GRAPH_EDGE * f->edge_count + GRAPH_ROW * f->row_count + f->text)
        return refusal(5, 0);
    if (back > size - GRAPH_TRAILER)
        return refusal(5, 0);
    f->nodes = t - back;
    f->edges = f->nodes + (size_t)GRAPH_NODE * f->node_count;
    f->rows = f->edges + (size_t)GRAPH_EDGE * f->edge_count;
    return refusal(0, 0);
}

static struct answer try_graph_rows(const struct file *f)
{
    struct walk w = { 0, NONE };
    for (uint32_t i = 0; i < f->node_count; i++) {
        struct head h = node_head(f, i);
        if (!good_head(f, h, w.next))
            return refusal(6, i);
        pass_properties(f, &w, h.count);
    }
    for (uint32_t e = 0; e < f->edge_count; e++) {
        struct head h = edge_head(f, e);
        if (!good_head(f, h, w.next) || !good_ends(f->edges + (size_t)GRAPH_EDGE * e, f->node_count))
            return refusal(7, e);
        pass_properties(f, &w, h.count);
    }
    uint32_t bad = bad_row(f, w);
    return bad == NONE ? refusal(0, 0) : refusal(8, bad);
}

static struct answer read_graph(const uint8_t *bytes, size_t size, struct file *f)
{
    struct answer opened = open_graph(bytes, size, f);
    return opened.code == 0 ? try_graph_rows(f) : opened;
}

/* ---- the schema file */

static struct answer open_schema(const uint8_t *bytes, size_t size, struct file *f)
{
    if (size < SCHEMA_TRAILER || size > 16384)
        return refusal(9, 0);
    const uint8_t *t = bytes + size - SCHEMA_TRAILER;
    if (u32(t + 16) != 0x31484353)
        return refusal(10, 0);
    f->node_count = u16(t), f->edge_count = u16(t + 2), f->row_count = u32(t + 4), f->text = 0;
    f->labels = u16(t + 8), f->names = u16(t + 10);
    if (f->node_count > 32 || f->edge_count > 64 || f->row_count > 1024 || f->labels > 64 || f->names > 256)
        return refusal(11, 0);
    uint32_t back = u32(t + 12);
    if (back != SCHEMA_NODE * f->node_count + SCHEMA_EDGE * f->edge_count + SCHEMA_ROW * f->row_count)
        return refusal(12, 0);
    if (back > size - SCHEMA_TRAILER)
        return refusal(12, 0);
    f->nodes = t - back;
    f->edges = f->nodes + (size_t)SCHEMA_NODE * f->node_count;
    f->rows = f->edges + (size_t)SCHEMA_EDGE * f->edge_count;
    return refusal(0, 0);
}

static bool good_interval(uint32_t least, uint32_t most)
{
    return least <= 65535 && least <= most && (most == ANY || most <= 65535);
}

static bool good_schema_edge(const uint8_t *row, uint32_t nodes)
{
    return good_ends(row, nodes) && u16(row + 22) <= 1 && good_interval(u32(row + 24), u32(row + 28))
        && good_interval(u32(row + 32), u32(row + 36));
}

static struct answer read_schema(const uint8_t *bytes, size_t size, struct file *f)
{
    struct answer opened = open_schema(bytes, size, f);
    struct walk w = { 0, NONE };
    if (opened.code != 0)
        return opened;
    for (uint32_t j = 0; j < f->node_count; j++) {
        struct head h = schema_node_head(f, j);
        if (!good_head(f, h, w.next) || u16(f->nodes + (size_t)SCHEMA_NODE * j + 14) > 1)
            return refusal(13, j);
        pass_listed(f, &w, h.count);
    }
    for (uint32_t s = 0; s < f->edge_count; s++) {
        struct head h = schema_edge_head(f, s);
        if (!good_head(f, h, w.next) || !good_schema_edge(f->edges + (size_t)SCHEMA_EDGE * s, f->node_count))
            return refusal(14, s);
        pass_listed(f, &w, h.count);
    }
    uint32_t bad = bad_row(f, w);
    return bad == NONE ? refusal(0, 0) : refusal(15, bad);
}

/* ---- the record test */

/* A row that the walk holds. After the last row the name is above every name. */
struct row {
    uint32_t name, kind, flag;
};

static inline struct row next(const uint8_t **at, const uint8_t *end, size_t width)
{
    if (*at == end)
        return (struct row){ NO_NAME, 0, 0 };
    uint32_t v = u32(*at);
    *at += width;
    return (struct row){ v & 0xffff, v >> 16 & 0xff, v >> 24 };
}

/* Names rise in both lists: one walk down both, in which each row is read once at most. */
static struct fault record(const uint8_t *rows, uint32_t count, const uint8_t *listed, uint32_t listed_count, bool open)
{
    const uint8_t *rows_end = rows + (size_t)GRAPH_ROW * count, *listed_end = listed + (size_t)SCHEMA_ROW * listed_count;
    struct row present = next(&rows, rows_end, GRAPH_ROW), asked = next(&listed, listed_end, SCHEMA_ROW);
    uint32_t unlisted = NO_NAME, mistyped = NO_NAME;
    while (asked.name < NO_NAME) {
        if (asked.name < present.name) {
            if (asked.flag != 1)
                return (struct fault){ 1, asked.name };
            asked = next(&listed, listed_end, SCHEMA_ROW);
        } else if (present.name < asked.name) {
            if (!open && unlisted == NO_NAME)
                unlisted = present.name;
            present = next(&rows, rows_end, GRAPH_ROW);
        } else {
            if (present.kind != asked.kind && mistyped == NO_NAME)
                mistyped = present.name;
            present = next(&rows, rows_end, GRAPH_ROW);
            asked = next(&listed, listed_end, SCHEMA_ROW);
        }
    }
    if (!open && unlisted == NO_NAME)
        unlisted = present.name;
    if (unlisted != NO_NAME)
        return (struct fault){ 2, unlisted };
    if (mistyped != NO_NAME)
        return (struct fault){ 3, mistyped };
    return (struct fault){ 0, 0 };
}

static struct fault test(const struct file *g, struct head h, const struct file *s, struct head t, bool open)
{
    return record(g->rows + (size_t)GRAPH_ROW * h.first, h.count, s->rows + (size_t)SCHEMA_ROW * t.first, t.count, open);
}

static bool node_open(const struct file *s, uint32_t j)
{
    return u16(s->nodes + (size_t)SCHEMA_NODE * j + 14) == 1;
}

static bool edge_open(const struct file *s, uint32_t j)
{
    return u16(s->edges + (size_t)SCHEMA_EDGE * j + 22) == 1;
}

static bool node_fits(const struct file *g, const struct file *s, uint32_t i, uint32_t j)
{
    struct head h = node_head(g, i), t = schema_node_head(s, j);
    return h.labels == t.labels && test(g, h, s, t, node_open(s, j)).letter == 0;
}

static bool edge_fits(const struct file *g, const struct file *s, uint32_t e, uint32_t j)
{
    struct head h = edge_head(g, e), t = schema_edge_head(s, j);
    return h.labels == t.labels && test(g, h, s, t, edge_open(s, j)).letter == 0;
}

/* ---- rule 1: which schema nodes each node fits, a bit for each */

static bool has(uint32_t mask, uint32_t j)
{
    return mask >> j & 1;
}

static struct answer tell_node(const struct file *g, const struct file *s, uint32_t i)
{
    struct head h = node_head(g, i);
    for (uint32_t j = 0; j < s->node_count; j++) {
        struct head t = schema_node_head(s, j);
        if (h.labels == t.labels)
            return answer_of_record(22, i, j, test(g, h, s, t, node_open(s, j)));
    }
    return answer_of(21, i, 0, 0);
}

static struct answer place_nodes(const struct file *g, const struct file *s, uint32_t *masks)
{
    for (uint32_t i = 0; i < g->node_count; i++) {
        uint32_t mask = 0;
        for (uint32_t j = s->node_count; j-- > 0;)
            mask = mask << 1 | node_fits(g, s, i, j);
        if (mask == 0)
            return tell_node(g, s, i);
        masks[i] = mask;
    }
    return answer_of(0, 0, 0, 0);
}

/* ---- rule 2: the search for an edge's place stops at the first schema edge that is one */

static bool placed(const struct file *g, const struct file *s, const uint32_t *masks, uint32_t e, uint32_t j)
{
    const uint8_t *edge = g->edges + (size_t)GRAPH_EDGE * e, *type = s->edges + (size_t)SCHEMA_EDGE * j;
    return has(masks[u32(edge + 8)], u32(type + 8)) && has(masks[u32(edge + 12)], u32(type + 12)) && edge_fits(g, s, e, j);
}

static struct answer tell_edge(const struct file *g, const struct file *s, const uint32_t *masks, uint32_t e)
{
    struct head h = edge_head(g, e);
    for (uint32_t j = 0; j < s->edge_count; j++) {
        uint32_t source = u32(g->edges + (size_t)GRAPH_EDGE * e + 8);
        if (edge_fits(g, s, e, j))
            return answer_of(25, e, j, has(masks[source], u32(s->edges + (size_t)SCHEMA_EDGE * j + 8)) ? 2 : 1);
    }
    for (uint32_t j = 0; j < s->edge_count; j++) {
        struct head t = schema_edge_head(s, j);
        if (h.labels == t.labels)
            return answer_of_record(24, e, j, test(g, h, s, t, edge_open(s, j)));
    }
    return answer_of(23, e, 0, 0);
}

static struct answer place_edges(const struct file *g, const struct file *s, const uint32_t *masks)
{
    for (uint32_t e = 0; e < g->edge_count; e++) {
        uint32_t j = 0;
        while (j < s->edge_count && !placed(g, s, masks, e, j))
            j++;
        if (j == s->edge_count)
            return tell_edge(g, s, masks, e);
    }
    return answer_of(0, 0, 0, 0);
}

/* ---- rules 3 and 4: where the end that counts, the end across and the interval across stand in a row */

struct way {
    uint32_t code;
    size_t near, far, interval;
};

static const struct way OUT = { 31, 8, 12, 32 }, INTO = { 33, 12, 8, 24 };

static void count_edges(struct way w, const struct file *g, const struct file *s, const uint32_t *masks, uint32_t j,
                        uint32_t *counts)
{
    uint32_t across = u32(s->edges + (size_t)SCHEMA_EDGE * j + w.far);
    for (uint32_t e = 0; e < g->edge_count; e++) {
        const uint8_t *edge = g->edges + (size_t)GRAPH_EDGE * e;
        if (has(masks[u32(edge + w.far)], across) && edge_fits(g, s, e, j))
            counts[u32(edge + w.near)]++;
    }
}

static struct answer first_wrong(struct way w, const struct file *g, const struct file *s, const uint32_t *masks, uint32_t j,
                                 const uint32_t *counts)
{
    const uint8_t *type = s->edges + (size_t)SCHEMA_EDGE * j;
    uint32_t near = u32(type + w.near), least = u32(type + w.interval), most = u32(type + w.interval + 4);
    for (uint32_t v = 0; v < g->node_count; v++) {
        if (!has(masks[v], near))
            continue;
        if (counts[v] < least)
            return answer_of(w.code, v, j, counts[v]);
        if (most != ANY && counts[v] > most)
            return answer_of(w.code + 1, v, j, counts[v]);
    }
    return answer_of(0, 0, 0, 0);
}

static struct answer number_edges(struct way w, const struct file *g, const struct file *s, const uint32_t *masks)
{
    for (uint32_t j = 0; j < s->edge_count; j++) {
        uint32_t counts[NODES] = { 0 };
        count_edges(w, g, s, masks, j, counts);
        struct answer a = first_wrong(w, g, s, masks, j, counts);
        if (a.code != 0)
            return a;
    }
    return answer_of(0, 0, 0, 0);
}

/* ---- the checker */

static struct answer judge_rules(const struct file *g, const struct file *s)
{
    uint32_t masks[NODES] = { 0 };
    struct answer a = place_nodes(g, s, masks);
    if (a.code == 0)
        a = place_edges(g, s, masks);
    if (a.code == 0)
        a = number_edges(OUT, g, s, masks);
    if (a.code == 0)
        a = number_edges(INTO, g, s, masks);
    return a;
}

static struct answer judge(const uint8_t *graph, size_t graph_bytes, const uint8_t *schema, size_t schema_bytes)
{
    struct file g, s;
    struct answer a = read_graph(graph, graph_bytes, &g);
    if (a.code == 0)
        a = read_schema(schema, schema_bytes, &s);
    if (a.code == 0)
        a = judge_rules(&g, &s);
    return a;
}

unsigned int baseline_check(const unsigned char *graph, size_t graph_bytes,
                            const unsigned char *schema, size_t schema_bytes,
                            unsigned char *answer, size_t answer_bytes)
{
    if (answer_bytes < 20)
        return 1;
    struct answer a = judge(graph, graph_bytes, schema, schema_bytes);
    put_u32(answer, a.code);
    put_u32(answer + 4, a.place);
    put_u32(answer + 8, a.schema);
    put_u32(answer + 12, a.count);
    put_u32(answer + 16, a.property);
    return a.code;
}

/* ---- the writer */

static havirozan_outcome outcome_of(uint32_t code, size_t number)
{
    return (havirozan_outcome){ code, (uint32_t)number };
}

/* Copies a table and gives the place after it. A table of 0 bytes may be null. */
static uint8_t *put_table(uint8_t *out, const void *table, size_t bytes)
{
    if (bytes != 0)
        memcpy(out, table, bytes);
    return out + bytes;
}

static void put_trailer(uint8_t *t, const struct file *f, size_t back)
{
    put_u32(t, f->node_count);
    put_u32(t + 4, f->edge_count);
    put_u32(t + 8, f->row_count);
    put_u32(t + 12, f->text);
    put_u16(t + 16, f->labels);
    put_u16(t + 18, f->names);
    put_u32(t + 20, (uint32_t)back);
    put_u32(t + 24, GRAPH_MARK);
}

havirozan_outcome baseline_write_graph(const void *nodes, size_t nodes_bytes,
                                       const void *edges, size_t edges_bytes,
                                       const void *rows, size_t rows_bytes,
                                       const void *text, size_t text_bytes,
                                       unsigned int labels, unsigned int names,
                                       unsigned char *out, size_t out_bytes)
{
    size_t node_count = nodes_bytes / GRAPH_NODE, edge_count = edges_bytes / GRAPH_EDGE, row_count = rows_bytes / GRAPH_ROW;
    if (nodes_bytes % GRAPH_NODE != 0 || edges_bytes % GRAPH_EDGE != 0 || rows_bytes % GRAPH_ROW != 0)
        return outcome_of(41, 0);
    if (!graph_held(node_count, edge_count, row_count, text_bytes, labels, names))
        return outcome_of(41, 0);
    struct file f = { nodes, edges, rows, (uint32_t)node_count, (uint32_t)edge_count, (uint32_t)row_count, (uint32_t)text_bytes,
                      labels, names };
    if (try_graph_rows(&f).code != 0)
        return outcome_of(41, 0);
    size_t back = nodes_bytes + edges_bytes + rows_bytes + text_bytes;
    if (out_bytes < back + GRAPH_TRAILER)
        return outcome_of(42, 0);
    uint8_t *at = put_table(out, nodes, nodes_bytes);
    at = put_table(at, edges, edges_bytes);
    at = put_table(at, rows, rows_bytes);
    at = put_table(at, text, text_bytes);
    put_trailer(at, &f, back);
    return outcome_of(0, back + GRAPH_TRAILER);
}

/* ---- where the tables of a file lie */

havirozan_places baseline_find_tables(const unsigned char *graph, size_t graph_bytes)
{
    struct file f;
    struct answer a = read_graph(graph, graph_bytes, &f);
    if (a.code != 0)
        return (havirozan_places){ .code = a.code, .place = a.place };
    return (havirozan_places){
        .nodes_at = (uint32_t)(f.nodes - graph), .nodes = f.node_count,
        .edges_at = (uint32_t)(f.edges - graph), .edges = f.edge_count,
        .rows_at = (uint32_t)(f.rows - graph), .rows = f.row_count,
        .text_at = (uint32_t)(graph_bytes - GRAPH_TRAILER - f.text), .text = f.text,
        .labels = f.labels, .names = f.names,
    };
}
