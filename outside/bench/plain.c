/*
 * `check`, `check_all` and `join_graphs` in plain C, the fastest that were found which keep the forms that documents 01 and 02 require at three places:
 *
 * - rule 2 has nested loops over edges and schema edges, and the inner one is left at the first place found;
 * - rules 3 and 4 have one counter for each possible node, filled in one pass over the edges for each schema edge, with one turn for each edge; then
 *   all are judged, and left at zero;
 * - a record test is one walk down both lists, where they lie, in which each row is read once at most.
 *
 * All else is as C likes it. A mask for each node says which schema nodes it fits, and a byte for each edge which schema edge places it, so that a look
 * compares a byte. `check_all` is the same code, which goes on behind a violation: a list that is there is known where the code is compiled, so that
 * `check` asks nobody for it. `join_graphs` reads as they do, copies what stays as it is by memcpy, and writes what moves in one pass over each table.
 * free.c has none of these forms. PLAIN_CHECK, PLAIN_CHECK_ALL and PLAIN_JOIN_GRAPHS are the names in a build.
 */
#include "plain.h"

#include <stdbool.h>
#include <stdint.h>
#include <string.h>

#define INLINE static inline __attribute__((always_inline))
#define SELDOM(condition) __builtin_expect(condition, 0)
#define HOT static __attribute__((hot)) /* else gcc expects refusals, and makes what comes behind their tests small instead of fast */

_Static_assert(__BYTE_ORDER__ == __ORDER_LITTLE_ENDIAN__, "numbers are loaded as they lie in the files");

enum {
    NODES = 1024, EDGES = 4096, ROWS = 16384, TEXT = 262144, LABELS = 64, NAMES = 256, GRAPH_BYTES = 1048576,
    SCHEMA_NODES = 32, SCHEMA_EDGES = 64, LISTED = 1024, SCHEMA_BYTES = 16384,
    NODE = 16, EDGE = 24, ROW = 16, TRAILER = 28,
    SCHEMA_NODE = 16, SCHEMA_EDGE = 40, SCHEMA_ROW = 4, SCHEMA_TRAILER = 20,
    SEVERAL = 64, NOWHERE = 255, TURN = 64
};

#define FORBIDDEN(labels) ((labels) < 64 ? ~UINT64_C(0) << (labels) : 0)
#define ANY UINT32_MAX
#define NONE UINT32_MAX
#define NO_NAME 65536

/* The five numbers of an answer. A code of 0 says that nothing is wrong. */
struct answer {
    uint32_t code, place, schema, count, property;
};

/* Where the tables start, how many rows they have, and the labels that their rows may not have. */
struct file {
    const uint8_t *nodes, *edges, *rows;
    uint32_t node_count, edge_count, row_count, text, labels, names;
    uint64_t forbidden;
};

/* The list that is lent to `check_all`; `check` has none. */
struct list {
    havirozan_finding *records;
    size_t room;
    uint32_t total;
};

/* A number where it lies: compiled, one load. */
#define LOAD(bits) INLINE uint##bits##_t u##bits(const uint8_t *p) { uint##bits##_t v; memcpy(&v, p, sizeof v); return v; }
LOAD(16) LOAD(32) LOAD(64)
/* And one store. */
#define STORE(bits) INLINE void put##bits(uint8_t *p, uint##bits##_t v) { memcpy(p, &v, sizeof v); }
STORE(16) STORE(32) STORE(64)

static struct answer refusal(uint32_t code, uint32_t place)
{
    return (struct answer){ code, place, 0, 0, 0 };
}

/* A violation is put into the list, if there is one; else it is the answer. */
INLINE bool put(struct list *l, struct answer a)
{
    if (l == NULL)
        return false;
    if (l->total < l->room)
        l->records[l->total] = (havirozan_finding){ a.code, a.place, a.schema, a.count, a.property };
    l->total++;
    return true;
}

/* ---- property rows */

INLINE bool is_date(uint64_t value)
{
    if (value > 99991231)
        return false;
    uint32_t n = (uint32_t)value, months = n / 100, day = n % 100, year = months / 100, month = months % 100;
    bool leap = (year % 100 == 0 ? year / 100 : year) % 4 == 0;
    uint32_t days = month == 2 ? 28u + leap : 30 + ((month ^ month >> 3) & 1);
    return year > 0 && month - 1 < 12 && day - 1 < days;
}

/* Kind, zero byte and length stand side by side: where the length has to be 0, one comparison sees to all three. */
INLINE bool good_value(uint64_t head, uint64_t value, uint64_t text)
{
    switch (head >> 16) {
    case 1: return value <= 1;
    case 2: return true;
    case 3: return value << 1 < UINT64_C(0x7ff) << 53;
    case 4: return is_date(value);
    default: return (head >> 16 & 0xffff) == 5 && value <= text && head >> 32 <= text - value;
    }
}

/* The lowest bad row of a run. */
INLINE uint32_t bad_property(const struct file *g, uint32_t first, uint32_t count)
{
    const uint8_t *row = g->rows + (size_t)ROW * first, *end = row + (size_t)ROW * count;
    const uint64_t text = g->text;
    int32_t last = -1, names = (int32_t)g->names;
    for (; row != end; row += ROW) {
        uint64_t head = u64(row);
        int32_t name = (int32_t)(head & 0xffff);
        if (name <= last || name >= names || !good_value(head, u64(row + 8), text))
            return (uint32_t)((row - g->rows) / ROW);
        last = name;
    }
    return NONE;
}

static uint32_t bad_listed(const struct file *s, uint32_t first, uint32_t count)
{
    int32_t last = -1;
    for (uint32_t r = first; r < first + count; r++) {
        uint32_t row = u32(s->rows + (size_t)SCHEMA_ROW * r);
        int32_t name = (int32_t)(row & 0xffff);
        if (name <= last || name >= (int32_t)s->names || (row >> 16 & 0xff) - 1 > 4 || row >> 24 > 1)
            return r;
        last = name;
    }
    return NONE;
}

/* ---- node and edge rows: inlined, there are functions for each file, which do not ask which it is */

/* Where the next run has to start, and the lowest bad property row before that. */
struct walk {
    uint32_t next, bad;
};

/* Passes a run, if it and the labels are good. Property rows are only looked at until the first bad one. */
INLINE bool pass_head(const struct file *f, struct walk *w, uint64_t labels, const uint8_t *run, bool schema)
{
    uint32_t count = schema ? u16(run + 4) : u32(run + 4);
    if (labels & f->forbidden || u32(run) != w->next || count > f->row_count - w->next || (schema && u16(run + 6) > 1))
        return false;
    if (w->bad == NONE)
        w->bad = schema ? bad_listed(f, w->next, count) : bad_property(f, w->next, count);
    w->next += count;
    return true;
}

static bool good_interval(const uint8_t *p)
{
    uint32_t least = u32(p), most = u32(p + 4);
    return least <= 65535 && least <= most && (most == ANY || most <= 65535);
}

/* A row in no run is bad, too. */
INLINE struct answer read_rows(const struct file *f, bool schema)
{
    struct walk w = { 0, NONE };
    const uint8_t *p = f->nodes;
    for (uint32_t i = 0; i < f->node_count; i++, p += schema ? SCHEMA_NODE : NODE)
        if (!pass_head(f, &w, u64(p), p + 8, schema))
            return refusal(schema ? 13 : 6, i);
    for (uint32_t e = 0; e < f->edge_count; e++, p += schema ? SCHEMA_EDGE : EDGE) {
        bool good = u32(p + 8) < f->node_count && u32(p + 12) < f->node_count && (!schema || (good_interval(p + 24) && good_interval(p + 32)));
        if (!good || !pass_head(f, &w, u64(p), p + 16, schema))
            return refusal(schema ? 14 : 7, e);
    }
    if (w.bad == NONE && w.next < f->row_count)
        w.bad = w.next;
    return w.bad == NONE ? refusal(0, 0) : refusal(schema ? 15 : 8, w.bad);
}

/* ---- files */

HOT struct answer read_graph(const uint8_t *bytes, size_t size, struct file *g)
{
    if (size < TRAILER || size > GRAPH_BYTES)
        return refusal(2, 0);
    const uint8_t *t = bytes + size - TRAILER;
    if (u32(t + 24) != 0x31485047)
        return refusal(3, 0);
    uint32_t nodes = u32(t), edges = u32(t + 4), rows = u32(t + 8), text = u32(t + 12), labels = u16(t + 16), names = u16(t + 18);
    if (nodes > NODES || edges > EDGES || rows > ROWS || text > TEXT || labels > LABELS || names > NAMES)
        return refusal(4, 0);
    uint32_t edges_at = NODE * nodes, rows_at = edges_at + EDGE * edges, back = u32(t + 20);
    if (back != rows_at + ROW * rows + text || back > size - TRAILER)
        return refusal(5, 0);
    *g = (struct file){ t - back, t - back + edges_at, t - back + rows_at, nodes, edges, rows, text, labels, names, FORBIDDEN(labels) };
    return read_rows(g, false);
}

static struct answer read_schema(const uint8_t *bytes, size_t size, struct file *s)
{
    if (size < SCHEMA_TRAILER || size > SCHEMA_BYTES)
        return refusal(9, 0);
    const uint8_t *t = bytes + size - SCHEMA_TRAILER;
    if (u32(t + 16) != 0x31484353)
        return refusal(10, 0);
    uint32_t nodes = u16(t), edges = u16(t + 2), rows = u32(t + 4), labels = u16(t + 8), names = u16(t + 10);
    if (nodes > SCHEMA_NODES || edges > SCHEMA_EDGES || rows > LISTED || labels > LABELS || names > NAMES)
        return refusal(11, 0);
    uint32_t edges_at = SCHEMA_NODE * nodes, rows_at = edges_at + SCHEMA_EDGE * edges, back = u32(t + 12);
    if (back != rows_at + SCHEMA_ROW * rows || back > size - SCHEMA_TRAILER)
        return refusal(12, 0);
    *s = (struct file){ t - back, t - back + edges_at, t - back + rows_at, nodes, edges, rows, 0, labels, names, FORBIDDEN(labels) };
    return read_rows(s, true);
}

/* ---- what is kept, of the schema's nodes and then of its edges, and of the graph */

struct shape {
    const uint8_t *listed, *end;
    uint32_t mandatory; /* how many are */
    int32_t last;       /* the last name, or -1 */
    bool open;
};

struct kept {
    uint64_t labels[SCHEMA_EDGES + 1]; /* and behind the last those that are searched for */
    struct shape shapes[SCHEMA_EDGES];
    uint8_t source[SCHEMA_EDGES], target[SCHEMA_EDGES];
    uint32_t masks[NODES];             /* which schema nodes a node fits */
    uint8_t places[EDGES];             /* the schema edge that places an edge, or SEVERAL */
    bool several;
};

static struct shape shape_of(const struct file *s, const uint8_t *run)
{
    const uint8_t *listed = s->rows + (size_t)SCHEMA_ROW * u32(run), *end = listed + (size_t)SCHEMA_ROW * u16(run + 4);
    struct shape t = { listed, end, 0, -1, u16(run + 6) == 1 };
    for (const uint8_t *row = listed; row != end; row += SCHEMA_ROW)
        t.mandatory += row[3] == 0, t.last = u16(row);
    return t;
}

static void keep_schema(struct kept *k, const struct file *s, const uint8_t *rows, uint32_t count, size_t width, size_t run)
{
    for (uint32_t j = 0; j < count; j++, rows += width) {
        k->labels[j] = u64(rows);
        k->shapes[j] = shape_of(s, rows + run);
        k->source[j] = rows[8], k->target[j] = rows[12]; /* of a schema node nobody asks for them */
    }
}

/* ---- records */

struct record {
    const uint8_t *rows, *end;
};

INLINE struct record record_of(const struct file *g, const uint8_t *run)
{
    const uint8_t *rows = g->rows + (size_t)ROW * u32(run);
    return (struct record){ rows, rows + (size_t)ROW * u32(run + 4) };
}

/* One walk down both lists, in which the listed row ahead is held: name, type and flag as one number. A name above the last listed one is unlisted, so that
   no other needs a look for the end of the list. No mandatory name is missing if as many were met as there are. */
INLINE bool fits(struct record r, const struct shape *t)
{
    const uint8_t *listed = t->listed;
    uint32_t missing = t->mandatory, asked = listed != t->end ? u32(listed) : 0;
    for (const uint8_t *row = r.rows; row != r.end; row += ROW) {
        uint32_t present = u32(row);
        if ((int32_t)(present & 0xffff) > t->last)
            return t->open && missing == 0;
        while ((asked & 0xffff) < (present & 0xffff))
            asked = u32(listed += SCHEMA_ROW);
        if (((asked ^ present) & 0xffffff) == 0) {
            missing -= asked >> 24 == 0;
            if ((listed += SCHEMA_ROW) == t->end)
                return missing == 0 && (t->open || row + ROW == r.end);
            asked = u32(listed);
        } else if (!t->open || (asked & 0xffff) == (present & 0xffff)) {
            return false;
        }
    }
    return missing == 0;
}

/* The walk once more, for a record that does not fit: the first of (b), (c), (d) that is broken, and the lowest name at fault by it. */
static struct answer tell(uint32_t code, uint32_t place, uint32_t schema, struct record r, const struct shape *t)
{
    uint32_t first[4] = { NO_NAME, NO_NAME, NO_NAME, NO_NAME }, letter = 1;
    const uint8_t *listed = t->listed;
    while (r.rows != r.end || listed != t->end) {
        uint32_t present = r.rows != r.end ? u16(r.rows) : NO_NAME, asked = listed != t->end ? u16(listed) : NO_NAME;
        bool missing = asked < present, unlisted = present < asked;
        uint32_t broken = missing ? listed[3] == 0 : unlisted ? t->open ? 0 : 2 : r.rows[2] != listed[2] ? 3 : 0;
        if (first[broken] == NO_NAME)
            first[broken] = missing ? asked : present;
        listed += unlisted ? 0 : SCHEMA_ROW, r.rows += missing ? 0 : ROW;
    }
    while (first[letter] == NO_NAME)
        letter++;
    return (struct answer){ code, place, schema, letter, first[letter] };
}

/* ---- rule 1 */

/* The next schema object, from j on, that has these labels. They stand behind the last one's, too, so that the search needs no other end. */
INLINE uint32_t next_labels(const struct kept *k, uint32_t j, uint64_t labels)
{
    for (;; j += 8)
#pragma GCC unroll 8
        for (uint32_t i = 0; i < 8; i++)
            if (SELDOM(k->labels[j + i] == labels))
                return j + i;
}

static struct answer tell_node(const struct file *g, const struct file *s, const struct kept *k, const uint8_t *p, uint32_t i)
{
    for (uint32_t j = 0; j < s->node_count; j++)
        if (k->labels[j] == u64(p))
            return tell(22, i, j, record_of(g, p + 8), &k->shapes[j]);
    return refusal(21, i);
}

INLINE struct answer place_nodes(const struct file *g, const struct file *s, struct kept *restrict k, struct list *list)
{
    const uint8_t *p = g->nodes;
    const uint32_t types = s->node_count;
    keep_schema(k, s, s->nodes, types, SCHEMA_NODE, 8);
    for (uint32_t i = 0; i < g->node_count; i++, p += NODE) {
        const struct record r = record_of(g, p + 8);
        uint32_t mask = 0;
        k->labels[types] = u64(p);
        for (uint32_t j = next_labels(k, 0, u64(p)); j < types; j = next_labels(k, j + 1, u64(p)))
            mask |= (uint32_t)fits(r, &k->shapes[j]) << j;
        if (SELDOM(mask == 0)) {
            struct answer a = tell_node(g, s, k, p, i);
            if (!put(list, a))
                return a;
        }
        k->masks[i] = mask;
    }
    memset(k->masks + g->node_count, 0, sizeof *k->masks * (-g->node_count % TURN)); /* so that the last turn of a loop over them is whole */
    return refusal(0, 0);
}

/* ---- rule 2 */

static struct answer tell_edge(const struct file *g, const struct file *s, const struct kept *k, const uint8_t *p, uint32_t e)
{
    const struct record r = record_of(g, p + 16);
    uint32_t lowest = NONE;
    for (uint32_t j = 0; j < s->edge_count; j++) {
        if (k->labels[j] != u64(p))
            continue;
        if (fits(r, &k->shapes[j]))
            return (struct answer){ 25, e, j, k->masks[u32(p + 8)] >> k->source[j] & 1 ? 2 : 1, 0 };
        lowest = lowest == NONE ? j : lowest;
    }
    return lowest == NONE ? refusal(23, e) : tell(24, e, lowest, r, &k->shapes[lowest]);
}

/* The first schema edge, from j on, that places the edge. Labels first, then the ends, then the record: each is dearer than the one before. */
INLINE uint32_t place_from(const struct file *g, const struct kept *k, const uint8_t *p, uint32_t types, uint32_t j)
{
    const struct record r = record_of(g, p + 16);
    const uint32_t from = k->masks[u32(p + 8)], to = k->masks[u32(p + 12)];
    for (j = next_labels(k, j, u64(p)); j < types; j = next_labels(k, j + 1, u64(p)))
        if (from >> k->source[j] & to >> k->target[j] & 1 && fits(r, &k->shapes[j]))
            break;
    return j;
}

INLINE struct answer place_edges(const struct file *g, const struct file *s, struct kept *restrict k, struct list *list)
{
    const uint8_t *p = g->edges;
    const uint32_t types = s->edge_count;
    keep_schema(k, s, s->edges, types, SCHEMA_EDGE, 16);
    k->several = false;
    for (uint32_t e = 0; e < g->edge_count; e++, p += EDGE) {
        k->labels[types] = u64(p);
        uint32_t place = place_from(g, k, p, types, 0);
        if (SELDOM(place == types)) {
            struct answer a = tell_edge(g, s, k, p, e);
            if (!put(list, a))
                return a;
            place = NOWHERE;
        } else if (place_from(g, k, p, types, place + 1) < types) {
            place = SEVERAL, k->several = true;
        }
        k->places[e] = (uint8_t)place;
    }
    return refusal(0, 0);
}

/* ---- rules 3 and 4: where the end that counts and the interval across stand in a row */

struct way {
    uint32_t code;
    size_t near, interval;
};

static const struct way OUT = { 31, 8, 32 }, INTO = { 33, 12, 24 };

/* A look at each edge: whether the schema edge places it. */
INLINE void count_edges(struct way w, const struct file *g, const struct kept *k, uint32_t j, uint16_t *restrict counts)
{
    const uint8_t *near = g->edges + w.near, place = (uint8_t)j;
    const size_t edges = g->edge_count;
#pragma GCC unroll 16
    for (size_t e = 0; e < edges; e++)
        if (SELDOM(k->places[e] == place))
            counts[u32(near + EDGE * e)]++;
}

static bool places(const struct file *g, const struct kept *k, const uint8_t *p, uint32_t j)
{
    return k->labels[j] == u64(p) && k->masks[u32(p + 8)] >> k->source[j] & k->masks[u32(p + 12)] >> k->target[j] & 1
        && fits(record_of(g, p + 16), &k->shapes[j]);
}

/* The same where some edges have several places: these are tried again. */
static void count_several(struct way w, const struct file *g, const struct kept *k, uint32_t j, uint16_t *restrict counts)
{
    const uint8_t *p = g->edges;
    for (uint32_t e = 0; e < g->edge_count; e++, p += EDGE)
        if (k->places[e] == j || (k->places[e] == SEVERAL && places(g, k, p, j)))
            counts[u32(p + w.near)]++;
}

/* Not 0 if one of these nodes owes a number and has another: below the least the difference is a great number. */
INLINE uint32_t is_wrong(const uint32_t *masks, const uint16_t *counts, uint32_t nodes, uint32_t near, uint32_t least, uint32_t most)
{
    uint32_t wrong = 0;
    for (uint32_t i = 0; i < nodes; i++)
        wrong |= masks[i] >> near & (counts[i] - least > most - least);
    return wrong;
}

/* Judges all nodes, a turn of them at a time, and leaves the counters at zero. The first wrong number is the answer, or each is put into the list. */
INLINE struct answer judge_numbers(struct way w, const struct file *g, const struct kept *k, const uint8_t *type, uint32_t j, uint16_t *restrict counts, struct list *list)
{
    const uint32_t near = type[w.near], least = u32(type + w.interval), most = u32(type + w.interval + 4);
    for (uint32_t v = 0; v < g->node_count; v += TURN) {
        if (!SELDOM(is_wrong(k->masks + v, counts + v, TURN, near, least, most)))
            continue;
        for (uint32_t i = v; i < v + TURN; i++) {
            if (!is_wrong(k->masks + i, counts + i, 1, near, least, most))
                continue;
            struct answer a = { counts[i] < least ? w.code : w.code + 1, i, j, counts[i], 0 };
            if (!put(list, a))
                return a;
        }
    }
    memset(counts, 0, sizeof *counts * g->node_count);
    return refusal(0, 0);
}

INLINE struct answer number_edges(struct way w, const struct file *g, const struct file *s, const struct kept *k, struct list *list)
{
    uint16_t counts[NODES];
    const uint8_t *type = s->edges;
    memset(counts, 0, sizeof *counts * (g->node_count + -g->node_count % TURN));
    for (uint32_t j = 0; j < s->edge_count; j++, type += SCHEMA_EDGE) {
        if (k->several)
            count_several(w, g, k, j, counts);
        else
            count_edges(w, g, k, j, counts);
        struct answer a = judge_numbers(w, g, k, type, j, counts, list);
        if (a.code != 0)
            return a;
    }
    return refusal(0, 0);
}

/* ---- the checker */

INLINE struct answer judge_rules(const struct file *g, const struct file *s, struct list *list)
{
    struct kept k;
    struct answer a = place_nodes(g, s, &k, list);
    a = a.code == 0 ? place_edges(g, s, &k, list) : a;
    a = a.code == 0 ? number_edges(OUT, g, s, &k, list) : a;
    return a.code == 0 ? number_edges(INTO, g, s, &k, list) : a;
}

HOT struct answer judge_first(const struct file *g, const struct file *s)
{
    return judge_rules(g, s, NULL);
}

HOT void judge_all(const struct file *g, const struct file *s, struct list *list)
{
    judge_rules(g, s, list);
}

static struct answer read_both(const unsigned char *graph, size_t graph_bytes, const unsigned char *schema, size_t schema_bytes, struct file *g, struct file *s)
{
    struct answer a = read_graph(graph, graph_bytes, g);
    return a.code == 0 ? read_schema(schema, schema_bytes, s) : a;
}

unsigned int PLAIN_CHECK(const unsigned char *graph, size_t graph_bytes, const unsigned char *schema, size_t schema_bytes,
                         unsigned char *answer, size_t answer_bytes)
{
    struct file g, s;
    if (answer_bytes < sizeof(struct answer))
        return 1;
    struct answer a = read_both(graph, graph_bytes, schema, schema_bytes, &g, &s);
    a = a.code == 0 ? judge_first(&g, &s) : a;
    memcpy(answer, &a, sizeof a);
    return a.code;
}

havirozan_listed PLAIN_CHECK_ALL(const unsigned char *graph, size_t graph_bytes, const unsigned char *schema, size_t schema_bytes,
                                 havirozan_finding *records, size_t room)
{
    struct file g, s;
    struct list list = { records, room, 0 };
    struct answer a = read_both(graph, graph_bytes, schema, schema_bytes, &g, &s);
    if (a.code == 0)
        judge_all(&g, &s, &list);
    return (havirozan_listed){ a.code, a.place, list.total };
}

/* ---- the joiner: where two fields of 32 bits stand side by side they are moved as one number of 64, since no sum of the lower one goes above its bits */

INLINE uint8_t *copy(uint8_t *out, const uint8_t *in, size_t bytes)
{
    memcpy(out, in, bytes);
    return out + bytes;
}

INLINE uint8_t *move_nodes(uint8_t *restrict out, const uint8_t *restrict in, uint32_t count, uint64_t run)
{
    for (uint32_t i = 0; i < count; i++, in += NODE, out += NODE) {
        put64(out, u64(in));
        put64(out + 8, u64(in + 8) + run);
    }
    return out;
}

INLINE uint8_t *move_edges(uint8_t *restrict out, const uint8_t *restrict in, uint32_t count, uint64_t ends, uint64_t run)
{
    for (uint32_t e = 0; e < count; e++, in += EDGE, out += EDGE) {
        put64(out, u64(in));
        put64(out + 8, u64(in + 8) + ends);
        put64(out + 16, u64(in + 16) + run);
    }
    return out;
}

/* Of a Text the value is an offset. */
INLINE uint8_t *move_rows(uint8_t *restrict out, const uint8_t *restrict in, uint32_t count, uint64_t text)
{
    for (uint32_t r = 0; r < count; r++, in += ROW, out += ROW) {
        uint64_t head = u64(in);
        put64(out, head);
        put64(out + 8, u64(in + 8) + ((head >> 16 & 0xff) == 5 ? text : 0));
    }
    return out;
}

/* How many property rows the nodes have: where there is an edge, its run starts behind them. */
INLINE uint32_t of_nodes(const struct file *g)
{
    return g->edge_count != 0 ? u32(g->edges + 16) : g->row_count;
}

INLINE uint16_t greater(uint32_t a, uint32_t b)
{
    return (uint16_t)(a > b ? a : b);
}

INLINE void put_trailer(uint8_t *t, const struct file *a, const struct file *b, size_t back)
{
    put32(t, a->node_count + b->node_count);
    put32(t + 4, a->edge_count + b->edge_count);
    put32(t + 8, a->row_count + b->row_count);
    put32(t + 12, a->text + b->text);
    put16(t + 16, greater(a->labels, b->labels));
    put16(t + 18, greater(a->names, b->names));
    put32(t + 20, (uint32_t)back);
    put32(t + 24, 0x31485047);
}

HOT void put_joined(const struct file *a, const struct file *b, uint8_t *out)
{
    const uint32_t a_rows = of_nodes(a), b_rows = of_nodes(b);
    const uint64_t nodes = a->node_count;
    uint8_t *at = copy(out, a->nodes, (size_t)NODE * a->node_count);
    at = move_nodes(at, b->nodes, b->node_count, a_rows);
    at = move_edges(at, a->edges, a->edge_count, 0, b_rows);
    at = move_edges(at, b->edges, b->edge_count, nodes | nodes << 32, a->row_count);
    at = copy(at, a->rows, (size_t)ROW * a_rows);
    at = move_rows(at, b->rows, b_rows, a->text);
    at = copy(at, a->rows + (size_t)ROW * a_rows, (size_t)ROW * (a->row_count - a_rows));
    at = move_rows(at, b->rows + (size_t)ROW * b_rows, b->row_count - b_rows, a->text);
    at = copy(at, a->rows + (size_t)ROW * a->row_count, a->text);
    at = copy(at, b->rows + (size_t)ROW * b->row_count, b->text);
    put_trailer(at, a, b, (size_t)(at - out));
}

havirozan_outcome PLAIN_JOIN_GRAPHS(const unsigned char *first, size_t first_bytes, const unsigned char *second, size_t second_bytes,
                                    unsigned char *out, size_t out_bytes)
{
    struct file a, b;
    uint32_t code = read_graph(first, first_bytes, &a).code;
    if (code != 0)
        return (havirozan_outcome){ code, 0 };
    code = read_graph(second, second_bytes, &b).code;
    if (code != 0)
        return (havirozan_outcome){ code, 1 };
    uint32_t nodes = a.node_count + b.node_count, edges = a.edge_count + b.edge_count, rows = a.row_count + b.row_count, text = a.text + b.text;
    if (nodes > NODES || edges > EDGES || rows > ROWS || text > TEXT)
        return (havirozan_outcome){ 44, 0 };
    uint32_t length = NODE * nodes + EDGE * edges + ROW * rows + text + TRAILER;
    if (out_bytes < length)
        return (havirozan_outcome){ 42, 0 };
    put_joined(&a, &b, out);
    return (havirozan_outcome){ 0, length };
}
