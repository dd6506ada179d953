/*
 * `check` in plain C, free of the forms that plain.c keeps: what these cost is what the two differ by.
 *
 * - Labels are looked up in a small hash, not compared schema object by schema object.
 * - A record test walks down the rows of the object and numbers that the listed rows were made into, which are compared at once.
 * - Rules 3 and 4 look at 32 edges in a turn. Of an edge that several schema edges place the set of them is kept, so that it is tested once.
 * - Only nodes that owe a number are judged.
 *
 * The rest is that of plain.c. PLAIN_CHECK is the name in a build.
 */
#include "plain.h"

#include <stdbool.h>
#include <stdint.h>
#include <string.h>
#ifdef __SSE2__
#include <emmintrin.h>
#endif

#define INLINE static inline __attribute__((always_inline))
#define HOT static __attribute__((hot)) /* else gcc expects refusals, and makes what comes behind their tests small instead of fast */

_Static_assert(__BYTE_ORDER__ == __ORDER_LITTLE_ENDIAN__, "numbers are loaded as they lie in the files");

enum {
    NODES = 1024, EDGES = 4096, ROWS = 16384, TEXT = 262144, LABELS = 64, NAMES = 256, GRAPH_BYTES = 1048576,
    SCHEMA_NODES = 32, SCHEMA_EDGES = 64, LISTED = 1024, SCHEMA_BYTES = 16384,
    NODE = 16, EDGE = 24, ROW = 16, TRAILER = 28,
    SCHEMA_NODE = 16, SCHEMA_EDGE = 40, SCHEMA_ROW = 4, SCHEMA_TRAILER = 20,
    SEVERAL = 64, TURN = 32
};

#define LOWEST(set) ((uint32_t)__builtin_ctzll(set))
#define FORBIDDEN(labels) ((labels) < 64 ? ~UINT64_C(0) << (labels) : 0)
#define ANY UINT32_MAX
#define NONE UINT32_MAX
#define NO_NAME 65536

/* The five numbers of an answer. A code of 0 says that nothing is wrong. */
struct answer {
    uint32_t code, place, schema, count, property;
};

/* Where the tables start, how many rows they have, and the labels that their rows may not have. */
struct file {
    const uint8_t *nodes, *edges, *rows;
    uint32_t node_count, edge_count, row_count, text, names;
    uint64_t forbidden;
};

/* A number where it lies: compiled, one load. */
#define LOAD(bits) INLINE uint##bits##_t u##bits(const uint8_t *p) { uint##bits##_t v; memcpy(&v, p, sizeof v); return v; }
LOAD(16) LOAD(32) LOAD(64)

static struct answer refusal(uint32_t code, uint32_t place)
{
    return (struct answer){ code, place, 0, 0, 0 };
}

/* ---- property rows */

INLINE bool is_date(uint64_t value)
{
    if (value > 99991231)
        return false;
    uint32_t n = (uint32_t)value, months = n / 100, day = n % 100, year = months / 100, month = months % 100;
    bool leap = (year % 100 == 0 ? year / 100 : year) % 4 == 0;
    uint32_t days = month == 2 ? 28u + leap : 30 + ((month ^ month >> 3) & 1);
    return year > 0 && month - 1 < 12 && day - 1 < days;
}

/* Kind, zero byte and length stand side by side: where the length has to be 0, one comparison sees to all three. */
INLINE bool good_value(uint64_t head, uint64_t value, uint64_t text)
{
    switch (head >> 16) {
    case 1: return value <= 1;
    case 2: return true;
    case 3: return value << 1 < UINT64_C(0x7ff) << 53;
    case 4: return is_date(value);
    default: return (head >> 16 & 0xffff) == 5 && value <= text && head >> 32 <= text - value;
    }
}

/* The lowest bad row of a run. */
INLINE uint32_t bad_property(const struct file *g, uint32_t first, uint32_t count)
{
    const uint8_t *row = g->rows + (size_t)ROW * first, *end = row + (size_t)ROW * count;
    const uint64_t text = g->text;
    int32_t last = -1, names = (int32_t)g->names;
    for (; row != end; row += ROW) {
        uint64_t head = u64(row);
        int32_t name = (int32_t)(head & 0xffff);
        if (name <= last || name >= names || !good_value(head, u64(row + 8), text))
            return (uint32_t)((row - g->rows) / ROW);
        last = name;
    }
    return NONE;
}

static uint32_t bad_listed(const struct file *s, uint32_t first, uint32_t count)
{
    int32_t last = -1;
    for (uint32_t r = first; r < first + count; r++) {
        uint32_t row = u32(s->rows + (size_t)SCHEMA_ROW * r);
        int32_t name = (int32_t)(row & 0xffff);
        if (name <= last || name >= (int32_t)s->names || (row >> 16 & 0xff) - 1 > 4 || row >> 24 > 1)
            return r;
        last = name;
    }
    return NONE;
}

/* ---- node and edge rows: inlined, there are functions for each file, which do not ask which it is */

/* Where the next run has to start, and the lowest bad property row before that. */
struct walk {
    uint32_t next, bad;
};

/* Passes a run, if it and the labels are good. Property rows are only looked at until the first bad one. */
INLINE bool pass_head(const struct file *f, struct walk *w, uint64_t labels, const uint8_t *run, bool schema)
{
    uint32_t count = schema ? u16(run + 4) : u32(run + 4);
    if (labels & f->forbidden || u32(run) != w->next || count > f->row_count - w->next || (schema && u16(run + 6) > 1))
        return false;
    if (w->bad == NONE)
        w->bad = schema ? bad_listed(f, w->next, count) : bad_property(f, w->next, count);
    w->next += count;
    return true;
}

static bool good_interval(const uint8_t *p)
{
    uint32_t least = u32(p), most = u32(p + 4);
    return least <= 65535 && least <= most && (most == ANY || most <= 65535);
}

/* A row in no run is bad, too. */
INLINE struct answer read_rows(const struct file *f, bool schema)
{
    struct walk w = { 0, NONE };
    const uint8_t *p = f->nodes;
    for (uint32_t i = 0; i < f->node_count; i++, p += schema ? SCHEMA_NODE : NODE)
        if (!pass_head(f, &w, u64(p), p + 8, schema))
            return refusal(schema ? 13 : 6, i);
    for (uint32_t e = 0; e < f->edge_count; e++, p += schema ? SCHEMA_EDGE : EDGE) {
        bool good = u32(p + 8) < f->node_count && u32(p + 12) < f->node_count && (!schema || (good_interval(p + 24) && good_interval(p + 32)));
        if (!good || !pass_head(f, &w, u64(p), p + 16, schema))
            return refusal(schema ? 14 : 7, e);
    }
    if (w.bad == NONE && w.next < f->row_count)
        w.bad = w.next;
    return w.bad == NONE ? refusal(0, 0) : refusal(schema ? 15 : 8, w.bad);
}

/* ---- files */

HOT struct answer read_graph(const uint8_t *bytes, size_t size, struct file *g)
{
    if (size < TRAILER || size > GRAPH_BYTES)
        return refusal(2, 0);
    const uint8_t *t = bytes + size - TRAILER;
    if (u32(t + 24) != 0x31485047)
        return refusal(3, 0);
    uint32_t nodes = u32(t), edges = u32(t + 4), rows = u32(t + 8), text = u32(t + 12), labels = u16(t + 16), names = u16(t + 18);
    if (nodes > NODES || edges > EDGES || rows > ROWS || text > TEXT || labels > LABELS || names > NAMES)
        return refusal(4, 0);
    uint32_t edges_at = NODE * nodes, rows_at = edges_at + EDGE * edges, back = u32(t + 20);
    if (back != rows_at + ROW * rows + text || back > size - TRAILER)
        return refusal(5, 0);
    *g = (struct file){ t - back, t - back + edges_at, t - back + rows_at, nodes, edges, rows, text, names, FORBIDDEN(labels) };
    return read_rows(g, false);
}

static struct answer read_schema(const uint8_t *bytes, size_t size, struct file *s)
{
    if (size < SCHEMA_TRAILER || size > SCHEMA_BYTES)
        return refusal(9, 0);
    const uint8_t *t = bytes + size - SCHEMA_TRAILER;
    if (u32(t + 16) != 0x31484353)
        return refusal(10, 0);
    uint32_t nodes = u16(t), edges = u16(t + 2), rows = u32(t + 4), labels = u16(t + 8), names = u16(t + 10);
    if (nodes > SCHEMA_NODES || edges > SCHEMA_EDGES || rows > LISTED || labels > LABELS || names > NAMES)
        return refusal(11, 0);
    uint32_t edges_at = SCHEMA_NODE * nodes, rows_at = edges_at + SCHEMA_EDGE * edges, back = u32(t + 12);
    if (back != rows_at + SCHEMA_ROW * rows || back > size - SCHEMA_TRAILER)
        return refusal(12, 0);
    *s = (struct file){ t - back, t - back + edges_at, t - back + rows_at, nodes, edges, rows, 0, names, FORBIDDEN(labels) };
    return read_rows(s, true);
}

/* ---- what is kept, of the schema's nodes and then of its edges, and of the graph */

/* A listed row as one number: name, MANDATORY or not, type. A property row's is name, 0, kind. One comparison tells which name comes first. */
enum { MANDATORY = 0x100, SLOTS = 128 };
#define BEHIND UINT32_MAX /* what stands behind the last listed row */

struct shape {
    const uint32_t *listed;
    uint32_t mandatory; /* how many are */
    bool open;
};

struct kept {
    uint8_t slots[SLOTS];                                      /* a hash of labels: 1 + the first schema object that has them, or 0 */
    uint64_t labels[SCHEMA_EDGES + 1], same[SCHEMA_EDGES + 1]; /* at that number: the labels, and a bit for each schema object that has them */
    uint32_t listed[LISTED + SCHEMA_EDGES];                    /* the numbers of the listed rows, and BEHIND after each run */
    struct shape shapes[SCHEMA_EDGES];
    uint8_t source[SCHEMA_EDGES], target[SCHEMA_EDGES];
    uint32_t masks[NODES];                                     /* which schema nodes a node fits */
    uint64_t fitting[SCHEMA_NODES][NODES / 64];                /* which nodes fit a schema node */
    uint8_t places[EDGES];                                     /* the schema edge that places an edge, or SEVERAL */
    uint16_t several[EDGES];                                   /* the edges of several places, */
    uint64_t sets[EDGES];                                      /* and which schema edges place each of them */
    uint32_t several_count;
};

INLINE uint32_t slot_of(const struct kept *k, uint64_t labels)
{
    uint32_t slot = (uint32_t)(labels * UINT64_C(0x9e3779b97f4a7c15) >> 57);
    while (k->slots[slot] != 0 && k->labels[k->slots[slot]] != labels)
        slot = (slot + 1) % SLOTS;
    return slot;
}

INLINE uint64_t same_labels(const struct kept *k, uint64_t labels)
{
    return k->same[k->slots[slot_of(k, labels)]];
}

static void keep_labels(struct kept *k, uint64_t labels, uint32_t j)
{
    uint8_t *slot = &k->slots[slot_of(k, labels)];
    if (*slot == 0)
        *slot = (uint8_t)(j + 1), k->labels[j + 1] = labels, k->same[j + 1] = 0;
    k->same[*slot] |= UINT64_C(1) << j;
}

INLINE uint32_t name_first(const uint8_t *row)
{
    return u32(row) << 16 | u32(row) >> 16;
}

/* Fills the room with the listed rows of a run, and gives the place after them. */
static uint32_t *keep_shape(const struct file *s, const uint8_t *run, uint32_t *room, struct shape *t)
{
    const uint8_t *row = s->rows + (size_t)SCHEMA_ROW * u32(run), *end = row + (size_t)SCHEMA_ROW * u16(run + 4);
    *t = (struct shape){ room, 0, u16(run + 6) == 1 };
    for (; row != end; row += SCHEMA_ROW) {
        *room = name_first(row) ^ MANDATORY; /* in the file 1 is optional */
        t->mandatory += *room++ >> 8 & 1;
    }
    *room++ = BEHIND;
    return room;
}

static void keep_schema(struct kept *k, const struct file *s, const uint8_t *rows, uint32_t count, size_t width, size_t run)
{
    uint32_t *room = k->listed;
    memset(k->slots, 0, sizeof k->slots);
    k->same[0] = 0;
    for (uint32_t j = 0; j < count; j++, rows += width) {
        keep_labels(k, u64(rows), j);
        room = keep_shape(s, rows + run, room, &k->shapes[j]);
        k->source[j] = rows[8], k->target[j] = rows[12]; /* of a schema node nobody asks for them */
    }
}

/* ---- records */

struct record {
    const uint8_t *rows, *end;
};

INLINE struct record record_of(const struct file *g, const uint8_t *run)
{
    const uint8_t *rows = g->rows + (size_t)ROW * u32(run);
    return (struct record){ rows, rows + (size_t)ROW * u32(run + 4) };
}

/* One walk down both lists. No mandatory name is missing if as many were met as there are. */
INLINE bool fits(struct record r, const struct shape *t)
{
    const uint32_t *listed = t->listed;
    uint32_t missing = t->mandatory;
    for (const uint8_t *row = r.rows; row != r.end; row += ROW) {
        uint32_t present = name_first(row);
        while (*listed < (present & 0xffff0000))
            listed++;
        uint32_t differs = (*listed ^ present) & ~(uint32_t)MANDATORY;
        if (differs == 0)
            missing -= *listed++ >> 8 & 1;
        else if (!t->open || differs < 0x10000)
            return false;
    }
    return missing == 0;
}

/* An object that fits no schema object: the code says that none has its labels, or the next code says what is wrong at the lowest that has. That is
   the walk once more: the first of (b), (c), (d) that is broken, and the lowest name at fault by it. */
static struct answer tell(uint32_t code, uint32_t place, uint64_t same, struct record r, const struct kept *k)
{
    if (same == 0)
        return refusal(code, place);
    const struct shape *t = &k->shapes[LOWEST(same)];
    const uint32_t *listed = t->listed;
    uint32_t first[4] = { NO_NAME, NO_NAME, NO_NAME, NO_NAME }, letter = 1;
    while (r.rows != r.end || *listed != BEHIND) {
        uint32_t present = r.rows != r.end ? name_first(r.rows) : BEHIND, asked = *listed;
        bool missing = asked >> 16 < present >> 16, unlisted = present >> 16 < asked >> 16;
        uint32_t broken = missing ? asked >> 8 & 1 : unlisted ? t->open ? 0 : 2 : (asked ^ present) & 0xff ? 3 : 0;
        if (first[broken] == NO_NAME)
            first[broken] = (missing ? asked : present) >> 16;
        listed += !unlisted, r.rows += missing ? 0 : ROW;
    }
    while (first[letter] == NO_NAME)
        letter++;
    return (struct answer){ code + 1, place, LOWEST(same), letter, first[letter] };
}

/* ---- rule 1 */

HOT struct answer place_nodes(const struct file *g, const struct file *s, struct kept *restrict k)
{
    const uint8_t *p = g->nodes;
    keep_schema(k, s, s->nodes, s->node_count, SCHEMA_NODE, 8);
    memset(k->fitting, 0, sizeof *k->fitting * s->node_count);
    for (uint32_t i = 0; i < g->node_count; i++, p += NODE) {
        const struct record r = record_of(g, p + 8);
        const uint64_t same = same_labels(k, u64(p));
        uint32_t mask = 0;
        for (uint64_t left = same; left != 0; left &= left - 1) {
            uint32_t j = LOWEST(left);
            if (fits(r, &k->shapes[j])) {
                mask |= UINT32_C(1) << j;
                k->fitting[j][i / 64] |= UINT64_C(1) << i % 64;
            }
        }
        if (mask == 0)
            return tell(21, i, same, r, k);
        k->masks[i] = mask;
    }
    return refusal(0, 0);
}

/* ---- rule 2 */

static struct answer tell_edge(const struct file *g, const struct kept *k, const uint8_t *p, uint32_t e)
{
    const struct record r = record_of(g, p + 16);
    const uint64_t same = same_labels(k, u64(p));
    for (uint64_t left = same; left != 0; left &= left - 1) {
        uint32_t j = LOWEST(left);
        if (fits(r, &k->shapes[j]))
            return (struct answer){ 25, e, j, k->masks[u32(p + 8)] >> k->source[j] & 1 ? 2 : 1, 0 };
    }
    return tell(23, e, same, r, k);
}

/* Those of these schema edges that place the edge. */
INLINE uint64_t places_of(const struct file *g, const struct kept *k, const uint8_t *p, uint64_t among)
{
    const struct record r = record_of(g, p + 16);
    const uint32_t from = k->masks[u32(p + 8)], to = k->masks[u32(p + 12)];
    uint64_t places = 0;
    for (; among != 0; among &= among - 1) {
        uint32_t j = LOWEST(among);
        if (from >> k->source[j] & to >> k->target[j] & 1 && fits(r, &k->shapes[j]))
            places |= UINT64_C(1) << j;
    }
    return places;
}

HOT struct answer place_edges(const struct file *g, const struct file *s, struct kept *restrict k)
{
    const uint8_t *p = g->edges;
    keep_schema(k, s, s->edges, s->edge_count, SCHEMA_EDGE, 16);
    k->several_count = 0;
    for (uint32_t e = 0; e < g->edge_count; e++, p += EDGE) {
        uint64_t places = places_of(g, k, p, same_labels(k, u64(p)));
        if (places == 0)
            return tell_edge(g, k, p, e);
        k->places[e] = (uint8_t)LOWEST(places);
        if ((places & (places - 1)) != 0) {
            k->places[e] = SEVERAL;
            k->several[k->several_count] = (uint16_t)e, k->sets[k->several_count++] = places;
        }
    }
    memset(k->places + g->edge_count, SEVERAL, -g->edge_count % TURN); /* so that the last turn is whole */
    return refusal(0, 0);
}

/* ---- rules 3 and 4: where the end that counts and the interval across stand in a row */

struct way {
    uint32_t code;
    size_t near, interval;
};

static const struct way OUT = { 31, 8, 32 }, INTO = { 33, 12, 24 };

/* A bit for each edge of a turn: whether the schema edge places it. */
INLINE uint32_t look(const uint8_t *places, uint32_t j)
{
#ifdef __SSE2__
    const __m128i *at = (const __m128i *)places, wanted = _mm_set1_epi8((char)j);
    uint32_t low = (uint32_t)_mm_movemask_epi8(_mm_cmpeq_epi8(_mm_loadu_si128(at), wanted));
    return low | (uint32_t)_mm_movemask_epi8(_mm_cmpeq_epi8(_mm_loadu_si128(at + 1), wanted)) << 16;
#else
    uint32_t hits = 0;
    for (uint32_t e = 0; e < TURN; e++)
        hits |= (uint32_t)(places[e] == j) << e;
    return hits;
#endif
}

INLINE void count_edges(struct way w, const struct file *g, const struct kept *k, uint32_t j, uint16_t *restrict counts)
{
    const uint8_t *near = g->edges + w.near;
    for (size_t e = 0; e < g->edge_count; e += TURN)
        for (uint32_t hits = look(k->places + e, j); hits != 0; hits &= hits - 1)
            counts[u32(near + EDGE * (e + LOWEST(hits)))]++;
    for (uint32_t i = 0; i < k->several_count; i++)
        counts[u32(near + (size_t)EDGE * k->several[i])] += (uint16_t)(k->sets[i] >> j & 1);
}

static struct answer first_wrong(struct way w, const struct file *g, const struct kept *k, const uint8_t *type, uint32_t j, const uint16_t *counts)
{
    const uint32_t least = u32(type + w.interval), most = u32(type + w.interval + 4);
    const uint64_t *fitting = k->fitting[type[w.near]];
    if (least == 0 && most == ANY)
        return refusal(0, 0);
    for (uint32_t v = 0; v < g->node_count; v += 64)
        for (uint64_t left = fitting[v / 64]; left != 0; left &= left - 1) {
            uint32_t count = counts[v + LOWEST(left)];
            if (count - least > most - least) /* below the least it is a great number */
                return (struct answer){ count < least ? w.code : w.code + 1, v + LOWEST(left), j, count, 0 };
        }
    return refusal(0, 0);
}

HOT struct answer number_edges(struct way w, const struct file *g, const struct file *s, const struct kept *k)
{
    uint16_t counts[NODES];
    const uint8_t *type = s->edges;
    for (uint32_t j = 0; j < s->edge_count; j++, type += SCHEMA_EDGE) {
        memset(counts, 0, sizeof *counts * g->node_count);
        count_edges(w, g, k, j, counts);
        struct answer a = first_wrong(w, g, k, type, j, counts);
        if (a.code != 0)
            return a;
    }
    return refusal(0, 0);
}

/* ---- the checker */

static struct answer judge_rules(const struct file *g, const struct file *s)
{
    struct kept k;
    struct answer a = place_nodes(g, s, &k);
    a = a.code == 0 ? place_edges(g, s, &k) : a;
    a = a.code == 0 ? number_edges(OUT, g, s, &k) : a;
    return a.code == 0 ? number_edges(INTO, g, s, &k) : a;
}

unsigned int PLAIN_CHECK(const unsigned char *graph, size_t graph_bytes, const unsigned char *schema, size_t schema_bytes,
                         unsigned char *answer, size_t answer_bytes)
{
    struct file g, s;
    if (answer_bytes < sizeof(struct answer))
        return 1;
    struct answer a = read_graph(graph, graph_bytes, &g);
    a = a.code == 0 ? read_schema(schema, schema_bytes, &s) : a;
    a = a.code == 0 ? judge_rules(&g, &s) : a;
    memcpy(answer, &a, sizeof a);
    return a.code;
}
