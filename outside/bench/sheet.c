/*
 * The sheet reader's job in plain C, written as one would write it for speed: one pass over the sheet tries every line and keeps
 * the angles, then node, edge and property rows are written side by side, each table from its own place on.
 */
#include "baseline.h"

#include <stdbool.h>
#include <stdint.h>
#include <string.h>

enum {
    SERIAL = 32, ANGLES = 180,
    NODE = 16, EDGE = 24, ROW = 16,
    SENSOR_AND_RUN = 2, PROPERTIES = 2
};

enum { LABEL_SENSOR, LABEL_RUN, LABEL_ANGLE, LABEL_OF, LABEL_AT, LABELS };
enum { NAME_SERIAL, NAME_DATE, NAME_REMARK, NAME_DEGREES, NAME_COEFFICIENT, NAMES };
enum { INTEGER = 2, REAL = 3, DATE = 4, TEXT = 5 };

#define GRAPH_MARK 0x31485047

/* What the first line says. */
struct head {
    const uint8_t *serial;
    uint32_t serial_bytes, date;
};

/* What an angle line says: the degrees as they are, and the coefficient's bits. */
struct angle {
    int64_t degrees;
    uint64_t coefficient;
};

/* Where the next row of each table goes, and the number of the next property row. */
struct tables {
    uint8_t *nodes, *edges, *rows;
    uint32_t next;
};

static havirozan_outcome outcome_of(uint32_t code, size_t number)
{
    return (havirozan_outcome){ code, (uint32_t)number };
}

/* ---- reading: each gives the place behind what it read, or NULL where that is not what has to stand there */

/* Up to `most` digits are put behind those of `number`; there may be none. */
static inline const uint8_t *pass_digits(const uint8_t *at, const uint8_t *end, size_t most, int64_t *number)
{
    const uint8_t *stop = (size_t)(end - at) > most ? at + most : end;
    for (; at < stop && (uint8_t)(*at - '0') < 10; at++)
        *number = 10 * *number + (*at - '0');
    return at;
}

static inline const uint8_t *pass_end(const uint8_t *at, const uint8_t *end)
{
    if (at < end && *at == '\r')
        at++;
    return at < end && *at == '\n' ? at + 1 : NULL;
}

static const uint8_t MONTHS[2][12] = {
    { 31, 28, 31, 30, 31, 30, 31, 31, 30, 31, 30, 31 },
    { 31, 29, 31, 30, 31, 30, 31, 31, 30, 31, 30, 31 },
};

static bool is_day(int64_t year, int64_t month, int64_t day)
{
    bool leap = year % 4 == 0 && (year % 100 != 0 || year % 400 == 0);
    return 1 <= year && 1 <= month && month <= 12 && 1 <= day && day <= MONTHS[leap][month - 1];
}

/* YYYY-MM-DD */
static const uint8_t *pass_date(const uint8_t *at, const uint8_t *end, uint32_t *date)
{
    int64_t year = 0, month = 0, day = 0;
    if (end - at < 10 || at[4] != '-' || at[7] != '-')
        return NULL;
    if (pass_digits(at, end, 4, &year) != at + 4 || pass_digits(at + 5, end, 2, &month) != at + 7)
        return NULL;
    if (pass_digits(at + 8, end, 2, &day) != at + 10 || !is_day(year, month, day))
        return NULL;
    *date = (uint32_t)(10000 * year + 100 * month + day);
    return at + 10;
}

static const uint8_t *pass_first_line(const uint8_t *at, const uint8_t *end, struct head *head)
{
    head->serial = at;
    while (at < end && *at != ';' && *at != '\r' && *at != '\n' && at - head->serial < SERIAL)
        at++;
    head->serial_bytes = (uint32_t)(at - head->serial);
    if (head->serial_bytes == 0 || at == end || *at != ';')
        return NULL;
    at = pass_date(at + 1, end, &head->date);
    return at == NULL ? NULL : pass_end(at, end);
}

/* The powers of ten that the lengths of fractions give. All of them, and 12 digits, are exact in a double. */
static const double POWERS[] = { 1, 10, 100, 1000, 10000, 100000, 1000000 };

static inline const uint8_t *pass_coefficient(const uint8_t *at, const uint8_t *end, uint64_t *bits)
{
    bool minus = at < end && *at == '-';
    const uint8_t *first = at + minus;
    int64_t number = 0;
    size_t fraction = 0;
    at = pass_digits(first, end, 6, &number);
    if (at == first)
        return NULL;
    if (at < end && *at == ',') {
        first = at + 1;
        at = pass_digits(first, end, 6, &number);
        fraction = (size_t)(at - first);
        if (fraction == 0)
            return NULL;
    }
    double quotient = (double)number / POWERS[fraction];
    if (minus)
        quotient = -quotient;
    memcpy(bits, &quotient, sizeof quotient);
    return at;
}

static inline const uint8_t *pass_angle_line(const uint8_t *at, const uint8_t *end, struct angle *angle)
{
    bool minus = *at == '-';
    const uint8_t *first = at + minus;
    int64_t number = 0;
    at = pass_digits(first, end, 3, &number);
    if (at == first || at == end || *at != ';')
        return NULL;
    angle->degrees = minus ? -number : number;
    at = pass_coefficient(at + 1, end, &angle->coefficient);
    return at == NULL ? NULL : pass_end(at, end);
}

/* ---- writing: low byte first; compiled, each number is one store */

static inline void put_u16(uint8_t *p, uint32_t v)
{
    p[0] = (uint8_t)v;
    p[1] = (uint8_t)(v >> 8);
}

static inline void put_u32(uint8_t *p, uint32_t v)
{
    p[0] = (uint8_t)v;
    p[1] = (uint8_t)(v >> 8);
    p[2] = (uint8_t)(v >> 16);
    p[3] = (uint8_t)(v >> 24);
}

static inline void put_u64(uint8_t *p, uint64_t v)
{
    put_u32(p, (uint32_t)v);
    put_u32(p + 4, (uint32_t)(v >> 32));
}

static inline void put_node(struct tables *t, uint32_t label, uint32_t count)
{
    put_u64(t->nodes, UINT64_C(1) << label);
    put_u32(t->nodes + 8, t->next);
    put_u32(t->nodes + 12, count);
    t->nodes += NODE;
}

/* An edge has no properties: its empty run starts behind all rows. */
static inline void put_edge(struct tables *t, uint32_t label, uint32_t target, uint32_t rows)
{
    put_u64(t->edges, UINT64_C(1) << label);
    put_u32(t->edges + 8, 1);
    put_u32(t->edges + 12, target);
    put_u32(t->edges + 16, rows);
    put_u32(t->edges + 20, 0);
    t->edges += EDGE;
}

static inline void put_row(struct tables *t, uint32_t name, uint32_t kind, uint32_t length, uint64_t value)
{
    put_u16(t->rows, name);
    put_u16(t->rows + 2, kind);
    put_u32(t->rows + 4, length);
    put_u64(t->rows + 8, value);
    t->rows += ROW;
    t->next++;
}

static void put_trailer(uint8_t *t, uint32_t count, uint32_t rows, uint32_t text, size_t back)
{
    put_u32(t, SENSOR_AND_RUN + count);
    put_u32(t + 4, 1 + count);
    put_u32(t + 8, rows);
    put_u32(t + 12, text);
    put_u16(t + 16, LABELS);
    put_u16(t + 18, NAMES);
    put_u32(t + 20, (uint32_t)back);
    put_u32(t + 24, GRAPH_MARK);
}

static void put_file(uint8_t *out, const struct head *head, const struct angle *angles, uint32_t count)
{
    uint32_t rows = 2 + PROPERTIES * count;
    uint8_t *edges = out + (size_t)NODE * (SENSOR_AND_RUN + count), *properties = edges + (size_t)EDGE * (1 + count);
    struct tables t = { out, edges, properties, 0 };

    put_node(&t, LABEL_SENSOR, 1);
    put_row(&t, NAME_SERIAL, TEXT, head->serial_bytes, 0);
    put_node(&t, LABEL_RUN, 1);
    put_row(&t, NAME_DATE, DATE, 0, head->date);
    put_edge(&t, LABEL_OF, 0, rows);
    for (uint32_t i = 0; i < count; i++) {
        put_node(&t, LABEL_ANGLE, PROPERTIES);
        put_row(&t, NAME_DEGREES, INTEGER, 0, (uint64_t)angles[i].degrees);
        put_row(&t, NAME_COEFFICIENT, REAL, 0, angles[i].coefficient);
        put_edge(&t, LABEL_AT, SENSOR_AND_RUN + i, rows);
    }
    memcpy(t.rows, head->serial, head->serial_bytes);
    t.rows += head->serial_bytes;
    put_trailer(t.rows, count, rows, head->serial_bytes, (size_t)(t.rows - out));
}

/* ---- the sheet reader */

havirozan_outcome baseline_read_sheet(const unsigned char *sheet, size_t sheet_bytes, unsigned char *out, size_t out_bytes)
{
    struct head head;
    struct angle angles[ANGLES];
    uint32_t count = 0;
    if (sheet_bytes == 0)
        return outcome_of(51, 1);
    const uint8_t *end = sheet + sheet_bytes, *at = pass_first_line(sheet, end, &head);
    if (at == NULL)
        return outcome_of(51, 1);
    for (; at != end; count++) {
        at = count < ANGLES ? pass_angle_line(at, end, &angles[count]) : NULL;
        if (at == NULL)
            return outcome_of(52, count + 2);
    }
    size_t length = HAVIROZAN_GRAPH_BYTES(SENSOR_AND_RUN + count, 1 + count, 2 + PROPERTIES * count, head.serial_bytes);
    if (out_bytes < length)
        return outcome_of(42, 0);
    put_file(out, &head, angles, count);
    return outcome_of(0, length);
}
