/*
 * What a check reads of the two files.
 *
 *     reads heap ours|C GRAPH SCHEMA           checks a pair once, with each file in a block of the heap
 *     reads call ours|C GRAPH SCHEMA           the same, with both files at addresses that do not change
 *     reads count GRAPH SCHEMA                 reads valgrind's trace of the second, and prints for each table: its name, its bytes,
 *                                              the loads from it, the bytes that they loaded, and the most loads from one row
 *
 * Nothing but the check loads from there: the files are put there by the system.
 */
#define _GNU_SOURCE
/* it is linked with the archive itself */
#define HAVIROZAN_BARE_NAMES
#include <fcntl.h>
#include <stdbool.h>
#include <stdint.h>
#include <stdio.h>
#include <stdlib.h>
#include <string.h>
#include <sys/mman.h>
#include <sys/stat.h>
#include <unistd.h>

#include "havirozan.h"
#include "plain.h"

enum { TABLES = 9 };

struct table {
    const char *name;
    uint64_t from, to, width;
    unsigned long long loads, bytes;
    unsigned *rows;
};

static void stop(const char *why)
{
    fprintf(stderr, "reads: %s\n", why);
    exit(1);
}

static unsigned char *put(const char *path, uint64_t address, size_t *size)
{
    struct stat about;
    int file = open(path, O_RDONLY);
    if (file < 0 || fstat(file, &about) < 0)
        stop("a file cannot be read");
    *size = (size_t)about.st_size;
    void *at = address ? mmap((void *)address, *size, PROT_READ | PROT_WRITE, MAP_PRIVATE | MAP_ANONYMOUS | MAP_FIXED, -1, 0) : malloc(*size);
    if (!at || at == MAP_FAILED || read(file, at, *size) != about.st_size)
        stop("a file cannot be put at its place");
    close(file);
    return at;
}

static uint32_t number(const unsigned char *p, int bytes)
{
    uint32_t v = 0;
    for (int i = bytes; i-- > 0;)
        v = v << 8 | p[i];
    return v;
}

static struct table *add(struct table *t, const char *name, uint64_t rows, uint64_t width)
{
    t->name = name, t->to = t->from + rows * width, t->width = width;
    t->rows = calloc(rows + 1, sizeof *t->rows);
    if (!t->rows)
        stop("no memory");
    t[1].from = t->to;
    return t + 1;
}

/* Where the tables lie, by the counts of the trailers. */
static void find(struct table *t, const unsigned char *graph, size_t graph_bytes, const unsigned char *schema, size_t schema_bytes)
{
    const unsigned char *end = graph + graph_bytes - 28;
    t->from = (uint64_t)(uintptr_t)(end - number(end + 20, 4));
    t = add(t, "nodes", number(end, 4), 16);
    t = add(t, "edges", number(end + 4, 4), 24);
    t = add(t, "properties", number(end + 8, 4), 16);
    t = add(t, "text", number(end + 12, 4), 1);
    t = add(t, "trailer", 1, 28);
    end = schema + schema_bytes - 20;
    t->from = (uint64_t)(uintptr_t)(end - number(end + 12, 4));
    t = add(t, "schema nodes", number(end, 2), 16);
    t = add(t, "schema edges", number(end + 2, 2), 40);
    t = add(t, "schema properties", number(end + 4, 4), 4);
    add(t, "schema trailer", 1, 20);
}

static void count(struct table *tables)
{
    char line[256];
    while (fgets(line, sizeof line, stdin)) {
        uint64_t address;
        unsigned size;
        if (line[0] != ' ' || (line[1] != 'L' && line[1] != 'M') || sscanf(line + 2, " %lx,%u", &address, &size) != 2)
            continue;
        for (struct table *t = tables; t < tables + TABLES; t++)
            if (t->from <= address && address < t->to) {
                t->loads++, t->bytes += size;
                t->rows[(address - t->from) / t->width]++;
            }
    }
    for (struct table *t = tables; t < tables + TABLES; t++) {
        unsigned most = 0;
        for (uint64_t r = 0; r < (t->to - t->from) / t->width; r++)
            if (most < t->rows[r])
                most = t->rows[r];
        printf("%s|%llu|%llu|%llu|%u\n", t->name, (unsigned long long)(t->to - t->from), t->loads, t->bytes, most);
    }
}

int main(int words, char **word)
{
    if (words < 4)
        stop("see the head of reads.c");
    size_t graph_bytes, schema_bytes;
    bool heap = !strcmp(word[1], "heap");
    unsigned char *graph = put(word[words - 2], heap ? 0 : 0x1000000000, &graph_bytes);
    unsigned char *schema = put(word[words - 1], heap ? 0 : 0x1100000000, &schema_bytes);
    unsigned char answer[20] = { 0 };
    if (!strcmp(word[1], "count")) {
        struct table tables[TABLES + 1] = { 0 };
        find(tables, graph, graph_bytes, schema, schema_bytes);
        count(tables);
    } else if (!strcmp(word[2], "ours"))
        check(graph, graph_bytes, schema, schema_bytes, answer, sizeof answer);
    else
        plain_gcc_check(graph, graph_bytes, schema, schema_bytes, answer, sizeof answer);
    return 0;
}
