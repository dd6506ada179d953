/*
 * patch GRAPH NODE NAME VALUE OUT: sets one Real of a graph, and writes the graph anew, without a preface, to OUT.
 *
 * NODE and NAME are numbers, as the graph file has them: `patch G.graph 2 4 1.0625 H.graph` sets the coefficient (name 4) of
 * node 2. VALUE is a finite number with a decimal point. It says in a line what it did.
 *
 * GRAPH is read as a whole before OUT is opened, and OUT is opened only when there is a file to put into it. A GRAPH that is
 * not there counts as 0 bytes. Exit status: 0 done, 1 no such node or property, or it is no Real, 2 the graph is refused,
 * 3 wrong usage or a file that cannot be read or written.
 */
#include <errno.h>
#include <math.h>
#include <stdio.h>
#include <stdlib.h>
#include <string.h>

#include "havirozan.h"

enum { DONE, NOT_THERE, REFUSED, USAGE };

/* a byte more than is accepted, so that a file that is too long is seen to be */
static unsigned char graph[HAVIROZAN_GRAPH_MOST_BYTES + 1U];
static havirozan_property rows[HAVIROZAN_GRAPH_MOST_PROPERTIES];
static unsigned char out[HAVIROZAN_GRAPH_MOST_WRITTEN];

/* Reads the file, up to `most` bytes of it. Returns how many were read, or more than `most` where the file cannot be read. */
static size_t load(const char *path, unsigned char *block, size_t most)
{
    const size_t unread = (size_t)-1;
    FILE *file = fopen(path, "rb");
    size_t bytes;
    if (file == NULL && errno == ENOENT)
        return 0;
    if (file == NULL) {
        fprintf(stderr, "patch: %s: %s\n", path, strerror(errno));
        return unread;
    }
    bytes = fread(block, 1, most, file);
    if (ferror(file)) {
        fprintf(stderr, "patch: %s: %s\n", path, strerror(errno));
        bytes = unread;
    }
    fclose(file);
    return bytes;
}

/* Writes the file. Returns whether all of it was written. */
static int store(const char *path, const unsigned char *block, size_t bytes)
{
    FILE *file = fopen(path, "wb");
    int stored = file != NULL && fwrite(block, 1, bytes, file) == bytes;
    /* what a full disk does not take may come up only here */
    if (file != NULL && fclose(file) != 0)
        stored = 0;
    if (!stored)
        fprintf(stderr, "patch: %s: %s\n", path, strerror(errno));
    return stored;
}

/* A number of digits alone; one that is too great for C is the greatest, which is no node and no name. */
static int read_number(const char *word, unsigned long *number)
{
    *number = strtoul(word, NULL, 10);
    return word[0] != '\0' && word[strspn(word, "0123456789")] == '\0';
}

/* A finite number, and nothing after it. The program sets no locale, so strtod takes a decimal point everywhere. */
static int read_real(const char *word, double *real)
{
    char *end;
    *real = strtod(word, &end);
    return end != word && *end == '\0' && isfinite(*real);
}

/* The number in digits that give it back: in 15 where these do, so that it looks as it was typed, else in 17. */
static const char *digits(double real, char *text, size_t bytes)
{
    snprintf(text, bytes, "%.15g", real);
    if (strtod(text, NULL) != real)
        snprintf(text, bytes, "%.17g", real);
    return text;
}

/* What a refusal of the graph file says. */
static const char *refusal(unsigned int code)
{
    switch (code) {
    case HAVIROZAN_GRAPH_LENGTH: return "it is too short or too long";
    case HAVIROZAN_GRAPH_MARK: return "its last four bytes are not 47 50 48 31";
    case HAVIROZAN_GRAPH_COUNT: return "a count in its trailer is above the ceiling";
    case HAVIROZAN_GRAPH_BACK: return "its trailer's back is not the size of a body that is there";
    case HAVIROZAN_GRAPH_NODE: return "that node has a label or a run that is not allowed";
    case HAVIROZAN_GRAPH_EDGE: return "that edge has a label, a run or an end that is not allowed";
    case HAVIROZAN_GRAPH_PROPERTY: return "that property row is in no run, or its name, kind or value is not allowed";
    default: return "there is no such code";
    }
}

int main(int argc, char **argv)
{
    const char *graph_path, *out_path;
    unsigned long node_number, name;
    double old_real, new_real;
    char old_digits[32], new_digits[32];
    size_t graph_bytes;
    havirozan_places at;
    havirozan_node node;
    havirozan_property *row, *end;
    havirozan_outcome written;

    if (argc != 6) {
        fprintf(stderr, "usage: patch GRAPH NODE NAME VALUE OUT\n");
        return USAGE;
    }
    graph_path = argv[1];
    out_path = argv[5];
    if (!read_number(argv[2], &node_number) || !read_number(argv[3], &name)) {
        fprintf(stderr, "patch: NODE and NAME are numbers from 0 on, and these are %s and %s\n", argv[2], argv[3]);
        return USAGE;
    }
    if (!read_real(argv[4], &new_real)) {
        fprintf(stderr, "patch: VALUE is a finite number with a decimal point, as 1.05 (a comma is not taken), and this is %s\n",
                argv[4]);
        return USAGE;
    }
    graph_bytes = load(graph_path, graph, sizeof graph);
    if (graph_bytes > sizeof graph)
        return USAGE;

    at = havirozan_find_tables(graph, graph_bytes);
    if (at.code != 0) {
        fprintf(stderr, "patch: %s is refused with code %u, place %u: %s\n", graph_path, at.code, at.place, refusal(at.code));
        return REFUSED;
    }

    /* In the file a table starts at any address, and a struct may not: rows are copied out, never read through a cast pointer. */
    if (node_number >= at.nodes) {
        fprintf(stderr, "patch: there is no node %s: the graph has %u, counted from 0\n", argv[2], at.nodes);
        return NOT_THERE;
    }
    memcpy(&node, graph + at.nodes_at + node_number * sizeof node, sizeof node);
    memcpy(rows, graph + at.rows_at, at.rows * sizeof rows[0]);

    row = rows + node.first;
    end = row + node.count;
    while (row < end && row->name != name)
        row++;
    if (row == end) {
        fprintf(stderr, "patch: node %s has no property %s\n", argv[2], argv[3]);
        return NOT_THERE;
    }
    if (row->kind != HAVIROZAN_REAL) {
        fprintf(stderr, "patch: property %s of node %s is no Real: its kind is %u\n", argv[3], argv[2], (unsigned int)row->kind);
        return NOT_THERE;
    }
    memcpy(&old_real, &row->value, sizeof old_real);
    memcpy(&row->value, &new_real, sizeof row->value);

    /* the other tables are lent where they lie in the file */
    written = havirozan_write_graph(graph + at.nodes_at, at.nodes * sizeof(havirozan_node),
                                    graph + at.edges_at, at.edges * sizeof(havirozan_edge),
                                    rows, at.rows * sizeof(havirozan_property),
                                    graph + at.text_at, at.text,
                                    at.labels, at.names, out, sizeof out);
    if (written.code != 0) {
        fprintf(stderr, "patch: the patched graph is refused with code %u, and %s was not written\n", written.code, out_path);
        return REFUSED;
    }
    if (!store(out_path, out, written.number))
        return USAGE;

    printf("node %lu, property %lu: %s is now %s; %u bytes written to %s\n", node_number, name,
           digits(old_real, old_digits, sizeof old_digits), digits(new_real, new_digits, sizeof new_digits), written.number, out_path);
    return DONE;
}
