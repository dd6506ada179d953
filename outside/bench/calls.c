/*
 * calls N ours|C|before check|check_all GRAPH SCHEMA, calls N ours|C join_graphs FIRST SECOND: N calls of a function on a pair or on two graphs, one after the
 * other, and nothing else that depends on N. What N + 1 calls take more than N is what one takes.
 */
#define HAVIROZAN_BARE_NAMES
#include "havirozan.h"

#include <stdio.h>
#include <stdlib.h>
#include <string.h>

#include "baseline.h"
#include "plain.h"

static size_t load(const char *path, unsigned char *bytes, size_t most)
{
    FILE *file = fopen(path, "rb");
    if (!file) {
        perror(path);
        exit(1);
    }
    size_t size = fread(bytes, 1, most, file);
    fclose(file);
    return size;
}

/* schema is room for a second graph, too */
static unsigned char graph[HAVIROZAN_GRAPH_MOST_BYTES], schema[HAVIROZAN_GRAPH_MOST_BYTES], answer[HAVIROZAN_ANSWER_BYTES], out[HAVIROZAN_GRAPH_MOST_WRITTEN];
static havirozan_finding list[HAVIROZAN_MOST_VIOLATIONS];

int main(int words, char **word)
{
    if (words != 6)
        return 2;
    int ours = strcmp(word[2], "ours") == 0, before = strcmp(word[2], "before") == 0, all = strcmp(word[3], "check_all") == 0, join = strcmp(word[3], "join_graphs") == 0;
    size_t graph_bytes = load(word[4], graph, sizeof graph), schema_bytes = load(word[5], schema, sizeof schema);
    for (int calls = atoi(word[1]); calls > 0; calls--)
        if (join)
            (ours ? join_graphs : plain_gcc_join_graphs)(graph, graph_bytes, schema, schema_bytes, out, sizeof out);
        else if (all)
            (ours ? check_all : plain_gcc_check_all)(graph, graph_bytes, schema, schema_bytes, list, HAVIROZAN_MOST_VIOLATIONS);
        else
            (ours ? check : before ? baseline_check : plain_gcc_check)(graph, graph_bytes, schema, schema_bytes, answer, sizeof answer);
    return 0;
}
