#include <stdio.h>
#include <havirozan.h>

/* conforms GRAPH SCHEMA: ends with status 0 exactly if the graph conforms to the schema. */
int main(int words, char **word)
{
    static unsigned char graph[HAVIROZAN_GRAPH_MOST_BYTES + 1], schema[HAVIROZAN_SCHEMA_MOST_BYTES + 1], answer[HAVIROZAN_ANSWER_BYTES];
    FILE *g = words == 3 ? fopen(word[1], "rb") : NULL, *s = words == 3 ? fopen(word[2], "rb") : NULL;
    size_t n = g ? fread(graph, 1, sizeof graph, g) : 0, m = s ? fread(schema, 1, sizeof schema, s) : 0;
    if ((g && ferror(g)) || (s && ferror(s)))
        return 3; /* a part of a file is another file */
    unsigned int code = havirozan_check(graph, n, schema, m, answer, sizeof answer);
    printf("code %u, place %u\n", code, HAVIROZAN_NUMBER(answer, HAVIROZAN_AT_PLACE));
    return code != HAVIROZAN_CONFORMS;
}
