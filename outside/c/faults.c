#include <stdio.h>
#include <havirozan.h>

#define ROOM 100U

/* faults GRAPH SCHEMA: the five numbers of each violation, of the first 100 if there are more, and how many there are. It ends with
   status 0 exactly if the graph conforms to the schema. */
int main(int words, char **word)
{
    static unsigned char graph[HAVIROZAN_GRAPH_MOST_BYTES + 1], schema[HAVIROZAN_SCHEMA_MOST_BYTES + 1];
    static havirozan_finding list[ROOM];
    FILE *g = words == 3 ? fopen(word[1], "rb") : NULL, *s = words == 3 ? fopen(word[2], "rb") : NULL;
    size_t n = g ? fread(graph, 1, sizeof graph, g) : 0, m = s ? fread(schema, 1, sizeof schema, s) : 0;
    if ((g && ferror(g)) || (s && ferror(s)))
        return 3; /* a part of a file is another file */
    havirozan_listed all = havirozan_check_all(graph, n, schema, m, list, ROOM);
    for (unsigned int i = 0; i < all.total && i < ROOM; i++)
        printf("%u %u %u %u %u\n", list[i].code, list[i].place, list[i].schema_place, list[i].count, list[i].property);
    if (all.refusal != 0)
        printf("refused with code %u, place %u\n", all.refusal, all.place);
    else
        printf("violations: %u\n", all.total);
    return !HAVIROZAN_LISTED_CONFORMS(all); /* never the total: of a status only the low byte is left, and 256 becomes 0 */
}
