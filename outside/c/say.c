/* The sentences of the answers, of the refused sheets and of the refused joins: see say.h. */
#include <string.h>

#include "say.h"

/* ---- answers */

/* The sentence of 22 and 24: what is wrong with the record of a node or an edge, and with which property. */
static void say_record(FILE *to, const char *object, const havirozan_finding *a)
{
    fprintf(to, "%s %u fits no schema %s: ", object, a->place, object);
    switch (a->count) {
    case HAVIROZAN_LACKS:
        fprintf(to, "it lacks mandatory property %u of", a->property);
        break;
    case HAVIROZAN_NOT_LISTED:
        fprintf(to, "it has property %u, which is not listed in", a->property);
        break;
    case HAVIROZAN_OTHER_TYPE:
        fprintf(to, "its property %u is of another type than in", a->property);
        break;
    default:
        fprintf(to, "it does not fit");
        break;
    }
    fprintf(to, " schema %s %u, the lowest with its label set\n", object, a->schema_place);
}

/* The sentence of 25. */
static void say_ends(FILE *to, const havirozan_finding *a)
{
    const char *end = a->count == HAVIROZAN_SOURCE ? "source" : "target";
    fprintf(to, "edge %u fits no schema edge with its ends: its %s does not fit the %s of schema edge %u, the lowest that it fits\n",
            a->place, end, end, a->schema_place);
}

/* The sentence of 31 to 34: how many edges there are, of which schema edge, and which bound they break. */
static void say_number(FILE *to, const havirozan_finding *a, const char *edges, const char *bound)
{
    fprintf(to, "node %u has too %s edges of schema edge %u: %u, %s\n", a->place, edges, a->schema_place, a->count, bound);
}

void say_answer(FILE *to, const havirozan_finding *a)
{
    switch (a->code) {
    case HAVIROZAN_CONFORMS:
        fprintf(to, "the graph conforms to the schema\n");
        break;

    case HAVIROZAN_SHORT_ANSWER:
        fprintf(to, "the answer block has fewer than %u bytes\n", HAVIROZAN_ANSWER_BYTES);
        break;

    case HAVIROZAN_GRAPH_LENGTH:
        fprintf(to, "the graph file is refused: it has fewer than %u bytes, or more than %u\n",
                HAVIROZAN_GRAPH_TRAILER_BYTES, HAVIROZAN_GRAPH_MOST_BYTES);
        break;
    case HAVIROZAN_SCHEMA_LENGTH:
        fprintf(to, "the schema file is refused: it has fewer than %u bytes, or more than %u\n",
                HAVIROZAN_SCHEMA_TRAILER_BYTES, HAVIROZAN_SCHEMA_MOST_BYTES);
        break;
    case HAVIROZAN_GRAPH_MARK:
        fprintf(to, "the graph file is refused: its last four bytes are not 47 50 48 31\n");
        break;
    case HAVIROZAN_SCHEMA_MARK:
        fprintf(to, "the schema file is refused: its last four bytes are not 53 43 48 31\n");
        break;
    case HAVIROZAN_GRAPH_COUNT:
        fprintf(to, "the graph file is refused: a count in its trailer is above the ceiling\n");
        break;
    case HAVIROZAN_SCHEMA_COUNT:
        fprintf(to, "the schema file is refused: a count in its trailer is above the ceiling\n");
        break;
    case HAVIROZAN_GRAPH_BACK:
        fprintf(to, "the graph file is refused: its trailer's back is not the size of a body that is there\n");
        break;
    case HAVIROZAN_SCHEMA_BACK:
        fprintf(to, "the schema file is refused: its trailer's back is not the size of a body that is there\n");
        break;
    case HAVIROZAN_GRAPH_NODE:
        fprintf(to, "the graph file is refused: the row of node %u has a label or a run that is not allowed\n", a->place);
        break;
    case HAVIROZAN_SCHEMA_NODE:
        fprintf(to, "the schema file is refused: the row of schema node %u has a label, a run or an open that is not allowed\n",
                a->place);
        break;
    case HAVIROZAN_GRAPH_EDGE:
        fprintf(to, "the graph file is refused: the row of edge %u has a label, a run or an end that is not allowed\n", a->place);
        break;
    case HAVIROZAN_SCHEMA_EDGE:
        fprintf(to, "the schema file is refused: the row of schema edge %u has a label, a run, an end, an open or an interval "
                    "that is not allowed\n", a->place);
        break;
    case HAVIROZAN_GRAPH_PROPERTY:
        fprintf(to, "the graph file is refused: property row %u is in no run, or its name, kind or value is not allowed\n", a->place);
        break;
    case HAVIROZAN_SCHEMA_PROPERTY:
        fprintf(to, "the schema file is refused: schema property row %u is in no run, or its name, type or flag is not allowed\n",
                a->place);
        break;

    case HAVIROZAN_NODE_LABELS:
        fprintf(to, "node %u fits no schema node: none has its label set\n", a->place);
        break;
    case HAVIROZAN_NODE_RECORD:
        say_record(to, "node", a);
        break;
    case HAVIROZAN_EDGE_LABELS:
        fprintf(to, "edge %u fits no schema edge: none has its label set\n", a->place);
        break;
    case HAVIROZAN_EDGE_RECORD:
        say_record(to, "edge", a);
        break;
    case HAVIROZAN_EDGE_ENDS:
        say_ends(to, a);
        break;

    case HAVIROZAN_TOO_FEW_OUT:
        say_number(to, a, "few outgoing", "below the target minimum");
        break;
    case HAVIROZAN_TOO_MANY_OUT:
        say_number(to, a, "many outgoing", "above the target maximum");
        break;
    case HAVIROZAN_TOO_FEW_IN:
        say_number(to, a, "few incoming", "below the source minimum");
        break;
    case HAVIROZAN_TOO_MANY_IN:
        say_number(to, a, "many incoming", "above the source maximum");
        break;

    default:
        fprintf(to, "there is no code %u\n", a->code);
        break;
    }
}

/* ---- angle sheets */

void say_sheet(FILE *to, havirozan_outcome refusal)
{
    const unsigned int line = refusal.number;
    if (refusal.code == HAVIROZAN_SHEET_FIRST)
        fprintf(to, "line 1 is missing or bad: it has to be the serial, a semicolon, a date that exists, as in LX-204/17;2026-03-14, "
                    "and an end of line\n");
    else if (refusal.code == HAVIROZAN_SHEET_LINE && line == HAVIROZAN_SHEET_MOST_ANGLES + 2U)
        fprintf(to, "line %u is one too many: a sheet has up to %u angles\n", line, HAVIROZAN_SHEET_MOST_ANGLES);
    else if (refusal.code == HAVIROZAN_SHEET_LINE)
        fprintf(to, "line %u is bad: it has to be the degrees, a semicolon, the coefficient with a decimal comma, as in 45;1,05, "
                    "and an end of line\n", line);
    else
        fprintf(to, "there is no code %u\n", refusal.code);
}

/* ---- joins */

/* The sentence of 44: the first count that is too high. */
static void say_joined_count(FILE *to, const havirozan_places *a, const havirozan_places *b)
{
    const struct {
        const char *what;
        unsigned int count, most;
    } counts[] = {
        {"nodes", a->nodes + b->nodes, HAVIROZAN_GRAPH_MOST_NODES},
        {"edges", a->edges + b->edges, HAVIROZAN_GRAPH_MOST_EDGES},
        {"property rows", a->rows + b->rows, HAVIROZAN_GRAPH_MOST_PROPERTIES},
        {"text bytes", a->text + b->text, HAVIROZAN_GRAPH_MOST_TEXT}
    };
    size_t i = 0;
    while (i < 3 && counts[i].count <= counts[i].most)
        i++;
    fprintf(to, "together they have %u %s, and a graph has up to %u\n", counts[i].count, counts[i].what, counts[i].most);
}

void say_join(FILE *to, havirozan_outcome refusal, const havirozan_places *first, const havirozan_places *second)
{
    havirozan_finding bad = {0, 0, 0, 0, 0};
    if (refusal.code == HAVIROZAN_JOINED_COUNT) {
        say_joined_count(to, first, second);
    } else if (refusal.code == HAVIROZAN_SHORT_OUTPUT) {
        fprintf(to, "the output block is too short for the joined graph\n");
    } else {
        bad.code = refusal.code;
        bad.place = (refusal.number == 0 ? first : second)->place;
        fprintf(to, "the %s: ", refusal.number == 0 ? "first" : "second");
        say_answer(to, &bad);
    }
}

/* ---- what looks like a sheet */

/* How many of the bytes are a number, digits with a minus before them or none. */
static size_t number_bytes(const unsigned char *bytes, size_t count)
{
    const size_t first = count > 0 && bytes[0] == '-';
    size_t n = first;
    while (n < count && bytes[n] >= '0' && bytes[n] <= '9')
        n++;
    return n > first ? n : 0;
}

/* Whether a line starts with a number, a semicolon and a number. */
static int starts_as_angle(const unsigned char *line, size_t count)
{
    const size_t n = number_bytes(line, count);
    return n > 0 && n < count && line[n] == ';' && number_bytes(line + n + 1, count - n - 1) > 0;
}

/* Whether a line has a semicolon, and behind it a date as 2026-03-14. */
static int has_date(const unsigned char *line, size_t count)
{
    static const char form[] = "0000-00-00";
    const size_t length = sizeof form - 1;
    const unsigned char *at = count > 0 ? memchr(line, ';', count) : NULL;
    for (; at != NULL && at + length <= line + count; at++) {
        size_t i = 0;
        while (i < length && (form[i] == '-' ? at[i] == '-' : at[i] >= '0' && at[i] <= '9'))
            i++;
        if (i == length)
            return 1;
    }
    return 0;
}

int looks_like_sheet(const unsigned char *bytes, size_t count)
{
    size_t at, next;
    if (count > HAVIROZAN_SHEET_MOST_BYTES)
        count = HAVIROZAN_SHEET_MOST_BYTES;
    /* in a text no byte is below the tab's */
    for (at = 0; at < count; at++)
        if (bytes[at] < '\t')
            return 0;
    for (at = 0; at < count; at = next + 1) {
        const unsigned char *end = memchr(bytes + at, '\n', count - at);
        next = end != NULL ? (size_t)(end - bytes) : count;
        if ((at == 0 && has_date(bytes, next)) || starts_as_angle(bytes + at, next - at))
            return 1;
    }
    return 0;
}
