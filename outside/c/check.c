/*
 * check GRAPH SCHEMA: says whether the graph conforms to the schema, and if not, where it first does not.
 * check --sheet SHEET SCHEMA: the same of the graph of an angle sheet.
 * --all before these words: every place where it does not.
 *
 * The first line is the five numbers of the answer: code, place, schema place, count, property. The second says them in a
 * sentence. A sheet that is refused has no graph: then the first line is the code and the line at fault.
 * With --all these lines stay as they are. Two such lines follow for each further violation, and at the end the line
 * `violations: N`, with how many there are in all. Where a file is refused nothing was counted, and there is no such line.
 *
 * A file that is not there counts as 0 bytes, and the sentence says so. One of the two may be -, which is standard input. Exit
 * status, with --all as without: 0 conforms, 1 a violation, 2 a file is refused, 3 wrong usage or a file that cannot be read or
 * written, 4 the library is of another version than the header that this was compiled with, or contradicts itself.
 */
#include <errno.h>
#include <stdio.h>
#include <string.h>

#include "havirozan.h"
#include "say.h"

enum { CONFORMS, VIOLATION, REFUSED, USAGE, BAD_LIBRARY };

/* a byte more than is accepted, so that a file that is too long is seen to be */
static unsigned char graph[HAVIROZAN_GRAPH_MOST_BYTES + 1U];
static unsigned char schema[HAVIROZAN_SCHEMA_MOST_BYTES + 1U];
static unsigned char sheet[HAVIROZAN_SHEET_MOST_BYTES + 1U];

/* room for every violation that there can be */
static havirozan_finding list[HAVIROZAN_MOST_VIOLATIONS];

/* A file that was handed in, and what was read of it. */
struct file {
    const char *path;
    size_t bytes;
    int is_absent;
};

static int is_standard_input(const char *path)
{
    return strcmp(path, "-") == 0;
}

/* Reads the file, up to `most` bytes of it, and says whether it could be read. One that is not there has 0 bytes. */
static int load(struct file *from, unsigned char *block, size_t most)
{
    FILE *file = is_standard_input(from->path) ? stdin : fopen(from->path, "rb");
    int is_read = 0;
    from->is_absent = file == NULL && errno == ENOENT;
    from->bytes = file != NULL ? fread(block, 1, most, file) : 0;
    if (from->is_absent)
        return 1;
    if (file != NULL && !ferror(file))
        is_read = 1;
    else
        fprintf(stderr, "check: %s: %s\n", from->path, strerror(errno));
    if (file != NULL)
        fclose(file);
    return is_read;
}

/* The sentence of an answer. What can be told of the files themselves comes before what their bytes are refused for. */
static void say(const havirozan_finding *answer, const struct file *graph_file, const struct file *schema_file)
{
    const int is_length_or_mark = answer->code == HAVIROZAN_GRAPH_LENGTH || answer->code == HAVIROZAN_GRAPH_MARK;
    if (answer->code == HAVIROZAN_GRAPH_LENGTH && graph_file->is_absent)
        printf("the graph file is refused: there is no such file: %s\n", graph_file->path);
    else if (answer->code == HAVIROZAN_SCHEMA_LENGTH && schema_file->is_absent)
        printf("the schema file is refused: there is no such file: %s\n", schema_file->path);
    else if (is_length_or_mark && looks_like_sheet(graph, graph_file->bytes))
        printf("the graph file is refused: this looks like an angle sheet: make a graph of it first with --sheet, as in --sheet %s %s\n",
               graph_file->path, schema_file->path);
    else
        say_answer(stdout, answer);
}

/* Makes the graph of the sheet. Returns 0, or prints the refusal and returns its code. */
static unsigned int make_graph(struct file *sheet_file)
{
    const havirozan_outcome made = havirozan_read_sheet(sheet, sheet_file->bytes, graph, sizeof graph);
    if (made.code != 0) {
        printf("%u %u\nthe sheet is refused: ", made.code, made.number);
        if (sheet_file->is_absent)
            printf("there is no such file: %s\n", sheet_file->path);
        else
            say_sheet(stdout, made);
        return made.code;
    }
    sheet_file->bytes = made.number;
    return 0;
}

static int status_of(const havirozan_finding *answer)
{
    if (answer->code == HAVIROZAN_CONFORMS)
        return CONFORMS;
    return answer->code < HAVIROZAN_NODE_LABELS ? REFUSED : VIOLATION;
}

/* The five numbers that `check` answers. */
static havirozan_finding ask(const struct file *graph_file, const struct file *schema_file)
{
    unsigned char block[HAVIROZAN_ANSWER_BYTES];
    havirozan_finding answer;
    answer.code = havirozan_check(graph, graph_file->bytes, schema, schema_file->bytes, block, sizeof block);
    answer.place = HAVIROZAN_NUMBER(block, HAVIROZAN_AT_PLACE);
    answer.schema_place = HAVIROZAN_NUMBER(block, HAVIROZAN_AT_SCHEMA_PLACE);
    answer.count = HAVIROZAN_NUMBER(block, HAVIROZAN_AT_COUNT);
    answer.property = HAVIROZAN_NUMBER(block, HAVIROZAN_AT_PROPERTY);
    return answer;
}

/* Whether what `check_all` gives is what the header promises beside the answer of `check`. */
static int agree(const havirozan_finding *answer, havirozan_listed all)
{
    switch (status_of(answer)) {
    case CONFORMS:
        return HAVIROZAN_LISTED_CONFORMS(all);
    case REFUSED:
        return all.refusal == answer->code && all.place == answer->place && all.total == 0;
    default:
        return all.refusal == 0 && all.total > 0 && all.total <= HAVIROZAN_MOST_VIOLATIONS && memcmp(&list[0], answer, sizeof list[0]) == 0;
    }
}

static void print_numbers(const havirozan_finding *answer)
{
    printf("%u %u %u %u %u\n", answer->code, answer->place, answer->schema_place, answer->count, answer->property);
}

/*
 * Compares the two, prints the answer, with_all the other violations, too, and returns the exit status. That comes from the answer of
 * `check`, with_all or without: what `check_all` returns is 0 for many a graph that does not conform.
 */
static int compare(const struct file *graph_file, const struct file *schema_file, int with_all)
{
    const havirozan_finding answer = ask(graph_file, schema_file);
    havirozan_listed all = {0, 0, 0};
    unsigned int i;

    if (with_all) {
        all = havirozan_check_all(graph, graph_file->bytes, schema, schema_file->bytes, list, HAVIROZAN_MOST_VIOLATIONS);
        if (!agree(&answer, all)) {
            fprintf(stderr, "check: the library contradicts itself: check and check_all do not say the same\n");
            return BAD_LIBRARY;
        }
    }
    print_numbers(&answer);
    say(&answer, graph_file, schema_file);
    for (i = 1; i < all.total; i++) {
        print_numbers(&list[i]);
        say_answer(stdout, &list[i]);
    }
    if (with_all && all.refusal == 0)
        printf("violations: %u\n", all.total);
    return status_of(&answer);
}

/* Whether the words are two files. A word that starts with a minus is no file but an option, and there is none with that name. */
static int are_files(char **words)
{
    int i;
    for (i = 0; i < 2; i++)
        if (words[i][0] == '-' && !is_standard_input(words[i]))
            return 0;
    return !is_standard_input(words[0]) || !is_standard_input(words[1]);
}

int main(int argc, char **argv)
{
    int with_all = 0, with_sheet = 0, at = 1, status;
    struct file first, second;

    /* each option once, in any order, before the files */
    for (; at < argc; at++)
        if (!with_all && strcmp(argv[at], "--all") == 0)
            with_all = 1;
        else if (!with_sheet && strcmp(argv[at], "--sheet") == 0)
            with_sheet = 1;
        else
            break;
    if (argc - at != 2 || !are_files(argv + at)) {
        fprintf(stderr, "usage: check [--all] GRAPH SCHEMA, or check [--all] --sheet SHEET SCHEMA; one of the two may be -, which is standard input\n");
        return USAGE;
    }
    if (havirozan_version() != HAVIROZAN_VERSION) {
        fprintf(stderr, "check: compiled for havirozan %u, and the library is %u\n", HAVIROZAN_VERSION, havirozan_version());
        return BAD_LIBRARY;
    }
    first.path = argv[at];
    second.path = argv[at + 1];
    if (!load(&first, with_sheet ? sheet : graph, with_sheet ? sizeof sheet : sizeof graph) || !load(&second, schema, sizeof schema))
        return USAGE;

    status = with_sheet && make_graph(&first) != 0 ? REFUSED : compare(&first, &second, with_all);
    /* an answer that nobody was given is none */
    if (fflush(stdout) != 0 || ferror(stdout)) {
        fprintf(stderr, "check: the answer cannot be written: %s\n", strerror(errno));
        return USAGE;
    }
    return status;
}
