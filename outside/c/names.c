/*
 * A program that has functions of its own with the names in rt's archive. Linked with the library, it gets the library's answers:
 * a graph of 0 bytes is refused with 2, though its own `check` says 0 to everything. Linked with rt's archive it would not be
 * told that there are two.
 */
#include <stdio.h>

#include "havirozan.h"

/* not static, so that the linker sees them */
unsigned int check(void);
unsigned int check_all(void);
unsigned int write_graph(void);
unsigned int find_tables(void);
unsigned int read_sheet(void);
unsigned int join_graphs(void);

unsigned int check(void) { return 0; }
unsigned int check_all(void) { return 0; }
unsigned int write_graph(void) { return 0; }
unsigned int find_tables(void) { return 0; }
unsigned int read_sheet(void) { return 0; }
unsigned int join_graphs(void) { return 0; }

int main(void)
{
    unsigned char answer[HAVIROZAN_ANSWER_BYTES];
    const unsigned int code = havirozan_check(NULL, 0, NULL, 0, answer, sizeof answer);
    const unsigned int all = havirozan_check_all(NULL, 0, NULL, 0, NULL, 0).refusal;
    const unsigned int tables = havirozan_write_graph(NULL, 1, NULL, 0, NULL, 0, NULL, 0, 0, 0, NULL, 0).code;
    const unsigned int file = havirozan_find_tables(NULL, 0).code;
    const unsigned int sheet = havirozan_read_sheet(NULL, 0, NULL, 0).code;
    const unsigned int joined = havirozan_join_graphs(NULL, 0, NULL, 0, NULL, 0).code;
    printf("%u %u %u %u %u %u, its own %u %u %u %u %u %u, version %u\n", code, all, tables, file, sheet, joined,
           check(), check_all(), write_graph(), find_tables(), read_sheet(), join_graphs(), havirozan_version());
    return havirozan_version() != HAVIROZAN_VERSION;
}
