/* SPDX-License-Identifier: Apache-2.0 */
/*
 * Havirozan: a proved checker of property graphs, for C and C++.
 *
 * It has six functions: `havirozan_check` compares a graph with a schema and names the first violation,
 * `havirozan_check_all` lists all of them, `havirozan_write_graph` writes a graph file from its tables, `havirozan_find_tables`
 * says where the tables of a graph file lie, `havirozan_read_sheet` makes a graph file of an angle sheet, and
 * `havirozan_join_graphs` makes one graph file of two. The comments below call them by what follows the prefix.
 *
 * Link with libhavirozan.a or libhavirozan.so, which outside/c/library.sh makes of the proved archive, and outside/c/install.sh
 * installs. Every name that they give to a program begins with havirozan_. They are for x86-64 Linux.
 * Machines with the high byte first, or with a long of 32 bits, are not served: the row structs below would not be the rows
 * of the files there.
 * This header is C89, and C++ takes it too. It needs no header but the compiler's own <limits.h> and <stddef.h>; the library
 * needs memcpy and memset, and nothing else of C's library.
 *
 * The archive that `rt lib` writes to crates/havirozan/out/ has the same six functions with bare names: check,
 * check_all, write_graph, find_tables, read_sheet, join_graphs. Who links that archive itself defines HAVIROZAN_BARE_NAMES
 * before this header, which then declares the bare names, and no others. A program that has a function `check` of its own links
 * with that archive without a word, and calls its own: this is why the library has the prefix.
 */
#ifndef HAVIROZAN_H
#define HAVIROZAN_H

#include <limits.h>
#include <stddef.h>

#if UINT_MAX != 4294967295U || CHAR_BIT != 8
#error "havirozan.h needs an unsigned int of 32 bits and a char of 8"
#endif
#if USHRT_MAX != 65535U || ULONG_MAX != 18446744073709551615UL
#error "havirozan.h needs an unsigned short of 16 bits and an unsigned long of 64"
#endif
/* C89 cannot ask for the order of bytes; the compilers that can be asked are. */
#if defined(__BYTE_ORDER__) && defined(__ORDER_LITTLE_ENDIAN__)
#if __BYTE_ORDER__ != __ORDER_LITTLE_ENDIAN__
#error "havirozan.h needs a machine with the low byte first"
#endif
#endif

/*
 * ---- the version
 *
 * These three lines are the one place where it stands. As a number it is major * 10000 + minor * 100 + patch, so that versions
 * can be compared, also by #if; as a text it is "0.7.0".
 */

#define HAVIROZAN_VERSION_MAJOR 0
#define HAVIROZAN_VERSION_MINOR 7
#define HAVIROZAN_VERSION_PATCH 0

#define HAVIROZAN_VERSION (HAVIROZAN_VERSION_MAJOR * 10000U + HAVIROZAN_VERSION_MINOR * 100U + HAVIROZAN_VERSION_PATCH)
#define HAVIROZAN_VERSION_TEXT HAVIROZAN_DOTTED(HAVIROZAN_VERSION_MAJOR, HAVIROZAN_VERSION_MINOR, HAVIROZAN_VERSION_PATCH)

/* three numbers as a text with dots; the second macro is there so that the first is handed numbers and not their names */
#define HAVIROZAN_DOTTED(major, minor, patch) HAVIROZAN_DOTTED_WORDS(major, minor, patch)
#define HAVIROZAN_DOTTED_WORDS(major, minor, patch) #major "." #minor "." #patch

/* ---- the names in rt's own archive, for who asks for them */

#ifdef HAVIROZAN_BARE_NAMES
#define havirozan_check check
#define havirozan_check_all check_all
#define havirozan_write_graph write_graph
#define havirozan_find_tables find_tables
#define havirozan_read_sheet read_sheet
#define havirozan_join_graphs join_graphs
#endif

#ifdef __cplusplus
extern "C" {
#endif

#ifndef HAVIROZAN_BARE_NAMES
/*
 * The version of the library that the program runs with: HAVIROZAN_VERSION as it was when the library was made. A program that
 * compares the two sees whether it was compiled with the header of another library. It is the one function of the library that
 * is not proved, a line of C; rt's own archive does not have it.
 */
unsigned int havirozan_version(void);
#endif

/*
 * Compares a graph with a schema, says whether the graph conforms, and if not, where it first does not.
 *
 * It takes three blocks of bytes, each as a pointer to its first byte and the number of its bytes: the graph file, the
 * schema file, and a block for the answer. The two files are only read.
 *
 * What it promises, of every graph, every schema and every answer block, damaged files among them:
 *
 * - If the answer block has fewer than 20 bytes, it returns HAVIROZAN_SHORT_ANSWER (1) and writes nothing.
 * - Otherwise it returns the code of the answer, and the first 20 bytes of the answer block become five unsigned 32-bit
 *   numbers, low byte first: code, place, schema place, count, property. Bytes from 20 on keep their values.
 * - The code is 0 exactly if both files are good and the graph meets all four rules of the schema.
 * - A bad file gets a code from 2 to 15 (a refusal), with its place, 0, 0 and 0. Codes are tried in rising order, so a bad
 *   graph is told before a bad schema.
 * - Two good files get 0, or the first violation: a code from 21 to 34 with its place, schema place and count. Rule 1 is
 *   tried before 2, 2 before 3, 3 before 4; within rules 1 and 2 the lowest place comes first, within rules 3 and 4 the
 *   lowest schema place and then the lowest place.
 * - With 22 and 24 property is the name of the property at fault: by what count says, the lowest mandatory name that is
 *   missing, the lowest present name that is not listed, or the lowest present name that is listed with another type. With
 *   every other code it is 0.
 * - The same bytes always get the same answer, and no other answer would keep this promise.
 *
 * What it asks of its caller, since C cannot check it:
 *
 * - each pointer points to as many bytes as are said, the answer block's may be written, and nothing else writes any of
 *   them during the call; where the number is 0, the pointer may be null;
 * - the three blocks do not overlap.
 *
 * In older versions the answer was four numbers in 16 bytes. A block of 16 bytes is refused with 1 now: lend
 * HAVIROZAN_ANSWER_BYTES, and compile the calling program again with this header.
 *
 * It always ends. It keeps nothing between calls, allocates nothing, and reads and prints nothing itself.
 */
unsigned int havirozan_check(const unsigned char *graph, size_t graph_bytes,
                             const unsigned char *schema, size_t schema_bytes,
                             unsigned char *answer, size_t answer_bytes);

/* What is told of one violation: the five numbers that `check` answers where it is the first. Twenty bytes, no gaps. */
typedef struct {
    unsigned int code;         /* from 21 to 34 */
    unsigned int place;        /* the node or the edge */
    unsigned int schema_place; /* the schema node or the schema edge; 0 with 21 and 23 */
    unsigned int count;        /* what it says depends on the code, as with `check` */
    unsigned int property;     /* with 22 and 24 the name of the property at fault, else 0 */
} havirozan_finding;

/*
 * What `check_all` returns beside the list. The first number is called refusal and not code, since it is never the code of a
 * violation: a program that compares it as it compares what `check` returns does not compile.
 */
typedef struct {
    unsigned int refusal; /* 0 if both files are good, else the code of the refusal: 2 to 15 */
    unsigned int place;   /* of the refusal, else 0 */
    unsigned int total;   /* how many violations there are, whether or not the list has room for them; 0 with a refusal */
} havirozan_listed;

/* Whether the graph conforms, by what `check_all` returned: both files are good, and there is no violation. The argument is
   evaluated twice. */
#define HAVIROZAN_LISTED_CONFORMS(listed) ((listed).refusal == 0U && (listed).total == 0U)

/*
 * Compares a graph with a schema as `check` does, and lists every violation, not the first one alone.
 *
 * It takes the graph file and the schema file, each as a pointer to its first byte and the number of its bytes, and a list of
 * records, as a pointer to the first one and the number of records that there is room for: records, not bytes, so of an
 * array `list` it is sizeof list / sizeof list[0]. The two files are only read.
 *
 *     A 0 FROM HERE IS NOT THE 0 OF `check`. The graph conforms exactly if refusal AND total are 0, and
 *     HAVIROZAN_LISTED_CONFORMS asks for both.
 *     - Refusal 0 alone says that both files are good, whatever the graph breaks: a graph with violations has it, too.
 *     - Total 0 alone says nothing: a file that is refused has it, since nothing was judged.
 *     - Nor does a list that was zero before and still is: with a refusal, or without room, no record is written.
 *     - The total is no exit status: of that only the low byte is left, and 256 violations become 0.
 *     Who calls it without this header, as from another language, has to declare that three numbers are returned: taken for one
 *     number, what comes back is the refusal alone.
 *
 * What it promises, of every graph, every schema and every list, damaged files among them:
 *
 * - A bad file gets the refusal, from 2 to 15, and the place that `check` gives it, in the same order of codes; the total is 0,
 *   and no record is written.
 * - Two good files get refusal 0, place 0 and the number of all violations. Each violation stands in the list exactly once, in
 *   the order in which `check` looks for the first: rule 1 by node, rule 2 by edge, rule 3 by schema edge and then by node, rule
 *   4 likewise. Each record has the five numbers by which `check` would tell that violation if it were the first.
 * - If there are more violations than room, the first ones are written, and the total is that of all of them all the same. So
 *   the lesser of total and room is how many records are written: whoever goes through the list stops at whichever comes first.
 * - Records beyond those written keep their values.
 * - A list of as many records as the total says has room for all, and so has one of HAVIROZAN_MOST_VIOLATIONS. Asking again
 *   with more room gives the same records first.
 * - Where the total is not 0 and the list has room, the first record has the five numbers that `check` answers. Refusal and
 *   total are both 0 exactly if `check` returns 0.
 * - The same bytes and the same room always get the same numbers and the same records, and no others would keep this promise.
 *
 * What it asks of its caller, since C cannot check it:
 *
 * - the pointers to the files point to as many bytes as are said, and the list's to as many records, which may be written and
 *   start where C starts an array of them, at a multiple of 4 bytes; nothing else writes any of them during the call; where the
 *   number is 0, the pointer may be null. A list without room is good for counting;
 * - the list overlaps neither of the two files.
 *
 * It always ends. It keeps nothing between calls, allocates nothing, and reads and prints nothing itself.
 */
havirozan_listed havirozan_check_all(const unsigned char *graph, size_t graph_bytes,
                                     const unsigned char *schema, size_t schema_bytes,
                                     havirozan_finding *list, size_t list_records);

/*
 * What a tool with an output returns: a code and a number. With code 0 the number is the length written, at the start of the
 * output; with a refusal it is 0, unless the tool's own comment says more. Every tool with an output returns this from now
 * on; `check`, which is older, returns its code and writes its numbers, and `check_all`, which writes no file, returns three.
 */
typedef struct {
    unsigned int code;
    unsigned int number;
} havirozan_outcome;

/*
 * Writes a graph file, without a preface, from its tables.
 *
 * It takes the four tables as they stand in a file, each as a pointer to its first byte and the number of its bytes: the
 * node rows, the edge rows, the property rows (arrays of havirozan_node, havirozan_edge and havirozan_property, see below)
 * and the text bytes. Then the label count and the name count, and a block for the file. The tables are only read, and
 * may start at any address: inside a loaded graph file, for one, where `find_tables` says.
 *
 * What it promises, of every four tables, every two counts and every output block:
 *
 * - If the bytes of a table are not whole rows, or the file would be refused (a count above its ceiling, a bad row), it
 *   returns HAVIROZAN_TABLES (41) and 0, and writes nothing.
 * - Otherwise, if the output block has fewer bytes than the file, it returns HAVIROZAN_SHORT_OUTPUT (42) and 0, and writes
 *   nothing.
 * - Otherwise it returns 0 and the length of the file, and the file stands at the start of the output block: the four
 *   tables byte for byte, then the trailer. The length is HAVIROZAN_GRAPH_BYTES of the four numbers. Bytes after the file
 *   keep their values.
 * - A file that it wrote is accepted, and reading it gives the same values back. The tables of an accepted file, written
 *   again with its two counts, give the same bytes without the preface.
 * - Nothing is written before both refusals are ruled out.
 * - The same tables and counts always give the same file, and no other result would keep this promise.
 *
 * What it asks of its caller, since C cannot check it:
 *
 * - each pointer points to as many bytes as are said, the output block's may be written, and nothing else writes any of
 *   them during the call; where the number is 0, the pointer may be null;
 * - the output block overlaps none of the four tables.
 *
 * It always ends. It keeps nothing between calls, allocates nothing, and reads and prints nothing itself.
 */
havirozan_outcome havirozan_write_graph(const void *nodes, size_t nodes_bytes,
                                        const void *edges, size_t edges_bytes,
                                        const void *rows, size_t rows_bytes,
                                        const void *text, size_t text_bytes,
                                        unsigned int labels, unsigned int names,
                                        unsigned char *out, size_t out_bytes);

/* Where the tables of a graph file lie. An offset is counted from the file's first byte, so it includes the preface. */
typedef struct {
    unsigned int code;     /* 0, or the refusal: 2 to 8 */
    unsigned int place;    /* of the refusal */
    unsigned int nodes_at; /* offset of the node rows */
    unsigned int nodes;    /* how many there are */
    unsigned int edges_at; /* offset of the edge rows */
    unsigned int edges;    /* how many there are */
    unsigned int rows_at;  /* offset of the property rows */
    unsigned int rows;     /* how many there are */
    unsigned int text_at;  /* offset of the text */
    unsigned int text;     /* how many bytes it has */
    unsigned int labels;   /* the label count */
    unsigned int names;    /* the name count */
} havirozan_places;

/*
 * Says where the tables of a graph file lie, or why the file is refused.
 *
 * It takes the graph file as a pointer to its first byte and the number of its bytes. The file is only read.
 *
 * What it promises, of every graph file, damaged ones among them:
 *
 * - If the file is good, code and place are 0, and the other ten numbers are those of its tables. A table that is empty has
 *   the offset where it would start. Every row and every text byte lies within the file.
 * - If it is not, code is the refusal, from 2 to 8, and place its place, both as `check` gives them; the other ten are 0.
 * - The same bytes always get the same twelve numbers, and no others would keep this promise.
 *
 * What it asks of its caller, since C cannot check it:
 *
 * - the pointer points to as many bytes as are said, and nothing writes any of them during the call; where the number is 0,
 *   the pointer may be null.
 *
 * It always ends. It keeps nothing between calls, allocates nothing, and reads and prints nothing itself.
 */
havirozan_places havirozan_find_tables(const unsigned char *graph, size_t graph_bytes);

/*
 * Reads an angle sheet, and writes its graph: a graph file without a preface.
 *
 * It takes the sheet as a pointer to its first byte and the number of its bytes, and a block for the file. The sheet is only
 * read.
 *
 * A sheet is lines, one after the other, counted from 1. A line goes up to the next LF (byte 10), which is its end; one CR
 * (byte 13) right before the LF belongs to the end. Bytes after the last LF are one more line, which has no end. A line is
 * good if it is what follows, and an end, and nothing else, not even a blank. A digit is one of the ASCII bytes 0 to 9.
 *
 * - Line 1 is the serial, a semicolon and the date. The serial is 1 to 32 bytes, any but semicolon, CR and LF. The date is
 *   year, month and day as in 2026-03-14: four digits, a minus, two digits, a minus, two digits. It has to be a day that
 *   HAVIROZAN_DATE takes (see below).
 * - Every other line is an angle: the degrees, a semicolon and the coefficient. The degrees are 1 to 3 digits. The
 *   coefficient is 1 to 6 digits, or those, a comma and 1 to 6 digits more. A minus may stand before each of the two.
 *
 * There may be no angle at all, and there may be up to 180. Line 182 is bad wherever there is one.
 *
 * What it promises, of every sheet and every output block:
 *
 * - If there is no line 1, or it is bad, it returns HAVIROZAN_SHEET_FIRST (51) and 1, and writes nothing.
 * - Otherwise, if another line is bad, it returns HAVIROZAN_SHEET_LINE (52) and the number of the lowest bad line, which is
 *   from 2 to 182, and writes nothing.
 * - Otherwise, if the output block has fewer bytes than the file, it returns HAVIROZAN_SHORT_OUTPUT (42) and 0, and writes
 *   nothing.
 * - Otherwise it returns 0 and the length of the file, and the file stands at the start of the output block. Bytes after the
 *   file keep their values.
 * - The file is this graph. Labels: 0 Sensor, 1 Run, 2 Angle, 3 OF, 4 AT. Names: 0 serial, 1 date, 3 degrees, 4 coefficient;
 *   2 is the remark, and none is made. Label count and name count are 5.
 *   Nodes: the Sensor, the Run, then the Angles in the order of their lines. So the angle of line n is node n.
 *   Edges: OF from node 1 to node 0, then for each Angle, in the same order, AT from node 1 to it.
 *   Property rows: serial (a Text), date (a Date), then of each Angle degrees (an Integer) and coefficient (a Real). Edges
 *   have none: their empty runs start at the number of property rows.
 *   Text: the bytes of the serial, and no others.
 *   With n angles and a serial of s bytes the length is HAVIROZAN_GRAPH_BYTES(n + 2, n + 1, 2 * n + 2, s).
 * - A file that it wrote is accepted, and its values are those of the sheet.
 * - The degrees are the number that the digits say, negated where a minus stands before them; "-0" is 0.
 * - The coefficient's digits on both sides of the comma are one whole number. It has at most 12 digits, so a double holds it
 *   without loss. That double is divided once, by the power of ten that the number of digits after the comma gives (by 1
 *   where there is no comma), and rounded to the nearest double, a tie to the even one. A minus negates the quotient, so "-0"
 *   is negative zero. The result is always finite. So "1,05" is 105 divided by 100, the double nearest to 1.05.
 * - Nothing is written before all three refusals are ruled out.
 * - The same bytes always get the same file, and no other result would keep this promise.
 *
 * What it asks of its caller, since C cannot check it:
 *
 * - each pointer points to as many bytes as are said, the output block's may be written, and nothing else writes any of
 *   them during the call; where the number is 0, the pointer may be null;
 * - the output block does not overlap the sheet.
 *
 * It always ends. It keeps nothing between calls, allocates nothing, and reads and prints nothing itself.
 */
havirozan_outcome havirozan_read_sheet(const unsigned char *sheet, size_t sheet_bytes,
                                       unsigned char *out, size_t out_bytes);

/*
 * Joins two graphs: writes one graph file, without a preface, of two.
 *
 * It takes the two graph files, each as a pointer to its first byte and the number of its bytes, and a block for the joined file.
 * The two files are only read. They may be the same block: a graph may be joined with itself.
 *
 * What it promises, of every two graph files and every output block, damaged files among them:
 *
 * - If the first file is bad, it returns its refusal, from 2 to 8 as `check` has it, and 0, and writes nothing.
 * - Otherwise, if the second file is bad, it returns its refusal, from 2 to 8, and 1, and writes nothing. So with 2 to 8 the number
 *   says which file, 0 the first and 1 the second, and no place: `find_tables` of that file tells it.
 * - Otherwise, if the joined graph would have more than HAVIROZAN_GRAPH_MOST_NODES nodes, HAVIROZAN_GRAPH_MOST_EDGES edges,
 *   HAVIROZAN_GRAPH_MOST_PROPERTIES property rows or HAVIROZAN_GRAPH_MOST_TEXT text bytes, it returns HAVIROZAN_JOINED_COUNT (44)
 *   and 0, and writes nothing.
 * - Otherwise, if the output block has fewer bytes than the file, it returns HAVIROZAN_SHORT_OUTPUT (42) and 0, and writes
 *   nothing.
 * - Otherwise it returns 0 and the length of the file, and the file stands at the start of the output block. The length is
 *   HAVIROZAN_GRAPH_BYTES of the four joined counts, each the sum of the two files' own. Bytes after the file keep their values.
 * - The file is this graph. Nodes: the first's, then the second's. Edges likewise; the ends of the second's are moved by the
 *   first's number of nodes, so that each still ends where it did. Property rows: those of the first's nodes, of the second's
 *   nodes, of the first's edges, of the second's edges; every `first` is moved to where its run has come to lie. Text: the first's,
 *   then the second's; the offset of each Text of the second is moved by the first's number of text bytes, and no other value is
 *   changed. Label count and name count: the greater of the two.
 * - So node i of the second file is node n + i of the joined one, n being the first's number of nodes, and edge e of it is edge
 *   m + e, m being the first's number of edges. Nodes and edges of the first file keep their numbers.
 * - A file that it wrote is accepted. Under every accepted schema its violations are those of the first file and those of the
 *   second, the latter with their places moved by n or m, and no others. So it conforms exactly if both files do.
 *   In the list of `check_all` the two files' violations stand among each other, since that goes by rule first. The place says
 *   whose a violation is: with 21, 22 and 31 to 34 the second's if it is n or above, with 23 to 25 if it is m or above.
 * - The same bytes always get the same file, and no other result would keep this promise.
 *
 *     A 0 FROM HERE IS NOT THE 0 OF `check`. It says that the joined file was written, whatever the graph breaks: no schema is asked
 *     for. Give the joined file to `check`. And look at the code before the block: one that held a graph before the call still does
 *     after a refusal, and that is not the joined one.
 *
 * What it asks of its caller, since C cannot check it:
 *
 * - each pointer points to as many bytes as are said, the output block's may be written, and nothing else writes any of
 *   them during the call; where the number is 0, the pointer may be null;
 * - the output block overlaps neither of the two files. So a third file is joined to a joined one in another block.
 *
 * An output block of HAVIROZAN_GRAPH_MOST_WRITTEN bytes is enough for every two files.
 *
 * It always ends. It keeps nothing between calls, allocates nothing, and reads and prints nothing itself.
 */
havirozan_outcome havirozan_join_graphs(const unsigned char *first, size_t first_bytes,
                                        const unsigned char *second, size_t second_bytes,
                                        unsigned char *out, size_t out_bytes);

/* ---- the answer block */

#define HAVIROZAN_ANSWER_BYTES 20U

/* where each of the five numbers starts */
#define HAVIROZAN_AT_CODE 0U
#define HAVIROZAN_AT_PLACE 4U
#define HAVIROZAN_AT_SCHEMA_PLACE 8U
#define HAVIROZAN_AT_COUNT 12U
#define HAVIROZAN_AT_PROPERTY 16U

/* The number that starts at `at` in a block of unsigned char. Both arguments are evaluated four times. */
#define HAVIROZAN_NUMBER(block, at) \
    ((unsigned int)(block)[at] | (unsigned int)(block)[(at) + 1U] << 8 | \
     (unsigned int)(block)[(at) + 2U] << 16 | (unsigned int)(block)[(at) + 3U] << 24)

/*
 * ---- the codes
 *
 * Rows are counted from 0, each in its own table. A 0 in an answer does not mean "none": node 0, schema edge 0 and name 0
 * exist. The code says which of the numbers have a meaning; the others are 0.
 */

/* The answer of `check` to a graph that conforms to the schema. Release the run. What `check_all` returns is another matter: use
   HAVIROZAN_LISTED_CONFORMS. */
#define HAVIROZAN_CONFORMS 0U

/* Given by `check` alone. The answer block has fewer than 20 bytes; nothing was written. Mend the calling program: lend it
   HAVIROZAN_ANSWER_BYTES. A program that was compiled with an older header lends 16: compile it again. */
#define HAVIROZAN_SHORT_ANSWER 1U

/* Refusals of the graph file. The run was not judged: keep the file, and make the export again. `join_graphs` gives them, too, with
   no place but with which of its two files it is. */

/* The file is shorter than 28 bytes or longer than 1,048,576. Look whether it is there, whole, and the right file. */
#define HAVIROZAN_GRAPH_LENGTH 2U

/* The last four bytes are not 47 50 48 31. It is another file, or its end is cut off: copy it again. */
#define HAVIROZAN_GRAPH_MARK 3U

/* A number in the trailer is above its ceiling. Put fewer runs into one file, or mend the exporter if the number is wild. */
#define HAVIROZAN_GRAPH_COUNT 4U

/* The trailer's back is not the size of the body, or reaches before the file. Its start is cut off, or the exporter
   counts wrong: copy it again, then mend the exporter. */
#define HAVIROZAN_GRAPH_BACK 5U

/* Place is a node row: a label at or above the label count, or its run of properties starts or ends wrong. Mend the
   exporter at that node. */
#define HAVIROZAN_GRAPH_NODE 6U

/* Place is an edge row: as 6, or an end that is no node. Mend the exporter at that edge. */
#define HAVIROZAN_GRAPH_EDGE 7U

/* Place is a property row: in no run, name too high or not rising, kind unknown, or its zero byte, length, value or text
   part wrong (an impossible date, a Real that is infinite or no number). Look at that reading on the bench first, then at
   the exporter. */
#define HAVIROZAN_GRAPH_PROPERTY 8U

/* Refusals of the schema file. The graph file is good; the run was not judged. Fetch the released schema again. */

/* The file is shorter than 20 bytes or longer than 16,384. Look whether it is there, whole, and the right file. */
#define HAVIROZAN_SCHEMA_LENGTH 9U

/* The last four bytes are not 53 43 48 31. It is another file, or its end is cut off: copy it again. */
#define HAVIROZAN_SCHEMA_MARK 10U

/* A number in the trailer is above its ceiling. The schema is too large for the checker: make it smaller. */
#define HAVIROZAN_SCHEMA_COUNT 11U

/* The trailer's back is not the size of the body, or reaches before the file. Copy it again. */
#define HAVIROZAN_SCHEMA_BACK 12U

/* Place is a schema node row: as 6, or open is not 0 or 1. Mend the schema at that schema node. */
#define HAVIROZAN_SCHEMA_NODE 13U

/* Place is a schema edge row: as 7, or open is not 0 or 1, or a minimum or maximum is not allowed, or a minimum is above
   its maximum. Mend the schema at that schema edge. */
#define HAVIROZAN_SCHEMA_EDGE 14U

/* Place is a schema property row: in no run, name too high or not rising, type or flag unknown. Mend the schema at that
   row. */
#define HAVIROZAN_SCHEMA_PROPERTY 15U

/* 16 to 20 are never given. */

/* Violations: both files are good, and this is something in the graph that the schema does not allow. `check` tells the first of
   them, `check_all` lists all; several may have one cause, so mend the first ones first. Do not release the run. */

/* Rule 1. Place is a node whose label set no schema node has. Look at what was labelled there: a label is missing or one
   too many. */
#define HAVIROZAN_NODE_LABELS 21U

/* Rule 1. Place is another node that fits no schema node; schema place is the lowest schema node with its label set, count
   is what is wrong there (HAVIROZAN_LACKS and the two after it), and property is the name at fault. Look at that property of
   that node: it is missing, too much, or of another kind. */
#define HAVIROZAN_NODE_RECORD 22U

/* Rule 2. Place is an edge whose label set no schema edge has. Look at how the two were connected. */
#define HAVIROZAN_EDGE_LABELS 23U

/* Rule 2. Place is another edge that fits no schema edge; schema place is the lowest schema edge with its label set, count is
   what is wrong there, and property is the name at fault, both as in 22. Look at that property of that connection. */
#define HAVIROZAN_EDGE_RECORD 24U

/* Rule 2. Place is an edge that fits a schema edge, but never with its ends; schema place is the lowest schema edge it
   fits, and count is the end that is wrong there (HAVIROZAN_SOURCE or HAVIROZAN_TARGET). The two were connected the wrong
   way round, or to the wrong one. */
#define HAVIROZAN_EDGE_ENDS 25U

/* 26 to 30 are never given. */

/* Rule 3. Place is a node, schema place a schema edge whose source it fits, and count the number of edges that leave the
   node and count for it: fewer than the target minimum. Something was not measured or not connected: add it. */
#define HAVIROZAN_TOO_FEW_OUT 31U

/* The same, more than the target maximum. Something was measured or connected twice: take it out. */
#define HAVIROZAN_TOO_MANY_OUT 32U

/* Rule 4. Place is a node, schema place a schema edge whose target it fits, and count the number of edges that reach the
   node and count for it: fewer than the source minimum. That node was left unconnected: connect it or take it out. */
#define HAVIROZAN_TOO_FEW_IN 33U

/* The same, more than the source maximum. That node is claimed more often than allowed: find the wrong connection. */
#define HAVIROZAN_TOO_MANY_IN 34U

/* 35 to 40 are never given. */

/* Refusals to write a graph file, with the number 0. Nothing was written: the graph that was patched, the sheet that was read, or
   the two graphs that were to be joined are still there as they were. */

/* Given by `write_graph` alone. A table is not whole rows, or the graph's reader would refuse what is in them: a count above
   its ceiling, or a bad row, as in 4 and 6 to 8. Look at what was changed last: a Real that is infinite or no number, an
   impossible date, a name that does not rise, or a property row put in or taken out while the runs behind it still start
   where they did. */
#define HAVIROZAN_TABLES 41U

/* Given by `write_graph`, by `read_sheet` and by `join_graphs`. The tables, the sheet or the two graphs are good, and the output
   block has fewer bytes than the file. Mend the calling program: lend `write_graph` HAVIROZAN_GRAPH_BYTES of what it writes, and
   `join_graphs` as many bytes as both files have, or lend both HAVIROZAN_GRAPH_MOST_WRITTEN, which is enough for every graph; lend
   `read_sheet` HAVIROZAN_SHEET_MOST_WRITTEN, which is enough for every sheet. */
#define HAVIROZAN_SHORT_OUTPUT 42U

/* 43 is never given. */

/* Given by `join_graphs` alone. Both graphs are good, and together they have more nodes, edges, property rows or text bytes than one
   file may have. Keep them as two files, and check each by itself; or join fewer runs. */
#define HAVIROZAN_JOINED_COUNT 44U

/* 45 to 50 are never given. */

/* Refusals of an angle sheet, given by `read_sheet`. The number is the line at fault, counted from 1. Nothing was written. Mend
   that line and read the sheet again: another bad line may stand behind it. */

/* Number is 1: the first line is missing or bad. Look whether a heading stands above it, whether it is the serial, a semicolon
   and the date as 2026-03-14, and whether there is such a day. Take the serial from the sensor and the date from the bench's
   paper. */
#define HAVIROZAN_SHEET_FIRST 51U

/* Number is the lowest bad line, from 2 on. Compare that line with the bench's paper, and put right what differs: a decimal
   comma that became a semicolon or a point, a blank, an empty line, a last line without an end. Where the paper does not say,
   read that angle again; do not guess. Line 182 is the first angle too many. */
#define HAVIROZAN_SHEET_LINE 52U

/* ---- what count says with 22 and 24: the first of these that is broken; and what property says with it */

/* (b) a mandatory property is not there; property is the lowest mandatory name that is missing */
#define HAVIROZAN_LACKS 1U
/* (c) a property is there that is not listed, and the type is not open; property is the lowest such name */
#define HAVIROZAN_NOT_LISTED 2U
/* (d) a listed property has another type; property is the lowest such name */
#define HAVIROZAN_OTHER_TYPE 3U

/* ---- what count says with 25 */

/* the source node does not fit there (whether or not the target does) */
#define HAVIROZAN_SOURCE 1U
/* the source node fits there, the target node does not */
#define HAVIROZAN_TARGET 2U

/* ---- the two files: bytes of the rows and of the trailers. All numbers in them are unsigned, low byte first. */

#define HAVIROZAN_GRAPH_NODE_BYTES 16U
#define HAVIROZAN_GRAPH_EDGE_BYTES 24U
#define HAVIROZAN_GRAPH_PROPERTY_BYTES 16U
#define HAVIROZAN_GRAPH_TRAILER_BYTES 28U

#define HAVIROZAN_SCHEMA_NODE_BYTES 16U
#define HAVIROZAN_SCHEMA_EDGE_BYTES 40U
#define HAVIROZAN_SCHEMA_PROPERTY_BYTES 4U
#define HAVIROZAN_SCHEMA_TRAILER_BYTES 20U

/* The bytes of a graph file without a preface, with so many node rows, edge rows, property rows and text bytes. */
#define HAVIROZAN_GRAPH_BYTES(nodes, edges, rows, text) \
    ((size_t)(nodes) * HAVIROZAN_GRAPH_NODE_BYTES + (size_t)(edges) * HAVIROZAN_GRAPH_EDGE_BYTES + \
     (size_t)(rows) * HAVIROZAN_GRAPH_PROPERTY_BYTES + (size_t)(text) + HAVIROZAN_GRAPH_TRAILER_BYTES)

/*
 * ---- the rows of a graph file
 *
 * Each struct has the bytes of its row, so an array of them is a table to lend to `write_graph`. A table inside a loaded
 * file may start at any address: copy a row out with memcpy, and do not read it through a pointer to its struct.
 *
 * The property rows of all nodes and then of all edges follow each other without a gap. So `first` is the sum of all counts
 * before it, and whoever adds a property row moves the `first` of every row behind it. Within a run the names rise.
 */

typedef struct {
    unsigned long labels; /* bit k is label k */
    unsigned int first;   /* its first property row */
    unsigned int count;   /* how many it has */
} havirozan_node;

typedef struct {
    unsigned long labels;
    unsigned int source; /* a node */
    unsigned int target; /* a node */
    unsigned int first;
    unsigned int count;
} havirozan_edge;

/*
 * The value of a property, by its kind:
 *
 * - HAVIROZAN_BOOLEAN: 0 or 1.
 * - HAVIROZAN_INTEGER: two's complement, which is the conversion of a long: row.value = (unsigned long)number;
 * - HAVIROZAN_REAL: the bits of the double, which are copied, not converted, and back the same way:
 *   memcpy(&row.value, &number, sizeof row.value);
 *   The double has to be finite; negative zero is allowed.
 * - HAVIROZAN_DATE: year * 10000 + month * 100 + day, a day of the years 1 to 9999 in the calendar of ISO 8601. So a year has a
 *   29 February if four divides it, but one that 100 divides only if 400 does: 2000 has one, 1900 and 2100 have none.
 * - HAVIROZAN_TEXT: the offset of its first byte in the text. `length` is the number of its bytes; it is 0 for all others.
 */
typedef struct {
    unsigned short name;
    unsigned char kind;
    unsigned char zero; /* always 0 */
    unsigned int length;
    unsigned long value;
} havirozan_property;

/* A struct of as many bytes as its fields together has no gaps, so each field stands where the file has it. */
typedef char havirozan_node_is_a_row[sizeof(havirozan_node) == HAVIROZAN_GRAPH_NODE_BYTES ? 1 : -1];
typedef char havirozan_edge_is_a_row[sizeof(havirozan_edge) == HAVIROZAN_GRAPH_EDGE_BYTES ? 1 : -1];
typedef char havirozan_property_is_a_row[sizeof(havirozan_property) == HAVIROZAN_GRAPH_PROPERTY_BYTES ? 1 : -1];
typedef char havirozan_finding_is_five_numbers[sizeof(havirozan_finding) == 20 ? 1 : -1];
typedef char havirozan_listed_is_three_numbers[sizeof(havirozan_listed) == 12 ? 1 : -1];
typedef char havirozan_real_is_a_double[sizeof(double) == sizeof(unsigned long) ? 1 : -1];

/* ---- the ceilings: the most that is accepted. A file is at least as long as its trailer; all counts may be 0. */

#define HAVIROZAN_GRAPH_MOST_BYTES 1048576U
#define HAVIROZAN_GRAPH_MOST_NODES 1024U
#define HAVIROZAN_GRAPH_MOST_EDGES 4096U
#define HAVIROZAN_GRAPH_MOST_PROPERTIES 16384U
#define HAVIROZAN_GRAPH_MOST_TEXT 262144U

/* The most bytes that `write_graph` and `join_graphs` write: HAVIROZAN_GRAPH_BYTES of the four ceilings above. */
#define HAVIROZAN_GRAPH_MOST_WRITTEN 639004U

/* of an angle sheet: the angle lines, and the bytes of the serial */
#define HAVIROZAN_SHEET_MOST_ANGLES 180U
#define HAVIROZAN_SHEET_MOST_SERIAL 32U

/* The bytes of the longest good sheet: a first line of 45 and 180 angle lines of 21, all with CR LF. A longer sheet is bad, and
   its first 3,826 bytes alone get the same refusal, so whoever loads a sheet from a file needs no more of it. */
#define HAVIROZAN_SHEET_MOST_BYTES 3825U

/* The most bytes that `read_sheet` writes: HAVIROZAN_GRAPH_BYTES(182, 181, 362, 32). */
#define HAVIROZAN_SHEET_MOST_WRITTEN 13108U

#define HAVIROZAN_SCHEMA_MOST_BYTES 16384U
#define HAVIROZAN_SCHEMA_MOST_NODES 32U
#define HAVIROZAN_SCHEMA_MOST_EDGES 64U
#define HAVIROZAN_SCHEMA_MOST_PROPERTIES 1024U

/* No graph has more violations: one for each node, one for each edge, and of each schema edge with each node one out, one in. */
#define HAVIROZAN_MOST_VIOLATIONS 136192U

/* of both files */
#define HAVIROZAN_MOST_LABELS 64U
#define HAVIROZAN_MOST_NAMES 256U

/* of the intervals of a schema edge: a minimum or a maximum, or a maximum that means "any" */
#define HAVIROZAN_MOST_BOUND 65535U
#define HAVIROZAN_ANY 4294967295U

/* ---- the kinds of a property value, and the types of a schema property */

#define HAVIROZAN_BOOLEAN 1U
#define HAVIROZAN_INTEGER 2U
#define HAVIROZAN_REAL 3U
#define HAVIROZAN_DATE 4U
#define HAVIROZAN_TEXT 5U

/* the flag of a schema property */
#define HAVIROZAN_MANDATORY 0U
#define HAVIROZAN_OPTIONAL 1U

/* open of a schema node or a schema edge */
#define HAVIROZAN_CLOSED 0U
#define HAVIROZAN_OPEN 1U

#ifdef __cplusplus
}
#endif

#endif
