/*
 * The border: makes the calls of libhavirozan.a that come in on standard input, and writes out what they gave.
 * It compares no result; that is done by the program that sends the calls.
 *
 * In: a number of calls, then for each call eight numbers: the function, label count, name count, and the bytes of five
 * blocks; then the blocks. The first four are lent to be read, as many of them as the function takes, and the last is the
 * one that is written. Out, for each call and each of its two times: twenty numbers, 0 where fewer were returned, and the
 * written block after the call. All numbers are unsigned, 32 bits, low byte first.
 *
 * Each call is made twice. In the first each block starts right behind a page that may not be touched, in the second each
 * ends right before one. So a byte read or written before or behind a block ends this program, and so does a lent block that
 * is not as it was after the call, or a byte beside the written one.
 */
#define _GNU_SOURCE
/* it is linked with the archive itself, so that nothing stands between the calls and what is proved */
#define HAVIROZAN_BARE_NAMES
#include "havirozan.h"

#include <stdio.h>
#include <stdlib.h>
#include <string.h>
#include <sys/mman.h>
#include <unistd.h>

/* what is called: one of the functions, or find_tables, write_graph and check one after the other, or join_graphs with one block
   lent as both files */
enum { CHECK, WRITE, FIND, AGAIN, SHEET, ALL, JOIN, TWICE };

enum { LENT = 4, OUT = LENT, BLOCKS = LENT + 1, HEAD = 3 + BLOCKS };
/* the places, then an outcome, then a code and an answer: what the three one after the other return */
enum { PLACES = 12, OUTCOME = 2, ANSWER = 5, TOLD = PLACES + OUTCOME + 1 + ANSWER };
/* the longest block is a list of all violations that there can be; beside it 16 records' bytes are looked at */
enum { GUARD = 1 << 16, ROOM = 1 << 24, LONGEST = ROOM / 3, MARGIN = 320, UNTOUCHED = 0xA5 };

_Static_assert(sizeof(havirozan_places) == PLACES * sizeof(unsigned int), "the places are twelve numbers");
_Static_assert(HAVIROZAN_ANSWER_BYTES == 4 * ANSWER, "the answer is five numbers");
_Static_assert(sizeof(havirozan_finding) == 4 * ANSWER, "a record is five numbers");
_Static_assert(HAVIROZAN_MOST_VIOLATIONS * sizeof(havirozan_finding) < LONGEST, "every list has room");

static void fail(const char *what)
{
    fprintf(stderr, "border: %s\n", what);
    exit(3);
}

static void take(void *to, size_t bytes)
{
    if (bytes != 0 && fread(to, 1, bytes, stdin) != bytes)
        fail("the calls end in the middle");
}

static void give(const void *from, size_t bytes)
{
    if (bytes != 0 && fwrite(from, 1, bytes, stdout) != bytes)
        fail("the results cannot be written");
}

/* ---- blocks */

/* A block: its bytes as they came, and room in which it stands twice, at the front and at the end. */
struct block {
    unsigned char *as_it_came;
    unsigned char *room;
    size_t bytes;
};

/* Room between two pages that may not be touched. */
static unsigned char *guarded(size_t bytes)
{
    unsigned char *all = mmap(NULL, bytes + 2 * (size_t)GUARD, PROT_NONE, MAP_PRIVATE | MAP_ANONYMOUS, -1, 0);
    if (all == MAP_FAILED || mprotect(all + GUARD, bytes, PROT_READ | PROT_WRITE) != 0)
        fail("no memory");
    return all + GUARD;
}

static struct block make_block(void)
{
    struct block block = {guarded(ROOM), guarded(ROOM), 0};
    return block;
}

static unsigned char *front(const struct block *block)
{
    return block->room;
}

static unsigned char *back(const struct block *block)
{
    return block->room + ROOM - block->bytes;
}

static void take_block(struct block *block, size_t bytes)
{
    if (bytes > LONGEST)
        fail("a block is too long for its room");
    block->bytes = bytes;
    take(block->as_it_came, bytes);
    memcpy(front(block), block->as_it_came, bytes);
    memcpy(back(block), block->as_it_came, bytes);
}

static void only_read(const struct block *block)
{
    if (memcmp(front(block), block->as_it_came, block->bytes) != 0 || memcmp(back(block), block->as_it_came, block->bytes) != 0)
        fail("a block that was lent to be read was written");
}

static void untouched(const unsigned char *from)
{
    for (size_t i = 0; i < MARGIN; i++)
        if (from[i] != UNTOUCHED)
            fail("a byte beside the written block was written");
}

static void wipe(const struct block *block)
{
    memset(front(block), UNTOUCHED, block->bytes);
    memset(back(block), UNTOUCHED, block->bytes);
}

/* ---- calls */

struct call {
    unsigned int function, labels, names;
    struct block blocks[BLOCKS];
};

/* A graph file is read, its tables are written again from where they lie, and what was written is checked: as far as it goes. */
static void again(unsigned char *const at[], const size_t bytes[], unsigned int told[])
{
    const unsigned char *graph = at[0];
    unsigned char answer[HAVIROZAN_ANSWER_BYTES];
    havirozan_places p = find_tables(graph, bytes[0]);
    memcpy(told, &p, sizeof p);
    if (p.code != 0)
        return;
    havirozan_outcome written = write_graph(graph + p.nodes_at, (size_t)p.nodes * HAVIROZAN_GRAPH_NODE_BYTES,
                                            graph + p.edges_at, (size_t)p.edges * HAVIROZAN_GRAPH_EDGE_BYTES,
                                            graph + p.rows_at, (size_t)p.rows * HAVIROZAN_GRAPH_PROPERTY_BYTES,
                                            graph + p.text_at, p.text, p.labels, p.names, at[OUT], bytes[OUT]);
    told += PLACES;
    told[0] = written.code;
    told[1] = written.number;
    if (written.code != 0)
        return;
    told += OUTCOME;
    told[0] = check(at[OUT], written.number, at[1], bytes[1], answer, sizeof answer);
    for (size_t i = 0; i < ANSWER; i++)
        told[1 + i] = HAVIROZAN_NUMBER(answer, 4 * i);
}

/* All violations: the written block is a list of as many records as it has bytes for. */
static void list(unsigned char *const at[], const size_t bytes[], unsigned int told[])
{
    size_t room = bytes[OUT] / sizeof(havirozan_finding);
    if (room * sizeof(havirozan_finding) != bytes[OUT])
        fail("a list is not whole records");
    /* every block starts at a page, or ends at one */
    havirozan_listed listed = check_all(at[0], bytes[0], at[1], bytes[1], (havirozan_finding *)(void *)at[OUT], room);
    told[0] = listed.refusal;
    told[1] = listed.place;
    told[2] = listed.total;
}

/* The first lent block is joined with the second, or with itself: the two inputs are the same bytes at the same place then. */
static void join(unsigned char *const at[], const size_t bytes[], size_t with, unsigned int told[])
{
    havirozan_outcome joined = join_graphs(at[0], bytes[0], at[with], bytes[with], at[OUT], bytes[OUT]);
    told[0] = joined.code;
    told[1] = joined.number;
}

static void make(const struct call *call, unsigned char *const at[], const size_t bytes[], unsigned int told[])
{
    havirozan_outcome outcome;
    havirozan_places places;
    switch (call->function) {
    case CHECK:
        told[0] = check(at[0], bytes[0], at[1], bytes[1], at[OUT], bytes[OUT]);
        break;
    case WRITE:
        outcome = write_graph(at[0], bytes[0], at[1], bytes[1], at[2], bytes[2], at[3], bytes[3], call->labels, call->names,
                              at[OUT], bytes[OUT]);
        told[0] = outcome.code;
        told[1] = outcome.number;
        break;
    case FIND:
        places = find_tables(at[0], bytes[0]);
        memcpy(told, &places, sizeof places);
        break;
    case AGAIN:
        again(at, bytes, told);
        break;
    case SHEET:
        outcome = read_sheet(at[0], bytes[0], at[OUT], bytes[OUT]);
        told[0] = outcome.code;
        told[1] = outcome.number;
        break;
    case ALL:
        list(at, bytes, told);
        break;
    case JOIN:
    case TWICE:
        join(at, bytes, call->function == TWICE ? 0 : 1, told);
        break;
    default:
        fail("no such function");
    }
}

static void give_numbers(const unsigned int numbers[])
{
    unsigned char bytes[4 * TOLD];
    for (size_t i = 0; i < sizeof bytes; i++)
        bytes[i] = (unsigned char)(numbers[i / 4] >> 8 * (i % 4));
    give(bytes, sizeof bytes);
}

static void make_twice(const struct call *call)
{
    unsigned char *fronts[BLOCKS], *backs[BLOCKS];
    size_t bytes[BLOCKS];
    unsigned int first[TOLD] = {0}, second[TOLD] = {0};

    for (size_t i = 0; i < BLOCKS; i++) {
        bytes[i] = call->blocks[i].bytes;
        /* where the number of bytes is 0, the pointer may be null */
        fronts[i] = bytes[i] != 0 ? front(&call->blocks[i]) : NULL;
        backs[i] = back(&call->blocks[i]);
    }
    make(call, fronts, bytes, first);
    make(call, backs, bytes, second);
    for (size_t i = 0; i < LENT; i++)
        only_read(&call->blocks[i]);
    untouched(front(&call->blocks[OUT]) + bytes[OUT]);
    untouched(back(&call->blocks[OUT]) - MARGIN);
    give_numbers(first);
    give(front(&call->blocks[OUT]), bytes[OUT]);
    give_numbers(second);
    give(back(&call->blocks[OUT]), bytes[OUT]);
    wipe(&call->blocks[OUT]);
}

int main(void)
{
    static struct call call;
    unsigned char head[4 * HEAD], count[4];

    for (size_t i = 0; i < BLOCKS; i++)
        call.blocks[i] = make_block();
    memset(call.blocks[OUT].room, UNTOUCHED, ROOM);
    setvbuf(stdin, NULL, _IOFBF, 1 << 20);
    setvbuf(stdout, NULL, _IOFBF, 1 << 18);
    while (fread(count, 1, sizeof count, stdin) == sizeof count) {
        for (size_t calls = HAVIROZAN_NUMBER(count, 0); calls > 0; calls--) {
            take(head, sizeof head);
            call.function = HAVIROZAN_NUMBER(head, 0);
            call.labels = HAVIROZAN_NUMBER(head, 4);
            call.names = HAVIROZAN_NUMBER(head, 8);
            for (size_t i = 0; i < BLOCKS; i++)
                take_block(&call.blocks[i], HAVIROZAN_NUMBER(head, 12 + 4 * i));
            make_twice(&call);
        }
        if (fflush(stdout) != 0)
            fail("the results cannot be written");
    }
    return 0;
}
