/*
 * sheet SHEET OUT: reads an angle sheet, and writes its graph to OUT.
 *
 * It says in a line what it did, or which line of the sheet is bad. It guesses nothing: a sheet with a bad line has no graph.
 *
 * SHEET is read before OUT is opened, and OUT is opened only when there is a graph to put into it. Exit status: 0 done, 2 the
 * sheet is refused, 3 wrong usage or a file that cannot be read or written.
 */
#include <errno.h>
#include <stdio.h>
#include <string.h>

#include "havirozan.h"
#include "say.h"

enum { DONE, REFUSED = 2, USAGE };

/* a byte more than the longest good sheet: of a longer one this much shows the line at fault */
static unsigned char sheet[HAVIROZAN_SHEET_MOST_BYTES + 1U];
static unsigned char out[HAVIROZAN_SHEET_MOST_WRITTEN];

/* Reads the file, up to `most` bytes of it. Returns how many were read, or more than `most` where the file cannot be read. */
static size_t load(const char *path, unsigned char *block, size_t most)
{
    const size_t unread = (size_t)-1;
    FILE *file = fopen(path, "rb");
    size_t bytes = file == NULL ? unread : fread(block, 1, most, file);
    if (file == NULL || ferror(file)) {
        fprintf(stderr, "sheet: %s: %s\n", path, strerror(errno));
        bytes = unread;
    }
    if (file != NULL)
        fclose(file);
    return bytes;
}

/* Writes the file. Returns whether all of it was written. */
static int store(const char *path, const unsigned char *block, size_t bytes)
{
    FILE *file = fopen(path, "wb");
    int stored = file != NULL && fwrite(block, 1, bytes, file) == bytes;
    /* what a full disk does not take may come up only here */
    if (file != NULL && fclose(file) != 0)
        stored = 0;
    if (!stored)
        fprintf(stderr, "sheet: %s: %s\n", path, strerror(errno));
    return stored;
}

int main(int argc, char **argv)
{
    size_t sheet_bytes;
    havirozan_outcome written;
    havirozan_places at;

    if (argc != 3) {
        fprintf(stderr, "usage: sheet SHEET OUT\n");
        return USAGE;
    }
    sheet_bytes = load(argv[1], sheet, sizeof sheet);
    if (sheet_bytes > sizeof sheet)
        return USAGE;

    written = havirozan_read_sheet(sheet, sheet_bytes, out, sizeof out);
    if (written.code != 0) {
        fprintf(stderr, "sheet: %s is refused with code %u: ", argv[1], written.code);
        say_sheet(stderr, written);
        return REFUSED;
    }
    if (!store(argv[2], out, written.number))
        return USAGE;

    at = havirozan_find_tables(out, written.number);
    printf("%u nodes, %u edges, %u bytes written to %s\n", at.nodes, at.edges, written.number, argv[2]);
    return DONE;
}
