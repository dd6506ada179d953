/*
 * join FIRST SECOND OUT: writes one graph file, without a preface, of two, to OUT.
 *
 * The second graph's nodes and edges come behind the first's. It says in a line from which number on they stand there: on standard
 * output, or on standard error where OUT is standard output, a pipe or a device, so that the line never gets among the graph's bytes.
 * Where the two graphs cannot be joined, it says the library's code and number, and what they mean, on standard error.
 *
 * OUT may be the name of FIRST or of SECOND: both are read as a whole before it is touched, and it is touched only when there is a
 * file to put into it. That file is written beside it, as OUT.joining, and takes its name when all of it is on the disk: so under
 * the name OUT there is never a part of a file, and after any other status than 0 there is what was there before. Where OUT is a
 * symbolic link, that holds for the file behind it, and the link stays; another name of the same file, a hard link, keeps the old
 * graph. Only a pipe or a device is written as it is, and what it took cannot be taken back. A file that is older than the call is
 * no joined graph: go by the status. Nor does status 0 say that the graph conforms: give OUT to check.
 *
 * Exit status: 0 written, 2 the two cannot be joined, 3 wrong usage or a file that cannot be read or written.
 */
#define _XOPEN_SOURCE 700
#include <errno.h>
#include <stdio.h>
#include <stdlib.h>
#include <string.h>
#include <sys/stat.h>
#include <unistd.h>

#include "havirozan.h"
#include "say.h"

enum { DONE, REFUSED = 2, USAGE };

/* a byte more than is accepted, so that a file that is too long is seen to be */
static unsigned char graphs[2][HAVIROZAN_GRAPH_MOST_BYTES + 1U];
static unsigned char out[HAVIROZAN_GRAPH_MOST_WRITTEN];

/* Says what is wrong with a file, by errno. */
static int complain(const char *path)
{
    fprintf(stderr, "join: %s: %s\n", path, strerror(errno));
    return 0;
}

/* Reads the file, up to `most` bytes of it. Returns how many were read, or more than `most` where the file cannot be read. */
static size_t load(const char *path, unsigned char *block, size_t most)
{
    const size_t unread = (size_t)-1;
    FILE *file = fopen(path, "rb");
    size_t bytes = file == NULL ? unread : fread(block, 1, most, file);
    if (file == NULL || ferror(file)) {
        complain(path);
        bytes = unread;
    }
    if (file != NULL)
        fclose(file);
    return bytes;
}

/* Writes the bytes to an open file and closes it. Returns whether all were written; what a full disk does not take may come up only
   at the end. A pipe or a device cannot be asked whether they are on the disk. */
static int put(FILE *file, const unsigned char *block, size_t bytes, int on_disk)
{
    int stored = fwrite(block, 1, bytes, file) == bytes && fflush(file) == 0 && (!on_disk || fsync(fileno(file)) == 0);
    const int error = errno;
    if (fclose(file) != 0)
        return 0;
    errno = error;
    return stored;
}

/* Writes a file beside the path, which must not be there yet, and gives it the path's name when all of it is written. */
static int replace(const char *path, const unsigned char *block, size_t bytes)
{
    static const char more[] = ".joining";
    char *beside = malloc(strlen(path) + sizeof more);
    FILE *file;
    int stored = 0;
    if (beside == NULL)
        return complain(path);
    strcpy(beside, path);
    strcat(beside, more);
    file = fopen(beside, "wbx");
    if (file == NULL) {
        const int left = errno == EEXIST;
        complain(beside);
        if (left)
            fprintf(stderr, "join: if no other join is writing it now, one was broken off and left it: delete it, and join again\n");
    } else if (!put(file, block, bytes, 1) || rename(beside, path) != 0) {
        complain(path);
        remove(beside);
    } else {
        stored = 1;
    }
    free(beside);
    return stored;
}

/* Replaces the plain file that is there. Its folder alone would let a write-protected one be replaced, so it is asked itself. Behind
   a symbolic link it is the file that gets a new one, and not the link. */
static int renew(const char *path, int linked, const unsigned char *block, size_t bytes)
{
    char *behind;
    int stored;
    if (access(path, W_OK) != 0)
        return complain(path);
    if (!linked)
        return replace(path, block, bytes);
    behind = realpath(path, NULL);
    stored = behind != NULL ? replace(behind, block, bytes) : complain(path);
    free(behind);
    return stored;
}

/* Writes the file. A pipe or a device has no name to be given to another, and is written as it is. A link to nothing is refused:
   there is no file to replace, and one that is made where it points could be left as a part. */
static int store(const char *path, const unsigned char *block, size_t bytes)
{
    struct stat named, there;
    FILE *file;
    if (lstat(path, &named) != 0)
        return errno == ENOENT ? replace(path, block, bytes) : complain(path);
    if (stat(path, &there) != 0)
        return complain(path);
    if (S_ISREG(there.st_mode))
        return renew(path, S_ISLNK(named.st_mode), block, bytes);
    file = fopen(path, "wb");
    return (file != NULL && put(file, block, bytes, 0)) || complain(path);
}

/* Whether what is there is what the stream writes to. */
static int goes_to(FILE *stream, const struct stat *there)
{
    struct stat own;
    return fstat(fileno(stream), &own) == 0 && own.st_dev == there->st_dev && own.st_ino == there->st_ino;
}

/* Where the line goes that says what was written: never to where the graph goes, and to neither stream where both go there. What is
   behind a pipe may end up in standard output, too. It has to be asked before the graph is stored, while OUT is still the file that
   the shell opened. */
static FILE *teller(const char *path)
{
    struct stat there;
    FILE *stream;
    if (stat(path, &there) != 0)
        return stdout;
    stream = S_ISREG(there.st_mode) ? stdout : stderr;
    if (goes_to(stream, &there))
        stream = stream == stdout ? stderr : stdout;
    return goes_to(stream, &there) ? NULL : stream;
}

int main(int argc, char **argv)
{
    size_t bytes[2];
    havirozan_outcome written;
    havirozan_places first;
    FILE *told;
    int i;

    if (argc != 4) {
        fprintf(stderr, "usage: join FIRST SECOND OUT\n");
        return USAGE;
    }
    for (i = 0; i < 2; i++) {
        bytes[i] = load(argv[1 + i], graphs[i], sizeof graphs[i]);
        if (bytes[i] > sizeof graphs[i])
            return USAGE;
    }

    written = havirozan_join_graphs(graphs[0], bytes[0], graphs[1], bytes[1], out, sizeof out);
    first = havirozan_find_tables(graphs[0], bytes[0]);
    if (written.code != 0) {
        const havirozan_places second = havirozan_find_tables(graphs[1], bytes[1]);
        fprintf(stderr, "join: %s and %s: code %u, number %u: ", argv[1], argv[2], written.code, written.number);
        say_join(stderr, written, &first, &second);
        fprintf(stderr, "join: nothing is written; if there is a file %s, it is older\n", argv[3]);
        return REFUSED;
    }
    told = teller(argv[3]);
    if (!store(argv[3], out, written.number))
        return USAGE;

    if (told != NULL)
        fprintf(told, "%u bytes written to %s; the nodes from %u on and the edges from %u on are those of %s\n", written.number,
                argv[3], first.nodes, first.edges, argv[2]);
    return DONE;
}
