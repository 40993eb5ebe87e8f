/* Makes a list of device calls on images, one after the other, and prints how many seconds they took. It is what a
 * command's own calls cost where nothing else is done.
 *
 *   bare IMAGE .. < LIST
 *
 * A line of the list is a call: "read DISK OFFSET BYTES", "write DISK OFFSET BYTES", "sync DISK" (fsync) or
 * "datasync DISK" (fdatasync). DISK counts the images from 0. A call that fails or falls short ends the program with
 * status 1. The list is read before the clock starts.
 */
#define _GNU_SOURCE
#include <fcntl.h>
#include <stdio.h>
#include <stdlib.h>
#include <string.h>
#include <time.h>
#include <unistd.h>

enum { MAX_IMAGES = 16, MAX_BYTES = 1 << 16 };

enum kind { READ, WRITE, SYNC, DATASYNC };

struct call {
    enum kind kind;
    int disk;
    long offset;
    long bytes;
};

static const char *const names[] = {"read", "write", "sync", "datasync"};

static void stop(const char *what)
{
    fprintf(stderr, "bare: %s\n", what);
    exit(1);
}

static enum kind kind_of(const char *name)
{
    for (int kind = READ; kind <= DATASYNC; kind++)
        if (strcmp(name, names[kind]) == 0)
            return kind;
    stop("unknown call");
    return READ;
}

static struct call *read_list(long *count, int images)
{
    struct call *calls = NULL;
    long room = 0;
    char name[16];
    *count = 0;
    while (scanf("%15s", name) == 1) {
        struct call call = {.kind = kind_of(name)};
        if (scanf("%d", &call.disk) != 1 || call.disk < 0 || call.disk >= images)
            stop("no such disk");
        if (call.kind == READ || call.kind == WRITE)
            if (scanf("%ld %ld", &call.offset, &call.bytes) != 2 || call.bytes < 0 || call.bytes > MAX_BYTES)
                stop("no such place");
        if (*count == room) {
            room = room ? 2 * room : 1024;
            calls = realloc(calls, room * sizeof *calls);
            if (!calls)
                stop("out of memory");
        }
        calls[(*count)++] = call;
    }
    return calls;
}

static int went(const struct call *call, int file)
{
    static char buffer[MAX_BYTES];
    switch (call->kind) {
    case READ:
        return pread(file, buffer, call->bytes, call->offset) == call->bytes;
    case WRITE:
        return pwrite(file, buffer, call->bytes, call->offset) == call->bytes;
    case SYNC:
        return fsync(file) == 0;
    case DATASYNC:
        return fdatasync(file) == 0;
    }
    return 0;
}

static double now(void)
{
    struct timespec time;
    clock_gettime(CLOCK_MONOTONIC, &time);
    return time.tv_sec + time.tv_nsec / 1e9;
}

int main(int argc, char **argv)
{
    int files[MAX_IMAGES], images = argc - 1;
    if (images < 1 || images > MAX_IMAGES)
        stop("1 to 16 images are asked for");
    for (int disk = 0; disk < images; disk++)
        if ((files[disk] = open(argv[1 + disk], O_RDWR)) < 0)
            stop(argv[1 + disk]);
    long count;
    struct call *calls = read_list(&count, images);
    double start = now();
    for (long at = 0; at < count; at++)
        if (!went(&calls[at], files[calls[at].disk]))
            stop("a call failed");
    printf("%.6f\n", now() - start);
    return 0;
}
