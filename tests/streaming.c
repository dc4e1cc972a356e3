/* Lets the program that it is preloaded into read and write as a slow or broken stream does. In READ stand how many bytes a call gives of standard
   input and how many calls give any, the next one fails; in WRITE stand as much of standard output and `fails`, or `stops` where the next call takes
   nothing. */
#define _GNU_SOURCE
#include <dlfcn.h>
#include <errno.h>
#include <stdio.h>
#include <stdlib.h>
#include <string.h>
#include <unistd.h>

static long read_piece = -1, read_calls, write_piece = -1, write_calls;
static int write_stops;

static ssize_t failed(void)
{
    errno = EIO;
    return -1;
}

ssize_t read(int file, void *bytes, size_t count)
{
    static ssize_t (*next)(int, void *, size_t);
    if (!next) {
        next = dlsym(RTLD_NEXT, "read");
        const char *told = getenv("READ");
        if (told)
            sscanf(told, "%ld %ld", &read_piece, &read_calls);
    }
    if (file == 0 && read_piece >= 0) {
        if (read_calls-- <= 0)
            return failed();
        if (count > (size_t)read_piece)
            count = read_piece;
    }
    return next(file, bytes, count);
}

ssize_t write(int file, const void *bytes, size_t count)
{
    static ssize_t (*next)(int, const void *, size_t);
    if (!next) {
        next = dlsym(RTLD_NEXT, "write");
        const char *told = getenv("WRITE");
        if (told) {
            sscanf(told, "%ld %ld", &write_piece, &write_calls);
            write_stops = strstr(told, "stops") != NULL;
        }
    }
    if (file == 1 && write_piece >= 0) {
        if (write_calls-- <= 0)
            return write_stops ? 0 : failed();
        if (count > (size_t)write_piece)
            count = write_piece;
    }
    return next(file, bytes, count);
}
