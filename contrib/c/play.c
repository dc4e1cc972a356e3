/* play.c: plays a session from standard input and writes its sections, with the messages and the exit statuses of the program tkhost_main. Linked statically
 * it runs where nothing else is installed: cc -static play.c -ltkhost -o tkhost */
#include <stdio.h>
#include <stdlib.h>
#include <tkhost.h>

/* The most bytes that a session has, and how many steps an application takes at a time. */
enum { MOST = 16777216, SLICE = 64 };

static int out_of_memory(void) {
    fputs("tkhost: out of memory\n", stderr);
    return 4;
}

static int written(const uint8_t *sections, size_t length) {
    if (fwrite(sections, 1, length, stdout) == length && fflush(stdout) == 0) return 0;
    fputs("tkhost: write fault\n", stderr);
    return 3;
}

/* Plays the session, with more room for what it writes as long as that doesn't suffice. */
static int play(const uint8_t *session, size_t length) {
    size_t capacity = 1 << 20, told = 0;
    for (;;) {
        uint8_t *sections = malloc(capacity);
        if (!sections) return out_of_memory();
        uint32_t answer = tkhost_play(session, length, SLICE, sections, capacity, &told);
        int status = 1;
        if (answer == TKHOST_DONE) status = written(sections, told);
        else if (answer == TKHOST_NO_MEMORY) status = out_of_memory();
        else if (answer != TKHOST_TOO_SMALL) fprintf(stderr, "tkhost: fault %u at line %zu\n", answer, told);
        free(sections);
        if (answer != TKHOST_TOO_SMALL) return status;
        capacity = told;
    }
}

int main(int argc, char **argv) {
    (void)argv;
    if (argc > 1) {
        fputs("usage: tkhost\n", stderr);
        return 2;
    }
    uint8_t *session = malloc(MOST + 1);
    if (!session) return out_of_memory();
    size_t length = fread(session, 1, MOST + 1, stdin);
    if (ferror(stdin) || length > MOST) {
        fputs("tkhost: read fault\n", stderr);
        return 3;
    }
    int status = play(session, length);
    free(session);
    return status;
}
