/* gauge.c: two panels in one host, of which one never ends, and what the other has shown after ten milliseconds.
 * cc gauge.c $(pkg-config --cflags --libs tkhost) -o gauge */
#include <stdio.h>
#include <stdlib.h>
#include <string.h>
#include <tkhost.h>

#define BYTES(text) (const uint8_t *)(text), strlen(text)

/* Says in words why a call was refused, and ends the program. */
static void done(uint32_t answer) {
    uint8_t words[64];
    size_t length = 0;
    if (answer == TKHOST_DONE) return;
    tkhost_text(answer, words, sizeof words, &length);
    fprintf(stderr, "gauge: %.*s (%u)\n", (int)length, (char *)words, answer);
    exit(1);
}

int main(void) {
    tkhost_host *host = NULL;
    uint8_t section[4096];
    size_t length = 0;
    done(tkhost_new(&host, 64));
    done(tkhost_add(&host, BYTES("runaway"), 0, 0, 100, 50, BYTES("while 1 {}"), 1000, 0));
    done(tkhost_alias(&host, BYTES("greet"), TKHOST_CONST, BYTES("ready")));
    done(tkhost_add(&host, BYTES("gauge"), 100, 0, 100, 50, BYTES("after 5 {puts [greet]}"), 1000, 0));
    done(tkhost_start(&host));
    done(tkhost_advance(&host, 10));
    done(tkhost_section(&host, 1, section, sizeof section, &length));
    fwrite(section, 1, length, stdout);
    done(tkhost_free(&host));
    return 0;
}
