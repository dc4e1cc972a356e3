/* c_library: calls every function of tkhost.h, rightly and wrongly. Run by c_library.py, which tells what each mode has to write:
 *   c_library calls            each call and each wrong use; it ends with how many answers were as they have to be
 *   c_library play FILE SLICE  a whole session by tkhost_play
 *   c_library lines FILE SLICE the same line by line, by a host that lives
 *   c_library keep FILE SLICE  as lines, but the sections aren't written (to count instructions)
 *   c_library asker            which application asked for memory, in a run of which refusing.c refuses one request
 *   c_library fuzz COUNT SEED  so many calls in a wrong order, with wrong values
 */
#include "tkhost.h"

#include <stdio.h>
#include <stdlib.h>
#include <string.h>

static unsigned long right, wrong;

static void is(const char *what, uint64_t found, uint64_t wanted) {
    if (found == wanted) {
        right++;
    } else {
        wrong++;
        fprintf(stderr, "%s: %llu, not %llu\n", what, (unsigned long long)found, (unsigned long long)wanted);
    }
}

#define IS(call, wanted) is(#call, call, wanted)
#define TEXT(text) (const uint8_t *)(text), strlen(text)

/* A buffer of exactly so many bytes, so that valgrind and the sanitizers see one byte too many. */
static uint8_t *room(size_t bytes) {
    uint8_t *buffer = malloc(bytes ? bytes : 1);
    if (!buffer) exit(3);
    memset(buffer, '#', bytes ? bytes : 1);
    return buffer;
}

static void is_text(const char *what, const uint8_t *found, size_t length, const char *wanted) {
    is(what, length == strlen(wanted) && memcmp(found, wanted, length) == 0, 1);
}

/* ---- files */

static uint8_t *read_file(const char *path, size_t *length) {
    FILE *file = fopen(path, "rb");
    if (!file) exit(3);
    size_t capacity = 1 << 16, used = 0;
    uint8_t *bytes = malloc(capacity);
    for (size_t count; bytes && (count = fread(bytes + used, 1, capacity - used, file)) > 0;) {
        used += count;
        if (used == capacity) bytes = realloc(bytes, capacity *= 2);
    }
    if (!bytes) exit(3);
    fclose(file);
    *length = used;
    return bytes;
}

/* ---- a session, line by line */

struct lines {
    const uint8_t *at, *end;
};

struct line {
    const uint8_t *at;
    size_t length;
};

static struct line next_line(struct lines *lines) {
    const uint8_t *lf = memchr(lines->at, '\n', lines->end - lines->at);
    struct line line = {lines->at, (lf ? lf : lines->end) - lines->at};
    lines->at = lf ? lf + 1 : lines->end;
    return line;
}

static int begins(struct line line, const char *word) {
    return line.length >= strlen(word) && memcmp(line.at, word, strlen(word)) == 0;
}

/* Cuts the first field of a line off, which ends before a blank. */
static struct line field(struct line *line) {
    const uint8_t *blank = line->length ? memchr(line->at, ' ', line->length) : 0;
    struct line first = {line->at, blank ? (size_t)(blank - line->at) : line->length};
    size_t gone = first.length + (blank ? 1 : 0);
    line->at += gone;
    line->length -= gone;
    return first;
}

static uint64_t number(struct line line) {
    uint64_t value = 0;
    for (size_t place = 0; place < line.length && line.at[place] != '/'; place++) value = value * 10 + (line.at[place] - '0');
    return value;
}

static void must(const char *what, uint32_t answer) {
    if (answer) {
        uint8_t words[64];
        size_t length = 0;
        tkhost_text(answer, words, sizeof words, &length);
        fprintf(stderr, "%s: %u, %.*s\n", what, answer, (int)length, (char *)words);
        exit(1);
    }
}

static void add_app(tkhost_host **host, struct line line, struct lines *lines) {
    static const char *const kinds[] = {"const", "upper", "table", "sum", "fail"};
    field(&line);
    struct line name = field(&line);
    uint32_t rect[4];
    for (int side = 0; side < 4; side++) rect[side] = (uint32_t)number(field(&line));
    const uint8_t *slash = memchr(line.at, '/', line.length);
    struct line refill = {slash ? slash + 1 : line.at, slash ? (size_t)(line.at + line.length - slash - 1) : 0};
    struct line head = next_line(lines);
    for (; begins(head, "alias "); head = next_line(lines)) {
        field(&head);
        struct line alias = field(&head), word = field(&head);
        uint32_t kind = 0;
        while (kind < 5 && !(word.length == strlen(kinds[kind]) && begins(word, kinds[kind]))) kind++;
        must("alias", tkhost_alias(host, alias.at, alias.length, kind, head.at, head.length));
    }
    field(&head);
    struct line script = {lines->at, 0};
    for (uint64_t left = number(head); left; left--) {
        struct line one = next_line(lines);
        script.length = one.at + one.length - script.at;
    }
    must("add", tkhost_add(host, name.at, name.length, rect[0], rect[1], rect[2], rect[3], script.at, script.length, number(line), number(refill)));
}

static void write_section(tkhost_host **host, size_t slot, int writes) {
    size_t length = 0, told = 0;
    uint32_t answer = tkhost_section(host, slot, TKHOST_NOTHING, 0, &length);
    if (answer != TKHOST_TOO_SMALL) must("length of a section", answer);
    uint8_t *text = room(length);
    must("section", tkhost_section(host, slot, text, length, &told));
    if (told != length) exit(1);
    if (writes) fwrite(text, 1, length, stdout);
    free(text);
}

static int by_lines(const char *path, uint64_t slice, int writes) {
    size_t length, apps = 0;
    uint8_t *bytes = read_file(path, &length);
    struct lines lines = {bytes, bytes + length};
    tkhost_host *host = NULL;
    must("new", tkhost_new(&host, slice));
    next_line(&lines);
    for (struct line line = next_line(&lines); begins(line, "app "); line = next_line(&lines), apps++) add_app(&host, line, &lines);
    must("start", tkhost_start(&host));
    while (lines.at < lines.end) {
        struct line line = next_line(&lines);
        uint32_t answer = tkhost_line(&host, line.at, line.length);
        if (answer) must("line", answer);
    }
    for (size_t slot = 0; slot < apps; slot++) write_section(&host, slot, writes);
    must("free", tkhost_free(&host));
    free(bytes);
    return 0;
}

static int whole(const char *path, uint64_t slice) {
    size_t length, told = 0, again = 0;
    uint8_t *bytes = read_file(path, &length);
    uint32_t answer = tkhost_play(length ? bytes : TKHOST_NOTHING, length, slice, TKHOST_NOTHING, 0, &told);
    if (answer == TKHOST_TOO_SMALL) {
        uint8_t *text = room(told);
        must("play", tkhost_play(bytes, length, slice, text, told, &again));
        fwrite(text, 1, again, stdout);
        free(text);
    } else if (answer) {
        fprintf(stderr, "tkhost: fault %u at line %zu\n", answer, told);
    }
    free(bytes);
    return answer && answer != TKHOST_TOO_SMALL;
}

/* ---- each call and each wrong use */

static const char gauge[] = "app gauge running 997\nout 5 ready\ntree\nwin . Tk 0 0 100 50 1\ntimers\ndone\n";

static uint32_t add(tkhost_host **host, const char *name, uint32_t x, const char *script, uint64_t refill) {
    return tkhost_add(host, TEXT(name), x, 0, 100, 50, TEXT(script), 1000, refill);
}

static void no_host(void) {
    tkhost_host *host = NULL;
    uint8_t buffer[4] = "abc";
    tkhost_turn turns[1] = {{7, 8}};
    size_t told = 9;
    IS(tkhost_free(&host), TKHOST_NO_HOST);
    IS(tkhost_alias(&host, TEXT("a"), TKHOST_CONST, TEXT("b")), TKHOST_NO_HOST);
    IS(add(&host, "one", 0, "", 0), TKHOST_NO_HOST);
    IS(tkhost_start(&host), TKHOST_NO_HOST);
    IS(tkhost_move(&host, 0, 0, 0), TKHOST_NO_HOST);
    IS(tkhost_press(&host, 0, 1), TKHOST_NO_HOST);
    IS(tkhost_release(&host, 0, 1), TKHOST_NO_HOST);
    IS(tkhost_keydown(&host, 0, TEXT("a")), TKHOST_NO_HOST);
    IS(tkhost_keyup(&host, 0, TEXT("a")), TKHOST_NO_HOST);
    IS(tkhost_focus(&host, 0, 0), TKHOST_NO_HOST);
    IS(tkhost_unfocus(&host, 0), TKHOST_NO_HOST);
    IS(tkhost_rect(&host, 0, 0, 0, 0, 1, 1), TKHOST_NO_HOST);
    IS(tkhost_line(&host, TEXT("0 end")), TKHOST_NO_HOST);
    IS(tkhost_advance(&host, 0), TKHOST_NO_HOST);
    IS(tkhost_end(&host, 0), TKHOST_NO_HOST);
    IS(tkhost_section(&host, 0, buffer, 3, &told), TKHOST_NO_HOST);
    IS(tkhost_turns(&host, turns, 1, &told), TKHOST_NO_HOST);
    IS(tkhost_asker(&host, &told), TKHOST_NO_HOST);
    IS(memcmp(buffer, "abc", 4) == 0 && told == 9 && turns[0].slot == 7 && turns[0].steps == 8 && !host, 1);
}

static void making(void) {
    tkhost_host *host = NULL, *other = NULL;
    IS(tkhost_new(&host, 0), TKHOST_BAD_LINE);
    IS(host == NULL, 1);
    IS(tkhost_new(&host, 1), 0);
    tkhost_host *before = host;
    IS(tkhost_new(&host, 1), TKHOST_HAS_HOST);
    IS(host == before && host != NULL, 1);
    IS(tkhost_new(&other, UINT64_MAX), 0);
    IS(tkhost_free(&host), 0);
    IS(host == NULL, 1);
    IS(tkhost_free(&host), TKHOST_NO_HOST);
    IS(tkhost_start(&other), 0);
    IS(tkhost_free(&other), 0);
    IS(tkhost_new(&host, 64), 0);
    IS(tkhost_free(&host), 0);
}

static void adding(void) {
    tkhost_host *host = NULL;
    IS(tkhost_new(&host, 64), 0);
    IS(add(&host, "", 0, "", 0), TKHOST_BAD_LINE);
    IS(add(&host, "a b", 0, "", 0), TKHOST_BAD_LINE);
    IS(add(&host, "a\xff", 0, "", 0), TKHOST_BAD_LINE);
    IS(add(&host, "a", 0, "puts \xff", 0), TKHOST_BAD_LINE);
    IS(add(&host, "a", 40000, "", 0), TKHOST_BAD_LINE);
    IS(tkhost_add(&host, TEXT("a"), 0, 0, 0, 50, TEXT(""), 1000, 0), TKHOST_BAD_LINE);
    IS(tkhost_add(&host, TEXT("a"), 0, 0, 1, 1, TEXT(""), 10000001, 0), TKHOST_BAD_LINE);
    IS(tkhost_add(&host, TEXT("a"), 0, 0, 1, 1, TEXT(""), 1, 10000001), TKHOST_BAD_LINE);
    uint8_t *longest = room(65537);
    IS(tkhost_add(&host, TEXT("a"), 0, 0, 1, 1, longest, 65537, 1000, 0), TKHOST_BAD_LINE);
    IS(tkhost_add(&host, TEXT("a"), 0, 0, 100, 50, longest, 65536, 1000, 0), 0);
    free(longest);
    IS(add(&host, "a", 100, "", 0), TKHOST_NAME_TAKEN);
    IS(add(&host, "b", 99, "", 0), TKHOST_OVERLAP);
    IS(add(&host, "b", 100, "", 10000000), 0);
    char name[3] = "ca";
    for (int more = 0; more < 14; more++, name[1]++) IS(tkhost_add(&host, TEXT(name), 0, 100 + more, 10, 1, TKHOST_NOTHING, 0, 0, 0), 0);
    IS(add(&host, "d", 3000, "", 0), TKHOST_TOO_MANY_APPS);
    IS(tkhost_start(&host), 0);
    IS(add(&host, "d", 3000, "", 0), TKHOST_STARTED);
    IS(add(&host, "", 0, "", 0), TKHOST_STARTED);
    IS(add(&host, "\xff", 0, "", 0), TKHOST_BAD_LINE);
    IS(tkhost_end(&host, 0), 0);
    IS(add(&host, "d", 3000, "", 0), TKHOST_ENDED);
    IS(tkhost_free(&host), 0);
}

static void serving(void) {
    static const char script[] = "puts [c]; puts [u x]; puts [t k]; puts [s 3]; puts [catch f why]$why";
    static const char wanted[] = "app one running 989\nout 0 a b\nout 0 A X\nout 0 v\nout 0 6\nout 0 1no\ntree\nwin . Tk 0 0 100 50 1\ntimers\ndone\n";
    tkhost_host *host = NULL;
    size_t told = 0;
    uint8_t buffer[400];
    IS(tkhost_new(&host, 64), 0);
    IS(tkhost_alias(&host, TEXT("c"), 5, TEXT("a")), TKHOST_BAD_LINE);
    IS(tkhost_alias(&host, TEXT(".c"), TKHOST_CONST, TEXT("a")), TKHOST_BAD_LINE);
    IS(tkhost_alias(&host, TEXT(""), TKHOST_CONST, TEXT("a")), TKHOST_BAD_LINE);
    IS(tkhost_alias(&host, TEXT("c\xff"), TKHOST_CONST, TEXT("a")), TKHOST_BAD_LINE);
    IS(tkhost_alias(&host, TEXT("c"), TKHOST_CONST, TEXT("\xff")), TKHOST_BAD_LINE);
    IS(tkhost_alias(&host, TEXT("c"), TKHOST_CONST, TEXT("a b")), 0);
    IS(tkhost_alias(&host, TEXT("u"), TKHOST_UPPER, TEXT("a")), 0);
    IS(tkhost_alias(&host, TEXT("t"), TKHOST_TABLE, TEXT("k v")), 0);
    IS(tkhost_alias(&host, TEXT("s"), TKHOST_SUM, TEXT("1 2")), 0);
    IS(tkhost_alias(&host, TEXT("f"), TKHOST_FAIL, TEXT("no")), 0);
    IS(add(&host, "one", 0, script, 0), 0);
    /* a refused application takes the aliases with it */
    IS(tkhost_alias(&host, TEXT("c"), TKHOST_CONST, TKHOST_NOTHING, 0), 0);
    IS(tkhost_alias(&host, TEXT("c"), TKHOST_CONST, TEXT("b")), 0);
    IS(add(&host, "two", 100, "", 0), TKHOST_NAME_TAKEN);
    IS(add(&host, "two", 100, "catch c why; puts $why", 0), 0);
    char name[4] = "a00";
    for (int more = 0; more < 64; more++, name[1] = (char)('0' + more / 10), name[2] = (char)('0' + more % 10))
        IS(tkhost_alias(&host, TEXT(name), TKHOST_CONST, TEXT("")), 0);
    IS(tkhost_alias(&host, TEXT("more"), TKHOST_CONST, TEXT("")), TKHOST_BAD_LINE);
    IS(add(&host, "three", 200, "", 0), 0);
    IS(tkhost_start(&host), 0);
    IS(tkhost_alias(&host, TEXT("c"), TKHOST_CONST, TEXT("a")), TKHOST_STARTED);
    IS(tkhost_section(&host, 0, buffer, sizeof buffer, &told), 0);
    is_text("aliases of five kinds", buffer, told, wanted);
    IS(tkhost_section(&host, 1, buffer, sizeof buffer, &told), 0);
    is_text("no alias left", buffer, told, "app two running 997\nout 0 invalid command name \"c\"\ntree\nwin . Tk 0 0 100 50 1\ntimers\ndone\n");
    IS(tkhost_free(&host), 0);
}

static void running(void) {
    tkhost_host *host = NULL;
    IS(tkhost_new(&host, 64), 0);
    IS(add(&host, "one", 0, "entry .e; pack .e; focus .e; bind . <Configure> {puts %wx%h}", 5), 0);
    IS(add(&host, "two", 100, "bind . <FocusIn> {puts in}", 5), 0);
    IS(tkhost_line(&host, TEXT("0 move 1 1")), TKHOST_NOT_STARTED);
    IS(tkhost_move(&host, 0, 1, 1), TKHOST_NOT_STARTED);
    IS(tkhost_advance(&host, 0), TKHOST_NOT_STARTED);
    IS(tkhost_end(&host, 0), TKHOST_NOT_STARTED);
    IS(tkhost_start(&host), 0);
    IS(tkhost_start(&host), TKHOST_STARTED);
    IS(tkhost_advance(&host, 10), 0);
    IS(tkhost_advance(&host, 9), TKHOST_TIME_BACK);
    IS(tkhost_advance(&host, 1000000000001), TKHOST_BAD_LINE);
    IS(tkhost_move(&host, 9, 1, 1), TKHOST_TIME_BACK);
    IS(tkhost_move(&host, 10, 65536, 1), TKHOST_BAD_LINE);
    IS(tkhost_move(&host, 10, 65535, 65535), 0);
    IS(tkhost_move(&host, 10, 50, 10), 0);
    IS(tkhost_press(&host, 11, 0), TKHOST_BAD_LINE);
    IS(tkhost_press(&host, 11, 6), TKHOST_BAD_LINE);
    IS(tkhost_press(&host, 11, 1), 0);
    IS(tkhost_release(&host, 11, 6), TKHOST_BAD_LINE);
    IS(tkhost_release(&host, 12, 1), 0);
    IS(tkhost_focus(&host, 12, 2), TKHOST_NO_APP);
    IS(tkhost_focus(&host, 12, SIZE_MAX), TKHOST_NO_APP);
    IS(tkhost_focus(&host, 12, 0), 0);
    IS(tkhost_keydown(&host, 13, TEXT("nokey")), TKHOST_BAD_LINE);
    IS(tkhost_keydown(&host, 13, TEXT("\xff")), TKHOST_BAD_LINE);
    IS(tkhost_keydown(&host, 13, TKHOST_NOTHING, 0), TKHOST_BAD_LINE);
    IS(tkhost_keydown(&host, 13, TEXT("a")), 0);
    IS(tkhost_keyup(&host, 13, TEXT("nokey")), TKHOST_BAD_LINE);
    IS(tkhost_keyup(&host, 14, TEXT("a")), 0);
    IS(tkhost_rect(&host, 15, 2, 0, 0, 10, 10), TKHOST_NO_APP);
    IS(tkhost_rect(&host, 15, 0, 0, 0, 0, 10), TKHOST_BAD_LINE);
    IS(tkhost_rect(&host, 15, 0, 50, 0, 100, 50), TKHOST_RECT_OVERLAP);
    IS(tkhost_rect(&host, 15, 0, 0, 100, 120, 60), 0);
    IS(tkhost_unfocus(&host, 16), 0);
    IS(tkhost_line(&host, TEXT("17 focus two")), 0);
    IS(tkhost_line(&host, TEXT("17 focus none")), TKHOST_NO_APP);
    IS(tkhost_line(&host, TEXT("17 focus -\n")), TKHOST_BAD_LINE);
    IS(tkhost_line(&host, TEXT("17 rect two 300 0 10 10")), 0);
    IS(tkhost_line(&host, TEXT("")), TKHOST_BAD_LINE);
    IS(tkhost_line(&host, TEXT("17 tap 1")), TKHOST_BAD_LINE);
    IS(tkhost_line(&host, TEXT("17 keydown \xff")), TKHOST_BAD_LINE);
    IS(tkhost_line(&host, TEXT("16 move 1 1")), TKHOST_TIME_BACK);
    IS(tkhost_line(&host, TEXT("16 end")), TKHOST_TIME_BACK);
    IS(tkhost_line(&host, TEXT("20 end")), 0);
    IS(tkhost_line(&host, TEXT("20 end")), TKHOST_ENDED);
    IS(tkhost_end(&host, 20), TKHOST_ENDED);
    IS(tkhost_advance(&host, 20), TKHOST_ENDED);
    IS(tkhost_move(&host, 20, 1, 1), TKHOST_ENDED);
    IS(tkhost_start(&host), TKHOST_ENDED);
    size_t told = 0;
    uint8_t buffer[400];
    IS(tkhost_section(&host, 0, buffer, sizeof buffer, &told), 0);
    is("resized", memmem(buffer, told, "out 15 120x60\n", 14) != NULL, 1);
    IS(tkhost_section(&host, 1, buffer, sizeof buffer, &told), 0);
    is("focused", memmem(buffer, told, "out 17 in\n", 10) != NULL, 1);
    IS(tkhost_free(&host), 0);
}

static void telling(void) {
    tkhost_host *host = NULL;
    size_t told = 99;
    IS(tkhost_new(&host, 64), 0);
    IS(add(&host, "runaway", 0, "while 1 {}", 0), 0);
    IS(add(&host, "gauge", 100, "after 5 {puts ready}", 0), 0);
    uint8_t *fits = room(sizeof gauge - 1), *small = room(sizeof gauge - 2), *large = room(sizeof gauge + 3);
    IS(tkhost_turns(&host, (tkhost_turn *)large, 0, &told), 0);
    IS(told, 0);
    IS(tkhost_start(&host), 0);
    IS(tkhost_turns(&host, (tkhost_turn *)large, 0, &told), TKHOST_TOO_SMALL);
    IS(told, 17);
    tkhost_turn *turns = malloc(17 * sizeof *turns);
    IS(tkhost_turns(&host, turns, 16, &told), TKHOST_TOO_SMALL);
    IS(tkhost_turns(&host, turns, 17, &told), 0);
    uint64_t steps = 0;
    for (size_t turn = 0; turn < told; turn++) steps += turns[turn].slot == 0 ? turns[turn].steps : 0;
    IS(steps, 1000);
    IS(turns[0].slot == 0 && turns[0].steps == 64 && turns[1].slot == 1, 1);
    free(turns);
    IS(tkhost_advance(&host, 10), 0);
    told = 99;
    IS(tkhost_asker(&host, &told), TKHOST_NO_APP);
    IS(tkhost_section(&host, 2, large, sizeof gauge + 3, &told), TKHOST_NO_APP);
    IS(tkhost_section(&host, SIZE_MAX, large, sizeof gauge + 3, &told), TKHOST_NO_APP);
    IS(told == 99 && large[0] == '#', 1);
    IS(tkhost_section(&host, 1, TKHOST_NOTHING, 0, &told), TKHOST_TOO_SMALL);
    IS(told, sizeof gauge - 1);
    IS(tkhost_section(&host, 1, small, sizeof gauge - 2, &told), TKHOST_TOO_SMALL);
    IS(told == sizeof gauge - 1 && small[0] == '#', 1);
    IS(tkhost_section(&host, 1, fits, sizeof gauge - 1, &told), 0);
    is_text("section", fits, told, gauge);
    IS(tkhost_section(&host, 1, large, sizeof gauge + 3, &told), 0);
    is_text("section", large, told, gauge);
    IS(large[sizeof gauge - 1] == '#' && large[sizeof gauge + 2] == '#', 1);
    free(fits);
    free(small);
    free(large);
    IS(tkhost_free(&host), 0);
    for (uint32_t answer = 0; answer < 80; answer++) {
        size_t length = 99, again = 0;
        uint32_t none = tkhost_text(answer, TKHOST_NOTHING, 0, &length);
        IS(none == TKHOST_TOO_SMALL && length > 0 && length <= 48, 1);
        uint8_t *words = room(length);
        IS(tkhost_text(answer, words, length - 1, &again), TKHOST_TOO_SMALL);
        IS(tkhost_text(answer, words, length, &again), 0);
        if (answer == 65) is_text("text", words, again, "no host");
        if (answer == 1) is_text("text", words, again, "no such number");
        free(words);
    }
}

static void playing(void) {
    static const char session[] = "tkhost 1\napp gauge 0 0 100 50 1000\nscript 1\nafter 5 {puts ready}\nevents\n10 end\n";
    size_t told = 99;
    uint8_t *fits = room(sizeof gauge - 1);
    IS(tkhost_play(TEXT(session), 0, fits, sizeof gauge - 1, &told), TKHOST_BAD_LINE);
    IS(told == 0 && fits[0] == '#', 1);
    IS(tkhost_play(TEXT(session), 64, TKHOST_NOTHING, 0, &told), TKHOST_TOO_SMALL);
    IS(told, sizeof gauge - 1);
    IS(tkhost_play(TEXT(session), 64, fits, sizeof gauge - 2, &told), TKHOST_TOO_SMALL);
    IS(told == sizeof gauge - 1 && fits[0] == '#', 1);
    IS(tkhost_play(TEXT(session), 1, fits, sizeof gauge - 1, &told), 0);
    is_text("play", fits, told, gauge);
    IS(tkhost_play(TKHOST_NOTHING, 0, 64, fits, sizeof gauge - 1, &told), TKHOST_BAD_LINE);
    IS(told, 1);
    IS(tkhost_play(TEXT("tkhost 1\nevents\n10 move 1 1\n9 move 1 1\n"), 64, fits, sizeof gauge - 1, &told), TKHOST_TIME_BACK);
    IS(told, 4);
    IS(tkhost_play(TEXT("tkhost 1\nevents\n10 end\n"), 64, fits, 0, &told), 0);
    IS(told, 0);
    free(fits);
}

/* ---- calls in wrong orders */

static uint64_t random_state;

static uint64_t pick(uint64_t below) {
    random_state ^= random_state << 13;
    random_state ^= random_state >> 7;
    random_state ^= random_state << 17;
    return random_state % below;
}

static struct line word(void) {
    static const char *const words[] = {"", "a", "one", "two", "Return", ".x", "\xff\xfe", "while 1 {}", "puts [a]", "after 3 {puts x}", "button .b -text Go; pack .b",
        "entry .e; pack .e; focus .e", "5 move 20 20", "7 press 1", "9 focus one", "12 rect two 0 0 3 3", "99 end", "list {", "k v", "1 2 x"};
    const char *text = words[pick(sizeof words / sizeof *words)];
    return (struct line){(const uint8_t *)text, strlen(text)};
}

static uint64_t value(void) {
    switch (pick(6)) {
        case 0: return pick(4);
        case 1: return pick(200);
        case 2: return pick(70000);
        case 3: return 10000000 + pick(2);
        case 4: return UINT64_MAX - pick(2);
        default: return pick(1000000000002);
    }
}

/* ---- memory that is refused */

static int asker(void) {
    tkhost_host *host = NULL;
    size_t slot = 9;
    if (tkhost_new(&host, 64) || add(&host, "one", 0, "set a b", 0) || add(&host, "two", 100, "set a b", 0)) {
        tkhost_free(&host);
        return 0;
    }
    uint32_t started = tkhost_start(&host), asked = tkhost_asker(&host, &slot);
    printf("%u %u %zu\n", started, asked, slot);
    return tkhost_free(&host) != 0;
}

static int fuzz(unsigned long count, uint64_t seed) {
    tkhost_host *hosts[3] = {NULL, NULL, NULL};
    unsigned long answers[128] = {0};
    random_state = seed * 2654435761u + 88172645463325252u;
    for (unsigned long call = 0; call < count; call++) {
        tkhost_host **host = &hosts[pick(3)];
        size_t capacity = pick(300), told = 0;
        uint8_t *buffer = room(capacity);
        tkhost_turn *turns = malloc((capacity / 8 + 1) * sizeof *turns);
        uint32_t answer = 127;
        struct line one = word(), other = word();
        switch (pick(25)) {
            case 0: answer = pick(8) ? 0 : tkhost_free(host); break;
            case 1: answer = tkhost_new(host, pick(4) ? 1 + pick(100) : value()); break;
            case 2: answer = tkhost_alias(host, one.at, one.length, (uint32_t)pick(7), other.at, other.length); break;
            case 3: case 4: case 5:
                if (pick(3)) one = (struct line){(const uint8_t *)(pick(2) ? "one" : "two"), 3};
                answer = tkhost_add(host, one.at, one.length, (uint32_t)(pick(20) * 50), (uint32_t)(pick(3) ? 0 : value()), (uint32_t)(pick(4) ? 50 : value()),
                                    (uint32_t)(pick(4) ? 50 : value()), other.at, other.length, pick(3) ? pick(500) : 10000001 + pick(3), pick(20)); break;
            case 6: case 7: answer = tkhost_start(host); break;
            case 8: answer = tkhost_move(host, value(), (uint32_t)pick(1000), (uint32_t)pick(100)); break;
            case 9: answer = tkhost_press(host, value(), (uint32_t)pick(7)); break;
            case 10: answer = tkhost_release(host, value(), (uint32_t)pick(7)); break;
            case 11: answer = tkhost_keydown(host, value(), one.at, one.length); break;
            case 12: answer = tkhost_keyup(host, value(), one.at, one.length); break;
            case 13: answer = tkhost_focus(host, value(), (size_t)value()); break;
            case 14: answer = tkhost_unfocus(host, value()); break;
            case 15: answer = tkhost_rect(host, value(), (size_t)pick(4), (uint32_t)value(), (uint32_t)pick(100), (uint32_t)pick(300), (uint32_t)pick(100)); break;
            case 16: case 17: answer = tkhost_line(host, one.at, one.length); break;
            case 18: answer = tkhost_advance(host, value()); break;
            case 19: answer = pick(6) ? 0 : tkhost_end(host, value()); break;
            case 20: answer = tkhost_section(host, (size_t)(pick(3) ? pick(4) : value()), buffer, capacity, &told); break;
            case 21: answer = tkhost_turns(host, turns, capacity / 8, &told); break;
            case 22: answer = tkhost_asker(host, &told); break;
            case 23: answer = tkhost_text((uint32_t)pick(90), buffer, capacity, &told); break;
            default: answer = tkhost_play(one.at, one.length, pick(3), buffer, capacity, &told); break;
        }
        if (answer > 68) exit(1);
        answers[answer]++;
        free(buffer);
        free(turns);
    }
    for (int place = 0; place < 3; place++) tkhost_free(&hosts[place]);
    for (int answer = 0; answer < 69; answer++) {
        if (answers[answer]) printf("%d %lu\n", answer, answers[answer]);
    }
    return 0;
}

int main(int count, char **args) {
    if (count == 2 && strcmp(args[1], "calls") == 0) {
        no_host();
        making();
        adding();
        serving();
        running();
        telling();
        playing();
        printf("%lu answers right, %lu wrong\n", right, wrong);
        return wrong != 0;
    }
    if (count == 4 && strcmp(args[1], "play") == 0) return whole(args[2], strtoull(args[3], NULL, 10));
    if (count == 4 && strcmp(args[1], "lines") == 0) return by_lines(args[2], strtoull(args[3], NULL, 10), 1);
    if (count == 4 && strcmp(args[1], "keep") == 0) return by_lines(args[2], strtoull(args[3], NULL, 10), 0);
    if (count == 2 && strcmp(args[1], "asker") == 0) return asker();
    if (count == 4 && strcmp(args[1], "fuzz") == 0) return fuzz(strtoul(args[2], NULL, 10), strtoull(args[3], NULL, 10));
    fprintf(stderr, "usage: c_library calls | play FILE SLICE | lines FILE SLICE | keep FILE SLICE | asker | fuzz COUNT SEED\n");
    return 2;
}
