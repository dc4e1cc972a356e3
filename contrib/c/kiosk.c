/* kiosk.c: a window of SDL 2 whose pointer and keys go to the panels of one host; what they show is printed whenever it changes.
 * cc kiosk.c $(pkg-config --cflags --libs tkhost sdl2) -o kiosk && ./kiosk panel.tcl [panel.tcl ..] */
#include <SDL.h>
#include <stdio.h>
#include <string.h>
#include <tkhost.h>

enum { WIDTH = 320, HEIGHT = 240, BUDGET = 100000, REFILL = 10000 };

/* Keys of SDL by X11's names: letters and digits are their own, the others are these. */
static size_t name_of(SDL_Keysym key, char *name) {
    static const struct { SDL_Keycode code; const char *name; } others[] = {
        {SDLK_RETURN, "Return"}, {SDLK_TAB, "Tab"}, {SDLK_BACKSPACE, "BackSpace"}, {SDLK_SPACE, "space"}, {SDLK_LEFT, "Left"}, {SDLK_RIGHT, "Right"}};
    *name = '\0';
    for (size_t at = 0; at < SDL_arraysize(others); at++) if (key.sym == others[at].code) strcpy(name, others[at].name);
    if ((key.sym >= 'a' && key.sym <= 'z') || (key.sym >= '0' && key.sym <= '9')) sprintf(name, "%c", (char)key.sym);
    return strlen(name);
}

static int say(uint32_t answer) {
    uint8_t words[64];
    size_t length = 0;
    if (answer) tkhost_text(answer, words, sizeof words, &length), fprintf(stderr, "%.*s (%u)\n", (int)length, (char *)words, answer);
    return (int)answer;
}

int main(int count, char **paths) {
    static char script[65536], name[16];
    static uint8_t shown[16][65536], now[65536];
    size_t lengths[16] = {0}, length;
    tkhost_host *host = NULL;
    if (SDL_Init(SDL_INIT_VIDEO) || say(tkhost_new(&host, 64))) return 1;
    SDL_Window *window = SDL_CreateWindow("kiosk", 0, 0, WIDTH * (count - 1), HEIGHT, 0);
    for (int slot = 0; slot < count - 1; slot++) {
        FILE *file = fopen(paths[slot + 1], "rb");
        if (!file) return 1;
        length = fread(script, 1, sizeof script, file);
        fclose(file);
        sprintf(name, "panel%d", slot);
        if (say(tkhost_add(&host, (uint8_t *)name, strlen(name), (uint32_t)slot * WIDTH, 0, WIDTH, HEIGHT, (uint8_t *)script, length, BUDGET, REFILL))) return 1;
    }
    for (int running = !say(tkhost_start(&host)) && window; running;) {
        SDL_Event event;
        int told = SDL_WaitEventTimeout(&event, 20);
        uint64_t moment = SDL_GetTicks64(); /* one clock for all calls: it never goes back */
        if (told && event.type == SDL_QUIT) running = 0;
        else if (told && event.type == SDL_MOUSEMOTION) say(tkhost_move(&host, moment, (uint32_t)event.motion.x, (uint32_t)event.motion.y));
        else if (told && event.type == SDL_MOUSEBUTTONDOWN) say(tkhost_press(&host, moment, event.button.button));
        else if (told && event.type == SDL_MOUSEBUTTONUP) say(tkhost_release(&host, moment, event.button.button));
        else if (told && event.type == SDL_KEYDOWN && (length = name_of(event.key.keysym, name))) say(tkhost_keydown(&host, moment, (uint8_t *)name, length));
        else if (told && event.type == SDL_KEYUP && (length = name_of(event.key.keysym, name))) say(tkhost_keyup(&host, moment, (uint8_t *)name, length));
        else if (say(tkhost_advance(&host, moment))) running = 0; /* timers that are due */
        for (size_t slot = 0; slot + 1 < (size_t)count; slot++) {
            if (tkhost_section(&host, slot, now, sizeof now, &length) || (length == lengths[slot] && !memcmp(now, shown[slot], length))) continue;
            memcpy(shown[slot], now, lengths[slot] = length);
            printf("%.*s", (int)length, (char *)now), fflush(stdout);
        }
    }
    SDL_Quit();
    return say(tkhost_free(&host));
}
