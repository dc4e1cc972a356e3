/*
 * tkhost.h: a headless host for Tk 8.6 applications, as a library for C and C++.
 *
 * A host runs up to sixteen scripted panels, each in its own rectangle of one screen, under a clock that is handed in. What a panel shows follows
 * from its own name, size, script, budget, aliases and routed events alone: that is proved, of every list of calls in which no memory is refused.
 * docs/embedding.md tells in which order to call, and has a kiosk's whole loop.
 *
 * Answers. Each call answers a number: 0 where it did what it says, else one of TKHOST_... below. No call aborts, prints, blocks, or reads a clock. A
 * refused call leaves the host as it was, but where it says otherwise.
 *
 * Handles. A host is reached through a handle, a `tkhost_host *` that begins as NULL; each call takes the handle's address. NULL has no host
 * (TKHOST_NO_HOST). Only these calls may set a handle that isn't NULL. A copy of a handle isn't followed: once the host was freed through one copy, the
 * others must not be used, as any freed pointer.
 *
 * Pointers. Bytes are a pointer and a length; texts need no NUL behind them. Each pointer is to as many bytes as its length says, and isn't NULL, with a
 * length of 0 either: TKHOST_NOTHING serves there. While a call runs, its handle, its buffers and its out parameters don't overlap. Nothing is written
 * past a capacity. The library keeps no pointer that it was handed: names, scripts and configurations are copied.
 *
 * Threads. One host is one thread's at a time: calls on it come one after another, on any thread, ordered by whoever calls. Two hosts know nothing of
 * each other, and may be used by two threads at once.
 *
 * Memory. It comes from the program's malloc, realloc and free, and goes back with tkhost_free. Where it is refused, the answer is TKHOST_NO_MEMORY; a
 * call that was running applications leaves the host broken then, and each further one is refused (TKHOST_BROKEN) but tkhost_turns, tkhost_asker and tkhost_free.
 * No call may come from a signal handler, nor from the forked child of a program with threads.
 *
 * Time. "Steps" are those that a budget counts: each command, each test of a loop and each script that an event or timer starts. A call takes at most the
 * steps that the applications have left and are granted, so it always returns.
 */
#ifndef TKHOST_H
#define TKHOST_H

#include <stddef.h>
#include <stdint.h>

#ifdef __cplusplus
extern "C" {
#endif

typedef struct tkhost_host tkhost_host;

/* Any pointer that isn't NULL, for a length or a capacity of 0. */
#define TKHOST_NOTHING ((uint8_t *)"")

enum {
    TKHOST_DONE = 0,
    /* As the faults of a session and of a host are numbered. */
    TKHOST_OVERLAP = 34,      /* the rectangle shares a pixel with another application's */
    TKHOST_TIME_BACK = 35,    /* the moment is before the one that is reached */
    TKHOST_BAD_LINE = 36,     /* no such line, or a value outside its range; also bytes that aren't UTF-8, a text past 65,536 bytes, a slice of 0 */
    TKHOST_NO_APP = 37,       /* no application has this slot, or this name */
    TKHOST_TOO_MANY_APPS = 38, /* a seventeenth application */
    TKHOST_NAME_TAKEN = 39,   /* another application has the name, or another alias of the same application */
    TKHOST_STARTED = 40,      /* the host has started */
    TKHOST_ENDED = 41,        /* the host has ended */
    TKHOST_BROKEN = 42,       /* memory was refused while applications ran */
    TKHOST_RECT_OVERLAP = 43, /* a new rectangle covers a pixel of another application's */
    /* This library's own. */
    TKHOST_NO_MEMORY = 64,    /* memory was refused */
    TKHOST_NO_HOST = 65,      /* the handle is NULL: no host was made, or it was freed */
    TKHOST_HAS_HOST = 66,     /* the handle has a host already */
    TKHOST_TOO_SMALL = 67,    /* the buffer is too small; the length that is needed is told, and the buffer stays */
    TKHOST_NOT_STARTED = 68   /* lines, advances and the end come behind the start */
};

/* What an alias does, by its configuration: answers it; answers its items and the arguments in capitals; looks the argument up in it, keys and values in
 * turn; adds its items and the arguments; fails with it as the error's text. */
enum { TKHOST_CONST = 0, TKHOST_UPPER = 1, TKHOST_TABLE = 2, TKHOST_SUM = 3, TKHOST_FAIL = 4 };

/* A turn: the slot of the application that had it, and how many steps it took, at least 1. */
typedef struct tkhost_turn {
    size_t slot;
    uint64_t steps;
} tkhost_turn;

/*
 * Plays a whole session of either format, each application at most `slice` steps at a time, and writes its sections, one after another, as the program
 * tkhost does. *told is how many bytes they have; where the session is faulty (34 to 39, 43), the number of its first faulty line, from 1.
 * TKHOST_TOO_SMALL plays it in vain: ask with enough room, since asking again plays it again. TKHOST_BAD_LINE with *told 0: a slice of 0.
 * Time: the session's bytes and its steps. Memory: what was read, the applications, and the sections, all given back before it answers.
 */
uint32_t tkhost_play(const uint8_t *session, size_t length, uint64_t slice, uint8_t *buffer, size_t capacity, size_t *told);

/*
 * Makes a host without applications for a handle that is NULL. `slice`, at least 1, is how many steps an application takes at most before the next has its
 * turn; what becomes of each doesn't depend on it. The caller owes it a tkhost_free. TKHOST_HAS_HOST, TKHOST_BAD_LINE (slice 0), TKHOST_NO_MEMORY.
 * Time: constant. Memory: the tables that all applications share, still empty.
 */
uint32_t tkhost_new(tkhost_host **host, uint64_t slice);

/* Gives back a host with all that it holds; the handle is NULL then. TKHOST_NO_HOST where it was. Time: what the host holds. */
uint32_t tkhost_free(tkhost_host **host);

/*
 * Before the start: an alias waits for the application that is added next. It takes the place of a command of its name: 1 to 64 printing ASCII
 * characters, of which the first isn't `.`, nor the first two `::`. TKHOST_STARTED; TKHOST_BAD_LINE (kind, name, configuration, or a 65th).
 * Time: the lengths. Memory: the name and the configuration.
 */
uint32_t tkhost_alias(tkhost_host **host, const uint8_t *name, size_t name_length, uint32_t kind, const uint8_t *config, size_t config_length);

/*
 * Adds an application in the next slot, from 0 on, with the aliases that wait; whatever is answered, none waits then. Its name is an ASCII letter and then
 * letters, digits and `_`, 32 in all at most; x and y are at most 32,767, width and height 1 to 32,767 pixels. `total` is how many steps its scripts may
 * take, `refill` how many each event gives back that is routed to it, never to more than `total`; both are at most 10,000,000. One that is exhausted gets
 * nothing back any more. TKHOST_BAD_LINE where name or script is no text, and then in this order TKHOST_BROKEN, TKHOST_ENDED, TKHOST_STARTED, TKHOST_BAD_LINE, TKHOST_TOO_MANY_APPS, TKHOST_NAME_TAKEN (also of two aliases), TKHOST_OVERLAP.
 * Time: the lengths, a look at up to 16 names and rectangles, and the aliases each with each. Memory: the application and its script.
 */
uint32_t tkhost_add(tkhost_host **host, const uint8_t *name, size_t name_length, uint32_t x, uint32_t y, uint32_t width, uint32_t height,
                    const uint8_t *script, size_t script_length, uint64_t total, uint64_t refill);

/*
 * Runs each application's script at moment 0, and does what is due then. In this order TKHOST_BROKEN, TKHOST_ENDED, TKHOST_STARTED; TKHOST_NO_MEMORY
 * breaks the host. Time: the steps. Memory: theirs, and 16 bytes for each turn.
 */
uint32_t tkhost_start(tkhost_host **host);

/*
 * Lines, at a moment in milliseconds from the start, at most 10^12. The applications come to the moment, each doing what is due of its own on the way, and
 * then those that the line gives an event do what comes of it. In this order TKHOST_NOT_STARTED, TKHOST_BROKEN, TKHOST_ENDED, TKHOST_BAD_LINE,
 * TKHOST_TIME_BACK, TKHOST_NO_APP, TKHOST_RECT_OVERLAP; TKHOST_NO_MEMORY breaks the host.
 * Time: a few microseconds, and the steps that come of it. Memory: that of the steps.
 *
 * x and y are on the screen, 0 to 65,535; buttons are 1 to 5. Keys have the names of X11's keysyms, as `a`, `Return`, `Shift_L`; a name that no key has is
 * TKHOST_BAD_LINE, before all else.
 */
uint32_t tkhost_move(tkhost_host **host, uint64_t moment, uint32_t x, uint32_t y);
uint32_t tkhost_press(tkhost_host **host, uint64_t moment, uint32_t button);
uint32_t tkhost_release(tkhost_host **host, uint64_t moment, uint32_t button);
uint32_t tkhost_keydown(tkhost_host **host, uint64_t moment, const uint8_t *name, size_t name_length);
uint32_t tkhost_keyup(tkhost_host **host, uint64_t moment, const uint8_t *name, size_t name_length);
/* The application in a slot has the keys from here on, or none has them. */
uint32_t tkhost_focus(tkhost_host **host, uint64_t moment, size_t slot);
uint32_t tkhost_unfocus(tkhost_host **host, uint64_t moment);
/* The application in a slot has another rectangle. */
uint32_t tkhost_rect(tkhost_host **host, uint64_t moment, size_t slot, uint32_t x, uint32_t y, uint32_t width, uint32_t height);

/*
 * A line of a session of format 2, as it stands behind `events`, without its line feed: `200 move 180 30`, `250 focus lamp`, `1000 end`. It does what the
 * call of its kind does, and is refused as that is; what is no such line is TKHOST_BAD_LINE, before all else. Time: the line's bytes more.
 */
uint32_t tkhost_line(tkhost_host **host, const uint8_t *line, size_t length);

/*
 * Goes on to a moment: what is due by then is done, each at its moment. The second ends the host there. In this order TKHOST_NOT_STARTED, TKHOST_BROKEN,
 * TKHOST_ENDED, TKHOST_BAD_LINE (past 10^12), TKHOST_TIME_BACK; TKHOST_NO_MEMORY breaks the host. Time: the steps of what is due, and for each due
 * moment a look at all timers. Memory: that of the steps.
 */
uint32_t tkhost_advance(tkhost_host **host, uint64_t moment);
uint32_t tkhost_end(tkhost_host **host, uint64_t moment);

/*
 * Writes the section of the application in a slot, at any time: its state and the steps left, what it wrote and its errors by their moments, its windows
 * with their rectangles and texts, its timers. Lines end with LF alone, and no text of a panel has one as it is written. *told is the section's length,
 * with TKHOST_TOO_SMALL too: ask with a capacity of 0 for the length alone. Nothing follows the text. TKHOST_BROKEN, TKHOST_NO_APP, TKHOST_NO_MEMORY,
 * which leave the host, the buffer and *told. Time and memory: the section's bytes.
 */
uint32_t tkhost_section(tkhost_host **host, size_t slot, uint8_t *buffer, size_t capacity, size_t *told);

/*
 * Writes the turns that took steps in the last start, line, advance or end that wasn't refused with a number. *told is how many there are, with
 * TKHOST_TOO_SMALL too. Time: their number. Memory: none.
 */
uint32_t tkhost_turns(tkhost_host **host, tkhost_turn *turns, size_t capacity, size_t *told);

/*
 * Tells the slot of the application that asked for the memory that was refused, once the host is broken. Before that TKHOST_NO_APP, which leaves *slot.
 * Time: constant. Memory: none.
 */
uint32_t tkhost_asker(tkhost_host **host, size_t *slot);

/* Writes what a number says, in words, without a NUL; at most 48 bytes. *told is their length, with TKHOST_TOO_SMALL too. It takes no memory. */
uint32_t tkhost_text(uint32_t number, uint8_t *buffer, size_t capacity, size_t *told);

#ifdef __cplusplus
}
#endif

#endif
