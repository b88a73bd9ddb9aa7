/*
 * The console of the tray planner, for C.
 *
 * docs/TAPE.md says what the commands on a tape and the replies are, and docs/REFUSALS.md what is refused. Link with
 * libconsole_c.a, which is for x86-64 and uses what x86-64-v2 has: SSE up to 4.2 and POPCNT. It calls memcpy, memmove and
 * memset, and nothing else. It allocates nothing, and has no data of its own that is written to.
 *
 * The library never keeps a pointer that it was passed: tapes, rooms and replies are yours again after the call. Between
 * the calls a console is nothing but the bytes of its struct.
 *
 * What the caller owes; nothing checks it.
 * - A pointer to a console, to a `needed` or to a struct console_ran leads to one, and is not null.
 * - A length is that of the tape or the room which the pointer beside it points to. Where the length is 0 the pointer may
 *   be null.
 * - What a function writes to does not overlap anything else that it is passed.
 * - A console that is run was made by console_new, or all its bytes are 0, as with CONSOLE_EMPTY and in static memory.
 *   Nothing but the library writes into it; as a whole it may be copied, and each copy then goes on by itself.
 * - A console takes one call at a time. Calls for different consoles need no lock and may run at once, in any threads,
 *   and so may calls of console_replies. From one thread to another a console goes like any other memory.
 */
#ifndef CONSOLE_H
#define CONSOLE_H

#include <stddef.h>
#include <stdint.h>

#ifdef __cplusplus
extern "C" {
#endif

/* A tape has at most these bytes. */
#define CONSOLE_LONGEST_TAPE 4096

/* No reply has more bytes. */
#define CONSOLE_LONGEST_REPLY 66

/* The replies to a whole tape have no more bytes. */
#define CONSOLE_LONGEST_REPLIES 270336

/* The bytes of a struct console, and what its address is a multiple of. */
#define CONSOLE_SIZE 672
#define CONSOLE_ALIGNMENT 8

/*
 * No call takes more bytes of the stack, its return address among them, beside what memcpy, memmove and memset take.
 * .ci/stack adds it up from the code of the archive.
 */
#define CONSOLE_STACK 2304

/* How a call ends. Every tape, place and length is answered, so there is nothing to check before a call. */
enum {
    CONSOLE_DONE = 0,
    /* The console refuses the call as a whole: */
    CONSOLE_TAPE_LENGTH = 1, /* the tape has more than CONSOLE_LONGEST_TAPE bytes */
    CONSOLE_PLACE = 2,       /* the place is beyond the tape's end */
    CONSOLE_REPLY_ROOM = 3,  /* there is room for less than CONSOLE_LONGEST_REPLY of reply */
    /* The library has an answer of its own: */
    CONSOLE_NO_CONSOLE = 21, /* the bytes of the console are 0 */
    CONSOLE_NO_ROOM = 22     /* the replies do not fit */
};

/* The letters of the commands, and the operands that follow, each with its bytes. */
enum {
    CONSOLE_LOAD_PLAIN = 0x50, /* P: limit (1), N (1), trays (32) */
    CONSOLE_LOAD_SIDED = 0x53, /* S: limit (1), N (1), trays (32) */
    CONSOLE_LOAD_RING = 0x52,  /* R: limit (1), N (1), K (1), trays (32) */
    CONSOLE_WORK = 0x57,       /* W: grant (4) */
    CONSOLE_GO = 0x47,         /* G: a grant of 10,000 looks */
    CONSOLE_FETCH = 0x46,      /* F */
    CONSOLE_DROP = 0x44        /* D */
};

/* The letters of the replies, and what follows. A number of more than one byte has its highest byte first. */
enum {
    CONSOLE_ACCEPTED = 0x41, /* A: a load or a drop */
    CONSOLE_WORKING = 0x42,  /* B: looks (4) */
    CONSOLE_FOUND = 0x59,    /* Y: length (1), looks (4) */
    CONSOLE_NONE = 0x4E,     /* N: looks (4) */
    CONSOLE_FETCHED = 0x54,  /* T: length (1), sheet (64) */
    CONSOLE_REFUSED = 0x45   /* E: layer (1), number (1), place (2) */
};

/* The layer and the number of a refusal, as they stand in a reply E. 1, 2 and 3 above are numbers of the layer console. */
enum {
    CONSOLE_LAYER_CONSOLE = 1,
    CONSOLE_LAYER_TAPE = 2,
    CONSOLE_LAYER_MACHINE = 3,
    CONSOLE_LAYER_PLANNER = 4
};
enum {
    CONSOLE_UNKNOWN_COMMAND = 4,  /* no command has this letter */
    CONSOLE_OPERANDS_CUT = 5,     /* the operands run past the tape's end */
    CONSOLE_TRAY_COUNT = 6,       /* N is below the kind's least number of trays or above 32 */
    CONSOLE_SPAN = 7,             /* K is below 2 or above N */
    CONSOLE_TRAY_NUMBER = 8,      /* a tray number is 0 or above N */
    CONSOLE_TRAY_REPEATED = 9,    /* a tray number stands twice */
    CONSOLE_TRAY_BEYOND = 10,     /* a tray byte after the first N is not 0 */
    CONSOLE_NO_SUCH_TURN = 11,    /* a turn is out of range; no command is answered so */
    CONSOLE_LIMIT = 12,           /* the limit is above 64 */
    CONSOLE_AT_WORK = 13,         /* a load while a task is at work */
    CONSOLE_NO_TASK = 14,         /* a grant while no task is at work */
    CONSOLE_GRANT = 15,           /* the grant is 0 or above 1,000,000 */
    CONSOLE_GRANT_SUM = 16,       /* the grants since the load would pass 2,000,000,000 */
    CONSOLE_NOT_FOUND = 17,       /* a fetch where no plan is found */
    CONSOLE_NOTHING_TO_DROP = 18  /* a drop while no task is at work */
};

/* A console that is kept between calls, or none: then all its bytes are 0. It holds no pointer, and is never freed. */
struct console {
    uint64_t opaque[CONSOLE_SIZE / 8];
};

#define CONSOLE_EMPTY { { 0 } }

/* What console_run came to: where the next command begins, and how many bytes the reply has. */
struct console_ran {
    size_t next;
    size_t count;
};

/*
 * CONSOLE_SIZE and CONSOLE_ALIGNMENT as the library was built. A program that is linked with an archive it was not
 * compiled for may compare them.
 */
size_t console_size(void);
size_t console_alignment(void);

/* Makes a console with no task in this memory, whatever was there. */
void console_new(struct console *console);

/*
 * Runs the command at `place` of the tape, and writes its reply at the beginning of `reply`; the bytes past it stay.
 * At the tape's end nothing is run, and count is 0. Run a tape from place 0 to its end by passing `next` as the next place.
 * A task stays in the console after the call, so it may go on on another tape.
 *
 * CONSOLE_DONE, and *ran is set: place < next where place was on the tape, next <= tape_length, count <= CONSOLE_LONGEST_REPLY.
 * A command that is refused is done too: its reply is five bytes that begin with CONSOLE_REFUSED.
 * CONSOLE_NO_CONSOLE where there is no console, whatever else applies; else CONSOLE_TAPE_LENGTH, CONSOLE_PLACE or
 * CONSOLE_REPLY_ROOM, the first of them that applies: the console, reply and *ran are then as they were.
 */
uint8_t console_run(struct console *console, const uint8_t *tape, size_t tape_length, size_t place, uint8_t *reply,
                    size_t reply_length, struct console_ran *ran);

/*
 * All replies to a whole tape by a new console, one after the other. *needed says how many bytes they are, at most
 * CONSOLE_LONGEST_REPLIES. A tape that is too long is answered too: its reply is the five bytes 45 01 01 00 00.
 *
 * CONSOLE_DONE: they stand at the beginning of `room`, and the bytes past them stay.
 * CONSOLE_NO_ROOM: they do not fit, and `room` is full of the first of them. So with length 0 it only counts them.
 */
uint8_t console_replies(const uint8_t *tape, size_t tape_length, uint8_t *room, size_t room_length, size_t *needed);

#ifdef __cplusplus
}
#endif

#endif
