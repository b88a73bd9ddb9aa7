/*
 * A task over two tapes, and each status of the functions in console.h. It prints what it got, and ends with 1 where
 * something is not as docs/TAPE.md says.
 */
#include "console.h"

#include <pthread.h>
#include <stdalign.h>
#include <stdbool.h>
#include <stdio.h>
#include <string.h>

_Static_assert(sizeof(struct console) == CONSOLE_SIZE && alignof(struct console) == CONSOLE_ALIGNMENT, "the memory of a console");

static int wrong = 0;

static void expect(bool holds, const char *what) {
    if (!holds) {
        printf("WRONG: %s\n", what);
        wrong = 1;
    }
}

static void print_bytes(const char *what, const uint8_t *bytes, size_t count) {
    printf("%-16s", what);
    for (size_t i = 0; i < count; i += 1) {
        printf(" %02X", bytes[i]);
    }
    printf("\n");
}

/* Loads the plain tower 1 3 2 with limit 5; grants 3 looks, and then 1. */
static const uint8_t load_and_grants[45] = {
    [0] = CONSOLE_LOAD_PLAIN, 5, 3, 1, 3, 2, [35] = CONSOLE_WORK, 0, 0, 0, 3, [40] = CONSOLE_WORK, 0, 0, 0, 1,
};
static const uint8_t granted[] = {CONSOLE_ACCEPTED, CONSOLE_WORKING, 0, 0, 0, 3, CONSOLE_FOUND, 3, 0, 0, 0, 4};

/* The plan 2 3 2 of 3 turns. */
static const uint8_t plan[CONSOLE_LONGEST_REPLY] = {CONSOLE_FETCHED, 3, 2, 3, 2};

static const uint8_t fetch[] = {CONSOLE_FETCH};
static const uint8_t drop[] = {CONSOLE_DROP};
static const uint8_t no_task[] = {CONSOLE_REFUSED, CONSOLE_LAYER_PLANNER, CONSOLE_NOTHING_TO_DROP, 0, 0};

/* Runs a tape from its beginning to its end, and collects the replies. */
static size_t run_tape(struct console *console, const uint8_t *tape, size_t length, uint8_t *replies) {
    struct console_ran ran = {0, 0};
    size_t count = 0;
    for (size_t place = 0; place < length; place = ran.next) {
        uint8_t reply[CONSOLE_LONGEST_REPLY];
        if (console_run(console, tape, length, place, reply, sizeof reply, &ran) != CONSOLE_DONE) {
            return 0;
        }
        memcpy(replies + count, reply, ran.count);
        count += ran.count;
    }
    return count;
}

/* Whether a tape is answered by these bytes. */
static bool answers(struct console *console, const uint8_t *tape, size_t length, const uint8_t *expected, size_t count) {
    uint8_t replies[256];
    return run_tape(console, tape, length, replies) == count && memcmp(replies, expected, count) == 0;
}

static void sizes(void) {
    expect(console_size() == sizeof(struct console), "the size of a console is that of the header");
    expect(console_alignment() == alignof(struct console), "and so is its alignment");
    printf("%-16s %d bytes, at an address that is a multiple of %d\n", "a console", CONSOLE_SIZE, CONSOLE_ALIGNMENT);
}

static void two_tapes(void) {
    struct console console;
    uint8_t replies[256];
    memset(&console, 0xAA, sizeof console);
    console_new(&console);
    size_t count = run_tape(&console, load_and_grants, sizeof load_and_grants, replies);
    print_bytes("the first tape", replies, count);
    expect(count == sizeof granted && memcmp(replies, granted, count) == 0, "the replies to the first tape");
    count = run_tape(&console, fetch, sizeof fetch, replies);
    print_bytes("the second", replies, count);
    expect(count == sizeof plan && memcmp(replies, plan, count) == 0, "the plan on the second tape");

    /* A new console has no task. */
    console_new(&console);
    count = run_tape(&console, drop, sizeof drop, replies);
    print_bytes("a new console", replies, count);
    expect(count == sizeof no_task && memcmp(replies, no_task, count) == 0, "a drop where there is no task");
}

/* A copy goes on by itself. */
static void copies(void) {
    static const uint8_t dropped[] = {CONSOLE_ACCEPTED};
    struct console console;
    console_new(&console);
    expect(answers(&console, load_and_grants, 40, granted, 6), "a task at work");
    struct console copy = console;
    expect(answers(&copy, drop, sizeof drop, dropped, sizeof dropped), "the copy drops the task");
    expect(answers(&console, load_and_grants + 40, 5, granted + 6, 6), "which is still at work in the console");
    expect(answers(&copy, drop, sizeof drop, no_task, sizeof no_task), "and not in the copy");
}

static void refused_calls(void) {
    static const uint8_t long_tape[CONSOLE_LONGEST_TAPE + 1];
    static struct console static_console;
    struct console console = CONSOLE_EMPTY;
    struct console_ran ran = {7, 7};
    uint8_t reply[CONSOLE_LONGEST_REPLY];
    memset(reply, 0xAA, sizeof reply);
    uint8_t empty = console_run(&console, plan, 0, 0, reply, sizeof reply, &ran);
    expect(empty == CONSOLE_NO_CONSOLE, "no console");
    expect(console_run(&static_console, plan, 0, 9, NULL, 0, &ran) == CONSOLE_NO_CONSOLE, "nor one in static memory");
    console_new(&console);
    uint8_t tape_length = console_run(&console, long_tape, sizeof long_tape, 0, reply, sizeof reply, &ran);
    expect(tape_length == CONSOLE_TAPE_LENGTH, "a tape too long");
    uint8_t place = console_run(&console, plan, 3, 4, reply, sizeof reply, &ran);
    expect(place == CONSOLE_PLACE, "a place beyond the end");
    uint8_t room = console_run(&console, plan, 3, 3, reply, sizeof reply - 1, &ran);
    expect(room == CONSOLE_REPLY_ROOM, "no room for a reply");
    expect(console_run(&console, NULL, 0, 0, NULL, 0, &ran) == CONSOLE_REPLY_ROOM, "no room at all");
    expect(ran.next == 7 && ran.count == 7 && reply[0] == 0xAA, "a refused call changes nothing");
    expect(console_run(&console, plan, 3, 3, reply, sizeof reply, &ran) == CONSOLE_DONE, "a call at the end");
    expect(ran.next == 3 && ran.count == 0 && reply[0] == 0xAA, "at the end nothing is run");
    expect(console_run(&console, NULL, 0, 0, reply, sizeof reply, &ran) == CONSOLE_DONE, "a tape of no bytes");
    expect(ran.next == 0 && ran.count == 0 && reply[0] == 0xAA, "at its end nothing is run");
    printf("%-16s %d %d %d %d\n", "statuses", empty, tape_length, place, room);
}

static void whole_tape(void) {
    uint8_t tape[sizeof load_and_grants + 1];
    uint8_t room[80];
    size_t needed = 0;
    memcpy(tape, load_and_grants, sizeof load_and_grants);
    tape[sizeof load_and_grants] = CONSOLE_FETCH;
    memset(room, 0xAA, sizeof room);
    expect(console_replies(tape, sizeof tape, NULL, 0, &needed) == CONSOLE_NO_ROOM && needed == 78, "78 bytes are needed");
    expect(console_replies(tape, sizeof tape, room, 14, &needed) == CONSOLE_NO_ROOM && needed == 78, "14 are too few");
    expect(memcmp(room, granted, sizeof granted) == 0 && memcmp(room + 12, plan, 2) == 0 && room[14] == 0xAA, "but they are filled");
    expect(console_replies(tape, sizeof tape, room, sizeof room, &needed) == CONSOLE_DONE && needed == 78, "80 are enough");
    expect(memcmp(room, granted, sizeof granted) == 0 && memcmp(room + 12, plan, sizeof plan) == 0, "the replies to a whole tape");
    expect(room[78] == 0xAA && room[79] == 0xAA, "the bytes past them stay");
    print_bytes("a whole tape", room, needed);
    expect(console_replies(NULL, 0, NULL, 0, &needed) == CONSOLE_DONE && needed == 0, "a tape of no bytes");
}

static void too_long_a_tape(void) {
    static const uint8_t long_tape[CONSOLE_LONGEST_TAPE + 1];
    static const uint8_t refused[] = {CONSOLE_REFUSED, CONSOLE_LAYER_CONSOLE, CONSOLE_TAPE_LENGTH, 0, 0};
    uint8_t room[sizeof refused];
    size_t needed = 0;
    expect(console_replies(long_tape, sizeof long_tape, room, sizeof room, &needed) == CONSOLE_DONE, "it is answered");
    print_bytes("too long a tape", room, needed);
    expect(needed == sizeof refused && memcmp(room, refused, needed) == 0, "by its refusal");
}

/* The longest replies to a tape: after a task is found the plan is fetched again and again. */
static void longest_replies(void) {
    static uint8_t tape[CONSOLE_LONGEST_TAPE];
    size_t needed = 0;
    memcpy(tape, load_and_grants, sizeof load_and_grants);
    memset(tape + sizeof load_and_grants, CONSOLE_FETCH, sizeof tape - sizeof load_and_grants);
    expect(console_replies(tape, sizeof tape, NULL, 0, &needed) == CONSOLE_NO_ROOM, "they are counted");
    expect(needed == 12 + (sizeof tape - 45) * CONSOLE_LONGEST_REPLY && needed <= CONSOLE_LONGEST_REPLIES, "and are within the bound");
}

/* Each thread has a console of its own, and no lock. */
static void *run_often(void *answered) {
    struct console console;
    for (int i = 0; i < 1000; i += 1) {
        console_new(&console);
        *(bool *)answered &= answers(&console, load_and_grants, sizeof load_and_grants, granted, sizeof granted)
            && answers(&console, fetch, sizeof fetch, plan, sizeof plan);
    }
    return NULL;
}

static void two_threads(void) {
    pthread_t threads[2];
    bool answered[2] = {true, true};
    for (int i = 0; i < 2; i += 1) {
        expect(pthread_create(&threads[i], NULL, run_often, &answered[i]) == 0, "a thread starts");
    }
    for (int i = 0; i < 2; i += 1) {
        expect(pthread_join(threads[i], NULL) == 0 && answered[i], "each thread is answered as if alone");
    }
}

int main(void) {
    sizes();
    two_tapes();
    copies();
    refused_calls();
    whole_tape();
    too_long_a_tape();
    longest_replies();
    two_threads();
    printf("%s\n", wrong ? "not as expected" : "all as expected");
    return wrong;
}
