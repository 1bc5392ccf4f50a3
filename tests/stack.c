/* How much stack each function of the library takes: it is called on a painted stack, and the deepest byte that is not paint any more
 * tells. The most of many calls counts: random runs of each size, refused calls, damaged images, short and long sheets.
 *
 * What the caller's own call takes is measured with an empty function and taken off.
 */
#include <stdio.h>
#include <stdlib.h>
#include <string.h>
#include <ucontext.h>

#include "lobstercreel.h"

enum { ROOM = 1 << 20, PAINT = 0xa5, SEEDS = 40, STEPS = 60 };

static uint8_t stack[ROOM], image[LOBSTERCREEL_IMAGE], sheet[60001], out[LOBSTERCREEL_OUTPUT];
static size_t length = sizeof image, given, room = sizeof out;
static uint8_t first, second, third, list[LOBSTERCREEL_STEP * STEPS], numbers[STEPS];
static size_t listed;
static uint16_t told[2];
static volatile size_t answer;
static ucontext_t home, there;

/* The calls, with what they are given in the variables above. */
static void nothing(void) { answer = first; }
static void fresh(void) { answer = lobstercreel_fresh(image, length, first); }
static void report(void) { answer = lobstercreel_report(image, length, first, second); }
static void receive(void) { answer = lobstercreel_receive(image, length, first, second); }
static void respond(void) { answer = lobstercreel_respond(image, length, first, second); }
static void crash(void) { answer = lobstercreel_crash(image, length, first); }
static void report_cut(void) { answer = lobstercreel_report_cut(image, length, first, second, third); }
static void receive_cut(void) { answer = lobstercreel_receive_cut(image, length, first, second, third); }
static void respond_cut(void) { answer = lobstercreel_respond_cut(image, length, first, second, third); }
static void steps(void) { answer = lobstercreel_steps(image, length, list, listed, numbers, sizeof numbers); }
static void settle(void) { answer = lobstercreel_settle(image, length, told); }
static void run(void) { answer = lobstercreel_run(sheet, given, out, room); }

enum { NOTHING, FRESH, REPORT, RECEIVE, RESPOND, CRASH, REPORT_CUT, RECEIVE_CUT, RESPOND_CUT, LIST, SETTLE, RUN, CALLS };
static void (*const calls[CALLS])(void) = {nothing, fresh, report, receive, respond, crash, report_cut, receive_cut, respond_cut, steps, settle, run};
static const char *const names[CALLS] = {"", "lobstercreel_fresh", "lobstercreel_report", "lobstercreel_receive",
                                         "lobstercreel_respond", "lobstercreel_crash", "lobstercreel_report_cut",
                                         "lobstercreel_receive_cut", "lobstercreel_respond_cut", "lobstercreel_steps", "lobstercreel_settle",
                                         "lobstercreel_run"};
static size_t most[CALLS];
static long times[CALLS];

static void call(int which) {
    memset(stack, PAINT, sizeof stack);
    getcontext(&there);
    there.uc_stack.ss_sp = stack;
    there.uc_stack.ss_size = sizeof stack;
    there.uc_link = &home;
    makecontext(&there, calls[which], 0);
    swapcontext(&home, &there);
    size_t left = 0;
    while (left < sizeof stack && stack[left] == PAINT) left++;
    if (left < 4096) {
        printf("%s takes more stack than can be measured here\n", names[which]);
        exit(1);
    }
    if (sizeof stack - left > most[which]) most[which] = sizeof stack - left;
    times[which]++;
}

/* Steps from a fresh system, a damaged byte now and then; the settling run after them; and a sheet of such lines. */
static void walk(unsigned seed) {
    srand(seed);
    int n = 1 + (int)seed % 8;
    first = (uint8_t)n;
    call(FRESH);
    given = (size_t)sprintf((char *)sheet, "u %d\n", n);
    listed = 0;
    for (int i = 0; i < STEPS; i++) {
        uint8_t kept = (uint8_t)(rand() % 256);
        int at = rand() % LOBSTERCREEL_IMAGE, kind = rand() % 12;
        int which = kind < 3 ? REPORT : kind < 8 ? RECEIVE : kind < 11 ? RESPOND : CRASH;
        first = (uint8_t)(1 + rand() % n);
        second = which == REPORT ? (uint8_t)(kept | 1 << (first - 1)) & (uint8_t)((1 << n) - 1) : (uint8_t)(1 + rand() % n);
        if (which == CRASH && rand() % 4) first = 9;
        /* Now and then the same step, cut: on a copy, since it stops its unit. */
        if (which != CRASH && rand() % 3 == 0) {
            static uint8_t whole[LOBSTERCREEL_IMAGE];
            memcpy(whole, image, sizeof whole);
            third = (uint8_t)(rand() % 3);
            call(which - REPORT + REPORT_CUT);
            memcpy(image, whole, sizeof whole);
        }
        if (rand() % 10 == 0) {
            uint8_t good = image[at];
            image[at] = kept;
            call(which);
            if (answer != LOBSTERCREEL_DONE) image[at] = good;
        } else {
            call(which);
        }
        list[listed++] = (uint8_t)(which - REPORT);
        list[listed++] = first;
        list[listed++] = second;
        list[listed++] = rand() % 8 ? LOBSTERCREEL_WHOLE : (uint8_t)(rand() % 4);
        given += (size_t)sprintf((char *)sheet + given, "%c %d %d\n", "??rtas"[which], first, second % 10);
        if (rand() % 20 == 0) {
            call(SETTLE);
            given += (size_t)sprintf((char *)sheet + given, "q\n");
        }
    }
    call(SETTLE);
    image[0] = 9;
    call(SETTLE);
    given += (size_t)sprintf((char *)sheet + given, "q\n");
    call(RUN);
    first = (uint8_t)n;
    call(FRESH);
    call(LIST);
    first = 0;
    call(FRESH);
}

int main(void) {
    for (int again = 0; again < 2; again++) {
        /* The first calls may bind functions of the C library, so all is done twice and measured the second time. */
        memset(most, 0, sizeof most);
        call(NOTHING);
        for (unsigned seed = 1; seed <= SEEDS; seed++) walk(seed);
        memset(sheet, '\n', sizeof sheet);
        memcpy(sheet, "u 8", 3);
        for (given = sizeof sheet - 1; given <= sizeof sheet; given++) call(RUN);
        room = 10;
        given = 100;
        call(RUN);
        room = sizeof out;
    }
    for (int which = FRESH; which < CALLS; which++)
        printf("%-22s %6zu bytes of stack, the most of %ld calls\n", names[which], most[which] - most[NOTHING], times[which]);
    return 0;
}
