/* For tests/image.c: the image that is lent, its parts by the header's names, what is expected of them, and the calls. */
#include <stdarg.h>
#include <stdio.h>
#include <stdlib.h>
#include <string.h>

#include "lobstercreel.h"

enum { SEEDS = 300, TOLD = 20, GUARD = 64, MARK = 77 };

/* The image that is lent lies between bytes that must stay. */
static uint8_t memory[GUARD + LOBSTERCREEL_IMAGE + GUARD];
static uint8_t *const image = memory + GUARD;
static uint8_t before[LOBSTERCREEL_IMAGE], wanted[LOBSTERCREEL_IMAGE];
static uint8_t list[LOBSTERCREEL_STEP * 400], numbers[400 + GUARD], answers[400];
static uint8_t sheet[60000], out[LOBSTERCREEL_OUTPUT + GUARD], expected[LOBSTERCREEL_OUTPUT + GUARD];
static const size_t length = LOBSTERCREEL_IMAGE;
static long passed, failed;

static void expect(int ok, const char *what, ...) {
    if (ok) { passed++; return; }
    if (failed++ >= TOLD) return;
    va_list rest;
    va_start(rest, what);
    printf("failed: ");
    vprintf(what, rest);
    printf("\n");
    va_end(rest);
}

/* Units and views. */
static uint8_t only(int p) { return (uint8_t)(1 << (p - 1)); }
static uint8_t all(int n) { return (uint8_t)((1 << n) - 1); }
static uint8_t both(int p, int q) { return only(p) | only(q); }

/* A field of unit p; a record of unit p; a message and the length of a line. */
static uint8_t *field(uint8_t *of, int p, int which) { return of + LOBSTERCREEL_UNIT(p) + which; }
static uint8_t *line_length(uint8_t *of, int q, int p) { return of + LOBSTERCREEL_LINE(q, p) + LOBSTERCREEL_LENGTH; }
static uint8_t *record(uint8_t *of, int p, int q) { return of + LOBSTERCREEL_UNIT(p) + LOBSTERCREEL_RECORD(q); }
static uint8_t *entry(uint8_t *of, int p, int i) { return of + LOBSTERCREEL_UNIT(p) + LOBSTERCREEL_ENTRY(i); }
static uint8_t *slot(uint8_t *of, int q, int p, int k) { return of + LOBSTERCREEL_LINE(q, p) + LOBSTERCREEL_SLOT(k); }
static uint8_t *trust(uint8_t *of, int p) { return of + LOBSTERCREEL_TRUST(p); }

static void set(uint8_t *at, int a, int b, int c) {
    at[0] = (uint8_t)a;
    at[1] = (uint8_t)b;
    at[2] = (uint8_t)c;
}

/* Puts a message last on a line; takes the oldest off. */
static void put(uint8_t *of, int q, int p, int tag, int a, int b) { set(slot(of, q, p, (*line_length(of, q, p))++), tag, a, b); }
static void take(uint8_t *of, int q, int p) {
    (*line_length(of, q, p))--;
    for (int k = 0; k < *line_length(of, q, p); k++) memcpy(slot(of, q, p, k), slot(of, q, p, k + 1), 3);
}

/* Do two slots hold the same message? Acc has one operand. */
static int same_message(const uint8_t *a, const uint8_t *b) {
    return a[0] == b[0] && a[1] == b[1] && (a[0] == LOBSTERCREEL_ACC || a[2] == b[2]);
}

/* Are two images the same table, up to bytes that mean nothing? */
static int same_table(uint8_t *a, uint8_t *b) {
    int n = a[LOBSTERCREEL_N];
    if (n > 8 || b[LOBSTERCREEL_N] != n) return 0;
    for (int p = 1; p <= n; p++) {
        static const int fields[] = {LOBSTERCREEL_CRASHED, LOBSTERCREEL_VIEW, LOBSTERCREEL_NEXT,
                                     LOBSTERCREEL_PROPOUT, LOBSTERCREEL_PROPOSAL, LOBSTERCREEL_ACKS};
        for (int i = 0; i < 6; i++)
            if (*field(a, p, fields[i]) != *field(b, p, fields[i])) return 0;
        for (int i = 1; i <= 32; i++)
            if (*entry(a, p, i) != *entry(b, p, i)) return 0;
        if ((*trust(a, p) ^ *trust(b, p)) & all(n)) return 0;
        for (int q = 1; q <= n; q++) {
            int there = *record(a, p, q) == LOBSTERCREEL_PROPOSED, waiting = *line_length(a, q, p);
            if (memcmp(record(a, p, q), record(b, p, q), there ? 3 : 1) != 0) return 0;
            if (waiting > 8 || *line_length(b, q, p) != waiting) return 0;
            for (int k = 0; k < waiting; k++)
                if (!same_message(slot(a, q, p, k), slot(b, q, p, k))) return 0;
        }
    }
    return 1;
}

/* The next call is expected to leave what `wanted` is made to hold after this. */
static void prepare(void) {
    memcpy(before, image, length);
    memcpy(wanted, image, length);
}

static int unchanged(void) { return memcmp(before, image, length) == 0; }
static void done(uint8_t answer, const char *what, int a, int b, int c) {
    expect(answer == LOBSTERCREEL_DONE && same_table(image, wanted), "%s (%d, %d, %d): answer %d", what, a, b, c, answer);
}
static void refused(uint8_t answer, uint8_t number, const char *what) {
    expect(answer == number && unchanged(), "%s: answer %d and not %d, or another image", what, answer, number);
}

/* The two numbers that a settling run tells lie between others that must stay. */
static uint16_t told_memory[4];
static uint16_t *const told = told_memory + 1;
static uint8_t settle(uint8_t *of, size_t given) {
    told_memory[0] = told_memory[3] = 0xa5a5;
    told[0] = told[1] = 0x7777;
    uint8_t answer = lobstercreel_settle(of, given, told);
    expect(told_memory[0] == 0xa5a5 && told_memory[3] == 0xa5a5, "the numbers around those that are told");
    expect(told[0] <= LOBSTERCREEL_MOST_STEPS && told[1] <= LOBSTERCREEL_BUDGET, "%d steps, ending %d", told[0], told[1]);
    return answer;
}
static int settled(uint8_t answer, int steps, int ending) { return answer == LOBSTERCREEL_DONE && told[0] == steps && told[1] == ending; }
static void refused_settling(uint8_t *of, size_t given, const char *what) {
    refused(settle(of, given), LOBSTERCREEL_UNSOUND, what);
    expect(told[0] == 0 && told[1] == LOBSTERCREEL_HELD, "%s: %d steps, ending %d", what, told[0], told[1]);
}

static void start(int n) {
    memset(image, 0, length);
    expect(lobstercreel_fresh(image, length, (uint8_t)n) == LOBSTERCREEL_DONE, "%d fresh units", n);
}

/* A view as a sheet has it. */
static const char *digits(uint8_t view) {
    static char text[9];
    int n = 0;
    for (int k = 1; k <= 8; k++)
        if (view & only(k)) text[n++] = (char)('0' + k);
    text[n] = 0;
    return text;
}
