/* The library as C calls it: every place and every name of the header, for every unit, record, position, line and slot; every byte of
 * a full table damaged in turn; and random runs of calls against the sheet runner.
 *
 *   bash tools/build library
 *   cc -I include tests/image.c target/staticlib/libcapi.a -o target/image && ./target/image
 *
 * The equations are proved; this tests what no proof sees: that C passes what the library takes, and that the header says what the
 * library does. Each expected image is made from the one before by the header's names alone. tests/image_parts.h has the image that is
 * lent, its parts by these names, and the calls.
 */
#include "image_parts.h"

/* The refusal table, name by name, as the papers number it. */
static void numbers_of_the_table(void) {
    static const int table[] = {
        LOBSTERCREEL_DONE,         LOBSTERCREEL_UNSOUND,      LOBSTERCREEL_STRANGER,     LOBSTERCREEL_STOPPED,
        LOBSTERCREEL_ODD_VIEW,     LOBSTERCREEL_NOTHING_THERE, LOBSTERCREEL_HISTORY_FULL, LOBSTERCREEL_LINE_FULL,
        LOBSTERCREEL_BAD_LINE,     LOBSTERCREEL_LONG_SHEET,   LOBSTERCREEL_NO_RECORD,    LOBSTERCREEL_OTHER_VIEW,
        LOBSTERCREEL_CUT_TOO_LATE, LOBSTERCREEL_EARLY_TRUST,  LOBSTERCREEL_TOO_DEEP,
    };
    for (int k = 0; k < (int)(sizeof table / sizeof *table); k++) expect(table[k] == k, "refusal %d is called %d", k, table[k]);
}

/* The header's places cover the image, each byte once. */
static void places(void) {
    static int times[LOBSTERCREEL_IMAGE];
    times[LOBSTERCREEL_N]++;
    for (int p = 1; p <= 8; p++) {
        times[LOBSTERCREEL_TRUST(p)]++;
        for (int i = 0; i <= LOBSTERCREEL_ACKS; i++) times[LOBSTERCREEL_UNIT(p) + i]++;
        for (int i = 1; i <= 32; i++) times[LOBSTERCREEL_UNIT(p) + LOBSTERCREEL_ENTRY(i)]++;
        for (int q = 1; q <= 8; q++) {
            for (int i = 0; i < 3; i++) times[LOBSTERCREEL_UNIT(p) + LOBSTERCREEL_RECORD(q) + i]++;
            for (int k = 0; k < 8; k++)
                for (int i = 0; i < 3; i++) times[LOBSTERCREEL_LINE(q, p) + LOBSTERCREEL_SLOT(k) + i]++;
            times[LOBSTERCREEL_LINE(q, p) + LOBSTERCREEL_LENGTH]++;
        }
    }
    for (int at = 0; at < LOBSTERCREEL_IMAGE; at++) expect(times[at] == 1, "byte %d is named %d times", at, times[at]);
}

/* Any length but that of an image is refused, and nothing is written. */
static void lengths(void) {
    start(2);
    prepare();
    for (int more = -1; more <= 1; more += 2) {
        size_t other = length + (size_t)more;
        refused(lobstercreel_fresh(image, other, 3), LOBSTERCREEL_UNSOUND, "fresh, another length");
        refused(lobstercreel_report(image, other, 1, 3), LOBSTERCREEL_UNSOUND, "report, another length");
        refused(lobstercreel_receive(image, other, 1, 1), LOBSTERCREEL_UNSOUND, "receive, another length");
        refused(lobstercreel_respond(image, other, 1, 1), LOBSTERCREEL_UNSOUND, "respond, another length");
        refused(lobstercreel_crash(image, other, 1), LOBSTERCREEL_UNSOUND, "crash, another length");
        refused_settling(image, other, "settle, another length");
    }
}

static void fresh(void) {
    for (int n = 1; n <= 8; n++) {
        memset(wanted, 0, length);
        wanted[LOBSTERCREEL_N] = (uint8_t)n;
        for (int p = 1; p <= n; p++) {
            *field(wanted, p, LOBSTERCREEL_VIEW) = all(n);
            *field(wanted, p, LOBSTERCREEL_NEXT) = 2;
            *field(wanted, p, LOBSTERCREEL_PROPOUT) = 1;
            *entry(wanted, p, 1) = all(n);
            for (int q = 1; q <= n; q++) *record(wanted, p, q) = LOBSTERCREEL_NOTHING;
        }
        memset(image, MARK, length);
        done(lobstercreel_fresh(image, length, (uint8_t)n), "fresh", n, 0, 0);
    }
    for (int n = 0; n <= 255; n++) {
        if (n >= 1 && n <= 8) continue;
        memset(image, MARK, length);
        expect(lobstercreel_fresh(image, length, (uint8_t)n) == LOBSTERCREEL_STRANGER, "fresh, %d units", n);
        expect(image[LOBSTERCREEL_N] == 0, "%d units leave a system of none", n);
        prepare();
        refused(lobstercreel_report(image, length, 1, 1), LOBSTERCREEL_UNSOUND, "a system of none");
        refused_settling(image, length, "settle, a system of none");
    }
}

/* Every unit reports every view that it can: it proposes where it is the least. Half of the units lack it already: it may trust those
 * again, and not the others; and each that its view lacks may trust it again. */
static void reports(void) {
    for (int p = 1; p <= 8; p++)
        for (int view = 0; view < 256; view++) {
            if (!(view & only(p))) continue;
            start(8);
            for (int q = p % 2 + 1; q <= 8; q += 2) *field(image, q, LOBSTERCREEL_VIEW) = (uint8_t)(all(8) & ~only(p));
            *trust(image, p) = 0x99;
            prepare();
            *field(wanted, p, LOBSTERCREEL_VIEW) = (uint8_t)view;
            for (int q = 1; q <= 8; q++) {
                if (view & only(q)) continue;
                *trust(wanted, q) |= only(p);
                *trust(wanted, p) = (uint8_t)((q - p) % 2 ? *trust(wanted, p) | only(q) : *trust(wanted, p) & ~only(q));
            }
            if ((view & all(p - 1)) == 0) {
                *field(wanted, p, LOBSTERCREEL_PROPOUT) = 2;
                *field(wanted, p, LOBSTERCREEL_PROPOSAL) = (uint8_t)view;
                for (int q = 1; q <= 8; q++)
                    if (view & only(q)) put(wanted, p, q, LOBSTERCREEL_PROPOSE, view, 2);
            }
            done(lobstercreel_report(image, length, (uint8_t)p, (uint8_t)view), "report", p, view, 0);
        }
}

/* A view that brings back one unit, then one that brings back two: refused until each of them is marked. */
static void trusts(void) {
    for (int p = 1; p <= 8; p++)
        for (int q = 1; q <= 8; q++) {
            if (p == q) continue;
            start(8);
            *field(image, p, LOBSTERCREEL_VIEW) = only(p);
            for (int r = 1; r <= 8; r++) *trust(image, r) = r == p ? (uint8_t)(all(8) & ~only(q)) : all(8);
            prepare();
            refused(lobstercreel_report(image, length, (uint8_t)p, all(8)), LOBSTERCREEL_EARLY_TRUST, "all come back too early");
            refused(lobstercreel_report(image, length, (uint8_t)p, both(p, q)), LOBSTERCREEL_EARLY_TRUST, "one comes back too early");
            *trust(image, p) = only(q);
            for (int r = 1; r <= 8; r++)
                if (r != p) *trust(image, r) = 0;
            prepare();
            *field(wanted, p, LOBSTERCREEL_VIEW) = both(p, q);
            for (int r = 1; r <= 8; r++)
                if (r != p && r != q) *trust(wanted, r) = only(p);
            if (p < q) {
                *field(wanted, p, LOBSTERCREEL_PROPOUT) = 2;
                *field(wanted, p, LOBSTERCREEL_PROPOSAL) = both(p, q);
                put(wanted, p, p, LOBSTERCREEL_PROPOSE, both(p, q), 2);
                put(wanted, p, q, LOBSTERCREEL_PROPOSE, both(p, q), 2);
            }
            done(lobstercreel_report(image, length, (uint8_t)p, both(p, q)), "report, bringing back", p, q, 0);
        }
}

/* Eight messages on each line, taken one after the other: each slot, and each position of each unit. */
static void commits(void) {
    for (int q = 1; q <= 8; q++)
        for (int p = 1; p <= 8; p++) {
            start(8);
            for (int k = 0; k < 8; k++) put(image, q, p, LOBSTERCREEL_COMMIT, both(p, q), 2 + (8 * q + k) % 31);
            for (int k = 0; k < 8; k++) {
                prepare();
                take(wanted, q, p);
                *entry(wanted, p, 2 + (8 * q + k) % 31) = both(p, q);
                done(lobstercreel_receive(image, length, (uint8_t)q, (uint8_t)p), "take, Commit", q, p, k);
            }
        }
}

/* A proposal is recorded and answered, between each two units: with an Acc, and with a Retry where Next is above it. */
static void records(void) {
    for (int q = 1; q <= 8; q++)
        for (int p = 1; p <= 8; p++)
            for (int i = 2; i <= 32; i += 5) {
                uint8_t from = (uint8_t)q, at = (uint8_t)p;
                start(8);
                put(image, q, p, LOBSTERCREEL_PROPOSE, both(p, q), i);
                put(image, q, p, LOBSTERCREEL_PROPOSE, both(p, q), i - i / 3);
                *field(image, p, LOBSTERCREEL_VIEW) = both(p, q);
                *field(image, p, LOBSTERCREEL_NEXT) = (uint8_t)i;
                prepare();
                take(wanted, q, p);
                set(record(wanted, p, q), LOBSTERCREEL_PROPOSED, both(p, q), i);
                done(lobstercreel_receive(image, length, from, at), "take, Propose", q, p, i);
                prepare();
                *record(wanted, p, q) = LOBSTERCREEL_NOTHING;
                *field(wanted, p, LOBSTERCREEL_NEXT) = (uint8_t)(i + 1);
                put(wanted, p, q, LOBSTERCREEL_ACC, i, 0);
                done(lobstercreel_respond(image, length, at, from), "answer, Acc", p, q, i);
                prepare();
                take(wanted, q, p);
                set(record(wanted, p, q), LOBSTERCREEL_PROPOSED, both(p, q), i - i / 3);
                done(lobstercreel_receive(image, length, from, at), "take, Propose again", q, p, i);
                prepare();
                *record(wanted, p, q) = LOBSTERCREEL_NOTHING;
                put(wanted, p, q, LOBSTERCREEL_RETRY, i - i / 3, i + 1);
                done(lobstercreel_respond(image, length, at, from), "answer, Retry", p, q, i);
            }
}

/* Marks and Commits; a Retry acted on. */
static void proposals(void) {
    for (int p = 1; p <= 8; p++)
        for (int q = 1; q <= 8; q++) {
            start(8);
            *field(image, p, LOBSTERCREEL_PROPOUT) = 7;
            *field(image, p, LOBSTERCREEL_PROPOSAL) = both(p, q);
            *field(image, p, LOBSTERCREEL_ACKS) = (uint8_t)(all(8) & ~both(p, q));
            put(image, q, p, LOBSTERCREEL_ACC, 7, 0);
            put(image, p, p, LOBSTERCREEL_ACC, 7, 0);
            if (p != q) {
                prepare();
                take(wanted, q, p);
                *field(wanted, p, LOBSTERCREEL_ACKS) |= only(q);
                done(lobstercreel_receive(image, length, (uint8_t)q, (uint8_t)p), "take, Acc", q, p, 0);
            }
            prepare();
            take(wanted, p, p);
            *field(wanted, p, LOBSTERCREEL_ACKS) = 0;
            put(wanted, p, p, LOBSTERCREEL_COMMIT, both(p, q), 7);
            if (p != q) put(wanted, p, q, LOBSTERCREEL_COMMIT, both(p, q), 7);
            done(lobstercreel_receive(image, length, (uint8_t)p, (uint8_t)p), "take, last Acc", p, q, 0);
            if (q < p) continue;
            start(8);
            *field(image, p, LOBSTERCREEL_VIEW) = both(p, q);
            *field(image, p, LOBSTERCREEL_PROPOUT) = 7;
            *field(image, p, LOBSTERCREEL_PROPOSAL) = only(p);
            *field(image, p, LOBSTERCREEL_ACKS) = only(q);
            put(image, q, p, LOBSTERCREEL_RETRY, 7, 9);
            prepare();
            take(wanted, q, p);
            *field(wanted, p, LOBSTERCREEL_PROPOUT) = 9;
            *field(wanted, p, LOBSTERCREEL_ACKS) = 0;
            put(wanted, p, p, LOBSTERCREEL_PROPOSE, both(p, q), 9);
            if (p != q) put(wanted, p, q, LOBSTERCREEL_PROPOSE, both(p, q), 9);
            done(lobstercreel_receive(image, length, (uint8_t)q, (uint8_t)p), "take, Retry", q, p, 0);
        }
}

/* Every unit stops: the lines towards it are emptied, all others keep what they have. */
static void crashes(void) {
    for (int p = 1; p <= 8; p++) {
        start(8);
        for (int q = 1; q <= 8; q++)
            for (int r = 1; r <= 8; r++)
                for (int k = 0; k <= (q + r) % 8; k++) put(image, q, r, LOBSTERCREEL_RETRY, 2 + q, 3 + q + r + k);
        prepare();
        *field(wanted, p, LOBSTERCREEL_CRASHED) = 1;
        for (int q = 1; q <= 8; q++) *line_length(wanted, q, p) = 0;
        done(lobstercreel_crash(image, length, (uint8_t)p), "stop", p, 0, 0);
        prepare();
        refused(lobstercreel_crash(image, length, (uint8_t)p), LOBSTERCREEL_STOPPED, "a second stop");
    }
}

/* Each refusal by its name. */
static void refusals(void) {
    start(3);
    prepare();
    refused(lobstercreel_report(image, length, 4, 8), LOBSTERCREEL_STRANGER, "report by a stranger");
    refused(lobstercreel_receive(image, length, 0, 1), LOBSTERCREEL_STRANGER, "take from a stranger");
    refused(lobstercreel_receive(image, length, 1, 4), LOBSTERCREEL_STRANGER, "take by a stranger");
    refused(lobstercreel_respond(image, length, 4, 1), LOBSTERCREEL_STRANGER, "answer by a stranger");
    refused(lobstercreel_respond(image, length, 1, 255), LOBSTERCREEL_STRANGER, "answer to a stranger");
    refused(lobstercreel_crash(image, length, 0), LOBSTERCREEL_STRANGER, "stop of a stranger");
    refused(lobstercreel_report(image, length, 1, 8 + 1), LOBSTERCREEL_ODD_VIEW, "a view beyond n");
    refused(lobstercreel_report(image, length, 1, 2), LOBSTERCREEL_ODD_VIEW, "a view without its own");
    refused(lobstercreel_receive(image, length, 1, 2), LOBSTERCREEL_NOTHING_THERE, "an empty line");
    refused(lobstercreel_respond(image, length, 1, 2), LOBSTERCREEL_NO_RECORD, "no record");
    set(record(image, 1, 2), LOBSTERCREEL_PROPOSED, 3, 2);
    prepare();
    refused(lobstercreel_respond(image, length, 1, 2), LOBSTERCREEL_OTHER_VIEW, "a record of another view");
    *field(image, 1, LOBSTERCREEL_PROPOUT) = 32;
    *field(image, 1, LOBSTERCREEL_PROPOSAL) = 1;
    put(image, 1, 1, LOBSTERCREEL_RETRY, 32, 33);
    prepare();
    refused(lobstercreel_report(image, length, 1, 7), LOBSTERCREEL_HISTORY_FULL, "a report past 32");
    refused(lobstercreel_receive(image, length, 1, 1), LOBSTERCREEL_HISTORY_FULL, "a Retry past 32");
    start(3);
    for (int k = 0; k < 8; k++) put(image, 2, 3, LOBSTERCREEL_ACC, 2, 0);
    prepare();
    refused(lobstercreel_report(image, length, 2, 6), LOBSTERCREEL_LINE_FULL, "a full line");
    start(3);
    *field(image, 2, LOBSTERCREEL_CRASHED) = 1;
    prepare();
    refused(lobstercreel_report(image, length, 2, 6), LOBSTERCREEL_STOPPED, "report by a stopped unit");
    refused(lobstercreel_receive(image, length, 1, 2), LOBSTERCREEL_STOPPED, "take by a stopped unit");
    refused(lobstercreel_respond(image, length, 2, 1), LOBSTERCREEL_STOPPED, "answer by a stopped unit");
    *field(image, 3, LOBSTERCREEL_NEXT) = 34;
    prepare();
    refused(lobstercreel_report(image, length, 1, 7), LOBSTERCREEL_UNSOUND, "a Next of 34");
}

/* Marks the bytes that mean something in an image, but those of trust, of which any value is sound. */
static void mark(uint8_t *meant, uint8_t *of) {
    int n = of[LOBSTERCREEL_N];
    memset(meant, 0, length);
    meant[LOBSTERCREEL_N] = 1;
    for (int p = 1; p <= n; p++) {
        memset(field(meant, p, 0), 1, LOBSTERCREEL_ACKS + 1);
        for (int i = 1; i <= 32; i++) *entry(meant, p, i) = 1;
        for (int q = 1; q <= n; q++) {
            memset(record(meant, p, q), 1, *record(of, p, q) == LOBSTERCREEL_PROPOSED ? 3 : 1);
            *line_length(meant, q, p) = 1;
            for (int k = 0; k < *line_length(of, q, p); k++)
                memset(slot(meant, q, p, k), 1, *slot(of, q, p, k) == LOBSTERCREEL_ACC ? 2 : 3);
        }
    }
}

/* With 255 in any byte that means something this table is not sound, trust apart; any other byte may be 255. */
static void damage_each(const char *what) {
    static uint8_t good[LOBSTERCREEL_IMAGE], meant[LOBSTERCREEL_IMAGE];
    memcpy(good, image, length);
    mark(meant, good);
    for (int at = 0; at < LOBSTERCREEL_IMAGE; at++) {
        memcpy(image, good, length);
        image[at] = 255;
        prepare();
        uint8_t answer = lobstercreel_report(image, length, 2, 3);
        if (meant[at]) {
            expect(answer == LOBSTERCREEL_UNSOUND && unchanged(), "%s, byte %d damaged: answer %d", what, at, answer);
        } else {
            *field(wanted, 2, LOBSTERCREEL_VIEW) = 3;
            for (int q = 3; q <= good[LOBSTERCREEL_N]; q++) {
                *trust(wanted, q) |= only(2);
                *trust(wanted, 2) &= (uint8_t)~only(q);
            }
            done(answer, "a byte that means nothing, or of trust", at, 0, 0);
        }
    }
}

static void damage(void) {
    start(7);
    for (int p = 1; p <= 7; p++) {
        *field(image, p, LOBSTERCREEL_PROPOUT) = 3;
        *field(image, p, LOBSTERCREEL_PROPOSAL) = only(p);
        for (int q = 1; q <= 7; q++) {
            set(record(image, p, q), LOBSTERCREEL_PROPOSED, both(p, q), 9);
            for (int k = 0; k < 8; k++) put(image, q, p, k % 2 ? LOBSTERCREEL_COMMIT : LOBSTERCREEL_PROPOSE, both(p, q), 10 + k);
        }
    }
    damage_each("a full table of seven");
    start(3);
    set(record(image, 2, 1), LOBSTERCREEL_PROPOSED, 3, 4);
    put(image, 1, 2, LOBSTERCREEL_ACC, 2, 0);
    put(image, 1, 2, LOBSTERCREEL_RETRY, 2, 3);
    put(image, 3, 3, LOBSTERCREEL_ACC, 2, 0);
    damage_each("a table of three, nearly empty");
}

/* What is no step in a list is refused with 8; a list is done as far as there are places; on what is no sound table each step is
 * refused with 1. */
static void lists(void) {
    static const uint8_t whole = LOBSTERCREEL_WHOLE;
    const uint8_t odd[] = {LOBSTERCREEL_CRASH, 1, 0, whole, 4, 1, 0, whole, 255, 1, 0, whole, LOBSTERCREEL_CRASH, 1, 9, whole, LOBSTERCREEL_CRASH, 2, 0};
    static const uint8_t told[] = {LOBSTERCREEL_DONE, LOBSTERCREEL_BAD_LINE, LOBSTERCREEL_BAD_LINE, LOBSTERCREEL_STOPPED, LOBSTERCREEL_BAD_LINE};
    static const uint8_t unsound[] = {LOBSTERCREEL_UNSOUND, LOBSTERCREEL_BAD_LINE, LOBSTERCREEL_BAD_LINE, LOBSTERCREEL_UNSOUND, LOBSTERCREEL_BAD_LINE};
    for (size_t places = 0; places <= 8; places++) {
        size_t count = places < sizeof told ? places : sizeof told;
        start(2);
        memset(numbers, MARK, sizeof numbers);
        expect(lobstercreel_steps(image, length, odd, sizeof odd, numbers, places) == count, "a list with %zu places", places);
        expect(memcmp(numbers, told, count) == 0 && numbers[count] == MARK, "the numbers of a list with %zu places", places);
        expect(*field(image, 1, LOBSTERCREEL_CRASHED) == (places > 0) && *field(image, 2, LOBSTERCREEL_CRASHED) == 0, "what a list with %zu places stops", places);
    }
    start(2);
    *field(image, 2, LOBSTERCREEL_NEXT) = 34;
    prepare();
    size_t count = lobstercreel_steps(image, length, odd, sizeof odd, numbers, sizeof told);
    expect(count == sizeof told && memcmp(numbers, unsound, sizeof told) == 0 && unchanged(), "a list on a table that is not sound");
    count = lobstercreel_steps(image, length - 1, odd, sizeof odd, numbers, sizeof told);
    expect(count == sizeof told && memcmp(numbers, unsound, sizeof told) == 0 && unchanged(), "a list on an image of another length");
}

/* Steps cut after each count, by their own calls and in a list. */
static void cuts(void) {
    for (int k = 0; k <= 9; k++) {
        for (int listed = 0; listed < 2; listed++) {
            start(5);
            prepare();
            const uint8_t order[] = {LOBSTERCREEL_REPORT, 1, all(5), (uint8_t)k};
            uint8_t answer = 77;
            if (listed) lobstercreel_steps(image, length, order, sizeof order, &answer, 1);
            else answer = lobstercreel_report_cut(image, length, 1, all(5), (uint8_t)k);
            if (k >= 5) {
                refused(answer, LOBSTERCREEL_CUT_TOO_LATE, "a report cut too late");
                continue;
            }
            *field(wanted, 1, LOBSTERCREEL_CRASHED) = 1;
            *field(wanted, 1, LOBSTERCREEL_PROPOUT) = 2;
            *field(wanted, 1, LOBSTERCREEL_PROPOSAL) = all(5);
            for (int p = 2; p <= k; p++) put(wanted, 1, p, LOBSTERCREEL_PROPOSE, all(5), 2);
            done(answer, "a report cut", k, listed, 0);
        }
    }
    start(2);
    put(image, 1, 2, LOBSTERCREEL_PROPOSE, all(2), 2);
    prepare();
    refused(lobstercreel_receive_cut(image, length, 1, 2, 0), LOBSTERCREEL_CUT_TOO_LATE, "a silent step cut");
    set(record(image, 2, 1), LOBSTERCREEL_PROPOSED, all(2), 2);
    prepare();
    refused(lobstercreel_respond_cut(image, length, 2, 1, 1), LOBSTERCREEL_CUT_TOO_LATE, "an answer cut too late");
    record(wanted, 2, 1)[0] = LOBSTERCREEL_NOTHING;
    *field(wanted, 2, LOBSTERCREEL_NEXT) = 3;
    *field(wanted, 2, LOBSTERCREEL_CRASHED) = 1;
    take(wanted, 1, 2);
    done(lobstercreel_respond_cut(image, length, 2, 1, 0), "an answer cut", 2, 1, 0);
}

/* The rounds of a settling run by calls of their own: how many steps are done. */
static int rounds(uint8_t *of) {
    int n = of[LOBSTERCREEL_N], steps = 0, last;
    do {
        last = steps;
        for (int p = 1; p <= n; p++)
            for (int q = 1; q <= n; q++) steps += lobstercreel_receive(of, length, (uint8_t)q, (uint8_t)p) == LOBSTERCREEL_DONE;
        for (int p = 1; p <= n; p++)
            for (int q = 1; q <= n; q++) steps += lobstercreel_respond(of, length, (uint8_t)p, (uint8_t)q) == LOBSTERCREEL_DONE;
    } while (steps != last);
    return steps;
}

/* Does a message wait, or could an answer be given? */
static int restless(uint8_t *of) {
    int n = of[LOBSTERCREEL_N];
    for (int p = 1; p <= n; p++)
        for (int q = 1; q <= n; q++) {
            const uint8_t *kept = record(of, p, q);
            if (*line_length(of, q, p) > 0) return 1;
            if (!*field(of, p, LOBSTERCREEL_CRASHED) && kept[0] == LOBSTERCREEL_PROPOSED && kept[1] == *field(of, p, LOBSTERCREEL_VIEW)) return 1;
        }
    return 0;
}

/* Settles the image, which is sound: the same steps and the same table as by calls, and how it ends. Answers the steps. */
static int settle_and_compare(const char *what, int a) {
    prepare();
    int steps = rounds(wanted);
    uint8_t answer = settle(image, length);
    expect(settled(answer, steps, restless(wanted) ? LOBSTERCREEL_HELD : LOBSTERCREEL_REST), "%s (%d): answer %d, %d steps and not %d, ending %d", what, a,
           answer, told[0], steps, told[1]);
    expect(steps == 0 ? unchanged() : same_table(image, wanted), "%s (%d): another image", what, a);
    return steps;
}

/* Settling runs: each ending by its name (no sound table is known that uses up the budget), and their steps. */
static void settling(void) {
    expect(LOBSTERCREEL_REST == 0 && LOBSTERCREEL_HELD == 1 && LOBSTERCREEL_BUDGET == 2, "the endings");
    expect(LOBSTERCREEL_MOST_STEPS == 124 * 8 * 8, "the steps of a settling run");
    for (int n = 1; n <= 8; n++) {
        start(n);
        prepare();
        expect(settled(settle(image, length), 0, LOBSTERCREEL_REST) && unchanged(), "%d fresh units are at rest", n);
        /* Everyone takes the proposal, answers it, is taken from, and takes the Commit. */
        expect(lobstercreel_report(image, length, 1, all(n)) == LOBSTERCREEL_DONE, "%d units: the first proposes", n);
        expect(settle_and_compare("an agreement", n) == 4 * n && told[1] == LOBSTERCREEL_REST, "an agreement of %d: %d steps, ending %d", n, told[0], told[1]);
        for (int p = 1; p <= n; p++) expect(*entry(image, p, 2) == all(n) && *field(image, p, LOBSTERCREEL_NEXT) == 3, "unit %d of %d has agreed", p, n);
    }
    /* A Retry to 33 that would be acted on stays first on its line; the one before it is taken. */
    start(2);
    *field(image, 1, LOBSTERCREEL_PROPOUT) = 5;
    *field(image, 1, LOBSTERCREEL_PROPOSAL) = all(2);
    put(image, 2, 1, LOBSTERCREEL_RETRY, 4, 33);
    put(image, 2, 1, LOBSTERCREEL_RETRY, 5, 33);
    expect(settle_and_compare("a Retry to 33", 0) == 1 && told[1] == LOBSTERCREEL_HELD, "a Retry to 33: %d steps, ending %d", told[0], told[1]);
    /* Both wait for room on the line of the other. */
    start(2);
    for (int p = 1; p <= 2; p++) {
        *field(image, p, LOBSTERCREEL_PROPOUT) = 2;
        *field(image, p, LOBSTERCREEL_PROPOSAL) = all(2);
        *field(image, p, LOBSTERCREEL_ACKS) = only(p);
        for (int k = 0; k < 8; k++) put(image, p, 3 - p, LOBSTERCREEL_ACC, 2, 0);
    }
    expect(settle_and_compare("full lines", 0) == 0 && told[1] == LOBSTERCREEL_HELD, "full lines: %d steps, ending %d", told[0], told[1]);
    /* A record of another view, or at a unit that has stopped, could not be answered. */
    start(2);
    set(record(image, 1, 2), LOBSTERCREEL_PROPOSED, all(2), 2);
    *field(image, 1, LOBSTERCREEL_VIEW) = only(1);
    set(record(image, 2, 1), LOBSTERCREEL_PROPOSED, all(2), 2);
    *field(image, 2, LOBSTERCREEL_CRASHED) = 1;
    expect(settle_and_compare("records that wait", 0) == 0 && told[1] == LOBSTERCREEL_REST, "records that wait: %d steps, ending %d", told[0], told[1]);
    *field(image, 2, LOBSTERCREEL_NEXT) = 34;
    prepare();
    refused_settling(image, length, "settle, a Next of 34");
}

/* The longest output: 59,996 empty lines after `u 8`. A line prints at most 10 bytes for each that it has, its line feed counted: `q` has
 * two and prints 20 with budget; the last line may lack its line feed and so print 10 more; a sheet has 60,000 at most. */
static void output_room(void) {
    char *e = (char *)expected;
    memset(sheet, '\n', sizeof sheet);
    memcpy(sheet, "u 8", 3);
    for (int i = 2; i <= 59997; i++) e += sprintf(e, "%d 8 1\n", i);
    for (int p = 1; p <= 8; p++) e += sprintf(e, "unit %d live next 2 1=12345678\n", p);
    size_t whole = (size_t)(e - (char *)expected);
    memset(out, MARK, sizeof out);
    size_t written = lobstercreel_run(sheet, sizeof sheet, out, LOBSTERCREEL_OUTPUT);
    expect(written == whole && memcmp(out, expected, whole) == 0, "the longest output: %zu bytes of %zu", written, whole);
    expect(written < LOBSTERCREEL_OUTPUT, "it is shorter than the room, and so it is whole");
    expect(LOBSTERCREEL_OUTPUT > 60000 * 10 + 10 + 8 * (23 + 32 * 12), "room for every line and for every unit with a full history");
    for (size_t at = written; at < sizeof out; at++)
        if (out[at] != MARK) expect(0, "byte %zu past the output is written", at);
}

static void run(unsigned seed) {
    srand(seed);
    int n = 1 + rand() % 8, lines = rand() % 400;
    char *s = (char *)sheet, *e = (char *)expected;
    s += sprintf(s, "u %d\n", n);
    start(n);
    for (int i = 2; i < lines + 2; i++) {
        uint8_t p = (uint8_t)(1 + rand() % n), q = (uint8_t)(1 + rand() % n), answer;
        uint8_t view = (uint8_t)(rand() % (1 << n) | (rand() % 2 ? 1 << (p - 1) : 1));
        prepare();
        int kind = rand() % 100;
        uint8_t *step = list + LOBSTERCREEL_STEP * (i - 2), cut = rand() % 60 ? LOBSTERCREEL_WHOLE : (uint8_t)(rand() % 5);
        const char *after = "";
        char text[16];
        if (cut != LOBSTERCREEL_WHOLE) {
            sprintf(text, " cut %d", cut);
            after = text;
        }
        step[3] = cut;
        if (kind < 15) {
            set(step, LOBSTERCREEL_REPORT, p, view);
            s += sprintf(s, "r %d %s%s\n", p, digits(view), after);
            answer = cut == LOBSTERCREEL_WHOLE ? lobstercreel_report(image, length, p, view) : lobstercreel_report_cut(image, length, p, view, cut);
        } else if (kind < 45) {
            s += sprintf(s, "a %d %d%s\n", p, q, after);
            set(step, LOBSTERCREEL_RESPOND, p, q);
            answer = cut == LOBSTERCREEL_WHOLE ? lobstercreel_respond(image, length, p, q) : lobstercreel_respond_cut(image, length, p, q, cut);
        } else if (kind < 46) {
            s += sprintf(s, "s %d\n", p);
            set(step, LOBSTERCREEL_CRASH, p, q);
            step[3] = LOBSTERCREEL_WHOLE;
            answer = lobstercreel_crash(image, length, p);
        } else {
            s += sprintf(s, "t %d %d%s\n", q, p, after);
            set(step, LOBSTERCREEL_RECEIVE, q, p);
            answer = cut == LOBSTERCREEL_WHOLE ? lobstercreel_receive(image, length, q, p) : lobstercreel_receive_cut(image, length, q, p, cut);
        }
        if (answer != 0) expect(unchanged(), "seed %u: a refused call leaves the image", seed);
        answers[i - 2] = answer;
        e += sprintf(e, "%d %d\n", i, answer);
    }
    memcpy(wanted, image, length);
    start(n);
    memset(numbers, MARK, sizeof numbers);
    size_t listed = (size_t)lines * LOBSTERCREEL_STEP, places = (size_t)(rand() % 3 ? lines : lines / 2), more = (size_t)lines - places;
    size_t first = lobstercreel_steps(image, length, list, listed, numbers, places);
    expect(first == places && memcmp(numbers, answers, places) == 0 && numbers[places] == MARK, "seed %u: a list of steps answers as they do", seed);
    size_t rest = lobstercreel_steps(image, length, list + LOBSTERCREEL_STEP * places, listed - LOBSTERCREEL_STEP * places, numbers, sizeof numbers);
    expect(rest == more && memcmp(numbers, answers + places, more) == 0, "seed %u: and its rest too", seed);
    expect(same_table(image, wanted), "seed %u: a list of steps leaves what they do", seed);
    /* And then the system is settled, or not. */
    if (rand() % 2) {
        static const char *const words[] = {"rest", "held", "budget"};
        settle_and_compare("settle at the end of a run", (int)seed);
        s += sprintf(s, "q\n");
        e += sprintf(e, "%d 0 %d %s\n", lines + 2, told[0], words[told[1]]);
    }
    for (int p = 1; p <= n; p++) {
        const char *life = *field(image, p, LOBSTERCREEL_CRASHED) ? "stopped" : "live";
        e += sprintf(e, "unit %d %s next %d", p, life, *field(image, p, LOBSTERCREEL_NEXT));
        for (int i = 1; i <= 32; i++)
            if (*entry(image, p, i)) e += sprintf(e, " %d=%s", i, digits(*entry(image, p, i)));
        e += sprintf(e, "\n");
    }
    size_t given = (size_t)(s - (char *)sheet), whole = (size_t)(e - (char *)expected), part = whole / 2;
    expect(lobstercreel_run(sheet, given, out, LOBSTERCREEL_OUTPUT) == whole, "seed %u: the output is as long as the calls' answers", seed);
    expect(memcmp(out, expected, whole) == 0, "seed %u: the sheet prints what the calls answer", seed);
    memset(out, 9, whole);
    expect(lobstercreel_run(sheet, given, out, part) == part && memcmp(out, expected, part) == 0, "seed %u: a small buffer takes the beginning", seed);
    expect(out[part] == 9, "seed %u: and nothing past it is written", seed);
}

int main(void) {
    memset(memory, MARK, sizeof memory);
    numbers_of_the_table();
    places();
    lengths();
    fresh();
    reports();
    trusts();
    commits();
    records();
    proposals();
    crashes();
    refusals();
    damage();
    lists();
    cuts();
    settling();
    output_room();
    for (unsigned seed = 1; seed <= SEEDS; seed++) run(seed);
    for (int i = 0; i < GUARD; i++)
        expect(memory[i] == MARK && memory[GUARD + LOBSTERCREEL_IMAGE + i] == MARK, "byte %d around the image", i);
    printf("tests/image.c: seeds 1 to %d, %ld checks hold, %ld do not\n", SEEDS, passed, failed);
    return failed != 0;
}
