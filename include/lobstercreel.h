/* Lobstercreel: the proved steps of the membership algorithm, for firmware in C.
 *
 * The library keeps nothing between calls and allocates nothing. The caller lends an image: 2,105 bytes that hold the whole system,
 * every field one byte. Each function answers a number and changes nothing but what it was lent. A step that is refused leaves the
 * image as it was, byte for byte; lobstercreel_fresh is no step, and for a wrong n it writes a system of zero units. Any bytes may be
 * handed over: what is no image, or no sound system, is refused with 1. What lies past n or past a line's length means nothing; it may
 * hold anything, and a step that is done may change it.
 *
 * STACK (measured on x86-64 by tests/stack): a step, a list of steps and lobstercreel_fresh take less than 400 bytes, lobstercreel_settle
 * less than 4 KB, lobstercreel_run less than 6 KB.
 *
 * Build the library with `bash tools/build library` and link target/staticlib/libcapi.a (x86-64 only). docs/IMAGE.md has the layout as a
 * table, and where each sentence here is proved.
 *
 * A pointer must not be null, must point to as many bytes as the length after it says (`told`, which has none after it, to two numbers
 * of 16 bits), and two buffers of one call must not overlap: these three things no proof can ask of C.
 */
#ifndef LOBSTERCREEL_H
#define LOBSTERCREEL_H

#include <stddef.h>
#include <stdint.h>

#ifdef __cplusplus
extern "C" {
#endif

/* The length of an image. */
#define LOBSTERCREEL_IMAGE 2105

/* Where things stand in an image. Units are numbered 1 to 8, positions of the history 1 to 32. */
#define LOBSTERCREEL_N 0                                        /* how many units there are: 1 to 8 */
#define LOBSTERCREEL_UNIT(p) (1 + 62 * ((p) - 1))               /* 62 bytes of unit p; the next lines count from here */
#define LOBSTERCREEL_CRASHED 0                                  /* 1 once the unit has stopped, else 0 */
#define LOBSTERCREEL_VIEW 1                                     /* its local view: bit k-1 is unit k */
#define LOBSTERCREEL_NEXT 2                                     /* Next */
#define LOBSTERCREEL_PROPOUT 3                                  /* PropOut */
#define LOBSTERCREEL_PROPOSAL 4                                 /* the last proposed view; 0 for none */
#define LOBSTERCREEL_ACKS 5                                     /* the units that have acknowledged, as a view */
#define LOBSTERCREEL_RECORD(q) (6 + 3 * ((q) - 1))              /* the proposal recorded from unit q: tag, view, position */
#define LOBSTERCREEL_ENTRY(i) (29 + (i))                        /* the view at position i of its history; 0 for none */
#define LOBSTERCREEL_LINE(q, p) (497 + 200 * ((q) - 1) + 25 * ((p) - 1)) /* 25 bytes of the line from unit q to unit p */
#define LOBSTERCREEL_SLOT(k) (3 * (k))                          /* its message k, the oldest is 0: tag and two operands */
#define LOBSTERCREEL_LENGTH 24                                  /* how many messages wait: 0 to 8 */
#define LOBSTERCREEL_TRUST(p) (2097 + ((p) - 1))                /* the units that unit p may trust again: bit q-1 is the mark (p, q) */

/* The tag of a recorded proposal. */
enum { LOBSTERCREEL_NOTHING, LOBSTERCREEL_PROPOSED };

/* The tag of a message, with its operands: Propose view position, Retry old new, Acc position (and a byte that means nothing),
 * Commit view position. */
enum { LOBSTERCREEL_PROPOSE, LOBSTERCREEL_RETRY, LOBSTERCREEL_ACC, LOBSTERCREEL_COMMIT };

/* What a step answers. */
enum {
    LOBSTERCREEL_DONE = 0,         /* the image is that of the next system */
    LOBSTERCREEL_UNSOUND = 1,      /* not the length of an image, or no sound system */
    LOBSTERCREEL_STRANGER = 2,     /* a unit number is not 1 to n */
    LOBSTERCREEL_STOPPED = 3,      /* the unit that would act has stopped */
    LOBSTERCREEL_ODD_VIEW = 4,     /* the reported view names a unit beyond n, or lacks its own unit */
    LOBSTERCREEL_NOTHING_THERE = 5,/* taking from an empty line */
    LOBSTERCREEL_HISTORY_FULL = 6, /* the proposal would pass position 32 */
    LOBSTERCREEL_LINE_FULL = 7,    /* a message of this step finds a line that holds 8 */
    LOBSTERCREEL_BAD_LINE = 8,     /* in a list of steps: a kind that there is not, or a step that breaks off */
    LOBSTERCREEL_LONG_SHEET = 9,   /* what a sheet of more than 60,000 bytes prints */
    LOBSTERCREEL_NO_RECORD = 10,   /* answering with no recorded proposal */
    LOBSTERCREEL_OTHER_VIEW = 11,  /* answering a recorded proposal whose view is not the local view */
    LOBSTERCREEL_CUT_TOO_LATE = 12,/* the step would send no more messages than those after which it is cut */
    LOBSTERCREEL_EARLY_TRUST = 13, /* the reported view brings back a unit whose own view has not lacked the reporting one meanwhile */
    LOBSTERCREEL_TOO_DEEP = 14     /* what the program `runs` prints for a depth above 8 or more than 2 units; no call answers it */
};

/* Writes the image of the fresh system of n units. 0; or 2 for an n outside 1 to 8, and then the image is that of a system of zero
 * units; or 1 for a length other than 2,105, and then nothing is written. */
uint8_t lobstercreel_fresh(uint8_t *image, size_t length, uint8_t n);

/* Unit p is told its view. */
uint8_t lobstercreel_report(uint8_t *image, size_t length, uint8_t p, uint8_t view);

/* Unit p takes the oldest message on the line from unit q. */
uint8_t lobstercreel_receive(uint8_t *image, size_t length, uint8_t q, uint8_t p);

/* Unit p answers the proposal that it recorded from unit q. */
uint8_t lobstercreel_respond(uint8_t *image, size_t length, uint8_t p, uint8_t q);

/* Unit p stops for good. */
uint8_t lobstercreel_crash(uint8_t *image, size_t length, uint8_t p);

/* The same, cut after their first k messages, in rising order of the units they go to: the unit's own fields change as in the whole
 * step, those k are sent, and the unit stops. Refused with 12 where the step would not send more than k. */
uint8_t lobstercreel_report_cut(uint8_t *image, size_t length, uint8_t p, uint8_t view, uint8_t k);
uint8_t lobstercreel_receive_cut(uint8_t *image, size_t length, uint8_t q, uint8_t p, uint8_t k);
uint8_t lobstercreel_respond_cut(uint8_t *image, size_t length, uint8_t p, uint8_t q, uint8_t k);

/* The kinds of step in a list, each with its two operands: unit and view, from and at, unit and to, unit and a byte that means
 * nothing. The fourth byte is the count after which the step is cut, or LOBSTERCREEL_WHOLE. */
enum { LOBSTERCREEL_REPORT, LOBSTERCREEL_RECEIVE, LOBSTERCREEL_RESPOND, LOBSTERCREEL_CRASH };
#define LOBSTERCREEL_WHOLE 255
#define LOBSTERCREEL_STEP 4 /* how many bytes a step of a list has: its kind, the operands and the count */

/* Does a list of steps, one after the other, each of them refused or not, as the calls above would; the system's soundness is tested
 * once. The number of each goes into `numbers`: as many steps are done as it has places, and what lies past them stays. Answers how
 * many. A kind that there is not, and bytes that break off inside a step, are refused with 8 in their turn. */
size_t lobstercreel_steps(uint8_t *image, size_t length, const uint8_t *list, size_t list_length, uint8_t *numbers, size_t places);

/* How a settling run ended. */
enum {
    LOBSTERCREEL_REST = 0,  /* at rest: no message waits, and no answer could be given */
    LOBSTERCREEL_HELD = 1,  /* held up: everything else */
    LOBSTERCREEL_BUDGET = 2 /* LOBSTERCREEL_MOST_STEPS were done, and a further take or answer would be */
};
#define LOBSTERCREEL_MOST_STEPS 7936 /* a settling run stops after so many steps done at the latest */

/* The settling run, in rounds: one take is tried on every line, by rising receiver and then sender, then one answer for every unit and
 * addressee, rising in that order; refused ones are passed over, until a whole round does nothing. 0; or 1 where the system is not sound
 * or the length is not that of an image. told[0] becomes the steps done, told[1] how it ended; with 1 they are 0 and LOBSTERCREEL_HELD.
 * Where no step is done every byte of the image stays. */
uint8_t lobstercreel_settle(uint8_t *image, size_t length, uint16_t *told);

/* Runs a whole sheet and writes what the bench program prints for it, as far as `out` has room; what lies past it in `out` stays.
 * Answers how many bytes were written. Less than `room` is the whole output; as many as `room` may be cut off. A buffer of
 * LOBSTERCREEL_OUTPUT bytes has room for every sheet. */
#define LOBSTERCREEL_OUTPUT 603400
size_t lobstercreel_run(const uint8_t *sheet, size_t length, uint8_t *out, size_t room);

#ifdef __cplusplus
}
#endif

#endif
