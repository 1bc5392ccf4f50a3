/* One agreement of two units, carried through by the library's functions: unit 1 reports that both stand together, both accept, and
 * both histories hold the view at position 2. agreement.txt is what is printed.
 *
 *   bash tools/build library
 *   cc -I include examples/agreement.c target/staticlib/libcapi.a -o target/agreement && ./target/agreement
 */
#include <stdio.h>

#include "lobstercreel.h"

static uint8_t image[LOBSTERCREEL_IMAGE];

static void say(const char *what, uint8_t answer) { printf("%-36s %u\n", what, answer); }

static void print_history(uint8_t p) {
    printf("unit %u next %u", p, image[LOBSTERCREEL_UNIT(p) + LOBSTERCREEL_NEXT]);
    for (int i = 1; i <= 32; i++) {
        uint8_t view = image[LOBSTERCREEL_UNIT(p) + LOBSTERCREEL_ENTRY(i)];
        if (view == 0) continue;
        printf(" %d=", i);
        for (int k = 1; k <= 8; k++)
            if (view >> (k - 1) & 1) printf("%d", k);
    }
    printf("\n");
}

int main(void) {
    size_t n = sizeof image;
    uint8_t both = 3;
    say("two fresh units", lobstercreel_fresh(image, n, 2));
    say("unit 1 reports 12 and proposes", lobstercreel_report(image, n, 1, both));
    say("unit 1 takes its own proposal", lobstercreel_receive(image, n, 1, 1));
    say("unit 2 takes the proposal", lobstercreel_receive(image, n, 1, 2));
    say("unit 1 accepts", lobstercreel_respond(image, n, 1, 1));
    say("unit 2 accepts", lobstercreel_respond(image, n, 2, 1));
    say("unit 1 takes its own acceptance", lobstercreel_receive(image, n, 1, 1));
    say("unit 1 takes unit 2's, and commits", lobstercreel_receive(image, n, 2, 1));
    say("unit 1 takes its own commit", lobstercreel_receive(image, n, 1, 1));
    say("unit 2 takes the commit", lobstercreel_receive(image, n, 1, 2));
    say("unit 2 finds nothing more: refused", lobstercreel_receive(image, n, 1, 2));
    for (uint8_t p = 1; p <= image[LOBSTERCREEL_N]; p++) print_history(p);
    return 0;
}
