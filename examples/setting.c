/* Sets the frost delay to an hour in a fault of a newer sender, of which the hub's table knows half: an unknown slice, a
 * known one and an unknown optional. All that the hub does not know is passed on as it was. */
#include "icehub.h"

#include <inttypes.h>
#include <stdio.h>
#include <string.h>

/* The hub's table: rows string, int, and the exception ::Guard::Fault (2) of the two members below. */
static const uint8_t table[] = {
    'F', 'G', 'T', 1, 0, 3, 0, 2, 0, 14, 0, 0,   /* mark, version 1, 3 type rows, 2 member rows, 14 name bytes */
    7,  0, 0, 0, 0, 0, 0, 0, 0, 0, 0,  0,        /* type 0: string */
    3,  0, 0, 0, 0, 0, 0, 0, 0, 0, 0,  0,        /* type 1: int */
    13, 0, 0, 0, 2, 0, 0, 0, 0, 0, 14, 0,        /* type 2: exception of 2 members, without a base, named below */
    0,  0, 0, 0, 0, 0, 0, 0,                     /* member 0: type 0, required */
    1,  0, 1, 0, 1, 0, 0, 0,                     /* member 1: type 1, optional, tag 1 */
    ':', ':', 'G', 'u', 'a', 'r', 'd', ':', ':', 'F', 'a', 'u', 'l', 't'
};

enum { FAULT = 2, REASON = 0, DELAY = 1, HOUR = 3600, INT_SIZE = 4 };

/* samples/fault.message: a slice ::Guard::PipeFault, which the hub does not know, then ::Guard::Fault with the reason, the
 * delay (tag 1) and a tick (tag 2), which the hub does not know either. */
static const uint8_t message[] = {
    75, 0, 0, 0, 1, 1,
    0x11, 18, ':', ':', 'G', 'u', 'a', 'r', 'd', ':', ':', 'P', 'i', 'p', 'e', 'F', 'a', 'u', 'l', 't',
    6, 0, 0, 0, 0x0C, 0xFE,
    0x35, 14, ':', ':', 'G', 'u', 'a', 'r', 'd', ':', ':', 'F', 'a', 'u', 'l', 't',
    27, 0, 0, 0, 7, 'n', 'o', ' ', 'h', 'e', 'a', 't',
    0x0A, 0x08, 0x07, 0, 0,
    0x13, 0, 0, 0, 0, 1, 0, 0, 0,
    0xFF
};

/* The place of the delay's four bytes. */
enum { DELAY_PLACE = 61 };

int main(void)
{
    uint8_t delay[INT_SIZE], out[128], again[128];
    uint32_t refusal, length, shorter;

    icehub_put(delay, INT_SIZE, HOUR);
    refusal = icehub_set(table, sizeof table, FAULT, message, sizeof message, DELAY, delay, sizeof delay, out, sizeof out);
    if (refusal != ICEHUB_OK) {
        printf("not set: %s\n", icehub_refusal_text(refusal));
        return 1;
    }
    length = icehub_set_length(table, sizeof table, FAULT, message, sizeof message, DELAY, delay, sizeof delay, sizeof out);
    printf("delay: %" PRId32 " s, in a message of %" PRIu32 " bytes\n", icehub_i32(out + DELAY_PLACE), length);

    /* Only the four bytes of the delay differ. */
    if (length != sizeof message || memcmp(out, message, DELAY_PLACE) != 0 ||
        memcmp(out + DELAY_PLACE, delay, INT_SIZE) != 0 ||
        memcmp(out + DELAY_PLACE + INT_SIZE, message + DELAY_PLACE + INT_SIZE,
               sizeof message - DELAY_PLACE - INT_SIZE) != 0) {
        printf("set as another message\n");
        return 1;
    }

    /* Without the delay: a header byte and four bytes less, in both sizes too. */
    refusal = icehub_remove(table, sizeof table, FAULT, message, sizeof message, DELAY, out, sizeof out);
    if (refusal != ICEHUB_OK) {
        printf("not removed: %s\n", icehub_refusal_text(refusal));
        return 1;
    }
    shorter = icehub_remove_length(table, sizeof table, FAULT, message, sizeof message, DELAY, sizeof out);
    printf("without it: %" PRIu32 " bytes\n", shorter);

    /* Set again, it is the message that it was. */
    refusal = icehub_set(table, sizeof table, FAULT, out, shorter, DELAY, message + DELAY_PLACE, INT_SIZE, again,
                         sizeof again);
    return refusal == ICEHUB_OK && shorter == sizeof message - 1 - INT_SIZE &&
                   memcmp(again, message, sizeof message) == 0
               ? 0
               : 1;
}
