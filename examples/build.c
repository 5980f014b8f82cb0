/* Builds a message from nothing: an exception with a reason, a string, and a delay, an optional int. */
#include "icehub.h"

#include <inttypes.h>
#include <stdio.h>
#include <string.h>

/* The type table: string, int, and the exception (2) of the two members below. */
static const uint8_t table[] = {
    'F', 'G', 'T', 1, 0, 3, 0, 2, 0, 14, 0, 0, /* mark, version 1, 3 type rows, 2 member rows, 14 name bytes */
    7,  0, 0, 0, 0, 0, 0, 0, 0, 0, 0,  0,      /* type 0: string */
    3,  0, 0, 0, 0, 0, 0, 0, 0, 0, 0,  0,      /* type 1: int */
    13, 0, 0, 0, 2, 0, 0, 0, 0, 0, 14, 0,      /* type 2: exception of 2 members, no base, its name is all 14 bytes */
    0,  0, 0, 0, 0, 0, 0, 0,                   /* member 0: type 0, required */
    1,  0, 1, 0, 1, 0, 0, 0,                   /* member 1: type 1, optional, tag 1 */
    ':', ':', 'G', 'u', 'a', 'r', 'd', ':', ':', 'F', 'a', 'u', 'l', 't'
};
enum { FAULT = 2, REASON = 0, DELAY = 1, MEMBERS = 2 };

int main(void)
{
    static const char reason[] = "no heat";
    const uint32_t reason_len = (uint32_t)(sizeof reason - 1);
    uint8_t buffer[32];
    uint8_t rows[MEMBERS * ICEHUB_ROW_SIZE];
    uint8_t out[ICEHUB_MOST_BYTES];
    uint8_t again[MEMBERS * ICEHUB_ROW_SIZE];
    uint32_t refusal, length, i, at = 0;

    /* A string is its size, one byte if it is below 255, and its bytes. */
    icehub_put_row(rows, 0, REASON, at, 1 + reason_len);
    buffer[at] = (uint8_t)reason_len;
    memcpy(buffer + at + 1, reason, reason_len);
    at += 1 + reason_len;

    icehub_put_row(rows, 1, DELAY, at, 4);
    icehub_put(buffer + at, 4, 1800);
    at += 4;

    refusal = icehub_write(table, sizeof table, FAULT, ICEHUB_SLICED, MEMBERS, rows, sizeof rows, buffer, at, out,
                           sizeof out);
    if (refusal != ICEHUB_OK) {
        printf("not written: %s\n", icehub_refusal_text(refusal));
        return 1;
    }
    length = icehub_write_length(table, sizeof table, FAULT, ICEHUB_SLICED, MEMBERS, rows, sizeof rows, buffer, at,
                                 sizeof out);
    for (i = 0; i < length; i++) {
        printf("%02X%c", (unsigned)out[i], i + 1 == length ? '\n' : ' ');
    }

    /* It reads back as the same members. */
    refusal = icehub_read(table, sizeof table, FAULT, out, length, again, sizeof again);
    if (refusal != ICEHUB_OK || icehub_row_member(again, 1) != DELAY ||
        icehub_i32(out + icehub_row_place(again, 1)) != 1800) {
        printf("not read back\n");
        return 1;
    }
    printf("%" PRIu32 " bytes, read back\n", length);
    return 0;
}
