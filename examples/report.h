/* The report of a frost guard: its type table and a message, for the examples. */
#ifndef REPORT_H
#define REPORT_H

#include <stdint.h>

/* The type table: rows short, long, int, and a parameter list (3) of the three members below. */
static const uint8_t table[] = {
    'F', 'G', 'T', 1, 0, 4, 0, 3, 0, 0, 0, 0,  /* mark, version 1, 4 type rows, 3 member rows, no names */
    2,  0, 0, 0, 0, 0, 0, 0, 0, 0, 0, 0,       /* type 0: short */
    4,  0, 0, 0, 0, 0, 0, 0, 0, 0, 0, 0,       /* type 1: long */
    3,  0, 0, 0, 0, 0, 0, 0, 0, 0, 0, 0,       /* type 2: int */
    15, 0, 0, 0, 3, 0, 0, 0, 0, 0, 0, 0,       /* type 3: parameter list of 3 members, from member 0 on */
    0,  0, 0, 0, 0, 0, 0, 0,                   /* member 0: type 0, required */
    1,  0, 1, 0, 7, 0, 0, 0,                   /* member 1: type 1, optional, tag 7 */
    2,  0, 1, 0, 8, 0, 0, 0                    /* member 2: type 2, optional, tag 8 */
};

/* The row of the list, and the member rows: the reading, the tick in milliseconds, the frost delay in seconds. */
enum { REPORT = 3, READING = 0, TICK = 1, DELAY = 2, MEMBERS = 3 };

static const uint8_t message[] = {
    0x16, 0x00, 0x00, 0x00, 0x01, 0x01, 0x0C, 0xFE, 0x3B, 0x00, 0x00,
    0x00, 0x00, 0x01, 0x00, 0x00, 0x00, 0x42, 0x08, 0x07, 0x00, 0x00
};

#endif
