/* A hub reads the report of a frost guard, shows its members, and writes it again unchanged. */
#include "icehub.h"
#include "report.h"

#include <inttypes.h>
#include <stdio.h>
#include <string.h>

static const char *const names[MEMBERS] = {"reading", "tick", "delay"};

/* Says why a call was refused; the exit status. */
static int refused(const char *what, uint32_t refusal, uint32_t place)
{
    printf("not %s: refusal %" PRIu32 " (%s) at %" PRIu32 ": %s\n", what, refusal, icehub_refusal_name(refusal), place,
           icehub_refusal_text(refusal));
    return 1;
}

int main(void)
{
    uint8_t rows[MEMBERS * ICEHUB_ROW_SIZE]; /* a message has no member twice */
    uint8_t numbers[ICEHUB_NUMBERS_SIZE];    /* first known type, format, rows, optionals and slices skipped */
    uint8_t out[sizeof message];
    uint32_t refusal, type, format, count, length, i;

    refusal = icehub_read_numbers(table, sizeof table, REPORT, message, sizeof message, rows, sizeof rows, numbers,
                                  sizeof numbers);
    if (refusal != ICEHUB_OK) {
        return refused("read", refusal,
                       icehub_read_place(table, sizeof table, REPORT, message, sizeof message, sizeof rows));
    }

    type = icehub_number(numbers, 0);
    format = icehub_number(numbers, 1);
    count = icehub_number(numbers, 2);
    for (i = 0; i < count; i++) {
        const uint32_t place = icehub_row_place(rows, i);
        const uint32_t bytes = icehub_row_length(rows, i);
        printf("%s: %" PRId64 " (%" PRIu32 " bytes at %" PRIu32 ")\n", names[icehub_row_member(rows, i)],
               icehub_signed(message + place, bytes), bytes, place);
    }

    /* The rows point into the message, so the message is the writer's buffer. */
    refusal = icehub_write(table, sizeof table, type, format, count, rows, sizeof rows, message, sizeof message, out,
                           sizeof out);
    if (refusal != ICEHUB_OK) {
        return refused("written", refusal,
                       icehub_write_place(table, sizeof table, type, format, count, rows, sizeof rows, message,
                                          sizeof message, sizeof out));
    }

    length = icehub_write_length(table, sizeof table, type, format, count, rows, sizeof rows, message, sizeof message,
                                 sizeof out);
    if (length != sizeof message || memcmp(out, message, sizeof message) != 0) {
        printf("written as another message\n");
        return 1;
    }
    printf("written again: the same %" PRIu32 " bytes\n", length);
    return 0;
}
