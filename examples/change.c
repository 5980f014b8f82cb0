/* Reads a report, sets its delay to an hour and writes it again; the other members keep their bytes. */
#include "icehub.h"
#include "report.h"

#include <inttypes.h>
#include <stdio.h>
#include <string.h>

enum { HOUR = 3600, INT_SIZE = 4 };

int main(void)
{
    uint8_t rows[MEMBERS * ICEHUB_ROW_SIZE];
    uint8_t numbers[ICEHUB_NUMBERS_SIZE];
    uint8_t buffer[sizeof message + INT_SIZE];
    uint8_t out[64];
    uint32_t refusal, count, length, i;

    refusal = icehub_read_numbers(table, sizeof table, REPORT, message, sizeof message, rows, sizeof rows, numbers,
                                  sizeof numbers);
    if (refusal != ICEHUB_OK) {
        printf("not read: %s\n", icehub_refusal_text(refusal));
        return 1;
    }
    count = icehub_number(numbers, 2);

    /* The buffer is the message and the new bytes after it. The delay's row points there, the others into the
     * message. */
    memcpy(buffer, message, sizeof message);
    icehub_put(buffer + sizeof message, INT_SIZE, HOUR);
    for (i = 0; i < count; i++) {
        if (icehub_row_member(rows, i) == DELAY) {
            icehub_put_row(rows, i, DELAY, (uint32_t)sizeof message, INT_SIZE);
        }
    }

    refusal = icehub_write(table, sizeof table, REPORT, ICEHUB_SLICED, count, rows, sizeof rows, buffer, sizeof buffer,
                           out, sizeof out);
    if (refusal != ICEHUB_OK) {
        printf("not written: %s\n", icehub_refusal_text(refusal));
        return 1;
    }
    length = icehub_write_length(table, sizeof table, REPORT, ICEHUB_SLICED, count, rows, sizeof rows, buffer,
                                 sizeof buffer, sizeof out);

    /* An int has a fixed length, so only its four bytes differ; they are the last of this message. */
    if (length != sizeof message || memcmp(out, message, sizeof message - INT_SIZE) != 0) {
        printf("written as another message\n");
        return 1;
    }
    printf("delay: %" PRId32 " s, in a message of %" PRIu32 " bytes\n", icehub_i32(out + length - INT_SIZE), length);
    return icehub_i32(out + length - INT_SIZE) == HOUR ? 0 : 1;
}
