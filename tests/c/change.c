/* One optional set and removed by the calls of C: P2 and what is refused of it, each number, place and length, and the
 * lent bytes. */
#include "icehub.h"

#include <assert.h>
#include <stdio.h>
#include <string.h>

enum { SIZE = 22, SHORTER = SIZE - 5, TOP = 3, READING = 0, DELAY = 2, MARK = 0xA5 };

static const uint8_t table[] = "FGT\1\0\4\0\3\0\0\0\0"
                               "\2\0\0\0\0\0\0\0\0\0\0\0"
                               "\4\0\0\0\0\0\0\0\0\0\0\0"
                               "\3\0\0\0\0\0\0\0\0\0\0\0"
                               "\17\0\0\0\3\0\0\0\0\0\0\0"
                               "\0\0\0\0\0\0\0\0"
                               "\1\0\1\0\7\0\0\0"
                               "\2\0\1\0\10\0\0\0";
static const uint8_t p2[] = "\26\0\0\0\1\1\14\376\73\0\0\0\0\1\0\0\0\102\10\7\0\0";
static const size_t table_len = sizeof table - 1;
static uint8_t out[SIZE + 2];

/* Whether the output begins with so many bytes of a message, and is marked after these. */
static int is_out(const uint8_t *expected, size_t length)
{
    size_t i;
    for (i = length; i < sizeof out; i++) {
        if (out[i] != MARK) {
            return 0;
        }
    }
    return memcmp(out, expected, length) == 0;
}

/* Makes a call of each kind with the same input: whether number, place and length are those expected. */
static int sets(size_t message_len, uint32_t member, const uint8_t *bytes, size_t bytes_len, size_t out_len,
                uint32_t refusal, uint32_t place, uint32_t length)
{
    memset(out, MARK, sizeof out);
    return icehub_set(table, table_len, TOP, p2, message_len, member, bytes, bytes_len, out, out_len) == refusal &&
           icehub_set_place(table, table_len, TOP, p2, message_len, member, bytes, bytes_len, out_len) == place &&
           icehub_set_length(table, table_len, TOP, p2, message_len, member, bytes, bytes_len, out_len) == length;
}

static int removes(const uint8_t *message, size_t message_len, uint32_t member, size_t out_len, uint32_t refusal,
                   uint32_t place, uint32_t length)
{
    memset(out, MARK, sizeof out);
    return icehub_remove(table, table_len, TOP, message, message_len, member, out, out_len) == refusal &&
           icehub_remove_place(table, table_len, TOP, message, message_len, member, out_len) == place &&
           icehub_remove_length(table, table_len, TOP, message, message_len, member, out_len) == length;
}

int main(void)
{
    uint8_t hour[4], expected[SIZE], shorter[SHORTER];

    icehub_put(hour, 4, 3600);
    memcpy(expected, p2, SIZE);
    memcpy(expected + SIZE - 4, hour, 4);
    assert(sets(SIZE, DELAY, hour, 4, sizeof out, ICEHUB_OK, 0, SIZE) && is_out(expected, SIZE));
    assert(sets(SIZE, DELAY, p2 + SIZE - 4, 4, SIZE, ICEHUB_OK, 0, SIZE) && is_out(p2, SIZE));
    assert(sets(SIZE, DELAY, hour, 4, SIZE - 1, ICEHUB_OUTPUT_TOO_LONG, SIZE, 0) && is_out(p2, 0));
    assert(sets(SIZE, DELAY, hour, 3, 0, ICEHUB_BAD_ROW_BYTES, 0, 0) && is_out(p2, 0));
    assert(sets(SIZE, READING, hour, 2, 0, ICEHUB_NOT_OPTIONAL, 0, 0) && is_out(p2, 0));
    assert(sets(SIZE - 1, DELAY, hour, 4, sizeof out, ICEHUB_BAD_OUTER_SIZE, 0, 0) && is_out(p2, 0));

    memcpy(shorter, p2, SHORTER);
    shorter[0] = SHORTER;
    assert(removes(p2, SIZE, DELAY, sizeof out, ICEHUB_OK, 0, SHORTER) && is_out(shorter, SHORTER));
    assert(removes(p2, SIZE, DELAY, SHORTER - 1, ICEHUB_OUTPUT_TOO_LONG, SHORTER, 0) && is_out(p2, 0));
    assert(removes(shorter, SHORTER, DELAY, sizeof out, ICEHUB_NOT_THERE, 0, 0) && is_out(p2, 0));
    assert(removes(p2, SIZE, 3, sizeof out, ICEHUB_NOT_OPTIONAL, 0, 0) && is_out(p2, 0));
    assert(removes(p2, SIZE - 1, DELAY, 0, ICEHUB_BAD_OUTER_SIZE, 0, 0) && is_out(p2, 0));

    printf("one optional set and removed\n");
    return 0;
}
