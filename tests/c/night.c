/* Many messages in one buffer, by the calls of C: P2, P2 of a wrong version, P2, and a size that runs past the end. */
#include "icehub.h"

#include <assert.h>
#include <stdio.h>
#include <string.h>

enum { SIZE = 22, TOP = 3 };

static const uint8_t table[] = "FGT\1\0\4\0\3\0\0\0\0"
                               "\2\0\0\0\0\0\0\0\0\0\0\0"
                               "\4\0\0\0\0\0\0\0\0\0\0\0"
                               "\3\0\0\0\0\0\0\0\0\0\0\0"
                               "\17\0\0\0\3\0\0\0\0\0\0\0"
                               "\0\0\0\0\0\0\0\0"
                               "\1\0\1\0\7\0\0\0"
                               "\2\0\1\0\10\0\0\0";
static const uint8_t p2[] = "\26\0\0\0\1\1\14\376\73\0\0\0\0\1\0\0\0\102\10\7\0\0";

int main(void)
{
    static const uint32_t expected[4][7] = {
        {ICEHUB_OK, 0, TOP, ICEHUB_SLICED, 3, 0, 0},
        {ICEHUB_BAD_VERSION, 4, 0, 0, 0, 0, 0},
        {ICEHUB_OK, 0, TOP, ICEHUB_SLICED, 3, 0, 0},
        {ICEHUB_BAD_OUTER_SIZE, 0, 0, 0, 0, 0, 0}
    };
    const size_t table_len = sizeof table - 1;
    uint8_t buffer[3 * SIZE + 5], answers[5 * ICEHUB_ANSWER_SIZE], rows[7 * ICEHUB_ROW_SIZE];
    size_t i, k;
    for (i = 0; i < 3; i++) {
        memcpy(buffer + i * SIZE, p2, SIZE);
    }
    buffer[SIZE + 5] = 9;
    memcpy(buffer + 3 * SIZE, p2, 5);
    memset(answers, 170, sizeof answers);
    memset(rows, 170, sizeof rows);

    assert(icehub_night(table, table_len, TOP, buffer, sizeof buffer, answers, sizeof answers, rows, sizeof rows) == 4);
    assert(icehub_night_place(table, table_len, TOP, buffer, sizeof buffer, sizeof answers, sizeof rows) == 3 * SIZE);
    for (i = 0; i < 4; i++) {
        for (k = 0; k < 7; k++) {
            assert(icehub_number(answers + i * ICEHUB_ANSWER_SIZE, k) == expected[i][k]);
        }
    }
    for (i = 0; i < 6; i++) {
        assert(icehub_row_member(rows, i) == i % 3);
    }
    assert(icehub_row_place(rows, 5) == 18 && icehub_row_length(rows, 5) == 4);
    assert(answers[4 * ICEHUB_ANSWER_SIZE] == 170 && rows[6 * ICEHUB_ROW_SIZE] == 170);

    /* Room for two answers: the walk stops before the third message. */
    assert(icehub_night(table, table_len, TOP, buffer, sizeof buffer, answers, 2 * ICEHUB_ANSWER_SIZE, rows, 0) == 2);
    assert(icehub_number(answers, 0) == ICEHUB_LIST_TOO_SHORT && icehub_number(answers, 1) == 3);
    assert(icehub_night_place(table, table_len, TOP, buffer, sizeof buffer, 2 * ICEHUB_ANSWER_SIZE, 0) == 2 * SIZE);
    puts("a night of four answers");
    return 0;
}
