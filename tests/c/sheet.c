/* The season sheet, by the calls of C: P2, P2 of a wrong version, and P2 with another short, in one call and in two. */
#include "icehub.h"

#include <assert.h>
#include <stdio.h>
#include <string.h>

enum { SIZE = 22, TOP = 3, SHORT = 0, LONG = 1 };

static const uint8_t table[] = "FGT\1\0\4\0\3\0\0\0\0"
                               "\2\0\0\0\0\0\0\0\0\0\0\0"
                               "\4\0\0\0\0\0\0\0\0\0\0\0"
                               "\3\0\0\0\0\0\0\0\0\0\0\0"
                               "\17\0\0\0\3\0\0\0\0\0\0\0"
                               "\0\0\0\0\0\0\0\0"
                               "\1\0\1\0\7\0\0\0"
                               "\2\0\1\0\10\0\0\0";
static const uint8_t p2[] = "\26\0\0\0\1\1\14\376\73\0\0\0\0\1\0\0\0\102\10\7\0\0";

int main(void)
{
    const size_t table_len = sizeof table - 1;
    uint8_t buffer[3 * SIZE], sheet[ICEHUB_SHEET_SIZE] = {0}, parts[ICEHUB_SHEET_SIZE] = {0};
    size_t i;
    for (i = 0; i < 3; i++) {
        memcpy(buffer + i * SIZE, p2, SIZE);
    }
    buffer[SIZE + 5] = 9;
    buffer[2 * SIZE + 6] = 3;
    buffer[2 * SIZE + 7] = 0;

    assert(icehub_sheet(table, table_len, TOP, buffer, sizeof buffer, SHORT, sheet, sizeof sheet) == ICEHUB_OK);
    assert(icehub_i64(sheet) == 2 && icehub_i64(sheet + 8) == 0 && icehub_i64(sheet + 16) == 1);
    assert(icehub_i64(sheet + 24) == -497 && icehub_i32(sheet + 32) == -500 && icehub_i32(sheet + 36) == 3);
    assert(icehub_i32(sheet + 40) == -249 && icehub_i32(sheet + 44) == 1);
    assert(sheet[48] == 1 && sheet[49] == 1 && sheet[50] == 1 && sheet[51] == 0);

    /* The same in two calls. */
    assert(icehub_sheet(table, table_len, TOP, buffer, SIZE, SHORT, parts, sizeof parts) == ICEHUB_OK);
    assert(icehub_sheet(table, table_len, TOP, buffer + SIZE, 2 * SIZE, SHORT, parts, sizeof parts) == ICEHUB_OK);
    assert(memcmp(sheet, parts, sizeof sheet) == 0);

    /* A refused call leaves the sheet. */
    assert(icehub_sheet(table, table_len, TOP, buffer, SIZE, LONG, sheet, sizeof sheet) == ICEHUB_BAD_MEMBER);
    assert(icehub_sheet_place(table, table_len, TOP, buffer, SIZE, LONG, sheet, sizeof sheet) == 0);
    assert(icehub_sheet(table, table_len, TOP, buffer, SIZE, SHORT, sheet, sizeof sheet - 1) == ICEHUB_BAD_SHEET);
    assert(memcmp(sheet, parts, sizeof sheet) == 0);
    puts("a season of three messages");
    return 0;
}
