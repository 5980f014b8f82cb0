/* Tests the inline functions of icehub.h: numbers of each width at their bounds, rows, refusals in words. */
#include "icehub.h"

#include <stdio.h>
#include <string.h>

static int failed = 0;

static void expect(int is_so, const char *what)
{
    if (!is_so) {
        printf("not so: %s\n", what);
        failed = 1;
    }
}

#define EXPECT(condition) expect((condition), #condition)

/* A number goes into so many bytes and comes out again; the byte after them stays. */
static void there_and_back(int64_t number, size_t count)
{
    uint8_t bytes[9];
    memset(bytes, 0xA5, sizeof bytes);
    icehub_put(bytes, count, number);
    EXPECT(icehub_signed(bytes, count) == number);
    EXPECT(bytes[count] == 0xA5);
}

int main(void)
{
    static const uint8_t bytes[] = {0x0C, 0xFE, 0xFF, 0xFF, 0xFF, 0xFF, 0xFF, 0x7F};
    static const uint8_t least[] = {0, 0, 0, 0, 0, 0, 0, 0x80};
    uint8_t rows[3 * ICEHUB_ROW_SIZE];
    static const uint64_t messages[] = {100, 7, 241, 8, 100, 7};
    uint64_t entries[7] = {9, 9, 9, 9, 9, 9, 9};
    uint32_t refusal;
    size_t count;

    EXPECT(icehub_i8(bytes) == 12);
    EXPECT(icehub_i8(bytes + 1) == -2);
    EXPECT(icehub_i16(bytes) == -500);
    EXPECT(icehub_i32(bytes) == -500);
    EXPECT(icehub_i64(bytes) == INT64_MAX - 499);
    EXPECT(icehub_i8(least + 7) == INT8_MIN);
    EXPECT(icehub_i16(least + 6) == INT16_MIN);
    EXPECT(icehub_i32(least + 4) == INT32_MIN);
    EXPECT(icehub_i64(least) == INT64_MIN);
    EXPECT(icehub_unsigned(bytes, 2) == 65036);
    EXPECT(icehub_unsigned(least, 8) == (uint64_t)1 << 63);
    for (count = 1; count <= 8; count++) {
        const int64_t half = (int64_t)((uint64_t)1 << (8 * count - 2));
        there_and_back(0, count);
        there_and_back(-1, count);
        there_and_back(half - 1 + half, count);
        there_and_back(-half - half, count);
    }

    memset(rows, 0xA5, sizeof rows);
    icehub_put_row(rows, 1, 7, 4294967295u, 65536);
    EXPECT(icehub_row_member(rows, 1) == 7);
    EXPECT(icehub_row_place(rows, 1) == 4294967295u);
    EXPECT(icehub_row_length(rows, 1) == 65536);
    EXPECT(icehub_number(rows, 3) == 7 && icehub_number(rows, 4) == 4294967295u);
    EXPECT(rows[ICEHUB_ROW_SIZE - 1] == 0xA5 && rows[2 * ICEHUB_ROW_SIZE] == 0xA5);

    EXPECT(strcmp(icehub_refusal_name(ICEHUB_CUT_OFF), "CUT_OFF") == 0);
    EXPECT(strcmp(icehub_refusal_text(ICEHUB_BAD_BOOL), "a bool is neither 0 nor 1") == 0);
    for (refusal = ICEHUB_OK; refusal <= ICEHUB_BAD_SHEET; refusal++) {
        if (refusal == 1 || (refusal > ICEHUB_BAD_PORT && refusal < ICEHUB_BAD_TABLE_HEADER)) {
            EXPECT(icehub_refusal_name(refusal)[0] == 0); /* no refusal has this number */
            continue;
        }
        EXPECT(icehub_refusal_name(refusal)[0] != 0 && icehub_refusal_text(refusal)[0] != 0);
    }
    EXPECT(icehub_table(bytes, 0) == ICEHUB_BAD_TABLE_HEADER && icehub_table_place(bytes, 0) == 0);
    EXPECT(icehub_refusal_name(1000)[0] == 0 && icehub_refusal_text(1000)[0] == 0);

    EXPECT(icehub_plan(messages, 6, entries, 5) == ICEHUB_LIST_TOO_SHORT && entries[0] == 9);
    EXPECT(icehub_plan_place(messages, 6, 5) == 3);
    EXPECT(icehub_plan(messages, 6, entries, 7) == ICEHUB_OK && icehub_plan_place(messages, 6, 7) == 0);
    EXPECT(entries[0] == 0 && entries[1] == 0 && entries[2] == 1 && entries[3] == 1 && entries[4] == 2 && entries[5] == 2);
    EXPECT(entries[6] == 9);
    EXPECT(icehub_check_plan(messages, 6, entries, 7) == ICEHUB_OK);
    EXPECT(icehub_check_plan(messages, 6, entries, 4) == ICEHUB_BAD_PLAN);
    EXPECT(icehub_check_plan_place(messages, 6, entries, 4) == 2);

    EXPECT(icehub_compare(bytes, 0, 0, bytes, 0, 0, rows, 0) == ICEHUB_BAD_TABLE_HEADER);
    EXPECT(icehub_compare_place(bytes, 0, 0, bytes, 0, 0, 0) == 0 && icehub_compare_count(bytes, 0, 0, bytes, 0, 0, 0) == 0);
    EXPECT(icehub_compare_extends(bytes, 0, 0, bytes, 0, 0, 0) == 0);

    if (!failed) {
        printf("rows, numbers and refusals are right\n");
    }
    return failed;
}
