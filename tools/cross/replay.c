/* Makes the gate's recorded calls by the C functions and compares each answer, for a library that was built for another
 * processor.
 *
 *   replay STDIN STDOUT     the files of crates/replay
 *
 * The first file has the calls, the second a line for each answer; the program in crates/replay says how they are made.
 * Each reading is made by icehub_read_numbers too, and each view by icehub_member, with numbers that are too short, exact
 * and too long. Row records are made from the list of icehub_read. Of a table check the numbers are compared, not the
 * forms of its rows, which C does not give. Exit status: 0 if every answer agrees. */
#include "icehub.h"

#include <inttypes.h>
#include <stdarg.h>
#include <stdio.h>
#include <stdlib.h>
#include <string.h>

enum { LENT = 0xAA, MOST_LINE = 1 << 20, MOST_INPUT = 1 << 18 };

/* The kinds of records, and how many numbers begin one. */
enum { TABLE, READ, VIEW, WRITE, RECORDS, CHECK, CONVERT, SET, REMOVE, NIGHT, SHEET, COMPARE };
enum { ENDPOINT = 12, ENDPOINT_WRITE, GUARD, CHECK_PLAN, PLAN };
enum { KINDS = 17, HEAD = 7 };

static uint8_t table[ICEHUB_MOST_BYTES], input[MOST_INPUT], rows[ICEHUB_MOST_BYTES], again[ICEHUB_MOST_BYTES],
    out[ICEHUB_MOST_BYTES];
static char line[MOST_LINE], expected[MOST_LINE];
static size_t line_len, table_len;
static unsigned long agreed[KINDS], lines, differed;

static void stop(const char *why)
{
    fprintf(stderr, "replay: %s\n", why);
    exit(2);
}

/* Adds to the line. */
static void put(const char *format, ...)
{
    va_list arguments;
    int written;
    va_start(arguments, format);
    written = vsnprintf(line + line_len, sizeof line - line_len, format, arguments);
    va_end(arguments);
    if (written < 0 || (size_t)written >= sizeof line - line_len) {
        stop("a line is too long");
    }
    line_len += (size_t)written;
}

static void put_hex(const uint8_t *bytes, size_t count)
{
    size_t i;
    for (i = 0; i < count; i++) {
        put("%02x", (unsigned)bytes[i]);
    }
}

/* Whether no byte was changed. */
static int is_kept(const uint8_t *bytes, size_t count)
{
    size_t i;
    for (i = 0; i < count; i++) {
        if (bytes[i] != LENT) {
            return 0;
        }
    }
    return 1;
}

/* Compares the line with the next one expected, and starts a new line. */
static void compare(FILE *answers, uint32_t kind)
{
    if (fgets(expected, sizeof expected, answers) == NULL) {
        stop("fewer answers than calls");
    }
    expected[strcspn(expected, kind == CHECK ? "abcdefghijk\n" : "\n")] = 0;
    line[line_len] = 0;
    lines++;
    if (strcmp(line, expected) == 0) {
        agreed[kind]++;
    } else {
        if (differed < 10) {
            printf("line %lu: %.200s\n   not: %.200s\n", lines, line, expected);
        }
        differed++;
    }
    line_len = 0;
}

/* Reads so many bytes of the calls; 0 at their end. */
static int fetch(FILE *calls, uint8_t *bytes, size_t count, size_t room)
{
    size_t got;
    if (count > room) {
        stop("a call is too long");
    }
    got = fread(bytes, 1, count, calls);
    if (got != count && got != 0) {
        stop("a call is cut off");
    }
    return got == count;
}

/* Reads the bytes of a record after its head. */
static void fetch_body(FILE *calls, uint8_t *bytes, size_t count, size_t room)
{
    if (!fetch(calls, bytes, count, room)) {
        stop("a call is cut off");
    }
}

/* Lengths of lent numbers, from too short to too long for `size` bytes. */
enum { LENGTHS = 4 };

static size_t numbers_length(size_t size, int i)
{
    const size_t lengths[LENGTHS] = {0, size - 1, size, size + 3};
    return lengths[i];
}

/* Whether icehub_read_numbers gives the refusal, the list in `rows` and these five numbers, for each length of its
 * numbers. */
static int read_numbers_agrees(uint32_t top, const uint8_t *message, size_t message_len, size_t room, uint32_t refusal,
                               const uint32_t *due)
{
    uint8_t numbers[ICEHUB_NUMBERS_SIZE + 3];
    int i;
    for (i = 0; i < LENGTHS; i++) {
        const size_t length = numbers_length(ICEHUB_NUMBERS_SIZE, i);
        const int is_short = length < ICEHUB_NUMBERS_SIZE;
        uint32_t given;
        size_t k;
        memset(again, LENT, room);
        memset(numbers, LENT, sizeof numbers);
        given = icehub_read_numbers(table, table_len, top, message, message_len, again, room, numbers, length);
        if (refusal != ICEHUB_OK || is_short) {
            if (given != (refusal != ICEHUB_OK ? refusal : (uint32_t)ICEHUB_OUTPUT_TOO_LONG) || !is_kept(again, room) ||
                !is_kept(numbers, sizeof numbers)) {
                return 0;
            }
            continue;
        }
        if (given != ICEHUB_OK || memcmp(again, rows, room) != 0 ||
            !is_kept(numbers + ICEHUB_NUMBERS_SIZE, sizeof numbers - ICEHUB_NUMBERS_SIZE)) {
            return 0;
        }
        for (k = 0; k < 5; k++) {
            if (icehub_number(numbers, k) != due[k]) {
                return 0;
            }
        }
    }
    return 1;
}

static void read_call(uint32_t top, const uint8_t *message, size_t message_len, size_t room)
{
    uint32_t refusal, first, format, count, optionals, slices, i;
    uint32_t numbers[5];
    memset(rows, LENT, room);
    refusal = icehub_read(table, table_len, top, message, message_len, rows, room);
    numbers[0] = first = icehub_read_type(table, table_len, top, message, message_len, room);
    numbers[1] = format = icehub_read_format(table, table_len, top, message, message_len, room);
    numbers[2] = count = icehub_read_count(table, table_len, top, message, message_len, room);
    numbers[3] = optionals = icehub_read_optionals_skipped(table, table_len, top, message, message_len, room);
    numbers[4] = slices = icehub_read_slices_skipped(table, table_len, top, message, message_len, room);
    put("%" PRIu32 " %" PRIu32 " %" PRIu32 " %" PRIu32 " %" PRIu32 " %" PRIu32 " %" PRIu32 " ", refusal,
        icehub_read_place(table, table_len, top, message, message_len, room), first, format, count, optionals, slices);
    if (!read_numbers_agrees(top, message, message_len, room, refusal, numbers)) {
        put("icehub_read_numbers differs ");
    }
    if (count > room / ICEHUB_ROW_SIZE) {
        put("more rows than room");
        return;
    }
    for (i = 0; i < count; i++) {
        put("%" PRIu32 " %" PRIu32 " %" PRIu32 " ", icehub_row_member(rows, i), icehub_row_place(rows, i),
            icehub_row_length(rows, i));
    }
    if (!is_kept(rows + (size_t)count * ICEHUB_ROW_SIZE, room - (size_t)count * ICEHUB_ROW_SIZE)) {
        put("touched ");
    }
    if (refusal == ICEHUB_OK && optionals == 0 && slices == 0 &&
        icehub_write(table, table_len, first, format, count, rows, room, message, message_len, out, sizeof out) ==
            ICEHUB_OK &&
        icehub_write_length(table, table_len, first, format, count, rows, room, message, message_len, sizeof out) ==
            message_len &&
        memcmp(out, message, message_len) == 0) {
        put("again");
    }
}

static void write_call(uint32_t type, uint32_t format, uint32_t count, const uint8_t *list, size_t list_len,
                       const uint8_t *buffer, size_t buffer_len, size_t room)
{
    uint32_t refusal, length;
    memset(out, LENT, sizeof out);
    refusal = icehub_write(table, table_len, type, format, count, list, list_len, buffer, buffer_len, out, room);
    length = icehub_write_length(table, table_len, type, format, count, list, list_len, buffer, buffer_len, room);
    put("%" PRIu32 " %" PRIu32 " %" PRIu32 " ", refusal,
        icehub_write_place(table, table_len, type, format, count, list, list_len, buffer, buffer_len, room), length);
    if (length > room) {
        put("more bytes than room");
        return;
    }
    put_hex(out, length);
    if (!is_kept(out + length, sizeof out - length)) {
        put(" touched");
    }
}

static void convert_call(uint32_t top, const uint8_t *message, size_t message_len, size_t room)
{
    uint32_t refusal, length;
    memset(out, LENT, sizeof out);
    refusal = icehub_convert(table, table_len, top, message, message_len, out, room);
    length = icehub_convert_length(table, table_len, top, message, message_len, room);
    put("%" PRIu32 " %" PRIu32 " %" PRIu32 " ", refusal,
        icehub_convert_place(table, table_len, top, message, message_len, room), length);
    if (length > room) {
        put("more bytes than room");
        return;
    }
    put_hex(out, length);
    if (!is_kept(out + length, sizeof out - length)) {
        put(" touched");
    }
}

/* The line of a change: its numbers, and the result that is in `out`. */
static void put_change(uint32_t refusal, uint32_t place, uint32_t length, size_t room)
{
    put("%" PRIu32 " %" PRIu32 " %" PRIu32 " ", refusal, place, length);
    if (length > room) {
        put("more bytes than room");
        return;
    }
    put_hex(out, length);
    if (!is_kept(out + length, sizeof out - length)) {
        put(" touched");
    }
}

static void set_call(uint32_t top, const uint8_t *message, size_t message_len, uint32_t member, const uint8_t *bytes,
                     size_t bytes_len, size_t room)
{
    uint32_t refusal;
    memset(out, LENT, sizeof out);
    refusal = icehub_set(table, table_len, top, message, message_len, member, bytes, bytes_len, out, room);
    put_change(refusal, icehub_set_place(table, table_len, top, message, message_len, member, bytes, bytes_len, room),
               icehub_set_length(table, table_len, top, message, message_len, member, bytes, bytes_len, room), room);
}

static void remove_call(uint32_t top, const uint8_t *message, size_t message_len, uint32_t member, size_t room)
{
    uint32_t refusal;
    memset(out, LENT, sizeof out);
    refusal = icehub_remove(table, table_len, top, message, message_len, member, out, room);
    put_change(refusal, icehub_remove_place(table, table_len, top, message, message_len, member, room),
               icehub_remove_length(table, table_len, top, message, message_len, member, room), room);
}

static void view_call(uint32_t top, const uint8_t *message, size_t message_len, uint32_t member,
                      const uint8_t *fallback, size_t fallback_len)
{
    uint8_t numbers[ICEHUB_VIEW_SIZE + 3];
    uint32_t refusal;
    int i;
    refusal = icehub_read(table, table_len, top, message, message_len, rows, ICEHUB_MOST_ROWS * ICEHUB_ROW_SIZE);
    for (i = 0; i < LENGTHS; i++) {
        const size_t length = numbers_length(ICEHUB_VIEW_SIZE, i);
        const int is_short = length < ICEHUB_VIEW_SIZE;
        uint32_t given;
        memset(numbers, LENT, sizeof numbers);
        given = icehub_member(table, table_len, top, message, message_len, member, numbers, length);
        if (given != (refusal == ICEHUB_OK && is_short ? (uint32_t)ICEHUB_OUTPUT_TOO_LONG : refusal) ||
            (given != ICEHUB_OK && !is_kept(numbers, sizeof numbers)) ||
            !is_kept(numbers + ICEHUB_VIEW_SIZE, sizeof numbers - ICEHUB_VIEW_SIZE)) {
            put("icehub_member differs");
            return;
        }
    }
    if (refusal == ICEHUB_OK) {
        const uint32_t origin = icehub_number(numbers, 0), place = icehub_number(numbers, 1),
                       length = icehub_number(numbers, 2);
        if (origin == ICEHUB_IN_MESSAGE && place <= message_len && length <= message_len - place) {
            put_hex(message + place, length);
        } else if (origin > ICEHUB_IN_FALLBACK || place != 0 || length != 0) {
            put("icehub_member gives wrong numbers");
        } else if (origin == ICEHUB_IN_FALLBACK) {
            put_hex(fallback, fallback_len);
        }
    }
}

/* The three numbers of eight rows; those that the reader leaves alone are zeros. */
static void records_call(uint32_t top, const uint8_t *message, size_t message_len)
{
    enum { RECORDS_LENT = 8 };
    size_t i;
    memset(rows, 0, RECORDS_LENT * ICEHUB_ROW_SIZE);
    (void)icehub_read(table, table_len, top, message, message_len, rows, RECORDS_LENT * ICEHUB_ROW_SIZE);
    for (i = 0; i < RECORDS_LENT; i++) {
        put("%" PRIu32 " %" PRIu32 " %" PRIu32 " ", icehub_row_member(rows, i), icehub_row_place(rows, i),
            icehub_row_length(rows, i));
    }
}

static void check_call(void)
{
    const uint32_t rule = icehub_table(table, table_len);
    put("%" PRIu32 " %" PRIu32 "%s", rule, icehub_table_place(table, table_len), rule == ICEHUB_OK ? " " : "");
}

/* Puts the numbers of so many bytes. */
static void put_numbers(const uint8_t *bytes, size_t count)
{
    size_t i;
    for (i = 0; i < count / 4; i++) {
        put("%" PRIu32 " ", icehub_number(bytes, i));
    }
}

static void night_call(uint32_t top, const uint8_t *buffer, size_t buffer_len, size_t answers_len, size_t rows_len)
{
    size_t count, i, given = 0;
    memset(out, LENT, answers_len);
    memset(rows, LENT, rows_len);
    count = icehub_night(table, table_len, top, buffer, buffer_len, out, answers_len, rows, rows_len);
    put("%zu %zu ", count, icehub_night_place(table, table_len, top, buffer, buffer_len, answers_len, rows_len));
    if (count > answers_len / ICEHUB_ANSWER_SIZE) {
        put("more answers than room");
        return;
    }
    for (i = 0; i < count; i++) {
        given += ICEHUB_ROW_SIZE * (size_t)icehub_number(out + ICEHUB_ANSWER_SIZE * i, 4);
    }
    if (given > rows_len) {
        put("more rows than room");
        return;
    }
    put_numbers(out, ICEHUB_ANSWER_SIZE * count);
    if (!is_kept(out + ICEHUB_ANSWER_SIZE * count, answers_len - ICEHUB_ANSWER_SIZE * count)) {
        put("touched ");
    }
    put_numbers(rows, given);
    if (!is_kept(rows + given, rows_len - given)) {
        put("touched ");
    }
}

static void sheet_call(uint32_t top, const uint8_t *buffer, size_t buffer_len, uint32_t member, const uint8_t *sheet,
                       size_t sheet_len)
{
    uint32_t number;
    memcpy(out, sheet, sheet_len);
    number = icehub_sheet(table, table_len, top, buffer, buffer_len, member, out, sheet_len);
    put("%" PRIu32 " %" PRIu32 " ", number,
        icehub_sheet_place(table, table_len, top, buffer, buffer_len, member, sheet, sheet_len));
    put_hex(out, sheet_len);
}

/* Opens an endpoint, or finds one in its proxy. */
static void endpoint_call(size_t room, uint32_t is_found, uint32_t wanted, const uint8_t *bytes, size_t bytes_len)
{
    const size_t count = is_found ? 3 : 7;
    uint32_t refusal, place;
    size_t i, given;
    memset(rows, LENT, sizeof rows);
    if (is_found) {
        refusal = icehub_proxy_endpoint(bytes, bytes_len, wanted, rows, room);
        place = icehub_proxy_endpoint_place(bytes, bytes_len, wanted, room);
    } else {
        refusal = icehub_endpoint(bytes, bytes_len, rows, room);
        place = icehub_endpoint_place(bytes, bytes_len, room);
    }
    given = refusal == ICEHUB_OK ? count : 0;
    put("%" PRIu32 " %" PRIu32 " ", refusal, place);
    for (i = 0; i < count; i++) {
        put("%" PRIu32 " ", i < given ? icehub_number(rows, i) : 0);
    }
    if (!is_kept(rows + 4 * given, room - 4 * given)) {
        put("touched");
    }
}

static void endpoint_write_call(const uint32_t *n, const uint8_t *host, size_t host_len)
{
    const uint32_t type = n[2], port = n[3], timeout = n[4];
    const bool compress = n[5] == 1;
    const size_t room = n[6];
    uint32_t refusal, length;
    memset(out, LENT, sizeof out);
    refusal = icehub_endpoint_write(type, host, host_len, port, timeout, compress, out, room);
    length = icehub_endpoint_write_length(type, host, host_len, port, timeout, compress, room);
    put("%" PRIu32 " %" PRIu32 " %" PRIu32 " ", refusal,
        icehub_endpoint_write_place(type, host, host_len, port, timeout, compress, room), length);
    put_hex(out, length);
    if (!is_kept(out + length, room - length)) {
        put(" touched");
    }
}

/* A report to a frost guard. */
static void guard_call(size_t room, const uint8_t *state, size_t state_len, const uint8_t *message, size_t message_len)
{
    uint32_t refusal;
    size_t given;
    memset(out, LENT, sizeof out);
    refusal = icehub_guard_report(state, state_len, message, message_len, out, room);
    given = refusal == ICEHUB_OK ? ICEHUB_GUARD_SIZE : 0;
    put("%" PRIu32 " %" PRIu32 " %" PRIu32 " ", refusal,
        icehub_guard_place(state, state_len, message, message_len, room),
        icehub_guard_fires(state, state_len, message, message_len, room));
    put_hex(out, given);
    if (!is_kept(out + given, room - given)) {
        put(" touched");
    }
}

/* The numbers in some bytes, eight bytes each, at the start of a list. */
enum { MOST_NUMBERS = 64 };
static uint64_t messages[MOST_NUMBERS], entries[MOST_NUMBERS];

static size_t numbers_of(const uint8_t *bytes, size_t length, uint64_t *list)
{
    size_t i;
    if (length / 8 > MOST_NUMBERS) {
        stop("a list of numbers is too long");
    }
    for (i = 0; i < length / 8; i++) {
        list[i] = icehub_unsigned(bytes + 8 * i, 8);
    }
    return length / 8;
}

static void check_plan_call(const uint8_t *bytes, size_t length, size_t count)
{
    const size_t n = numbers_of(bytes, 8 * count, messages);
    const size_t k = numbers_of(bytes + 8 * count, length - 8 * count, entries);
    put("%" PRIu32 " %" PRIu64 " ", icehub_check_plan(messages, n, entries, k),
        icehub_check_plan_place(messages, n, entries, k));
}

static void plan_call(const uint8_t *bytes, size_t length, size_t room)
{
    const size_t n = numbers_of(bytes, length, messages);
    uint32_t refusal;
    size_t i;
    memset(entries, LENT, sizeof entries);
    refusal = icehub_plan(messages, n, entries, room);
    put("%" PRIu32 " %" PRIu64 " ", refusal, icehub_plan_place(messages, n, room));
    for (i = 0; refusal == ICEHUB_OK && i < n / 2 * 2; i++) {
        put("%" PRIu64 " ", entries[i]);
    }
    if (!is_kept((const uint8_t *)(entries + i), sizeof entries - 8 * i)) {
        put("touched ");
    }
}

static void compare_call(const uint32_t *n, const uint8_t *bytes, size_t length)
{
    const uint8_t *old = bytes, *other = bytes + n[4];
    const size_t old_len = n[4], other_len = length - n[4], room = n[5];
    uint32_t refusal, count;
    size_t i;
    memset(out, LENT, sizeof out);
    refusal = icehub_compare(old, old_len, n[2], other, other_len, n[3], out, room);
    count = icehub_compare_count(old, old_len, n[2], other, other_len, n[3], room);
    put("%" PRIu32 " %" PRIu32 " %" PRIu32 " %" PRIu32 " ", refusal,
        icehub_compare_place(old, old_len, n[2], other, other_len, n[3], room), count,
        icehub_compare_extends(old, old_len, n[2], other, other_len, n[3], room));
    for (i = 0; i < 5 * (size_t)count; i++) {
        put("%" PRIu32 " ", icehub_number(out, i));
    }
    if (!is_kept(out + (size_t)ICEHUB_DIFFERENCE_SIZE * count, room - (size_t)ICEHUB_DIFFERENCE_SIZE * count)) {
        put("touched");
    }
}

static void replay(FILE *calls, FILE *answers)
{
    uint8_t head[4 * HEAD];
    while (fetch(calls, head, sizeof head, sizeof head)) {
        uint32_t n[HEAD];
        size_t i, length;
        for (i = 0; i < HEAD; i++) {
            n[i] = icehub_number(head, i);
        }
        length = n[1];
        if (n[0] == TABLE) {
            fetch_body(calls, table, length, sizeof table);
            table_len = length;
            continue;
        }
        fetch_body(calls, input, length, sizeof input);
        switch (n[0]) {
        case READ:
            if (n[3] > sizeof rows) {
                stop("a list is too long");
            }
            read_call(n[2], input, length, n[3]);
            break;
        case VIEW:
            if (n[4] > length) {
                stop("a call is too long");
            }
            view_call(n[2], input, n[4], n[3], input + n[4], length - n[4]);
            break;
        case WRITE:
            if (n[5] > length || n[6] > sizeof out) {
                stop("a call is too long");
            }
            write_call(n[2], n[3], n[4], input, n[5], input + n[5], length - n[5], n[6]);
            break;
        case RECORDS: records_call(n[2], input, length); break;
        case CHECK: check_call(); break;
        case CONVERT:
            if (n[3] > sizeof out) {
                stop("an output is too long");
            }
            convert_call(n[2], input, length, n[3]);
            break;
        case SET:
            if (n[4] > length || n[5] > sizeof out) {
                stop("a call is too long");
            }
            set_call(n[2], input, n[4], n[3], input + n[4], length - n[4], n[5]);
            break;
        case REMOVE:
            if (n[4] > sizeof out) {
                stop("an output is too long");
            }
            remove_call(n[2], input, length, n[3], n[4]);
            break;
        case NIGHT:
            if (n[3] > sizeof out || n[4] > sizeof rows) {
                stop("a list is too long");
            }
            night_call(n[2], input, length, n[3], n[4]);
            break;
        case SHEET:
            if (n[4] > length || length - n[4] > sizeof out) {
                stop("a call is too long");
            }
            sheet_call(n[2], input, n[4], n[3], input + n[4], length - n[4]);
            break;
        case COMPARE:
            if (n[4] > length || n[5] > sizeof out) {
                stop("a call is too long");
            }
            compare_call(n, input, length);
            break;
        case ENDPOINT:
            if (n[2] > sizeof rows) {
                stop("a call is too long");
            }
            endpoint_call(n[2], n[3], n[4], input, length);
            break;
        case ENDPOINT_WRITE:
            if (n[6] > sizeof out) {
                stop("a call is too long");
            }
            endpoint_write_call(n, input, length);
            break;
        case GUARD:
            if (n[2] > sizeof out || n[3] > length) {
                stop("a call is too long");
            }
            guard_call(n[2], input, n[3], input + n[3], length - n[3]);
            break;
        case CHECK_PLAN:
            if (n[2] > length / 8) {
                stop("a call is too long");
            }
            check_plan_call(input, length, n[2]);
            break;
        case PLAN:
            if (n[2] > MOST_NUMBERS) {
                stop("a list of numbers is too long");
            }
            plan_call(input, length, n[2]);
            break;
        default: stop("a record of an unknown kind");
        }
        compare(answers, n[0]);
    }
}

int main(int argc, char **argv)
{
    FILE *calls, *answers;
    if (argc != 3) {
        stop("usage: replay STDIN STDOUT");
    }
    calls = fopen(argv[1], "rb");
    answers = fopen(argv[2], "rb");
    if (calls == NULL || answers == NULL) {
        stop("a file cannot be opened");
    }
    replay(calls, answers);
    if (fgets(expected, sizeof expected, answers) != NULL) {
        stop("more answers than calls");
    }
    printf("%lu of %lu recorded calls agree: %lu readings, %lu writings, %lu views, %lu row records, %lu tables, "
           "%lu conversions, %lu sets, %lu removals, %lu nights, %lu season sheets, %lu comparisons, %lu endpoints, %lu reports to a frost guard, %lu checks of burst plans, %lu plans\n",
           lines - differed, lines, agreed[READ], agreed[WRITE], agreed[VIEW], agreed[RECORDS], agreed[CHECK],
           agreed[CONVERT], agreed[SET], agreed[REMOVE], agreed[NIGHT], agreed[SHEET], agreed[COMPARE], agreed[ENDPOINT] + agreed[ENDPOINT_WRITE],
           agreed[GUARD], agreed[CHECK_PLAN], agreed[PLAN]);
    return differed > 0 || lines == 0;
}
