/* icehub.h: reads and writes messages of Ice encodings 1.1 and 1.0 by a lent type table.
 *
 * One message is one encapsulation that holds a parameter list, an exception, or in 1.1 one class instance that
 * refers to no other. Its version bytes say which encoding it is; encoding 1.0 has no optionals and no classes. The
 * table says which types there are; a row of it, the top, says which is wanted.
 *
 * Any call may be given any bytes: none has to be checked first, and every call returns. A call that refuses
 * returns one number, the first that applies in the order of document 01, and changes no lent byte.
 *
 * What a caller owes:
 *   - Bytes are lent as a pointer and a length in bytes. The pointer is not NULL, also where the length is 0,
 *     and that many bytes from it on may be read. Lent output may be written too: `rows` of the reader, `answers`,
 *     `numbers`, `out`, `sheet` of icehub_sheet, `list` of the comparison, `next` of the frost guard and, at its start,
 *     `state`. A list of 64-bit numbers is lent as a pointer to them and their number; `entries` of the planner is
 *     output.
 *   - Lent output overlaps nothing else that is lent to the same call. Inputs may overlap each other.
 *   - Nobody else changes lent bytes, or reads lent output, until the call returns.
 *
 * Nothing is kept between calls: there is no heap and no global state. Calls may run in several threads at once.
 *
 * Stack and time are measured, not proved (x86-64, built by the older kit; docs/SPEED.md has the figures of each call).
 * icehub_member, icehub_convert, icehub_remove, icehub_night, icehub_sheet and, under a table of more than 128 members,
 * icehub_read and icehub_read_numbers took up to 18 KB of stack, most of it for lists of rows, the comparison 29 KB. No
 * other call took more than 7 KB over all recorded and 40,000 generated calls. Each level of nesting of the table's
 * types takes 0.5 KB more: 143 KB more under a table of 256 nested types. icehub_read and icehub_write took about 0.1 us
 * for a message of 22 bytes and under 1 us for 1 KB, icehub_read 0.2 s for the slowest message of 65,536 bytes that we
 * know. Each of the calls that return one more number costs as much as a full read or write.
 */
#ifndef ICEHUB_H
#define ICEHUB_H

#include <stddef.h>
#include <stdint.h>
#ifndef __cplusplus
#include <stdbool.h>
#endif

#ifdef __cplusplus
extern "C" {
#endif

/* The version of this header and of the library that it comes with. */
#define ICEHUB_VERSION "0.1.0"
#define ICEHUB_VERSION_MAJOR 0
#define ICEHUB_VERSION_MINOR 1
#define ICEHUB_VERSION_PATCH 0

enum {
    ICEHUB_ROW_SIZE = 12,      /* bytes of one row */
    ICEHUB_NUMBERS_SIZE = 20,  /* bytes of the numbers of icehub_read_numbers */
    ICEHUB_VIEW_SIZE = 12,     /* bytes of the numbers of icehub_member */
    ICEHUB_ANSWER_SIZE = 28,   /* bytes of one answer of icehub_night */
    ICEHUB_SHEET_SIZE = 52,    /* bytes of a season sheet */
    ICEHUB_ENDPOINT_SIZE = 28, /* bytes of the numbers of icehub_endpoint */
    ICEHUB_PROXY_ENDPOINT_SIZE = 12, /* bytes of the numbers of icehub_proxy_endpoint */
    ICEHUB_MOST_ROWS = 1024,   /* no message has more rows */
    ICEHUB_MOST_BYTES = 65536, /* no message is longer, and no buffer of the writer */
    ICEHUB_BURST_BYTES = 340,  /* no satellite burst is longer */
    ICEHUB_GUARD_SIZE = 32,    /* bytes of the state of a frost guard */
    ICEHUB_DIFFERENCE_SIZE = 20,  /* bytes of one difference of two tables */
    ICEHUB_NEW_TABLE = 1000000 /* added to a place in the new one of two tables */
};

/* A row is three numbers of 32 bits, little-endian: the member row of the table, then the place and the length of
 * the member's bytes in the message (for the writer: in the buffer). They are the value alone, without an optional's
 * header and length field; a string, sequence or dictionary begins with its own size, also where that size serves as
 * the length field (an optional string, or sequence of bool or byte). */

/* Every string of an accepted message is text: well-formed UTF-8 as RFC 3629 has it, with the shortest form of each
 * character, no surrogates, nothing above U+10FFFF. So are type IDs, and the names of a table's records. A string may be
 * empty, may hold U+0000 and has no zero byte at its end: its length is its size. What is skipped is not judged:
 * optionals and slices that the table does not know. Nor are the bytes of an endpoint, until
 * icehub_endpoint opens it. */

/* The format of a message. A parameter list of encoding 1.1 has ICEHUB_SLICED. */
enum icehub_format {
    ICEHUB_COMPACT = 0, /* only the first slice has a type ID, none has a size; it is read, and not written */
    ICEHUB_SLICED = 1,  /* each slice has a type ID and a size */
    ICEHUB_OLD = 2      /* encoding 1.0: a parameter list or an exception, without optionals */
};

/* What a call may be refused for, and what its place is then. The calls named icehub_.._place return the place; of
 * icehub_night each answer has it as its second number. A place counts bytes from the start of the message; of the table
 * for 31 to 39; or it is the number named. */
enum icehub_refusal {
    /* Not refused. */
    ICEHUB_OK = 0,
    /* the type is not in the table, or is no exception, class or parameter list. Place: 0. */
    ICEHUB_BAD_TYPE = 2,
    /* the message, the writer's buffer, or what is to be set is over 65,536 bytes long. Place: 0. */
    ICEHUB_INPUT_TOO_LONG = 3,
    /* an item or a declared length runs past what holds it. Place: its first byte. */
    ICEHUB_CUT_OFF = 4,
    /* the encapsulation's size is under 6 or not the message's length. Place: 0. */
    ICEHUB_BAD_OUTER_SIZE = 5,
    /* the encoding's version is neither 1.1 nor 1.0, or is 1.0 with a class as the top. Place: 4. */
    ICEHUB_BAD_VERSION = 6,
    /* a size below 255 in the long form, or a negative size. Place: the byte 255 of the size. */
    ICEHUB_BAD_SIZE = 7,
    /* a bool is neither 0 nor 1. Place: its byte. */
    ICEHUB_BAD_BOOL = 8,
    /* an enumerator is not one that its enum allows. Place: its size; in encoding 1.0 its first byte. */
    ICEHUB_BAD_ENUMERATOR = 9,
    /* a proxy's identity, facet count or mode is wrong. Place: the identity, the facet count or the mode byte. */
    ICEHUB_BAD_PROXY = 10,
    /* a declared length is below its least (FSize 1, slice 4, endpoint 6), negative, or not used up. Place: the
     * length. */
    ICEHUB_BAD_LENGTH = 11,
    /* an optional's header is wrong: upper bits 31 where no end marker may be, a long tag under 30, a tag that does
     * not rise, or another type than the table's. Place: the header. */
    ICEHUB_BAD_HEADER = 12,
    /* an optional of a class, an indirection table, a type ID that is no string, or a class marker other than 1.
     * Place: its byte. */
    ICEHUB_NOT_COVERED = 13,
    /* a slice's flags are wrong: bit 6 or 7 set, formats mixed, the type ID missing, or bit 2 set with no optional.
     * Place: the flags. */
    ICEHUB_BAD_FLAGS = 14,
    /* the first type ID of a compact record is not in the table. Place: the type ID. */
    ICEHUB_UNKNOWN_COMPACT = 15,
    /* no type ID of a sliced record is in the table. Place: the last slice's flags. */
    ICEHUB_UNKNOWN_SLICED = 16,
    /* the slices, or their last bit, do not follow the table's bases. Place: the flags; in encoding 1.0 the type ID. */
    ICEHUB_BAD_CHAIN = 17,
    /* bytes follow the record. Place: the first of them. */
    ICEHUB_LEFT_OVER = 18,
    /* the lent list is too short. Place: the number of rows or entries needed. */
    ICEHUB_LIST_TOO_SHORT = 19,
    /* writer: a row is wrong, missing, out of order or outside the buffer. Place: the row's number. */
    ICEHUB_BAD_ROW = 20,
    /* writer, set: the bytes are not exactly a value of the member's type. Place: the row's number; 0 in setting. */
    ICEHUB_BAD_ROW_BYTES = 21,
    /* the output is longer than its room or 65,536 bytes. Place: the number of bytes needed. */
    ICEHUB_OUTPUT_TOO_LONG = 22,
    /* writer: the format is not 1 or 2, or 2 for a class. Place: 0. */
    ICEHUB_BAD_FORMAT = 23,
    /* a string is not well-formed UTF-8. Place: its size. */
    ICEHUB_BAD_TEXT = 24,
    /* the header byte of a 1.0 exception is not 0. Place: the header byte. */
    ICEHUB_BAD_OLD_HEADER = 25,
    /* encoding 1.0 where the type, a base of it or a record that descends from it has optionals. Place: 0. */
    ICEHUB_OLD_OPTIONALS = 26,
    /* an endpoint's port is not 1 to 65,535. Place: the port; 0 for the writer of an endpoint. */
    ICEHUB_BAD_PORT = 27,
    /* 31 to 39: the table breaks a rule, the first of this order that its first broken row breaks. Lists of enumerators
     * (39) are judged after all type rows. */
    /* the table's header is wrong, or its length is not what the header says. Place: 0. */
    ICEHUB_BAD_TABLE_HEADER = 31,
    /* in a row of the table a zero byte or an unused field is not 0, or a required member has a tag. Place: the
     * row's first byte, in the table. */
    ICEHUB_BAD_TABLE_ZEROS = 32,
    /* a type row of the table has an unknown kind. Place: the row's first byte, in the table. */
    ICEHUB_BAD_TABLE_KIND = 33,
    /* a row of the table refers to a row that is not smaller, or is of the wrong kind. Place: the row's first
     * byte, in the table. */
    ICEHUB_BAD_TABLE_REFERENCE = 34,
    /* the table's member rows are not taken in turn, or not all taken. Place: the row's first byte, in the table;
     * 0 if not all are taken. */
    ICEHUB_BAD_TABLE_MEMBERS = 35,
    /* a struct of the table has no member, or a member's mark is wrong. Place: the row's first byte, in the table. */
    ICEHUB_BAD_TABLE_MARK = 36,
    /* a record's name lies outside the table's name bytes, is not 1 to 255 bytes long, is not well-formed UTF-8, or is
     * another record's. Place: the row's first byte, in the table. */
    ICEHUB_BAD_TABLE_NAME = 37,
    /* a tag or an enum's greatest enumerator is over 2,147,483,647, or an owner has a tag twice. Place: the row's
     * first byte, in the table. */
    ICEHUB_BAD_TABLE_TAG = 38,
    /* an enum's list of enumerators is not taken in turn, is empty, reaches beyond the entries, does not rise or does
     * not end with the greatest, or entries are left over. Place: the row's first byte, in the table; 0 for entries
     * left over. */
    ICEHUB_BAD_TABLE_ENUMERATORS = 39,
    /* frost guard: the tick is negative or lower than the last. Place: 0. */
    ICEHUB_BAD_TICK = 40,
    /* frost guard: the delay is negative. Place: 0. */
    ICEHUB_BAD_DELAY = 41,
    /* frost guard: the report lacks its tick or its delay. Place: 0. */
    ICEHUB_MISSING_FIELD = 42,
    /* season sheet: the member is not in the table, or is neither a short nor an int. Place: 0. */
    ICEHUB_BAD_MEMBER = 43,
    /* season sheet: the messages of the buffer and those on the sheet are more than 1,000,000. Place: 0. */
    ICEHUB_TOO_MANY_MESSAGES = 44,
    /* planner: a message is longer than a burst, over 340 bytes. Place: the message's number. */
    ICEHUB_MESSAGE_TOO_LONG = 45,
    /* an entry of a plan breaks a rule with the entries before it, or messages are missing. Place: the entry's number; the
     * number of entries where only messages are missing. */
    ICEHUB_BAD_PLAN = 46,
    /* converter: the message is no compact record. Place: 0. */
    ICEHUB_NOT_COMPACT = 47,
    /* converter: something in the message is skipped, as the table does not know it. Place: 0. */
    ICEHUB_SKIPPED = 48,
    /* set, remove: the member is not an optional of the message's type or of a base of it. Place: 0. */
    ICEHUB_NOT_OPTIONAL = 49,
    /* remove: the message does not have the member. Place: 0. */
    ICEHUB_NOT_THERE = 50,
    /* set, remove: the message is a compact record. Place: 0. */
    ICEHUB_IS_COMPACT = 51,
    /* frost guard: the state has another length or mark, a negative tick, start or delay, or a start and no tick at or
     * after it. Place: 0. */
    ICEHUB_BAD_STATE = 52,
    /* season sheet: the sheet is not 52 bytes long, a mark is neither 0 nor 1, it has carriers and no smallest or largest
     * value, or either without carriers, or its sum is not between their number times these. Place: 0. */
    ICEHUB_BAD_SHEET = 53
};

/* ---- The table by itself ----
 *
 * A table is of version 1 or 2; every call takes both. All its numbers are little-endian.
 *
 *   bytes    what
 *   3        the mark FGT
 *   2        the version, 1 or 2
 *   2, 2, 2  T, M, N: how many type rows (1 to 256), member rows (0 to 1,024) and name bytes (0 to 8,192)
 *   1        zero
 *   2        in version 2 only: E, how many entries the lists of enumerators have (0 to 1,024)
 *   12 * T   type rows: kind, zero, then a, b, c, d, e of two bytes each
 *   8 * M    member rows: type (2 bytes), mark, zero, tag (4 bytes)
 *   N        name bytes
 *   4 * E    in version 2 only: the lists of enumerators, four bytes an entry
 *
 * In version 1 an enum allows all numbers up to its greatest, a + 65,536 * b. In version 2 it allows the d entries of
 * its list, from entry c on. The list rises strictly, and its last entry is the greatest. The lists of the enum rows
 * follow each other in row order, and no entry is left over. docs/USERS.md has all kinds and a worked example of each
 * version.
 *
 * Every call below checks its table first. These two check it without a message, for whoever makes tables. */

/* Returns ICEHUB_OK, or the number of the first rule that the table breaks: 31 to 39. */
uint32_t icehub_table(const uint8_t *table, size_t table_len);
/* The place of that rule; 0 if the table breaks none. */
uint32_t icehub_table_place(const uint8_t *table, size_t table_len);

/* ---- The reader ----
 *
 *   table, table_len      the type table
 *   top                   the number of the wanted type's row: an exception, a class or a parameter list
 *   message, message_len  the message, all of it and nothing else
 *   rows, rows_len        the lent list: rows_len / ICEHUB_ROW_SIZE rows have room (ICEHUB_MOST_ROWS always do)
 */

/* Reads a message. Returns ICEHUB_OK: the members that the table knows are at the start of `rows`, one row each, in
 * message order, and the bytes after these rows are unchanged. Or returns a refusal: `rows` is unchanged. */
uint32_t icehub_read(const uint8_t *table, size_t table_len, uint32_t top, const uint8_t *message, size_t message_len,
                     uint8_t *rows, size_t rows_len);

/* Reads a message and gives its numbers, by one read: as icehub_read, and where it accepts, `numbers` begins with five
 * numbers of 32 bits, little-endian: first known type, format, rows, optionals skipped, slices skipped, as the calls
 * below give them (icehub_number reads one). Bytes beyond ICEHUB_NUMBERS_SIZE are unchanged; on a refusal `rows` and
 * `numbers` are unchanged.
 *
 * If numbers_len is below ICEHUB_NUMBERS_SIZE, a message that nothing else is wrong with is refused by
 * ICEHUB_OUTPUT_TOO_LONG; its place is ICEHUB_NUMBERS_SIZE. Every other refusal is that of icehub_read, and
 * icehub_read_place gives its place. */
uint32_t icehub_read_numbers(const uint8_t *table, size_t table_len, uint32_t top, const uint8_t *message,
                             size_t message_len, uint8_t *rows, size_t rows_len, uint8_t *numbers,
                             size_t numbers_len);

/* Where the bytes of a member come from. */
enum icehub_origin {
    ICEHUB_EMPTY = 0,       /* no bytes: the message's type has no such member */
    ICEHUB_IN_MESSAGE = 1,  /* the message, at a place and of a length */
    ICEHUB_IN_FALLBACK = 2  /* the caller's fallback: the message could have the member and does not */
};

/* Finds one member, without a list: `member` is the number of its member row. Returns ICEHUB_OK: `numbers` begins with
 * three numbers of 32 bits, little-endian: the origin (enum icehub_origin), then the place and the length of the
 * member's bytes in the message, as in a row; both are 0 for another origin. Bytes beyond ICEHUB_VIEW_SIZE are
 * unchanged. Or returns a refusal: `numbers` is unchanged.
 *
 * If numbers_len is below ICEHUB_VIEW_SIZE, a message that nothing else is wrong with is refused by
 * ICEHUB_OUTPUT_TOO_LONG; its place is ICEHUB_VIEW_SIZE. Every other refusal is that of icehub_read with a list of
 * ICEHUB_MOST_ROWS rows, and icehub_read_place gives its place. */
uint32_t icehub_member(const uint8_t *table, size_t table_len, uint32_t top, const uint8_t *message,
                       size_t message_len, uint32_t member, uint8_t *numbers, size_t numbers_len);

/* The other numbers of a reading, one by one. Each call checks table, top and message again, as icehub_read does with a
 * list of rows_len bytes, and changes nothing. Where icehub_read refuses, each but the place is 0. */

/* The place of the refusal; 0 where the message is accepted. */
uint32_t icehub_read_place(const uint8_t *table, size_t table_len, uint32_t top, const uint8_t *message,
                           size_t message_len, size_t rows_len);

/* The first known type: of a record the row of its first slice that the table knows, the top or one that descends
 * from it; of a parameter list the top. */
uint32_t icehub_read_type(const uint8_t *table, size_t table_len, uint32_t top, const uint8_t *message,
                          size_t message_len, size_t rows_len);

/* The format: ICEHUB_COMPACT; ICEHUB_SLICED, which a parameter list has too; ICEHUB_OLD for every message of encoding 1.0. */
uint32_t icehub_read_format(const uint8_t *table, size_t table_len, uint32_t top, const uint8_t *message,
                            size_t message_len, size_t rows_len);

/* How many rows icehub_read gives. */
uint32_t icehub_read_count(const uint8_t *table, size_t table_len, uint32_t top, const uint8_t *message,
                           size_t message_len, size_t rows_len);

/* How many optionals were skipped, because the table does not know their tags. */
uint32_t icehub_read_optionals_skipped(const uint8_t *table, size_t table_len, uint32_t top, const uint8_t *message,
                                       size_t message_len, size_t rows_len);

/* How many slices were skipped, because the table does not know their type IDs. What is in them is not counted. */
uint32_t icehub_read_slices_skipped(const uint8_t *table, size_t table_len, uint32_t top, const uint8_t *message,
                                    size_t message_len, size_t rows_len);

/* ---- The writer ----
 *
 *   table, table_len    the type table
 *   type                the number of the row to write: an exception, a class or a parameter list
 *   format              ICEHUB_SLICED, which a parameter list has too; or ICEHUB_OLD, but for a class. Every other is refused
 *   count               how many rows there are
 *   rows, rows_len      the rows: count * ICEHUB_ROW_SIZE bytes (fewer are an ICEHUB_BAD_ROW, more are ignored).
 *                       They go through the slices of the type from itself to its last base: in each the required
 *                       members as declared, then those optionals that are wanted, by rising tag
 *   buffer, buffer_len  what the places of the rows point into; rows may overlap there
 *   out, out_len        the lent output
 */

/* Writes a message. Returns ICEHUB_OK: the message is at the start of `out`, as long as icehub_write_length says,
 * and the bytes after it are unchanged. Or returns a refusal: `out` is unchanged. */
uint32_t icehub_write(const uint8_t *table, size_t table_len, uint32_t type, uint32_t format, uint32_t count,
                      const uint8_t *rows, size_t rows_len, const uint8_t *buffer, size_t buffer_len,
                      uint8_t *out, size_t out_len);

/* The other numbers of a writing. Each call checks the same input again, as icehub_write does with an output of out_len
 * bytes, and changes nothing. */

/* The place of the refusal; 0 where the message is written. With an out_len of 0, right rows are refused by
 * ICEHUB_OUTPUT_TOO_LONG, and the place is the length that their message needs. */
uint32_t icehub_write_place(const uint8_t *table, size_t table_len, uint32_t type, uint32_t format, uint32_t count,
                            const uint8_t *rows, size_t rows_len, const uint8_t *buffer, size_t buffer_len,
                            size_t out_len);

/* The length of the message that icehub_write makes; 0 where it refuses. */
uint32_t icehub_write_length(const uint8_t *table, size_t table_len, uint32_t type, uint32_t format, uint32_t count,
                             const uint8_t *rows, size_t rows_len, const uint8_t *buffer, size_t buffer_len,
                             size_t out_len);

/* ---- The converter ----
 *
 *   table, table_len      the type table
 *   top                   the number of the row wanted
 *   message, message_len  a compact record, of an archive or from an old sender
 *   out, out_len          the lent output
 */

/* Converts an accepted compact record, of which nothing is skipped, to the sliced one with the same first known type, the
 * same members and the same bytes, as the writer makes it of the record's own rows. An old hub, whose table lacks the
 * record's type, refuses the compact record by ICEHUB_UNKNOWN_COMPACT and reads the sliced one. Returns ICEHUB_OK: the
 * sliced record is at the start of `out`, as long as icehub_convert_length says, and the bytes after it are unchanged. Or
 * returns a refusal, `out` unchanged: one of icehub_read with a list of ICEHUB_MOST_ROWS rows, then ICEHUB_NOT_COMPACT,
 * ICEHUB_SKIPPED, ICEHUB_OUTPUT_TOO_LONG. */
uint32_t icehub_convert(const uint8_t *table, size_t table_len, uint32_t top, const uint8_t *message,
                        size_t message_len, uint8_t *out, size_t out_len);

/* The other numbers of a conversion. Each call checks the same input again, as icehub_convert does with an output of
 * out_len bytes, and changes nothing. */

/* The place of the refusal; 0 where the record is converted. With an out_len of 0, a record that can be converted is
 * refused by ICEHUB_OUTPUT_TOO_LONG, and the place is the length that its sliced form needs. */
uint32_t icehub_convert_place(const uint8_t *table, size_t table_len, uint32_t top, const uint8_t *message,
                              size_t message_len, size_t out_len);

/* The length of the sliced record that icehub_convert makes; 0 where it refuses. */
uint32_t icehub_convert_length(const uint8_t *table, size_t table_len, uint32_t top, const uint8_t *message,
                               size_t message_len, size_t out_len);

/* ---- One optional changed, the rest passed on ----
 *
 *   table, table_len      the type table
 *   top                   the number of the wanted type's row
 *   message, message_len  a parameter list or a sliced record, also of a newer sender
 *   member                the number of the member row: an optional of the message's first known type, or of a base of it
 *   bytes, bytes_len      its new value, as a row of icehub_read has it: without header and length field; a string,
 *                         sequence or dictionary with its own size
 *   out, out_len          the lent output; it does not overlap the message
 *
 * Everything else keeps its bytes and order, also the optionals and slices that the table does not know. Any table that
 * extends this one and accepted the message accepts the result: with the same first known type and skips, and a list that
 * differs in that member only, apart from places. So a hub sets the frost delay in a message of which it knows half
 * (examples/setting.c):
 *
 *     icehub_put(delay, 4, 3600);
 *     refusal = icehub_set(table, table_len, top, message, message_len, DELAY, delay, 4, out, sizeof out);
 *     length = icehub_set_length(table, table_len, top, message, message_len, DELAY, delay, 4, sizeof out);
 *
 * To change several members, change one after another, from one buffer into another. */

/* Sets an optional: adds it if the message does not have it, else replaces its value. Returns ICEHUB_OK: the result is at
 * the start of `out`, as long as icehub_set_length says, and the bytes after it are unchanged. Setting the bytes that the
 * member has gives the same message. Or returns a refusal, `out` is unchanged: one of icehub_read with a list of
 * ICEHUB_MOST_ROWS rows, then ICEHUB_NOT_OPTIONAL (for every member of a message of encoding 1.0), ICEHUB_IS_COMPACT,
 * ICEHUB_INPUT_TOO_LONG and ICEHUB_BAD_ROW_BYTES for the new bytes, ICEHUB_OUTPUT_TOO_LONG. */
uint32_t icehub_set(const uint8_t *table, size_t table_len, uint32_t top, const uint8_t *message, size_t message_len,
                    uint32_t member, const uint8_t *bytes, size_t bytes_len, uint8_t *out, size_t out_len);

/* The other numbers of a setting. Each call checks the same input again, as icehub_set does with an output of out_len
 * bytes, and changes nothing. */

/* The place of the refusal; 0 where there is a result. With an out_len of 0, what can be set is refused by
 * ICEHUB_OUTPUT_TOO_LONG, and the place is the length of the result. */
uint32_t icehub_set_place(const uint8_t *table, size_t table_len, uint32_t top, const uint8_t *message,
                          size_t message_len, uint32_t member, const uint8_t *bytes, size_t bytes_len, size_t out_len);

/* The length of the result that icehub_set gives; 0 where it refuses. */
uint32_t icehub_set_length(const uint8_t *table, size_t table_len, uint32_t top, const uint8_t *message,
                           size_t message_len, uint32_t member, const uint8_t *bytes, size_t bytes_len, size_t out_len);

/* Removes an optional that the message has. Returns ICEHUB_OK: the result is at the start of `out`, as long as
 * icehub_remove_length says, and the bytes after it are unchanged. Removing what was set where nothing was before gives
 * the message back. Or returns a refusal, `out` is unchanged: one of icehub_read with a list of ICEHUB_MOST_ROWS rows, then
 * ICEHUB_NOT_OPTIONAL (for every member of a message of encoding 1.0), ICEHUB_NOT_THERE, ICEHUB_IS_COMPACT,
 * ICEHUB_OUTPUT_TOO_LONG. */
uint32_t icehub_remove(const uint8_t *table, size_t table_len, uint32_t top, const uint8_t *message, size_t message_len,
                       uint32_t member, uint8_t *out, size_t out_len);

/* The place of the refusal; 0 where there is a result. As icehub_set_place. */
uint32_t icehub_remove_place(const uint8_t *table, size_t table_len, uint32_t top, const uint8_t *message,
                             size_t message_len, uint32_t member, size_t out_len);

/* The length of the result that icehub_remove gives; 0 where it refuses. */
uint32_t icehub_remove_length(const uint8_t *table, size_t table_len, uint32_t top, const uint8_t *message,
                              size_t message_len, uint32_t member, size_t out_len);

/* ---- Many messages in one buffer ----
 *
 *   table, table_len      the type table; it is checked once for the whole buffer
 *   top                   the number of the wanted type's row
 *   buffer, buffer_len    messages, back to back; any length
 *   answers, answers_len  the list of answers: answers_len / ICEHUB_ANSWER_SIZE have room
 *   rows, rows_len        the rows of all messages: rows_len / ICEHUB_ROW_SIZE have room
 */

/* Reads the messages of a buffer, one after another, each as icehub_read does with the room that is left in `rows`. Returns
 * the number of answers, which are at the start of `answers`. Each is seven numbers of 32 bits, little-endian: the refusal
 * or ICEHUB_OK, its place, then the first known type, the format, the number of rows, the optionals and the slices skipped
 * (icehub_number reads one). A refusal's place and the places of rows count from the message's own first byte. The rows of
 * the messages follow each other at the start of `rows`. Bytes after the answers and after the rows are unchanged.
 *
 * A refused message has no rows, and the walk goes on after it; ICEHUB_LIST_TOO_SHORT is the answer of that message alone.
 * The walk stops where nothing is left, where `answers` is full, and where fewer than four bytes are left or a size is under
 * 6, negative, above ICEHUB_MOST_BYTES or past the end of the buffer. What stops it has the last answer: the refusal of all
 * bytes that remain, or ICEHUB_INPUT_TOO_LONG for a size above the limit. Under a table that breaks a rule, or with a wrong
 * top, that is the answer of every message. */
size_t icehub_night(const uint8_t *table, size_t table_len, uint32_t top, const uint8_t *buffer, size_t buffer_len,
                    uint8_t *answers, size_t answers_len, uint8_t *rows, size_t rows_len);

/* The place of what stopped the walk, in the buffer: of the last answer if that is the one that stopped it, of the first
 * message without an answer if `answers` is full; else buffer_len. Messages are not read for it, only their sizes. */
size_t icehub_night_place(const uint8_t *table, size_t table_len, uint32_t top, const uint8_t *buffer,
                          size_t buffer_len, size_t answers_len, size_t rows_len);

/* ---- The season sheet ----
 *
 *   table, table_len      the type table; it is checked once for the whole buffer
 *   top                   the number of the wanted type's row
 *   buffer, buffer_len    messages, back to back, walked as by icehub_night with room for all
 *   member                the number of a member row, of type short or int
 *   sheet, sheet_len      the sheet: ICEHUB_SHEET_SIZE bytes; as many zero bytes are the empty one
 *
 * A sheet is, little-endian: how many messages carry the member, lack it, are refused, and the sum (8 bytes each); smallest
 * and largest value, and the mean's whole part and remainder (4 bytes each); then marks of one byte, 1 where smallest,
 * largest and mean are there, else 0; and a zero byte. Sum, smallest, largest and mean are signed. What is absent is 0. The
 * sum is the mean times the carriers plus the remainder, which is not negative and below the number of carriers. */

/* Adds what the messages of a buffer say of one member to the sheet. An accepted message whose list has no row of the member
 * lacks it; what stops the walk is a refused message. A buffer may be added in parts, each ending after a message: the sheet is
 * the same. Returns ICEHUB_OK, or the refusal, and the sheet is unchanged: the table's, ICEHUB_BAD_TYPE, ICEHUB_BAD_MEMBER,
 * ICEHUB_TOO_MANY_MESSAGES and ICEHUB_BAD_SHEET in this order (but another length than ICEHUB_SHEET_SIZE comes right after
 * ICEHUB_BAD_MEMBER). Mean, remainder, the mean's mark and the last byte of a given sheet are not judged. */
uint32_t icehub_sheet(const uint8_t *table, size_t table_len, uint32_t top, const uint8_t *buffer, size_t buffer_len,
                      uint32_t member, uint8_t *sheet, size_t sheet_len);

/* The place of that refusal: in the table where a rule is broken, else 0. The sheet is the one before the call. */
uint32_t icehub_sheet_place(const uint8_t *table, size_t table_len, uint32_t top, const uint8_t *buffer,
                            size_t buffer_len, uint32_t member, const uint8_t *sheet, size_t sheet_len);

/* ---- One endpoint of a proxy ----
 *
 * An endpoint is a type of two bytes and an encapsulation. Endpoints of TCP, SSL and UDP hold an address; what another
 * type holds is not read. A place counts bytes from the endpoint's first byte, or from the proxy's. In these calls 6 is at
 * the endpoint's version (place 6), and 24 of the writer is at 0. */

/* The types of endpoints that are opened. */
enum icehub_endpoint_type {
    ICEHUB_TCP = 1,
    ICEHUB_SSL = 2,
    ICEHUB_UDP = 3
};

/* Finds an endpoint of a proxy. `proxy` is the bytes of one proxy of encoding 1.1, all of them and nothing else, as the
 * row of a member of that type has them; the endpoints count from 0. Returns ICEHUB_OK: `numbers` begins with three numbers
 * of 32 bits, little-endian: how many endpoints the proxy has, then place and length of endpoint n, 0 and 0 if there is
 * none. Bytes beyond ICEHUB_PROXY_ENDPOINT_SIZE are unchanged. Or returns the refusal of the proxy, ICEHUB_LEFT_OVER for
 * bytes after it, or last ICEHUB_OUTPUT_TOO_LONG if numbers_len is below ICEHUB_PROXY_ENDPOINT_SIZE: `numbers` is
 * unchanged. */
uint32_t icehub_proxy_endpoint(const uint8_t *proxy, size_t proxy_len, uint32_t n, uint8_t *numbers, size_t numbers_len);

/* The place of the refusal; 0 where the proxy is accepted. */
uint32_t icehub_proxy_endpoint_place(const uint8_t *proxy, size_t proxy_len, uint32_t n, size_t numbers_len);

/* Opens an endpoint. `bytes` is one endpoint, all of it and nothing else. Returns ICEHUB_OK: `numbers` begins with seven
 * numbers of 32 bits, little-endian: 1 if it was opened and else 0; the type; place and length of the host's bytes, without
 * their size; port; timeout; compress. The timeout is any int (as an unsigned number), and 0 in UDP, which has none. Of a
 * type that is not opened only the type is given, and the rest is 0. Bytes beyond ICEHUB_ENDPOINT_SIZE are unchanged. Or
 * returns a refusal, last ICEHUB_OUTPUT_TOO_LONG if numbers_len is below ICEHUB_ENDPOINT_SIZE: `numbers` is unchanged. */
uint32_t icehub_endpoint(const uint8_t *bytes, size_t bytes_len, uint8_t *numbers, size_t numbers_len);

/* The place of the refusal; 0 where there is none. */
uint32_t icehub_endpoint_place(const uint8_t *bytes, size_t bytes_len, size_t numbers_len);

/* Writes an endpoint of ICEHUB_TCP, ICEHUB_SSL or ICEHUB_UDP. The host is text without a size. A timeout given for UDP is
 * ignored. Returns ICEHUB_OK: the endpoint is at the start of `out`, as long as icehub_endpoint_write_length says, and the
 * bytes after it are unchanged. Or returns a refusal, `out` is unchanged: ICEHUB_BAD_TYPE for another type,
 * ICEHUB_INPUT_TOO_LONG for a host over 65,536 bytes, ICEHUB_BAD_TEXT, ICEHUB_BAD_PORT, ICEHUB_OUTPUT_TOO_LONG, the first
 * of this order. */
uint32_t icehub_endpoint_write(uint32_t type, const uint8_t *host, size_t host_len, uint32_t port, uint32_t timeout,
                               bool compress, uint8_t *out, size_t out_len);

/* The place of the refusal: the length needed for ICEHUB_OUTPUT_TOO_LONG, else 0. */
uint32_t icehub_endpoint_write_place(uint32_t type, const uint8_t *host, size_t host_len, uint32_t port,
                                     uint32_t timeout, bool compress, size_t out_len);

/* The length of the endpoint that icehub_endpoint_write makes; 0 where it refuses. */
uint32_t icehub_endpoint_write_length(uint32_t type, const uint8_t *host, size_t host_len, uint32_t port,
                                      uint32_t timeout, bool compress, size_t out_len);

/* ---- Satellite bursts ----
 *
 * A burst carries at most ICEHUB_BURST_BYTES bytes. A plan says which waiting message goes in which burst.
 *
 *   messages, messages_len  the waiting messages: two numbers each, its length in bytes and its cabin. Messages are counted
 *                           from 0
 *   entries, entries_len    the plan: two numbers an entry, a message's number and its burst's. Lengths count numbers, not
 *                           bytes or pairs; a last number without its pair is ignored
 *
 * A plan is right if burst numbers start at 0 and each is the one before or one more, each message is in exactly one entry,
 * the messages of each burst add up to at most ICEHUB_BURST_BYTES bytes, and messages of one cabin are in their waiting
 * order. No call needs memory of its own. icehub_plan takes time in proportion to the messages. So does icehub_check_plan
 * if message numbers rise from entry to entry; an entry whose number does not is compared with all entries before it, so
 * the time may grow with the square of their number. */

/* Checks a plan of any make. Returns ICEHUB_OK or ICEHUB_BAD_PLAN. */
uint32_t icehub_check_plan(const uint64_t *messages, size_t messages_len, const uint64_t *entries, size_t entries_len);

/* The place of that refusal: the number of the first entry that breaks a rule with the entries before it, or the number of
 * entries where only messages are missing; 0 if the plan is right. */
uint64_t icehub_check_plan_place(const uint64_t *messages, size_t messages_len, const uint64_t *entries,
                                 size_t entries_len);

/* Makes a plan that icehub_check_plan accepts: takes the messages in turn, and opens a new burst only where the next message
 * does not fit. Returns ICEHUB_OK: `entries` begins with one entry for each message, and the numbers after these are
 * unchanged. Or returns ICEHUB_MESSAGE_TOO_LONG, or ICEHUB_LIST_TOO_SHORT (a list as long as `messages` is long enough): `entries`
 * is unchanged. */
uint32_t icehub_plan(const uint64_t *messages, size_t messages_len, uint64_t *entries, size_t entries_len);

/* The place of its refusal, with a list of entries_len numbers: the number of the first message that is too long, or how
 * many entries are needed; 0 if a plan is made. */
uint64_t icehub_plan_place(const uint64_t *messages, size_t messages_len, size_t entries_len);

/* ---- The frost guard ----
 *
 * A layer over the reader: it takes the reports of one thermostat, one after another, and says when the timer fires. It
 * holds the table of these reports itself: a parameter list of a short (the reading), an optional(7) long (the tick, in
 * milliseconds) and an optional(8) int (the delay, in whole seconds).
 *
 * A reading at or below the set point starts a freeze at its tick, if none runs; one above ends it. A report says that
 * the timer fires exactly if a freeze runs after it and its tick minus the start is at least a thousand times its delay.
 *
 * The state is kept by the caller, in ICEHUB_GUARD_SIZE bytes, little-endian: the set point (2 bytes), one byte each
 * that is 1 if there is a tick, a freeze, a delay, three zero bytes, the last tick (8), the start of the freeze (8), the
 * delay (4), four zero bytes. What is not there is 0. Nothing else has to be kept, and nothing overflows: ticks go up to
 * the largest long.
 *
 *   set_point               a signed short, in the units of the readings
 *   state, state_len        the state before the report, ICEHUB_GUARD_SIZE bytes
 *   message, message_len    the report, one message
 *   next, next_len          the lent bytes for the state after it; bytes beyond ICEHUB_GUARD_SIZE are unchanged
 */

/* Puts the state at the start, without tick, freeze or delay. Returns ICEHUB_OK; or ICEHUB_OUTPUT_TOO_LONG if state_len
 * is below ICEHUB_GUARD_SIZE, and `state` is unchanged. */
uint32_t icehub_guard_start(uint16_t set_point, uint8_t *state, size_t state_len);

/* Takes a report. Returns ICEHUB_OK: `next` begins with the state after it. Or returns a refusal, and `next` is
 * unchanged: go on with the old state. The order is ICEHUB_BAD_STATE, those of icehub_read, ICEHUB_MISSING_FIELD,
 * ICEHUB_BAD_TICK, ICEHUB_BAD_DELAY, and ICEHUB_OUTPUT_TOO_LONG if next_len is below ICEHUB_GUARD_SIZE. A state that
 * these calls made is never refused. `next` must not overlap `state`: copy it over afterwards. */
uint32_t icehub_guard_report(const uint8_t *state, size_t state_len, const uint8_t *message, size_t message_len,
                             uint8_t *next, size_t next_len);

/* The place of the refusal; 0 where the report is accepted. */
uint32_t icehub_guard_place(const uint8_t *state, size_t state_len, const uint8_t *message, size_t message_len,
                            size_t next_len);

/* 1 if the timer fires with this report, else 0; 0 where the report is refused. */
uint32_t icehub_guard_fires(const uint8_t *state, size_t state_len, const uint8_t *message, size_t message_len,
                            size_t next_len);

/* ---- Two tables compared ----
 *
 * Before a new table is shipped: every difference from the old one, and whether an old hub reads everything that a new
 * sender writes.
 *
 *   old, old_len, old_top   the old table and the chosen row of it
 *   new_table, new_len, new_top   the new one's
 *   list, list_len          the lent list: ICEHUB_DIFFERENCE_SIZE bytes a difference
 *
 * A difference is five 32-bit numbers: what it is about, old and new owner row, old and new member row, each row plus 1, or
 * 0 for none. What: 0 a record or parameter list that only one table has (its members are not listed), 1 a base, 2 a
 * required position, 3 an optional tag. They come by record name (bytes compared, for one name in two kinds the old table's
 * first), parameter lists after records by their order; of each first the base, then required positions, then tags.
 *
 * A call needs about 30 KB of stack. Types are compared row by row, never by their trees. */

/* Compares two tables. Returns ICEHUB_OK: `list` begins with the differences, and the bytes after these are unchanged. Or
 * returns a refusal, and `list` is unchanged: the rule that the old table breaks; the rule that the new one breaks, whose
 * place has ICEHUB_NEW_TABLE added; ICEHUB_BAD_TYPE for either top; ICEHUB_LIST_TOO_SHORT. */
uint32_t icehub_compare(const uint8_t *old, size_t old_len, uint32_t old_top, const uint8_t *new_table, size_t new_len,
                        uint32_t new_top, uint8_t *list, size_t list_len);

/* The place of its refusal, with a list of list_len bytes: the number of differences where that is too short. */
uint32_t icehub_compare_place(const uint8_t *old, size_t old_len, uint32_t old_top, const uint8_t *new_table,
                              size_t new_len, uint32_t new_top, size_t list_len);

/* The number of differences; 0 on a refusal. */
uint32_t icehub_compare_count(const uint8_t *old, size_t old_len, uint32_t old_top, const uint8_t *new_table,
                              size_t new_len, uint32_t new_top, size_t list_len);

/* 1 if the new table extends the old one and the two tops match, so that a hub with the old table reads every message of
 * encoding 1.1 that icehub_write makes under the new one; else 0, and 0 on a refusal. */
uint32_t icehub_compare_extends(const uint8_t *old, size_t old_len, uint32_t old_top, const uint8_t *new_table,
                                size_t new_len, uint32_t new_top, size_t list_len);

/* ---- Rows, numbers and refusals, for C callers ----
 *
 * These functions are C, compiled with the caller: no proof is about them, and they call nothing. They check no length:
 * the bytes they are given have to be there.
 */

/* The number in `count` bytes, 1 to 8, little-endian, without a sign. */
static inline uint64_t icehub_unsigned(const uint8_t *bytes, size_t count)
{
    uint64_t number = 0;
    while (count > 0) {
        count--;
        number = number << 8 | bytes[count];
    }
    return number;
}

/* The number in `count` bytes, 1 to 8, little-endian, with a sign in two's complement. */
static inline int64_t icehub_signed(const uint8_t *bytes, size_t count)
{
    const uint64_t number = icehub_unsigned(bytes, count);
    const uint64_t sign = (uint64_t)1 << (8 * count - 1);
    return number < sign ? (int64_t)number : (int64_t)(number - sign) - (int64_t)(sign - 1) - 1;
}

/* The signed numbers of 1, 2, 4 and 8 bytes: short is icehub_i16, int is icehub_i32, long is icehub_i64. Ask for the
 * width that the table gives the member: a long read as four bytes is another number. */
static inline int8_t icehub_i8(const uint8_t *bytes) { return (int8_t)icehub_signed(bytes, 1); }
static inline int16_t icehub_i16(const uint8_t *bytes) { return (int16_t)icehub_signed(bytes, 2); }
static inline int32_t icehub_i32(const uint8_t *bytes) { return (int32_t)icehub_signed(bytes, 4); }
static inline int64_t icehub_i64(const uint8_t *bytes) { return icehub_signed(bytes, 8); }

/* Number i of 32-bit numbers: those of icehub_read_numbers, icehub_member, icehub_endpoint or icehub_proxy_endpoint, of an
 * answer of icehub_night, or of a difference of icehub_compare. */
static inline uint32_t icehub_number(const uint8_t *numbers, size_t i)
{
    return (uint32_t)icehub_unsigned(numbers + 4 * i, 4);
}

/* The three numbers of row i of a list. */
static inline uint32_t icehub_row_member(const uint8_t *rows, size_t i)
{
    return (uint32_t)icehub_unsigned(rows + (size_t)ICEHUB_ROW_SIZE * i, 4);
}

static inline uint32_t icehub_row_place(const uint8_t *rows, size_t i)
{
    return (uint32_t)icehub_unsigned(rows + (size_t)ICEHUB_ROW_SIZE * i + 4, 4);
}

static inline uint32_t icehub_row_length(const uint8_t *rows, size_t i)
{
    return (uint32_t)icehub_unsigned(rows + (size_t)ICEHUB_ROW_SIZE * i + 8, 4);
}

/* Puts a number into `count` bytes, 1 to 8, little-endian. A negative number goes in as it is: the upper bytes of its
 * two's complement are cut off. */
static inline void icehub_put(uint8_t *bytes, size_t count, int64_t number)
{
    uint64_t rest = (uint64_t)number;
    size_t i;
    for (i = 0; i < count; i++) {
        bytes[i] = (uint8_t)(rest & 255);
        rest >>= 8;
    }
}

/* Puts row i of a list. */
static inline void icehub_put_row(uint8_t *rows, size_t i, uint32_t member, uint32_t place, uint32_t length)
{
    icehub_put(rows + (size_t)ICEHUB_ROW_SIZE * i, 4, member);
    icehub_put(rows + (size_t)ICEHUB_ROW_SIZE * i + 4, 4, place);
    icehub_put(rows + (size_t)ICEHUB_ROW_SIZE * i + 8, 4, length);
}

/* The name of a refusal, without ICEHUB_; an empty string for a number that this header does not know. */
static inline const char *icehub_refusal_name(uint32_t refusal)
{
    switch (refusal) {
    case ICEHUB_OK: return "OK";
    case ICEHUB_BAD_TYPE: return "BAD_TYPE";
    case ICEHUB_INPUT_TOO_LONG: return "INPUT_TOO_LONG";
    case ICEHUB_CUT_OFF: return "CUT_OFF";
    case ICEHUB_BAD_OUTER_SIZE: return "BAD_OUTER_SIZE";
    case ICEHUB_BAD_VERSION: return "BAD_VERSION";
    case ICEHUB_BAD_SIZE: return "BAD_SIZE";
    case ICEHUB_BAD_BOOL: return "BAD_BOOL";
    case ICEHUB_BAD_ENUMERATOR: return "BAD_ENUMERATOR";
    case ICEHUB_BAD_PROXY: return "BAD_PROXY";
    case ICEHUB_BAD_LENGTH: return "BAD_LENGTH";
    case ICEHUB_BAD_HEADER: return "BAD_HEADER";
    case ICEHUB_NOT_COVERED: return "NOT_COVERED";
    case ICEHUB_BAD_FLAGS: return "BAD_FLAGS";
    case ICEHUB_UNKNOWN_COMPACT: return "UNKNOWN_COMPACT";
    case ICEHUB_UNKNOWN_SLICED: return "UNKNOWN_SLICED";
    case ICEHUB_BAD_CHAIN: return "BAD_CHAIN";
    case ICEHUB_LEFT_OVER: return "LEFT_OVER";
    case ICEHUB_LIST_TOO_SHORT: return "LIST_TOO_SHORT";
    case ICEHUB_BAD_ROW: return "BAD_ROW";
    case ICEHUB_BAD_ROW_BYTES: return "BAD_ROW_BYTES";
    case ICEHUB_OUTPUT_TOO_LONG: return "OUTPUT_TOO_LONG";
    case ICEHUB_BAD_FORMAT: return "BAD_FORMAT";
    case ICEHUB_BAD_TEXT: return "BAD_TEXT";
    case ICEHUB_BAD_OLD_HEADER: return "BAD_OLD_HEADER";
    case ICEHUB_OLD_OPTIONALS: return "OLD_OPTIONALS";
    case ICEHUB_BAD_PORT: return "BAD_PORT";
    case ICEHUB_BAD_TABLE_HEADER: return "BAD_TABLE_HEADER";
    case ICEHUB_BAD_TABLE_ZEROS: return "BAD_TABLE_ZEROS";
    case ICEHUB_BAD_TABLE_KIND: return "BAD_TABLE_KIND";
    case ICEHUB_BAD_TABLE_REFERENCE: return "BAD_TABLE_REFERENCE";
    case ICEHUB_BAD_TABLE_MEMBERS: return "BAD_TABLE_MEMBERS";
    case ICEHUB_BAD_TABLE_MARK: return "BAD_TABLE_MARK";
    case ICEHUB_BAD_TABLE_NAME: return "BAD_TABLE_NAME";
    case ICEHUB_BAD_TABLE_TAG: return "BAD_TABLE_TAG";
    case ICEHUB_BAD_TABLE_ENUMERATORS: return "BAD_TABLE_ENUMERATORS";
    case ICEHUB_BAD_TICK: return "BAD_TICK";
    case ICEHUB_BAD_DELAY: return "BAD_DELAY";
    case ICEHUB_MISSING_FIELD: return "MISSING_FIELD";
    case ICEHUB_BAD_MEMBER: return "BAD_MEMBER";
    case ICEHUB_TOO_MANY_MESSAGES: return "TOO_MANY_MESSAGES";
    case ICEHUB_MESSAGE_TOO_LONG: return "MESSAGE_TOO_LONG";
    case ICEHUB_BAD_PLAN: return "BAD_PLAN";
    case ICEHUB_NOT_COMPACT: return "NOT_COMPACT";
    case ICEHUB_SKIPPED: return "SKIPPED";
    case ICEHUB_NOT_OPTIONAL: return "NOT_OPTIONAL";
    case ICEHUB_NOT_THERE: return "NOT_THERE";
    case ICEHUB_IS_COMPACT: return "IS_COMPACT";
    case ICEHUB_BAD_STATE: return "BAD_STATE";
    case ICEHUB_BAD_SHEET: return "BAD_SHEET";
    default: return "";
    }
}

/* A refusal in words; an empty string for a number that this header does not know. */
static inline const char *icehub_refusal_text(uint32_t refusal)
{
    switch (refusal) {
    case ICEHUB_OK: return "not refused";
    case ICEHUB_BAD_TYPE: return "the type is not in the table, or is no exception, class or parameter list";
    case ICEHUB_INPUT_TOO_LONG: return "the message, the writer's buffer, or what is to be set is over 65,536 bytes long";
    case ICEHUB_CUT_OFF: return "an item or a declared length runs past what holds it";
    case ICEHUB_BAD_OUTER_SIZE: return "the encapsulation's size is under 6 or not the message's length";
    case ICEHUB_BAD_VERSION:
        return "the encoding's version is neither 1.1 nor 1.0, or is 1.0 with a class as the top";
    case ICEHUB_BAD_SIZE: return "a size below 255 in the long form, or a negative size";
    case ICEHUB_BAD_BOOL: return "a bool is neither 0 nor 1";
    case ICEHUB_BAD_ENUMERATOR: return "an enumerator is not one that its enum allows";
    case ICEHUB_BAD_PROXY: return "a proxy's identity, facet count or mode is wrong";
    case ICEHUB_BAD_LENGTH:
        return "a declared length is below its least (FSize 1, slice 4, endpoint 6), negative, or not"
               " used up";
    case ICEHUB_BAD_HEADER:
        return "an optional's header is wrong: upper bits 31 where no end marker may be, a long tag "
               "under 30, a tag that does not rise, or another type than the table's";
    case ICEHUB_NOT_COVERED:
        return "an optional of a class, an indirection table, a type ID that is no string, or a class"
               " marker other than 1";
    case ICEHUB_BAD_FLAGS:
        return "a slice's flags are wrong: bit 6 or 7 set, formats mixed, the type ID missing, or bit"
               " 2 set with no optional";
    case ICEHUB_UNKNOWN_COMPACT: return "the first type ID of a compact record is not in the table";
    case ICEHUB_UNKNOWN_SLICED: return "no type ID of a sliced record is in the table";
    case ICEHUB_BAD_CHAIN: return "the slices, or their last bit, do not follow the table's bases";
    case ICEHUB_LEFT_OVER: return "bytes follow the record";
    case ICEHUB_LIST_TOO_SHORT: return "the lent list is too short";
    case ICEHUB_BAD_ROW: return "writer: a row is wrong, missing, out of order or outside the buffer";
    case ICEHUB_BAD_ROW_BYTES: return "writer, set: the bytes are not exactly a value of the member's type";
    case ICEHUB_OUTPUT_TOO_LONG: return "the output is longer than its room or 65,536 bytes";
    case ICEHUB_BAD_FORMAT: return "writer: the format is not 1 or 2, or 2 for a class";
    case ICEHUB_BAD_TEXT: return "a string is not well-formed UTF-8";
    case ICEHUB_BAD_OLD_HEADER: return "the header byte of a 1.0 exception is not 0";
    case ICEHUB_OLD_OPTIONALS:
        return "encoding 1.0 where the type, a base of it or a record that descends from it has "
               "optionals";
    case ICEHUB_BAD_PORT: return "an endpoint's port is not 1 to 65,535";
    case ICEHUB_BAD_TABLE_HEADER: return "the table's header is wrong, or its length is not what the header says";
    case ICEHUB_BAD_TABLE_ZEROS:
        return "in a row of the table a zero byte or an unused field is not 0, or a required member has a "
               "tag";
    case ICEHUB_BAD_TABLE_KIND: return "a type row of the table has an unknown kind";
    case ICEHUB_BAD_TABLE_REFERENCE:
        return "a row of the table refers to a row that is not smaller, or is of the wrong kind";
    case ICEHUB_BAD_TABLE_MEMBERS: return "the table's member rows are not taken in turn, or not all taken";
    case ICEHUB_BAD_TABLE_MARK: return "a struct of the table has no member, or a member's mark is wrong";
    case ICEHUB_BAD_TABLE_NAME:
        return "a record's name lies outside the table's name bytes, is not 1 to 255 bytes long, is not "
               "well-formed UTF-8, or is another record's";
    case ICEHUB_BAD_TABLE_TAG:
        return "a tag or an enum's greatest enumerator is over 2,147,483,647, or an owner has a tag twice";
    case ICEHUB_BAD_TABLE_ENUMERATORS:
        return "an enum's list of enumerators is not taken in turn, is empty, reaches beyond the entries, does not "
               "rise or does not end with the greatest, or entries are left over";
    case ICEHUB_BAD_TICK: return "frost guard: the tick is negative or lower than the last";
    case ICEHUB_BAD_DELAY: return "frost guard: the delay is negative";
    case ICEHUB_MISSING_FIELD: return "frost guard: the report lacks its tick or its delay";
    case ICEHUB_BAD_MEMBER: return "season sheet: the member is not in the table, or is neither a short nor an int";
    case ICEHUB_TOO_MANY_MESSAGES:
        return "season sheet: the messages of the buffer and those on the sheet are more than 1,000,000";
    case ICEHUB_MESSAGE_TOO_LONG: return "planner: a message is longer than a burst, over 340 bytes";
    case ICEHUB_BAD_PLAN:
        return "an entry of a plan breaks a rule with the entries before it, or messages are missing";
    case ICEHUB_NOT_COMPACT: return "converter: the message is no compact record";
    case ICEHUB_SKIPPED: return "converter: something in the message is skipped, as the table does not know it";
    case ICEHUB_NOT_OPTIONAL:
        return "set, remove: the member is not an optional of the message's type or of a base of it";
    case ICEHUB_NOT_THERE: return "remove: the message does not have the member";
    case ICEHUB_IS_COMPACT: return "set, remove: the message is a compact record";
    case ICEHUB_BAD_STATE:
        return "frost guard: the state has another length or mark, a negative tick, start or delay, or a start and no "
               "tick at or after it";
    case ICEHUB_BAD_SHEET:
        return "season sheet: the sheet is not 52 bytes long, a mark is neither 0 nor 1, it has carriers and no smallest or "
               "largest value, or either without carriers, or its sum is not between their number times these";
    default: return "";
    }
}

#ifdef __cplusplus
}
#endif

#endif
