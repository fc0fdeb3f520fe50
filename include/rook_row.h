/* The typed-row codec, proved for every input. Link with librook_row.a.
 *
 * Slices. A slice passes as a pointer and then its length, in bytes; `wanted` in column numbers, `counts` in numbers of
 * 32 bits, each aligned as its type is. An empty slice may have any pointer. What a call writes to (`out`, `counts`,
 * `buf`, a handle) overlaps no other slice; slices that it only reads may overlap.
 *
 * Answers. Every answer comes back by value. `number` is 0 for done, else that of the refusal; `place` goes with it.
 * Columns and bytes count from 0.
 *
 *   number                                                                         place
 *    1  a schema record of unknown kind, or cut off                                its first byte in the schema
 *    2  a 257th schema record; precision outside 1 to 38; scale above precision    its first byte in the schema
 *       rows of the schema would be above the limit of their sort                  the schema's length
 *    3  row under 4 bytes, or under the schema's minimum                           0
 *    4  row above the limit of its sort                                            0
 *    5  the row's column count is not the schema's                                 0
 *    6  the row's Varchar count is not the schema's                                0
 *    7  a wanted Varchar's range leaves the row                                    the column
 *    8  a wanted column's bytes are no value of its type                           the column
 *    9  no such column                                                             0
 *   10  a value record of unknown kind, or cut off                                 its first byte in the list
 *       another number of records than is due                                      the list's length
 *       text area above the limit of the row's sort                                0
 *   11  a value of another kind than the column's type; null given to a set        the column
 *   12  a value that its type does not hold, or a range past the text area        the column
 *   13  the row would pass the limit of its sort                                   0
 *   14  no room in the lent output; row_length beyond the buffer;                  0
 *       or fewer numbers lent than the schema has columns                          0
 *   15  the row to be edited is not sound                                          0
 *   16  a row list that ends inside a length or a row, or has more than 512 rows   0
 *       or 32,768 bytes
 *   17  a text to be printed has a double quote or a byte below 32                 the column
 *
 * What a refusal leaves. No lent byte or number is changed. What else the call hands out is 0, but the `length` of a
 * refused edit is the `row_length` that it got, so that it can be stored in any case.
 *
 * Threads. The calls keep no state: any number may run at once, as long as none writes what another is lent.
 *
 * Sorts. A row is short or long. A long one has the mark 0x4000 in the second number of its header, and four bytes for
 * each offset of a Varchar where a short one has two; all else is the same.
 *                                               short       long
 *   the limit: of a row (2, 4, 13),
 *     and of a text area (10)                   65,535      1,048,576      bytes
 * Whoever makes a row chooses its sort: `is_long` of rook_row_fresh and rook_row_build. All other calls go by the row's
 * own mark, whatever else is wrong with the row; a row under four bytes, or past its buffer, counts as short. Every
 * schema that is good for short rows is good for long ones.
 *
 * Schema. A record for each column, end to end: a byte of kind, then its body. Numbers have their low byte first.
 *   1 SmallInt   2 Int   3 BigInt   4 Real   5 DoublePrecision   8 Bool   12 Date   13 Time   15 Timestamp   no body
 *   6 Numeric    7 Decimal                     precision, scale: a byte each
 *   9 Char      10 Character    11 Varchar     n, the bytes of the text: two bytes
 *  16 Varchar, counted in characters           n, the code points of the text: two bytes
 *  14 Bit                                      n, the bits: two bytes
 * Kinds 11 and 16 differ only in what n counts; a Varchar is either.
 *
 * Value list. A record for each value, end to end: a byte of kind, then its body.
 *   0 null                                     no body
 *   1 SmallInt   2 Int   3 BigInt              2, 4, 8 bytes, two's complement
 *   4 Real       5 DoublePrecision             4, 8 bytes
 *   6 Numeric, Decimal                         the number without its point: 16 bytes, two's complement; scale: 1 byte
 *   7 Bool                                     0 or 1: 1 byte
 *   8 Char, Character   9 Varchar   12 Bit     start and length in the text area: two bytes each
 *  17 Char, Character  18 Varchar   19 Bit     the same: four bytes each
 *  10 Date                                     days from 1970-01-01: 4 bytes
 *  11 Time                                     microseconds from midnight: 8 bytes
 *  13 Timestamp                                microseconds from 1970-01-01: 8 bytes
 * A short row reads into 8, 9 and 12, a long one into 17, 18 and 19. Either may be given for a row of either sort.
 *
 * Row list. Rows end to end, each after its length in two bytes: at most 512 rows and 32,768 bytes, the lengths among
 * them. An empty list has no rows, and a row may have any bytes. */
#ifndef ROOK_ROW_H
#define ROOK_ROW_H

#include <stdbool.h>
#include <stddef.h>
#include <stdint.h>

#ifdef __cplusplus
extern "C" {
#endif

/* The version of this interface: of this header. The first two numbers are its series, within which no call changes its
 * form; an added call or kind raises the third. The last line is the version as rook_row_version answers it for the
 * library. */
#define ROOK_ROW_VERSION_MAJOR 0
#define ROOK_ROW_VERSION_MINOR 4
#define ROOK_ROW_VERSION_PATCH 0
#define ROOK_ROW_VERSION "0.4.0"
#define ROOK_ROW_VERSION_NUMBER \
    ((uint32_t)ROOK_ROW_VERSION_MAJOR << 16 | ROOK_ROW_VERSION_MINOR << 8 | ROOK_ROW_VERSION_PATCH)

/* The most columns of a schema, the most bytes of a short row and its text area, of a long row and its text area, and
 * bytes that any value record fits. */
enum {
    ROOK_MAX_COLUMNS = 256,
    ROOK_MAX_ROW = 65535,
    ROOK_MAX_TEXT = 65535,
    ROOK_MAX_LONG_ROW = 1048576,
    ROOK_MAX_LONG_TEXT = 1048576,
    ROOK_MAX_RECORD = 18
};

/* The most rows and bytes of a row list, and bytes that its printed lines always fit: 126 a row. */
enum { ROOK_MAX_LIST_ROWS = 512, ROOK_MAX_LIST = 32768, ROOK_MAX_PRINTED = 64512 };

/* Schema kinds. */
enum {
    ROOK_SMALL_INT = 1,
    ROOK_INT = 2,
    ROOK_BIG_INT = 3,
    ROOK_REAL = 4,
    ROOK_DOUBLE_PRECISION = 5,
    ROOK_NUMERIC = 6,
    ROOK_DECIMAL = 7,
    ROOK_BOOL = 8,
    ROOK_CHAR = 9,
    ROOK_CHARACTER = 10,
    ROOK_VARCHAR = 11,
    ROOK_DATE = 12,
    ROOK_TIME = 13,
    ROOK_BIT = 14,
    ROOK_TIMESTAMP = 15,
    ROOK_VARCHAR_CHARS = 16
};

/* Value kinds. */
enum {
    ROOK_VALUE_NULL = 0,
    ROOK_VALUE_SMALL_INT = 1,
    ROOK_VALUE_INT = 2,
    ROOK_VALUE_BIG_INT = 3,
    ROOK_VALUE_REAL = 4,
    ROOK_VALUE_DOUBLE_PRECISION = 5,
    ROOK_VALUE_NUMERIC = 6,
    ROOK_VALUE_BOOL = 7,
    ROOK_VALUE_CHAR = 8,
    ROOK_VALUE_VARCHAR = 9,
    ROOK_VALUE_DATE = 10,
    ROOK_VALUE_TIME = 11,
    ROOK_VALUE_BIT = 12,
    ROOK_VALUE_TIMESTAMP = 13,
    ROOK_VALUE_LONG_CHAR = 17,
    ROOK_VALUE_LONG_VARCHAR = 18,
    ROOK_VALUE_LONG_BIT = 19
};

/* Numbers of answers. */
enum {
    ROOK_DONE = 0,
    ROOK_BAD_RECORD = 1,
    ROOK_BAD_SCHEMA = 2,
    ROOK_ROW_TOO_SHORT = 3,
    ROOK_ROW_TOO_LONG = 4,
    ROOK_WRONG_COLUMN_COUNT = 5,
    ROOK_WRONG_VARLEN_COUNT = 6,
    ROOK_BAD_RANGE = 7,
    ROOK_NO_VALUE = 8,
    ROOK_NO_SUCH_COLUMN = 9,
    ROOK_BAD_VALUE_LIST = 10,
    ROOK_WRONG_KIND = 11,
    ROOK_UNSUITABLE = 12,
    ROOK_ROW_LIMIT = 13,
    ROOK_NO_ROOM = 14,
    ROOK_NOT_SOUND = 15,
    ROOK_BAD_LIST = 16,
    ROOK_UNPRINTABLE = 17
};

/* What a number says, for people. */
static inline const char *rook_number_text(uint32_t number) {
    static const char *const texts[] = {"done",
                                        "a schema record of unknown kind, or cut off",
                                        "a schema that no row can have",
                                        "the row is too short",
                                        "the row is above the limit of its sort",
                                        "the row has another number of columns than the schema",
                                        "the row has another number of Varchars than the schema",
                                        "a Varchar's range leaves the row",
                                        "a column's bytes are no value of its type",
                                        "no such column",
                                        "the value list is not what is due",
                                        "a value of another kind than the column's type",
                                        "a value that the column's type does not hold",
                                        "the row would pass the limit of its sort",
                                        "no room",
                                        "the row to be edited is not sound",
                                        "the row list is cut, or over its limits",
                                        "a text with a double quote or a byte below 32"};
    return number < sizeof texts / sizeof *texts ? texts[number] : "a number that this header does not know";
}

typedef struct {
    uint32_t number;
    size_t place;
    size_t length; /* of what was written; for an edit the row's */
} rook_row_answer;

typedef struct {
    uint32_t number;
    size_t place;
    size_t flag; /* 0 or 1 */
} rook_flag_answer;

typedef struct {
    uint32_t number;
    size_t place;
    size_t start; /* in the row */
    size_t length;
} rook_text_answer;

typedef struct {
    uint32_t valid; /* 1 for text, else 0 */
    size_t points;  /* the code points of the text; 0 if it is none */
} rook_check_answer;

/* A handle: a row's length, and its layout: how many columns, how many Varchars, the bytes of the fixed columns,
 * whether the row is packed, and whether it is long, 0 or 1 each. No call uses the layout that it gets, so a handle is
 * made of the length that fresh, build or an edit handed back, and zeros. It has no padding: an accepted call stores
 * every byte of it. */
typedef struct {
    size_t num_columns;
    size_t num_varlen_cols;
    size_t fixed_size;
    size_t packed;  /* 0 or 1 */
    size_t is_long; /* 0 or 1 */
} rook_row_layout;

typedef struct {
    size_t length;
    rook_row_layout layout;
} rook_row_handle;

/* The row of nulls.
 * Gets a schema and the row's sort, and writes the row at the front of `out`; bytes past the row stay as they are.
 * Answers with the row's length.
 * Refuses with 1 and 2 (schema), 14 (out too short); then `out` is as it was, and `length` 0. */
rook_row_answer rook_row_fresh(const uint8_t *schema, size_t schema_length, bool is_long, uint8_t *out,
                               size_t out_length);

/* The row of a value list.
 * Gets a schema, the row's sort, a value list with one record for each column, and the text area in which its texts
 * and bit strings lie, of at most 65,535 bytes, for a long row of at most 1,048,576; writes the row at the front of
 * `out`, and at the front of `counts` a number for each column: the code points of a Char, Character or Varchar as it
 * is stored, a Char's blanks with them, and 0 for a null and for every other type. Bytes past the row and numbers past
 * the last column stay as they are.
 * Answers with the row's length.
 * Refuses with 1 and 2 (schema), 10 (value list, text area), 11 and 12 (a column's value), 13 (row above the limit of
 * its sort), 14 (out too short, or fewer counts than columns); then `out` and `counts` are as they were, and `length`
 * 0. */
rook_row_answer rook_row_build(const uint8_t *schema, size_t schema_length, bool is_long, const uint8_t *values,
                               size_t values_length, const uint8_t *text, size_t text_length, uint8_t *out,
                               size_t out_length, uint32_t *counts, size_t counts_length);

/* The values of chosen columns of a row.
 * Gets a schema, a row and `wanted_count` column numbers, in any order, repeats allowed, unknown ones ignored; writes
 * a value list at the front of `out`, a record for each column of the schema, null for an unwanted one, and at the
 * front of `counts` a number for each column: the code points of a wanted Char, Character or Varchar as it is stored, a
 * Char's blanks with them, and 0 for a null, for an unwanted column and for every other type. The list's text area is
 * the row itself; the texts and bit strings of a long row are of kinds 17 to 19. 18 bytes a column are always enough;
 * bytes past the list and numbers past the last column stay as they are.
 * Answers with the list's length.
 * Refuses with 1 and 2 (schema), 4, 3, 5, 6, 3 (row), 7 and 8 (a wanted column), 14 (out too short, or fewer counts
 * than columns); then `out` and `counts` are as they were, and `length` 0. */
rook_row_answer rook_row_read(const uint8_t *schema, size_t schema_length, const uint8_t *row, size_t row_length,
                              const uint16_t *wanted, size_t wanted_count, uint8_t *out, size_t out_length,
                              uint32_t *counts, size_t counts_length);

/* A column set to a value, in place.
 * Gets a schema, a buffer whose first `row_length` bytes are the row, the column, a value list of exactly one record,
 * not null, and its text area. Neither list nor text area may lie in `buf`: to set a column to a text of the row
 * itself, copy the text out first. The row grows or shrinks with a Varchar's text, and stays short or long; bytes past
 * the new end stay as they are.
 * Answers with the row's length afterwards.
 * Refuses with 1 and 2 (schema), 14 (row_length beyond buf), 15 (the row is not sound), 9 (no such column), 10 (not
 * exactly one good record; the text area, by the row's sort), 11 and 12 (the value; null is 11), 13 (row above the
 * limit of its sort), 14 (buf too short); then `buf` is as it was, and `length` is `row_length`. */
rook_row_answer rook_row_set(const uint8_t *schema, size_t schema_length, uint8_t *buf, size_t buf_length,
                             size_t row_length, size_t column, const uint8_t *values, size_t values_length,
                             const uint8_t *text, size_t text_length);

/* A column set to null, in place.
 * Gets a schema, a buffer whose first `row_length` bytes are the row, and the column. The text of a Varchar is taken
 * out; the slot of a fixed column stays as it is, only its bit says null. Bytes past the new end stay as they are.
 * Answers with the row's length afterwards.
 * Refuses with 1 and 2 (schema), 14 (row_length beyond buf), 15 (the row is not sound), 9 (no such column); then
 * `buf` is as it was, and `length` is `row_length`. */
rook_row_answer rook_row_set_null(const uint8_t *schema, size_t schema_length, uint8_t *buf, size_t buf_length,
                                  size_t row_length, size_t column);

/* As rook_row_set and rook_row_set_null, on the row of a handle: `row_length` is the handle's length.
 * An accepted call stores the row's length afterwards and the row's layout in the handle; a refused one leaves the
 * handle as it was. */
rook_row_answer rook_row_handle_set(rook_row_handle *handle, const uint8_t *schema, size_t schema_length, uint8_t *buf,
                                    size_t buf_length, size_t column, const uint8_t *values, size_t values_length,
                                    const uint8_t *text, size_t text_length);
rook_row_answer rook_row_handle_set_null(rook_row_handle *handle, const uint8_t *schema, size_t schema_length,
                                         uint8_t *buf, size_t buf_length, size_t column);

/* The text of a column.
 * Gets a schema, a row and a column of type Char, Character or Varchar; writes nothing.
 * Answers with where the text stands in the row: a Char with its blanks, a Varchar as it is. It is valid text. A null
 * has start and length 0; a text that is empty and not null has its own start.
 * Refuses with 1 and 2 (schema), 9 (no such column), 11 (another type; place: the column), and then as a read of
 * that column: 4, 3, 5, 6, 3, 7, 8; then `start` and `length` are 0. */
rook_text_answer rook_row_text(const uint8_t *schema, size_t schema_length, const uint8_t *row, size_t row_length,
                               size_t column);

/* Whether two rows have the same content.
 * Gets a schema and two rows of it, of one sort or of both; writes nothing.
 * Answers with flag 1 if all columns read as the same, else 0. Floats compare by value: the two zeros are equal, and
 * every NaN equals every NaN.
 * Refuses as a read of all columns of a, then of b, each by its own sort: 1 and 2 (schema), and the rest; then `flag`
 * is 0. */
rook_flag_answer rook_row_same_content(const uint8_t *schema, size_t schema_length, const uint8_t *a, size_t a_length,
                                       const uint8_t *b, size_t b_length);

/* Whether a column's bit says null.
 * Gets a row and a column; it goes by the row's own header and bitmap, and writes nothing.
 * Answers with flag 1 for null, else 0.
 * Refuses with 4 (row above the limit of its sort), 3 (row under 4 bytes), 9 (no such column by the row's header), 3
 * (row shorter than its bitmap), place 0; then `flag` is 0. */
rook_flag_answer rook_row_is_null(const uint8_t *row, size_t row_length, size_t column);

/* Whether bytes are text by RFC 3629 (UTF-8), and of how many code points.
 * Gets any bytes; writes nothing, refuses nothing.
 * Answers with `valid` 1 and the text's code points, or with 0 and 0 for bytes that are no text. */
rook_check_answer rook_text_check(const uint8_t *text, size_t text_length);

/* The printed list of platform occupations.
 * Gets a row list whose rows have the columns platform Varchar(16), unit Varchar(64), arrival Timestamp, departure
 * Timestamp: the schema 0B 10 00 0B 40 00 0F 0F. They may be short or long, and need not be sound, only read. Writes
 * at the front of `out` a line for each row, with a line feed at its end, as in
 *   "3"|"T41"|1970-01-01 00:00:00|-
 * Texts stand in double quotes, moments as YYYY-MM-DD hh:mm:ss, rounded down to the second, a null as a hyphen, bars
 * between. The lines are ordered by platform, by bytes, then by arrival, by microseconds, then as the list is; a null
 * is first, and a platform comes before those that begin with it. 64,512 bytes are always enough; bytes past the lines
 * stay as they are.
 * Answers with the length of the lines, 0 for an empty list.
 * Refuses with 16 (the whole list, before any row is looked at), then row by row in the order of the list with 3, 5,
 * 6, 3 (row), 7 and 8 (a column, as a read of all columns), 17 (a text of this row; the first such column), and last
 * with 14 (out too short); then `out` is as it was, and `length` 0. */
rook_row_answer rook_occupations_print(const uint8_t *list, size_t list_length, uint8_t *out, size_t out_length);

/* The version of the library.
 * Gets nothing, writes nothing, refuses nothing.
 * Answers with a byte for each of its numbers: 0x000400 for 0.4.0. The library goes with this header if it is of the
 * same series, rook_row_version() >> 8 == ROOK_ROW_VERSION_NUMBER >> 8, and not older. */
uint32_t rook_row_version(void);

/* As rook_row_version. A library of another series does not have this function, so that a program which calls it, or
 * only refers to it, does not link with one. */
uint32_t rook_row_0_4(void);

#ifdef __cplusplus
}
#endif

#endif
