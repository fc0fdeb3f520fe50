/* include/rook_list.h: a value of every kind written, built into a row of each sort, read again and compared; stored
 * forms of docs/FORMAT.md; texts past 65,535 bytes; lists that do not fit, are cut, or have an unknown kind; row lists.
 */
#include <stdio.h>
#include <string.h>

#include "rook_list.h"

/* A column of each schema kind. */
enum { KINDS = 16 };

static int faults;

static void expect(int holds, const char *what) {
    if (!holds) {
        printf("%s\n", what);
        faults++;
    }
}

static size_t make_schema(uint8_t *bytes, size_t capacity) {
    rook_list s = rook_list_in(bytes, capacity);
    rook_schema_put(&s, ROOK_SMALL_INT);
    rook_schema_put(&s, ROOK_INT);
    rook_schema_put(&s, ROOK_BIG_INT);
    rook_schema_put(&s, ROOK_REAL);
    rook_schema_put(&s, ROOK_DOUBLE_PRECISION);
    rook_schema_put_digits(&s, ROOK_NUMERIC, 4, 2);
    rook_schema_put(&s, ROOK_BOOL);
    rook_schema_put_sized(&s, ROOK_CHAR, 4);
    rook_schema_put_sized(&s, ROOK_VARCHAR, 5);
    rook_schema_put(&s, ROOK_DATE);
    rook_schema_put(&s, ROOK_TIME);
    rook_schema_put_sized(&s, ROOK_BIT, 3);
    rook_schema_put(&s, ROOK_TIMESTAMP);
    rook_schema_put_digits(&s, ROOK_DECIMAL, 38, 0);
    rook_schema_put_sized(&s, ROOK_CHARACTER, 0);
    rook_schema_put_sized(&s, ROOK_VARCHAR_CHARS, 3);
    return rook_list_fits(&s) ? s.length : 0;
}

static void put_values(rook_values *v) {
    static const uint8_t bits[] = {0xBF};
    rook_values_small_int(v, -2);
    rook_values_int(v, -70000);
    rook_values_big_int(v, INT64_MIN);
    rook_values_real(v, -0.5f);
    rook_values_double(v, 1e300);
    rook_values_numeric(v, -1234, 2);
    rook_values_bool(v, 7);
    rook_values_char(v, "ab");
    rook_values_varchar(v, "\xC3\xA9t\xC3\xA9");
    rook_values_date(v, -719162);
    rook_values_time(v, 86399999999);
    rook_values_bits(v, bits, sizeof bits);
    rook_values_timestamp(v, -1);
    rook_values_numeric_halves(v, 1, 2, 0);
    rook_values_null(v);
    rook_values_varchar(v, "\xC3\xA9t\xC3\xA9");
}

/* The next value of kind k. */
static rook_value next(rook_values_reader *reader, uint8_t k) {
    rook_value value;
    int there = rook_values_next(reader, &value);
    expect(there && value.kind == k, "a value of another kind, or none");
    return value;
}

static int is_text(const rook_value *value, const uint8_t *row, const char *bytes, size_t count) {
    return value->length == count && memcmp(row + value->start, bytes, count) == 0;
}

/* The values that were put, as they were read. */
static void compare(const uint8_t *list, size_t length, const uint8_t *row) {
    rook_values_reader reader = rook_values_of(list, length);
    rook_value value = next(&reader, ROOK_VALUE_SMALL_INT);
    expect(value.number == -2, "SmallInt");
    expect((value = next(&reader, ROOK_VALUE_INT)).number == -70000, "Int");
    expect((value = next(&reader, ROOK_VALUE_BIG_INT)).number == INT64_MIN, "BigInt");
    expect((value = next(&reader, ROOK_VALUE_REAL), rook_value_real(&value)) == -0.5f, "Real");
    expect((value = next(&reader, ROOK_VALUE_DOUBLE_PRECISION), rook_value_double(&value)) == 1e300, "DoublePrecision");
    value = next(&reader, ROOK_VALUE_NUMERIC);
    expect(value.number == -1 && value.low == (uint64_t)-1234 && value.scale == 2, "Numeric");
    expect((value = next(&reader, ROOK_VALUE_BOOL)).number == 1, "Bool");
    value = next(&reader, ROOK_VALUE_CHAR);
    expect(is_text(&value, row, "ab  ", 4), "Char with its blanks");
    value = next(&reader, ROOK_VALUE_VARCHAR);
    expect(is_text(&value, row, "\xC3\xA9t\xC3\xA9", 5), "Varchar");
    expect((value = next(&reader, ROOK_VALUE_DATE)).number == -719162, "Date");
    expect((value = next(&reader, ROOK_VALUE_TIME)).number == 86399999999, "Time");
    value = next(&reader, ROOK_VALUE_BIT);
    expect(is_text(&value, row, "\xA0", 1), "Bit without its spare bits");
    expect((value = next(&reader, ROOK_VALUE_TIMESTAMP)).number == -1, "Timestamp");
    value = next(&reader, ROOK_VALUE_NUMERIC);
    expect(value.number == 1 && value.low == 2 && value.scale == 0, "Decimal in two halves");
    next(&reader, ROOK_VALUE_NULL);
    value = next(&reader, ROOK_VALUE_VARCHAR);
    expect(is_text(&value, row, "\xC3\xA9t\xC3\xA9", 5), "Varchar in characters");
    expect(!rook_values_next(&reader, &value), "a value past the last");
}

static void every_kind(bool is_long) {
    uint8_t schema[64], records[ROOK_MAX_RECORD * KINDS], text[64], row[256], list[ROOK_MAX_RECORD * KINDS];
    uint16_t all[KINDS];
    uint32_t built_counts[KINDS], counts[KINDS];
    static const uint32_t points[KINDS] = {[7] = 4, [8] = 3, [15] = 3};
    size_t schema_length = make_schema(schema, sizeof schema);
    rook_values v = rook_values_in(records, sizeof records, text, sizeof text);
    put_values(&v);
    expect(rook_values_fit(&v), "the values do not fit");
    rook_row_answer built = rook_row_build(schema, schema_length, is_long, records, v.records.length, text,
                                           v.text.length, row, sizeof row, built_counts, KINDS);
    expect(built.number == ROOK_DONE, rook_number_text(built.number));
    for (uint16_t i = 0; i < KINDS; i++)
        all[i] = i;
    rook_row_answer read =
        rook_row_read(schema, schema_length, row, built.length, all, KINDS, list, sizeof list, counts, KINDS);
    expect(read.number == ROOK_DONE, rook_number_text(read.number));
    expect(memcmp(built_counts, points, sizeof points) == 0, "the code points of what was built");
    expect(memcmp(counts, points, sizeof points) == 0, "the code points of what was read");
    /* a SmallInt, an Int, a BigInt, a Real, a DoublePrecision, a Numeric and a Bool are before the Char */
    size_t before = 3 + 5 + 9 + 5 + 9 + 18 + 2;
    expect(list[before] == (is_long ? ROOK_VALUE_LONG_CHAR : ROOK_VALUE_CHAR), "the kind of a Char in the list");
    compare(list, read.length, row);
}

/* Numeric(4,2) of -12.34 is 01 23 4D, Numeric(3,0) of 7 is 00 7C. */
static void numerics(void) {
    uint8_t schema[8], records[64], row[32];
    rook_list s = rook_list_in(schema, sizeof schema);
    rook_schema_put_digits(&s, ROOK_NUMERIC, 4, 2);
    rook_schema_put_digits(&s, ROOK_NUMERIC, 3, 0);
    rook_values v = rook_values_in(records, sizeof records, NULL, 0);
    rook_values_numeric(&v, -1234, 2);
    rook_values_numeric(&v, 7, 0);
    uint32_t counts[2];
    rook_row_answer built =
        rook_row_build(schema, s.length, false, records, v.records.length, NULL, 0, row, sizeof row, counts, 2);
    static const uint8_t wanted[] = {2, 0, 0, 0x80, 0, 0x01, 0x23, 0x4D, 0x00, 0x7C};
    expect(built.length == sizeof wanted && memcmp(row, wanted, sizeof wanted) == 0, "the row of two Numerics");
}

/* A remark of 70,000 bytes, and behind it a Char, a Varchar and bits, which begin past 65,535 in the text area. */
static void long_texts(void) {
    enum { REMARK = 70000, COLUMNS = 4 };
    static uint8_t remark[REMARK], text[REMARK + 16], row[REMARK + 64];
    static const uint16_t all[COLUMNS] = {0, 1, 2, 3};
    /* two bytes each, so that there are 35,000 characters */
    for (size_t i = 0; i < REMARK; i += 2)
        memcpy(remark + i, i % 4 == 0 ? "\xC3\xA9" : "\xC3\xBC", 2);
    uint8_t schema[16], records[ROOK_MAX_RECORD * COLUMNS], list[ROOK_MAX_RECORD * COLUMNS];
    uint32_t counts[COLUMNS];
    rook_list s = rook_list_in(schema, sizeof schema);
    rook_schema_put_sized(&s, ROOK_VARCHAR_CHARS, 40000);
    rook_schema_put_sized(&s, ROOK_CHAR, 3);
    rook_schema_put_sized(&s, ROOK_VARCHAR, 9);
    rook_schema_put_sized(&s, ROOK_BIT, 4);
    rook_values v = rook_values_in(records, sizeof records, text, sizeof text);
    rook_values_text(&v, ROOK_VALUE_VARCHAR, remark, REMARK);
    rook_values_char(&v, "ab");
    rook_values_varchar(&v, "west");
    rook_values_bits(&v, (const uint8_t *)"\xA0", 1);
    expect(rook_values_fit(&v), "the long texts do not fit");
    static const uint8_t written[] = {18, 0,    0,    0, 0, 0x70, 0x11, 1, 0,  /* 70,000 bytes from 0 */
                                      17, 0x70, 0x11, 1, 0, 2,    0,    0, 0,  /* 2 from 70,000 */
                                      18, 0x72, 0x11, 1, 0, 4,    0,    0, 0,  /* 4 from 70,002 */
                                      19, 0x76, 0x11, 1, 0, 1,    0,    0, 0}; /* 1 from 70,006 */
    expect(v.records.length == sizeof written && memcmp(records, written, sizeof written) == 0, "the long ranges");

    rook_row_answer refused = rook_row_build(schema, s.length, false, records, v.records.length, text, v.text.length,
                                             row, sizeof row, counts, COLUMNS);
    expect(refused.number == ROOK_BAD_VALUE_LIST, "a text area above 65,535 bytes for a short row");
    rook_row_answer built = rook_row_build(schema, s.length, true, records, v.records.length, text, v.text.length, row,
                                           sizeof row, counts, COLUMNS);
    /* header, bitmap, two offsets, Char and Bit, texts */
    expect(built.number == ROOK_DONE && built.length == 4 + 1 + 8 + 4 + REMARK + 4, "the row of the long texts");
    rook_row_answer read =
        rook_row_read(schema, s.length, row, built.length, all, COLUMNS, list, sizeof list, counts, COLUMNS);
    rook_values_reader reader = rook_values_of(list, read.length);
    rook_value value = next(&reader, ROOK_VALUE_VARCHAR);
    expect(is_text(&value, row, (const char *)remark, REMARK) && value.start == 17, "the remark");
    value = next(&reader, ROOK_VALUE_CHAR);
    expect(is_text(&value, row, "ab ", 3), "a Char past 65,535");
    value = next(&reader, ROOK_VALUE_VARCHAR);
    expect(is_text(&value, row, "west", 4) && value.start == 17 + REMARK, "a Varchar past 65,535");
    value = next(&reader, ROOK_VALUE_BIT);
    expect(is_text(&value, row, "\xA0", 1), "bits past 65,535");
    expect(counts[0] == 35000 && counts[1] == 3 && counts[2] == 4 && counts[3] == 0, "the code points of long texts");

    /* ranges of four bytes where two would do, as asked for; the same row */
    v = rook_values_in(records, sizeof records, text, sizeof text);
    rook_values_text(&v, ROOK_VALUE_LONG_VARCHAR, "west", 4);
    expect(v.records.length == 9 && memcmp(records, "\x12\0\0\0\0\4\0\0\0", 9) == 0, "a long range as asked for");
    rook_row_answer set = rook_row_set(schema, s.length, row, sizeof row, built.length, 0, records, v.records.length,
                                       text, v.text.length);
    expect(set.number == ROOK_DONE && set.length == 17 + 8 && memcmp(row + 17, "westwest", 8) == 0, "a long range set");
}

static void limits(void) {
    uint8_t room[8] = {0xEE, 0xEE, 0xEE, 0xEE, 0xEE, 0xEE, 0xEE, 0xEE};
    rook_values v = rook_values_in(room, 3, room + 4, 2);
    rook_values_small_int(&v, 0x0201);
    expect(rook_values_fit(&v) && memcmp(room, "\x01\x01\x02\xEE", 4) == 0, "a record that fits");
    rook_values_varchar(&v, "abc");
    expect(!rook_values_fit(&v) && v.records.length == 8 && v.text.length == 3, "what is needed");
    expect(memcmp(room, "\x01\x01\x02\xEE\xEE\xEE\xEE\xEE", 8) == 0, "bytes past the room");

    rook_value value;
    rook_values_reader cut = rook_values_of((const uint8_t *)"\x02\x01\x00\x00", 4);
    expect(!rook_values_next(&cut, &value) && cut.at == 0, "a record that is cut off");
    for (unsigned kind = 0; kind < 256; kind++) {
        uint8_t record[1 + ROOK_MAX_RECORD] = {(uint8_t)kind};
        rook_values_reader reader = rook_values_of(record, sizeof record);
        int known = kind <= 13 || (kind >= 17 && kind <= 19);
        expect(rook_values_next(&reader, &value) == known, "a record of unknown kind is none, and of a known kind one");
        rook_values_reader short_of_one = rook_values_of(record, reader.at - (reader.at != 0));
        expect(!rook_values_next(&short_of_one, &value), "a record that has a byte less");
    }
    for (uint32_t number = 0; number <= ROOK_UNPRINTABLE; number++)
        expect(strstr(rook_number_text(number), "65,535") == NULL, "a text with the limit of one sort");
    expect(strcmp(rook_number_text(ROOK_NOT_SOUND), "the row to be edited is not sound") == 0, "the text of 15");
    expect(strcmp(rook_number_text(ROOK_BAD_LIST), "the row list is cut, or over its limits") == 0, "the text of 16");
    expect(strstr(rook_number_text(ROOK_UNPRINTABLE), "double quote") != NULL, "the text of 17");
    expect(strstr(rook_number_text(UINT32_MAX), "not know") != NULL, "the text of an unknown number");
}

/* Rows of the printed list: two of 25 and 29 bytes, and one that the list has no room for. */
static void row_lists(void) {
    static const uint8_t nulls[25] = {4, 0, 2, 0x80, 15};
    static const uint8_t t41[29] = {4, 0, 2, 0x80, 8, 25, 0, 26, 0, [25] = '3', 'T', '4', '1'};
    static const char lines[] = "-|-|-|-\n\"3\"|\"T41\"|1970-01-01 00:00:00|-\n";
    uint8_t bytes[60], out[64];
    rook_list rows = rook_list_in(bytes, sizeof bytes);
    rook_rows_put(&rows, t41, sizeof t41);
    rook_rows_put(&rows, nulls, sizeof nulls);
    expect(rook_list_fits(&rows) && rows.length == 58, "a list of two rows");
    rook_row_answer answer = rook_occupations_print(bytes, rows.length, out, sizeof out);
    expect(answer.number == 0 && answer.length == sizeof lines - 1, "two rows are printed");
    expect(memcmp(out, lines, sizeof lines - 1) == 0, "the lines of two rows");
    rook_rows_put(&rows, nulls, sizeof nulls);
    expect(!rook_list_fits(&rows) && rows.length == 85, "a row that the list has no room for");
}

int main(void) {
    every_kind(false);
    every_kind(true);
    numerics();
    long_texts();
    limits();
    row_lists();
    if (faults == 0)
        printf("schemas, value lists and row lists, as include/rook_list.h writes and reads them, are the library's\n");
    return faults != 0;
}
