/* Schemas and value lists, written and read record by record, and row lists, written row by row. Header only: nothing
 * here calls the library, which rook_row.h describes.
 *
 * A list is written into lent memory. What does not fit is counted and not written: after the last record
 * `rook_list_fits` says whether all of it stands there, and `length` how many bytes it needs. */
#ifndef ROOK_LIST_H
#define ROOK_LIST_H

#include <string.h>

#include "rook_row.h"

#ifdef __cplusplus
extern "C" {
#endif

/* ---- writing */

typedef struct {
    uint8_t *bytes;
    size_t capacity;
    size_t length; /* of what was written, or would have been */
} rook_list;

static inline rook_list rook_list_in(uint8_t *bytes, size_t capacity) {
    rook_list list = {bytes, capacity, 0};
    return list;
}

static inline int rook_list_fits(const rook_list *list) { return list->length <= list->capacity; }

static inline void rook_list_bytes(rook_list *list, const void *bytes, size_t count) {
    if (count != 0 && list->length <= list->capacity && count <= list->capacity - list->length)
        memcpy(list->bytes + list->length, bytes, count);
    list->length += count;
}

/* A number of `size` bytes, up to 8, the low one first; of a signed number its two's complement. */
static inline void rook_list_number(rook_list *list, size_t size, uint64_t number) {
    uint8_t bytes[8];
    for (size_t i = 0; i < size; i++)
        bytes[i] = (uint8_t)(number >> 8 * i);
    rook_list_bytes(list, bytes, size);
}

/* ---- a schema: a record for each column */

/* A type that nothing is declared with: SmallInt, Int, BigInt, Real, DoublePrecision, Bool, Date, Time, Timestamp. */
static inline void rook_schema_put(rook_list *schema, uint8_t kind) { rook_list_number(schema, 1, kind); }

/* Char, Character or Varchar of n bytes, ROOK_VARCHAR_CHARS of n characters, Bit of n bits. */
static inline void rook_schema_put_sized(rook_list *schema, uint8_t kind, uint16_t n) {
    rook_list_number(schema, 1, kind);
    rook_list_number(schema, 2, n);
}

/* Numeric or Decimal. */
static inline void rook_schema_put_digits(rook_list *schema, uint8_t kind, uint8_t precision, uint8_t scale) {
    rook_list_number(schema, 1, kind);
    rook_list_number(schema, 1, precision);
    rook_list_number(schema, 1, scale);
}

/* ---- a value list and its text area: a record for each value */

typedef struct {
    rook_list records;
    rook_list text;
} rook_values;

static inline rook_values rook_values_in(uint8_t *records, size_t records_capacity, uint8_t *text,
                                         size_t text_capacity) {
    rook_values values = {rook_list_in(records, records_capacity), rook_list_in(text, text_capacity)};
    return values;
}

static inline int rook_values_fit(const rook_values *values) {
    return rook_list_fits(&values->records) && rook_list_fits(&values->text);
}

/* Kind, then a body of `size` bytes: SmallInt 2, Int 4, BigInt 8, Bool 1, Date 4, Time 8, Timestamp 8; null 0. */
static inline void rook_values_put(rook_values *values, uint8_t kind, size_t size, int64_t number) {
    rook_list_number(&values->records, 1, kind);
    rook_list_number(&values->records, size, (uint64_t)number);
}

static inline void rook_values_null(rook_values *values) { rook_values_put(values, ROOK_VALUE_NULL, 0, 0); }
static inline void rook_values_small_int(rook_values *values, int16_t n) {
    rook_values_put(values, ROOK_VALUE_SMALL_INT, 2, n);
}
static inline void rook_values_int(rook_values *values, int32_t n) { rook_values_put(values, ROOK_VALUE_INT, 4, n); }
static inline void rook_values_big_int(rook_values *values, int64_t n) {
    rook_values_put(values, ROOK_VALUE_BIG_INT, 8, n);
}
static inline void rook_values_bool(rook_values *values, int truth) {
    rook_values_put(values, ROOK_VALUE_BOOL, 1, truth != 0);
}
/* Days from 1970-01-01; microseconds from midnight; microseconds from 1970-01-01. */
static inline void rook_values_date(rook_values *values, int32_t days) {
    rook_values_put(values, ROOK_VALUE_DATE, 4, days);
}
static inline void rook_values_time(rook_values *values, int64_t micros) {
    rook_values_put(values, ROOK_VALUE_TIME, 8, micros);
}
static inline void rook_values_timestamp(rook_values *values, int64_t micros) {
    rook_values_put(values, ROOK_VALUE_TIMESTAMP, 8, micros);
}

static inline void rook_values_real(rook_values *values, float x) {
    uint32_t bits;
    memcpy(&bits, &x, sizeof bits);
    rook_values_put(values, ROOK_VALUE_REAL, 4, (int64_t)bits);
}
static inline void rook_values_double(rook_values *values, double x) {
    uint64_t bits;
    memcpy(&bits, &x, sizeof bits);
    rook_values_put(values, ROOK_VALUE_DOUBLE_PRECISION, 8, (int64_t)bits);
}

/* A Numeric without its point, high * 2^64 + low, and its scale. -12.34 is high -1, low 2^64 - 1234, scale 2; a number
 * of 64 bits goes by rook_values_numeric. */
static inline void rook_values_numeric_halves(rook_values *values, int64_t high, uint64_t low, uint8_t scale) {
    rook_list_number(&values->records, 1, ROOK_VALUE_NUMERIC);
    rook_list_number(&values->records, 8, low);
    rook_list_number(&values->records, 8, (uint64_t)high);
    rook_list_number(&values->records, 1, scale);
}
static inline void rook_values_numeric(rook_values *values, int64_t number, uint8_t scale) {
    rook_values_numeric_halves(values, number < 0 ? -1 : 0, (uint64_t)number, scale);
}

/* The kind of a text or of bits whose range has four bytes for each number. */
static inline uint8_t rook_long_kind(uint8_t kind) {
    switch (kind) {
    case ROOK_VALUE_CHAR:
        return ROOK_VALUE_LONG_CHAR;
    case ROOK_VALUE_VARCHAR:
        return ROOK_VALUE_LONG_VARCHAR;
    case ROOK_VALUE_BIT:
        return ROOK_VALUE_LONG_BIT;
    default:
        return kind;
    }
}

/* A Char, a Varchar or packed bits: the bytes go to the text area, their range into the record. Where two bytes do not
 * hold start or length, the record is of the long kind, which may also be asked for; rows of either sort take both. A
 * text area that four bytes cannot measure is refused by the library (10). */
static inline void rook_values_text(rook_values *values, uint8_t kind, const void *bytes, size_t count) {
    size_t start = values->text.length;
    if (start > UINT16_MAX || count > UINT16_MAX)
        kind = rook_long_kind(kind);
    size_t size = kind < ROOK_VALUE_LONG_CHAR ? 2 : 4;
    rook_list_number(&values->records, 1, kind);
    rook_list_number(&values->records, size, start);
    rook_list_number(&values->records, size, count);
    rook_list_bytes(&values->text, bytes, count);
}
static inline void rook_values_char(rook_values *values, const char *text) {
    rook_values_text(values, ROOK_VALUE_CHAR, text, strlen(text));
}
static inline void rook_values_varchar(rook_values *values, const char *text) {
    rook_values_text(values, ROOK_VALUE_VARCHAR, text, strlen(text));
}
static inline void rook_values_bits(rook_values *values, const uint8_t *packed, size_t count) {
    rook_values_text(values, ROOK_VALUE_BIT, packed, count);
}

/* ---- a row list: rows, each after its length */

/* A row whose length does not fit two bytes makes a list above ROOK_MAX_LIST, which the library refuses (16). */
static inline void rook_rows_put(rook_list *rows, const uint8_t *row, size_t row_length) {
    rook_list_number(rows, 2, row_length);
    rook_list_bytes(rows, row, row_length);
}

/* ---- a value list read: what rook_row_read wrote, whose text area is the row */

typedef struct {
    uint8_t kind;   /* of a text or bits ROOK_VALUE_CHAR, _VARCHAR or _BIT, also where the list has the long kind */
    int64_t number; /* SmallInt, Int, BigInt, Bool, Date, Time, Timestamp; the upper half of a Numeric */
    uint64_t low;   /* the lower half of a Numeric; the bits of a Real or a DoublePrecision */
    uint8_t scale;  /* of a Numeric */
    size_t start;   /* of a Char, a Varchar or packed bits, in the row */
    size_t length;
} rook_value;

typedef struct {
    const uint8_t *bytes;
    size_t length;
    size_t at;
} rook_values_reader;

static inline rook_values_reader rook_values_of(const uint8_t *list, size_t length) {
    rook_values_reader reader = {list, length, 0};
    return reader;
}

static inline uint64_t rook_number_at(const uint8_t *bytes, size_t size) {
    uint64_t number = 0;
    for (size_t i = 0; i < size; i++)
        number |= (uint64_t)bytes[i] << 8 * i;
    return number;
}

static inline int rook_kind_known(uint8_t kind) {
    return kind <= ROOK_VALUE_TIMESTAMP || (kind >= ROOK_VALUE_LONG_CHAR && kind <= ROOK_VALUE_LONG_BIT);
}

/* The bytes of a body by its kind, for kinds that are known. */
static inline size_t rook_body_length(uint8_t kind) {
    static const uint8_t lengths[] = {0, 2, 4, 8, 4, 8, 17, 1, 4, 4, 4, 8, 4, 8};
    return kind <= ROOK_VALUE_TIMESTAMP ? lengths[kind] : 8;
}

/* The next value: 1, or 0 at the list's end and where no whole record of a known kind stands. */
static inline int rook_values_next(rook_values_reader *reader, rook_value *value) {
    static const uint8_t plain[] = {ROOK_VALUE_CHAR, ROOK_VALUE_VARCHAR, ROOK_VALUE_BIT};
    size_t left = reader->length - reader->at;
    if (left == 0 || !rook_kind_known(reader->bytes[reader->at]))
        return 0;
    const uint8_t *body = reader->bytes + reader->at + 1;
    size_t size = rook_body_length(body[-1]);
    if (left - 1 < size)
        return 0;
    memset(value, 0, sizeof *value);
    value->kind = body[-1];
    switch (value->kind) {
    case ROOK_VALUE_NUMERIC:
        value->low = rook_number_at(body, 8);
        value->number = (int64_t)rook_number_at(body + 8, 8);
        value->scale = body[16];
        break;
    case ROOK_VALUE_REAL:
    case ROOK_VALUE_DOUBLE_PRECISION:
        value->low = rook_number_at(body, size);
        break;
    case ROOK_VALUE_CHAR:
    case ROOK_VALUE_VARCHAR:
    case ROOK_VALUE_BIT:
        value->start = (size_t)rook_number_at(body, 2);
        value->length = (size_t)rook_number_at(body + 2, 2);
        break;
    case ROOK_VALUE_LONG_CHAR:
    case ROOK_VALUE_LONG_VARCHAR:
    case ROOK_VALUE_LONG_BIT:
        value->kind = plain[value->kind - ROOK_VALUE_LONG_CHAR];
        value->start = (size_t)rook_number_at(body, 4);
        value->length = (size_t)rook_number_at(body + 4, 4);
        break;
    case ROOK_VALUE_SMALL_INT:
        value->number = (int16_t)rook_number_at(body, 2);
        break;
    case ROOK_VALUE_INT:
    case ROOK_VALUE_DATE:
        value->number = (int32_t)rook_number_at(body, 4);
        break;
    default: /* null, BigInt, Bool, Time, Timestamp */
        value->number = (int64_t)rook_number_at(body, size);
    }
    reader->at += 1 + size;
    return 1;
}

static inline float rook_value_real(const rook_value *value) {
    uint32_t bits = (uint32_t)value->low;
    float x;
    memcpy(&x, &bits, sizeof x);
    return x;
}
static inline double rook_value_double(const rook_value *value) {
    double x;
    memcpy(&x, &value->low, sizeof x);
    return x;
}

#ifdef __cplusplus
}
#endif

#endif
