/* A small table of platform occupations: built, read and edited through the library. Rows are shown as bytes, region by
 * region, and as the values that the library reads from them; then the table, lined up by the code points of its texts.
 * `make demo` builds and runs this. */
#include <stdio.h>
#include <stdlib.h>
#include <string.h>
#include <time.h>

#include "rook_list.h"

enum { COLUMNS = 6, ROWS = 3, ROOM = 128 };

/* A column: its record in the schema, the bytes of its slot (a Varchar has an offset instead), and what they are. */
static const struct {
    const char *name, *type;
    uint8_t kind;
    uint16_t n;
    size_t slot;
    const char *note;
} columns[COLUMNS] = {
    {"platform", "Varchar(4)", ROOK_VARCHAR, 4, 0, ""},
    {"unit", "Varchar(16)", ROOK_VARCHAR, 16, 0, ""},
    {"arrival", "Timestamp", ROOK_TIMESTAMP, 0, 8, ": microseconds from 1970-01-01"},
    {"departure", "Timestamp", ROOK_TIMESTAMP, 0, 8, ": microseconds from 1970-01-01"},
    {"cars", "SmallInt", ROOK_SMALL_INT, 0, 2, ""},
    {"boarding", "Bool", ROOK_BOOL, 0, 1, ": 1 is true"},
};

static uint8_t schema[3 * COLUMNS];
static size_t schema_length;

/* A value list and its text area. */
struct list {
    uint8_t records[ROOK_MAX_RECORD * COLUMNS], text[ROOM];
    rook_values values;
};

static void start(struct list *list) {
    list->values = rook_values_in(list->records, sizeof list->records, list->text, sizeof list->text);
}

struct row {
    uint8_t bytes[ROOM];
    size_t length;
};

/* Microseconds from 1970-01-01 to a time of 2026-11-16, which is day 20773. */
static int64_t at(int hour, int minute, int second) {
    return (((20773LL * 24 + hour) * 60 + minute) * 60 + second) * 1000000;
}

static size_t done(rook_row_answer answer) {
    if (answer.number != 0) {
        printf("refused with %u at %zu: %s\n", answer.number, answer.place, rook_number_text(answer.number));
        exit(1);
    }
    return answer.length;
}

static void build(struct row *row, bool is_long, const struct list *list) {
    uint32_t counts[COLUMNS];
    row->length = done(rook_row_build(schema, schema_length, is_long, list->records, list->values.records.length,
                                      list->text, list->values.text.length, row->bytes, ROOM, counts, COLUMNS));
}

/* Whether a row is long: its own mark tells. */
static bool is_long(const struct row *row) { return (row->bytes[3] & 0x40) != 0; }

/* What was read of a row: a value list, and the code points of each text. */
struct reading {
    uint8_t list[ROOK_MAX_RECORD * COLUMNS];
    size_t length;
    uint32_t counts[COLUMNS];
};

static void read_all(const struct row *row, struct reading *reading) {
    static const uint16_t all[COLUMNS] = {0, 1, 2, 3, 4, 5};
    reading->length = done(rook_row_read(schema, schema_length, row->bytes, row->length, all, COLUMNS, reading->list,
                                         sizeof reading->list, reading->counts, COLUMNS));
}

static void show_schema(void) {
    rook_list list = rook_list_in(schema, sizeof schema);
    for (size_t i = 0; i < COLUMNS; i++) {
        char hex[10] = "";
        size_t from = list.length;
        if (columns[i].slot == 0)
            rook_schema_put_sized(&list, columns[i].kind, columns[i].n);
        else
            rook_schema_put(&list, columns[i].kind);
        for (size_t k = from; k < list.length; k++)
            sprintf(hex + 3 * (k - from), "%02X ", schema[k]);
        printf("  %-10s%-11s%s\n", hex, columns[i].name, columns[i].type);
    }
    schema_length = list.length;
}

/* One line: where the bytes start, the bytes, their region, what they say. Hands back where they end. */
static size_t line(const struct row *row, size_t start, size_t count, const char *region, const char *says) {
    char hex[3 * ROOM + 1] = "";
    for (size_t i = 0; i < count; i++)
        sprintf(hex + 3 * i, "%02X ", row->bytes[start + i]);
    printf("  %4zu  %-25s%-10s%s\n", start, hex, region, says);
    return start + count;
}

static int is_null(const struct row *row, size_t column) {
    return rook_row_is_null(row->bytes, row->length, column).flag == 1;
}

/* Header and bitmap; hands back where they end. */
static size_t show_head(const struct row *row) {
    char says[ROOM];
    sprintf(says, "%d columns", (int)rook_number_at(row->bytes, 2));
    line(row, 0, 2, "header", says);
    sprintf(says, "%d Varchars; %s", row->bytes[2],
            is_long(row) ? "C0: slots are packed, and the row is long" : "80: slots are packed, end to end");
    line(row, 2, 2, "header", says);
    size_t nulls = 0, length = (size_t)sprintf(says, "a bit a column, the low one first, set for null");
    for (size_t i = 0; i < COLUMNS; i++)
        if (is_null(row, i))
            length += (size_t)sprintf(says + length, "%s %s", nulls++ ? "," : ":", columns[i].name);
    return line(row, 4, 1, "bitmap", nulls ? says : strcat(says, ": none"));
}

/* The offset of each Varchar, from byte `start` on; hands back where they end. */
static size_t show_offsets(const struct row *row, size_t start) {
    char says[ROOM];
    size_t width = is_long(row) ? 4 : 2;
    for (size_t i = 0; i < COLUMNS; i++) {
        if (columns[i].slot != 0)
            continue;
        int offset = (int)rook_number_at(row->bytes + start, width);
        if (is_null(row, i))
            sprintf(says, "%s: null", columns[i].name);
        else
            sprintf(says, "%s: its text starts at byte %d", columns[i].name, offset);
        start = line(row, start, width, "offsets", says);
    }
    return start;
}

static void show_slots(const struct row *row, size_t start) {
    char says[ROOM];
    for (size_t i = 0; i < COLUMNS; i++) {
        if (columns[i].slot == 0)
            continue;
        sprintf(says, "%s%s", columns[i].name, is_null(row, i) ? ": null, whatever its bytes are" : columns[i].note);
        start = line(row, start, columns[i].slot, "slots", says);
    }
}

static void show_payloads(const struct row *row) {
    char says[ROOM];
    for (size_t i = 0; i < COLUMNS; i++) {
        rook_text_answer text = rook_row_text(schema, schema_length, row->bytes, row->length, i);
        if (text.number != 0 || is_null(row, i))
            continue;
        size_t end = text.start + text.length;
        sprintf(says, "%s: up to %s", columns[i].name, end == row->length ? "the row's end" : "the next text");
        line(row, text.start, text.length, "payloads", says);
    }
}

/* A value of a row that was read; its text stands in the row. */
static void show_value(const rook_value *value, const struct row *row) {
    char spelled[24];
    time_t seconds;
    switch (value->kind) {
    case ROOK_VALUE_SMALL_INT:
        printf("%d", (int)value->number);
        break;
    case ROOK_VALUE_BOOL:
        printf(value->number ? "true" : "false");
        break;
    case ROOK_VALUE_VARCHAR:
        printf("\"%.*s\"", (int)value->length, (const char *)row->bytes + value->start);
        break;
    case ROOK_VALUE_TIMESTAMP:
        seconds = (time_t)(value->number / 1000000);
        strftime(spelled, sizeof spelled, "%Y-%m-%d %H:%M:%S", gmtime(&seconds));
        printf("%s", spelled);
        break;
    default:
        printf("null");
    }
}

static void show(const char *title, const struct row *row) {
    struct reading reading;
    printf("\n%s: %zu bytes\n", title, row->length);
    printf("  from  %-25s%-10ssays\n", "bytes", "region");
    show_slots(row, show_offsets(row, show_head(row)));
    show_payloads(row);
    read_all(row, &reading);
    printf("  values:");
    rook_values_reader reader = rook_values_of(reading.list, reading.length);
    rook_value value;
    for (int first = 1; rook_values_next(&reader, &value); first = 0) {
        printf(first ? " " : " | ");
        show_value(&value, row);
    }
    printf("\n");
}

/* Two edits of a row, and one that is refused. */
static void edit(struct row *row) {
    struct list one;
    start(&one);
    rook_values_varchar(&one.values, "12b");
    row->length = done(rook_row_set(schema, schema_length, row->bytes, ROOM, row->length, 0, one.records,
                                    one.values.records.length, one.text, one.values.text.length));
    row->length = done(rook_row_set_null(schema, schema_length, row->bytes, ROOM, row->length, 3));
    show("Row 0, platform set to \"12b\" and departure to null", row);
    rook_row_answer answer = rook_row_set(schema, schema_length, row->bytes, ROOM, row->length, 4, one.records,
                                          one.values.records.length, one.text, one.values.text.length);
    printf("\nRow 0, cars set to \"12b\": refused with %u, place %zu, the column. The row is as it was.\n",
           answer.number, answer.place);
}

/* How many characters `show_value` prints for a text, with its quotes, or for a null. */
static size_t width(const struct row *row, size_t column, const struct reading *reading) {
    return is_null(row, column) ? strlen("null") : reading->counts[column] + 2;
}

/* Platform, unit and arrival of each row. A box is as wide as the widest of its texts. */
static void show_table(const struct row *table) {
    struct reading readings[ROWS];
    size_t boxes[2] = {0, 0};
    for (size_t i = 0; i < ROWS; i++) {
        read_all(&table[i], &readings[i]);
        for (size_t column = 0; column < 2; column++)
            if (boxes[column] < width(&table[i], column, &readings[i]))
                boxes[column] = width(&table[i], column, &readings[i]);
    }
    printf("\nThe table. Its boxes are as wide as the texts have characters, as rook_row_read counts them.\n");
    for (size_t i = 0; i < ROWS; i++) {
        rook_values_reader reader = rook_values_of(readings[i].list, readings[i].length);
        rook_value value;
        for (size_t column = 0; column < 3 && rook_values_next(&reader, &value); column++) {
            printf(column == 0 ? "  | " : " | ");
            show_value(&value, &table[i]);
            if (column < 2)
                printf("%*s", (int)(boxes[column] - width(&table[i], column, &readings[i])), "");
        }
        printf(" |\n");
    }
}

/* A row that the table alone shows: an accent takes two bytes, and stands in its box as one character. */
static void build_accented(struct row *row) {
    struct list list;
    start(&list);
    rook_values_varchar(&list.values, "4");
    rook_values_varchar(&list.values, "Wendezug S\xC3\xBC"
                                      "d");
    rook_values_timestamp(&list.values, at(6, 25, 0));
    rook_values_null(&list.values);
    rook_values_small_int(&list.values, 6);
    rook_values_bool(&list.values, 0);
    build(row, false, &list);
}

int main(void) {
    struct row table[ROWS], twin;
    struct list first, second;
    printf("A table of platform occupations. Numbers have their low byte first. Its schema has a record for each\n"
           "column: a byte for the kind of type, then what the type is declared with.\n");
    show_schema();

    start(&first);
    rook_values_varchar(&first.values, "7");
    rook_values_varchar(&first.values, "ET 41");
    rook_values_timestamp(&first.values, at(6, 12, 0));
    rook_values_timestamp(&first.values, at(6, 14, 30));
    rook_values_small_int(&first.values, 4);
    rook_values_bool(&first.values, 1);
    build(&table[0], false, &first);
    show("Row 0, built", &table[0]);
    build(&twin, true, &first);
    show("Row 0, built as a long row", &twin);

    start(&second);
    rook_values_varchar(&second.values, "2a");
    rook_values_null(&second.values);
    rook_values_timestamp(&second.values, at(6, 20, 0));
    rook_values_timestamp(&second.values, at(6, 21, 30));
    rook_values_null(&second.values);
    rook_values_bool(&second.values, 0);
    build(&table[1], false, &second);
    show("Row 1, built", &table[1]);

    edit(&table[0]);
    build_accented(&table[2]);
    show_table(table);
    return 0;
}
