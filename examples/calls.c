/* Every call once, from C, and a refusal of each; then long rows. The columns are Int, Varchar(5), SmallInt; where code
 * points are counted, Char(5), Varchar(5), Bit(3), Int; where a length is in characters, one Varchar; where a list is
 * printed, those of platform occupations. */
#include <stdio.h>

#include "rook_row.h"

static const uint8_t schema[] = {2, 11, 5, 0, 1};
static const uint16_t wanted[] = {0, 1};
/* A value list: Int 1; a Varchar, 2 bytes from byte 0 of the text; null. */
static const uint8_t values[] = {2, 1, 0, 0, 0, 9, 0, 0, 2, 0, 0};
/* A list of one value: a Varchar, 5 bytes from byte 0 of the text. */
static const uint8_t longer[] = {9, 0, 0, 5, 0};

/* The code points of each text that a build or a read has. */
static uint32_t counts[5];

static uint8_t row[22];
static size_t length;

static const uint8_t *bytes(const char *text) { return (const uint8_t *)text; }

/* Column `column` set to "ABCDE". */
static rook_row_answer set(size_t column) {
    return rook_row_set(schema, sizeof schema, row, sizeof row, length, column, longer, sizeof longer, bytes("ABCDE"),
                        5);
}

/* What a call wrote, or why it refused. Hands back the length. */
static size_t show(const char *call, rook_row_answer answer, const uint8_t *written) {
    printf("%-27s", call);
    if (answer.number != 0) {
        printf(" refused with %u at %zu, length %zu\n", answer.number, answer.place, answer.length);
        return answer.length;
    }
    for (size_t i = 0; i < answer.length; i++)
        printf(" %02X", written[i]);
    printf("\n");
    return answer.length;
}

static void show_flag(const char *call, rook_flag_answer answer) {
    if (answer.number != 0)
        printf("%-28srefused with %u at %zu\n", call, answer.number, answer.place);
    else
        printf("%-28s%zu\n", call, answer.flag);
}

static void show_text(const char *call, rook_text_answer answer) {
    if (answer.number != 0)
        printf("%-28srefused with %u at %zu\n", call, answer.number, answer.place);
    else
        printf("%-28s\"%.*s\" at %zu\n", call, (int)answer.length, (const char *)row + answer.start, answer.start);
}

static void show_handle(rook_row_handle handle) {
    rook_row_layout layout = handle.layout;
    printf("%-28slength %zu, %zu columns, %zu Varchars, %zu fixed bytes, %s, %s\n", "the handle", handle.length,
           layout.num_columns, layout.num_varlen_cols, layout.fixed_size, layout.packed ? "packed" : "padded",
           layout.is_long ? "long" : "short");
}

static void show_counts(size_t columns) {
    printf("%-27s", "  code points");
    for (size_t i = 0; i < columns; i++)
        printf(" %u", counts[i]);
    printf("\n");
}

static void show_check(const char *call, const char *text, size_t count) {
    rook_check_answer answer = rook_text_check(bytes(text), count);
    printf("%-28s%s, %zu code points\n", call, answer.valid ? "text" : "no text", answer.points);
}

static const uint8_t accented[] = {9, 5, 0, 11, 5, 0, 14, 3, 0, 2};

/* A row of six bytes of text: the Char is two from byte 0, the Varchar five from byte 0, the Bit the last; null. */
static rook_row_answer build_accented(const char *text, size_t room, size_t numbers) {
    static const uint8_t list[] = {8, 0, 0, 2, 0, 9, 0, 0, 5, 0, 12, 5, 0, 1, 0, 0};
    return rook_row_build(accented, sizeof accented, false, list, sizeof list, bytes(text), 6, row, room, counts,
                          numbers);
}

/* Counts of code points: "e" with an accent as Char, the same and a euro sign as Varchar, three bits, a null. */
static void show_points(void) {
    static const uint16_t all[] = {0, 1, 2, 3};
    static const char text[] = "\xC3\xA9\xE2\x82\xAC\xC0";
    uint8_t list[72];
    show("build, three numbers", build_accented(text, 22, 3), row);
    show("build, and a byte short", build_accented(text, 21, 3), row);
    show("build, and no text", build_accented("\xFF\xA9\xE2\x82\xAC\xC0", 22, 3), row);
    size_t end = show("build, with accents", build_accented(text, 22, 4), row);
    show_counts(4);
    show("read all", rook_row_read(accented, sizeof accented, row, end, all, 4, list, sizeof list, counts, 4), list);
    show_counts(4);
    counts[4] = 7;
    show("read column 1, five numbers",
         rook_row_read(accented, sizeof accented, row, end, all + 1, 1, list, sizeof list, counts, 5), list);
    show_counts(5);
    show("read, three numbers",
         rook_row_read(accented, sizeof accented, row, end, all, 4, list, sizeof list, counts, 3), list);
    show("build, no columns", rook_row_build(NULL, 0, false, NULL, 0, NULL, 0, row, sizeof row, NULL, 0), row);

    show_check("text: a letter and a sign", text, 5);
    show_check("text: C0 80", "\xC0\x80", 2);
    show_check("text: no bytes", "", 0);
    show_check("text: F4 8F BF BF", "\xF4\x8F\xBF\xBF", 4);
    show_check("text: an umlaut", "Z\xC3\xBCrich", 7);
    show_check("text: an umlaut, cut", "Z\xC3\xBCrich", 2);
}

/* The row of a station's name under a Varchar of at most 10, in characters or in bytes. */
static rook_row_answer build_station(uint8_t kind, const char *name, uint8_t count) {
    const uint8_t type[] = {kind, 10, 0};
    const uint8_t list[] = {ROOK_VALUE_VARCHAR, 0, 0, count, 0};
    return rook_row_build(type, sizeof type, false, list, sizeof list, bytes(name), count, row, sizeof row, counts, 1);
}

/* The umlaut is one character of two bytes: the first name has 10 characters and 11 bytes, the second 11 and 12. */
static void show_characters(void) {
    show("build, 10 characters", build_station(ROOK_VARCHAR_CHARS, "Z\xC3\xBCrich Hbf", 11), row);
    show_counts(1);
    show("build, 11 characters", build_station(ROOK_VARCHAR_CHARS, "Z\xC3\xBCrich HB 7", 12), row);
    show("build, 11 bytes", build_station(ROOK_VARCHAR, "Z\xC3\xBCrich Hbf", 11), row);
}

/* Edits over a handle of the row; the first accepted one fills in the layout. */
static void show_handle_edits(void) {
    size_t n = sizeof schema;
    rook_row_handle handle = {length, {0, 0, 0, 0, 0}};
    show("handle, column 3 to null", rook_row_handle_set_null(&handle, schema, n, row, sizeof row, 3), row);
    show_handle(handle);
    show("handle, set column 1",
         rook_row_handle_set(&handle, schema, n, row, sizeof row, 1, longer, sizeof longer, bytes("ABCDE"), 5), row);
    show_handle(handle);
    show("handle, column 1 to null", rook_row_handle_set_null(&handle, schema, n, row, sizeof row, 1), row);
    show_handle(handle);
}

/* A row list: platform 3, unit T41, arrival 0; platform 10, no unit, arrival 1 microsecond. Neither has a departure. */
/* clang-format off */
static uint8_t occupations[] = {
    0x1D, 0,                                        /* the first row has 29 bytes */
    4, 0, 2, 0x80, 8, 25, 0, 26, 0,                 /* its header, bitmap and offsets */
    0, 0, 0, 0, 0, 0, 0, 0, 0, 0, 0, 0, 0, 0, 0, 0, /* slots: arrival and departure */
    '3', 'T', '4', '1',                             /* texts */
    0x1B, 0,                                        /* the second row has 27 */
    4, 0, 2, 0x80, 10, 25, 0, 0, 0,                 /* bits 1 and 3: no unit, no departure */
    1, 0, 0, 0, 0, 0, 0, 0, 0, 0, 0, 0, 0, 0, 0, 0, /* one microsecond */
    '1', '0'};
/* clang-format on */

/* The lines of the list's first bytes in `room` bytes, or why it refused. */
static void show_print(const char *call, size_t list_length, size_t room) {
    uint8_t lines[80];
    rook_row_answer answer = rook_occupations_print(occupations, list_length, lines, room);
    if (answer.number != 0)
        printf("%-28srefused with %u at %zu, length %zu\n", call, answer.number, answer.place, answer.length);
    else
        printf("%-28s%zu bytes\n%.*s", call, answer.length, (int)answer.length, (const char *)lines);
}

/* The printed list. */
static void show_occupations(void) {
    size_t n = sizeof occupations;
    show_print("print two occupations", n, 80);
    show_print("print, a byte short", n, 60);
    show_print("print, the list cut", n - 1, 80);
    show_print("print, no rows", 0, 0);
    occupations[28] = '"';
    show_print("print, a quote in the unit", n, 80);
    occupations[18] = 0x7F; /* an arrival past 9999 */
    show_print("print, and a bad arrival", n, 80);
}

/* The same calls on a long row: four bytes for each offset, and ranges in numbers of four bytes. */
static void show_long_rows(void) {
    /* Int 1; a Varchar, 2 bytes from byte 0 of the text, four bytes a number; null. */
    static const uint8_t wide[] = {2, 1, 0, 0, 0, 18, 0, 0, 0, 0, 2, 0, 0, 0, 0};
    /* Null; a Varchar of the greatest start and length; null. */
    static const uint8_t past[] = {0, 18, 255, 255, 255, 255, 255, 255, 255, 255, 0};
    /* Char(65535), whose short rows would pass the limit, and a row of it that is cut off behind the header. */
    static const uint8_t possession[] = {9, 255, 255};
    uint8_t cut[] = {1, 0, 0, 0x80};
    size_t n = sizeof schema;
    uint8_t list[54], twin[20];
    show("fresh, long", rook_row_fresh(schema, n, true, row, sizeof row), row);
    show("fresh, long, no columns", rook_row_fresh(NULL, 0, true, row, sizeof row), row);
    show("build, long, text past",
         rook_row_build(schema, n, true, past, sizeof past, bytes("AB"), 2, row, sizeof row, counts, 3), row);
    length = show("build, long",
                  rook_row_build(schema, n, true, wide, sizeof wide, bytes("AB"), 2, row, sizeof row, counts, 3), row);
    size_t end =
        show("build, short, of the same",
             rook_row_build(schema, n, false, wide, sizeof wide, bytes("AB"), 2, twin, sizeof twin, counts, 3), twin);
    show_flag("same content as its twin", rook_row_same_content(schema, n, row, length, twin, end));
    show("read columns 0 and 1", rook_row_read(schema, n, row, length, wanted, 2, list, sizeof list, counts, 3), list);
    show_counts(3);
    show_text("text of column 1", rook_row_text(schema, n, row, length, 1));
    rook_row_handle handle = {length, {0, 0, 0, 0, 0}};
    show("handle, set column 1",
         rook_row_handle_set(&handle, schema, n, row, sizeof row, 1, longer, sizeof longer, bytes("ABCDE"), 5), row);
    show_handle(handle);
    length = show("set column 1 to null", rook_row_set_null(schema, n, row, sizeof row, handle.length, 1), row);
    show("read a short row", rook_row_read(possession, 3, cut, 4, wanted, 1, list, sizeof list, counts, 3), list);
    cut[3] = 0xC0;
    show("read a long one", rook_row_read(possession, 3, cut, 4, wanted, 1, list, sizeof list, counts, 3), list);
}

int main(void) {
    size_t n = sizeof schema;
    uint8_t list[54];
    show("fresh", rook_row_fresh(schema, n, false, row, sizeof row), row);
    show("fresh, no room", rook_row_fresh(schema, n, false, row, 12), row);
    show("fresh, unknown type", rook_row_fresh(bytes("\2\21"), 2, false, row, sizeof row), row);

    show("build, text cut",
         rook_row_build(schema, n, false, values, sizeof values, bytes("A"), 1, row, sizeof row, counts, 3), row);
    length =
        show("build",
             rook_row_build(schema, n, false, values, sizeof values, bytes("AB"), 2, row, sizeof row, counts, 3), row);

    show("read columns 0 and 1", rook_row_read(schema, n, row, length, wanted, 2, list, sizeof list, counts, 3), list);
    show("read, row cut", rook_row_read(schema, n, row, 12, wanted, 2, list, sizeof list, counts, 3), list);

    show_text("text of column 1", rook_row_text(schema, n, row, length, 1));
    show_text("text of column 2", rook_row_text(schema, n, row, length, 2));
    show_flag("column 2 is null", rook_row_is_null(row, length, 2));
    show_flag("column 3 is null", rook_row_is_null(row, length, 3));
    show_flag("same content as itself", rook_row_same_content(schema, n, row, length, row, length));
    show_flag("same content, row cut", rook_row_same_content(schema, n, row, length, row, 12));

    length = show("set column 1", set(1), row);
    length = show("set column 2 to a text", set(2), row);
    length = show("set column 1 to null", rook_row_set_null(schema, n, row, sizeof row, length, 1), row);
    length = show("set column 3 to null", rook_row_set_null(schema, n, row, sizeof row, length, 3), row);

    show_handle_edits();
    show_points();
    show_characters();
    show_occupations();
    show_long_rows();

    uint32_t version = rook_row_version();
    printf("%-28s%u.%u.%u\n", "version of the library", version >> 16, version >> 8 & 255, version & 255);
    printf("%-28s%s\n", "version of the header", ROOK_ROW_VERSION);
    printf("%-28s%s\n", "the same series", rook_row_0_4() >> 8 == ROOK_ROW_VERSION_NUMBER >> 8 ? "yes" : "no");
    return 0;
}
