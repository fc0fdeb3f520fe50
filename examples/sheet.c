/* The platform occupations of a morning as a row list on standard output, in the order in which they were written down.
 * The program `occupations` prints it; `make sheet` builds this and lets it. */
#include <stdio.h>

#include "rook_list.h"

enum { COLUMNS = 4, ROWS = 12, NONE = -1 };

/* Varchar(16), Varchar(64), Timestamp, Timestamp. */
static const uint8_t schema[] = {ROOK_VARCHAR, 16, 0, ROOK_VARCHAR, 64, 0, ROOK_TIMESTAMP, ROOK_TIMESTAMP};

#define AT(hour, minute, second) (((hour)*60 + (minute)) * 60 + (second))

/* Texts may be missing, and so may times, which are seconds of the day. */
static const struct {
    const char *platform, *unit;
    int32_t arrival, departure;
} occupations[ROWS] = {
    {"2", "RE 4", AT(6, 7, 0), AT(6, 9, 30)},
    {"1", "T41", AT(6, 12, 0), AT(6, 14, 30)},
    {"10", "IC 587", AT(6, 18, 0), AT(6, 21, 0)},
    {"3a", "Wendezug S\u00FCd", AT(6, 20, 0), NONE},
    {"1", "RB 12", AT(5, 41, 0), AT(5, 43, 30)},
    {"10", "EC 171 Ko\u0161ice", AT(7, 2, 0), AT(7, 6, 0)},
    {"2", "S 41", AT(6, 25, 0), AT(6, 25, 40)},
    {"3a", "T41", NONE, AT(6, 55, 0)},
    {"3", "G\u00FCterzug 50123", AT(6, 31, 15), AT(6, 48, 0)},
    {"1", "RB 12", AT(6, 41, 0), AT(6, 43, 30)},
    {NULL, "Rangierlok 2", AT(6, 30, 0), NONE},
    {"2", "RE 4", AT(7, 7, 0), AT(7, 9, 30)},
};

static void put_text(rook_values *values, const char *text) {
    if (text == NULL)
        rook_values_null(values);
    else
        rook_values_varchar(values, text);
}

/* A time of 2026-11-16, which is day 20773 from 1970-01-01. */
static void put_time(rook_values *values, int32_t second) {
    if (second == NONE)
        rook_values_null(values);
    else
        rook_values_timestamp(values, (20773LL * 86400 + second) * 1000000);
}

int main(void) {
    uint8_t records[ROOK_MAX_RECORD * COLUMNS], text[80], row[105], list[ROWS * (2 + sizeof row)];
    uint32_t counts[COLUMNS];
    rook_list rows = rook_list_in(list, sizeof list);
    for (size_t i = 0; i < ROWS; i++) {
        rook_values values = rook_values_in(records, sizeof records, text, sizeof text);
        put_text(&values, occupations[i].platform);
        put_text(&values, occupations[i].unit);
        put_time(&values, occupations[i].arrival);
        put_time(&values, occupations[i].departure);
        rook_row_answer built = rook_row_build(schema, sizeof schema, false, records, values.records.length, text,
                                               values.text.length, row, sizeof row, counts, COLUMNS);
        if (built.number != ROOK_DONE) {
            fprintf(stderr, "row %zu: %s\n", i, rook_number_text(built.number));
            return 1;
        }
        rook_rows_put(&rows, row, built.length);
    }
    return fwrite(list, 1, rows.length, stdout) != rows.length;
}
