/* Every byte of a lent handle after a call. It is filled with A5 first; an accepted call must have stored all of it, a
 * refused one none. The columns are Int, Varchar(5), SmallInt. */
#include <stdio.h>
#include <string.h>

#include "rook_row.h"

static const uint8_t schema[] = {2, 11, 5, 0, 1};
/* A list of one value: a Varchar, 5 bytes from byte 0 of the text. */
static const uint8_t longer[] = {9, 0, 0, 5, 0};

static uint8_t row[22];
static rook_row_handle handle;
static int faults;

/* Leaves 5A where the next call has its locals. */
static void fill_stack(void) {
    volatile uint8_t used[4096];
    for (size_t i = 0; i < sizeof used; i++)
        used[i] = 0x5A;
}

/* A handle of A5, with this length. */
static void begin(size_t length) {
    memset(&handle, 0xA5, sizeof handle);
    handle.length = length;
    fill_stack();
}

/* The call's number, and the handle as six numbers of eight bytes, low byte first. */
static void left(const char *call, rook_row_answer answer, uint32_t number, const uint64_t wanted[6]) {
    const uint8_t *bytes = (const uint8_t *)&handle;
    if (answer.number != number) {
        printf("%s: answered %u, not %u\n", call, answer.number, number);
        faults++;
    }
    for (size_t i = 0; i < sizeof handle; i++) {
        uint8_t byte = (uint8_t)(wanted[i / 8] >> 8 * (i % 8));
        if (bytes[i] != byte) {
            printf("%s: byte %zu of the handle is %02X, not %02X\n", call, i, bytes[i], byte);
            faults++;
        }
    }
}

static rook_row_answer set(size_t column) {
    return rook_row_handle_set(&handle, schema, sizeof schema, row, sizeof row, column, longer, sizeof longer,
                               (const uint8_t *)"ABCDE", 5);
}

static rook_row_answer set_null(size_t column) {
    return rook_row_handle_set_null(&handle, schema, sizeof schema, row, sizeof row, column);
}

int main(void) {
    static const uint64_t a5 = 0xA5A5A5A5A5A5A5A5;
    _Static_assert(sizeof handle == 48, "six numbers of eight bytes");

    begin(rook_row_fresh(schema, sizeof schema, false, row, sizeof row).length);
    left("set, accepted", set(1), 0, (uint64_t[]){18, 3, 1, 6, 1, 0});
    begin(18);
    left("set null, accepted", set_null(1), 0, (uint64_t[]){13, 3, 1, 6, 1, 0});

    begin(13);
    left("set, no such column", set(3), 9, (uint64_t[]){13, a5, a5, a5, a5, a5});
    begin(13);
    left("set null, no such column", set_null(3), 9, (uint64_t[]){13, a5, a5, a5, a5, a5});
    begin(a5);
    left("set, length past the buffer", set(1), 14, (uint64_t[]){a5, a5, a5, a5, a5, a5});
    begin(a5);
    left("set null, length past the buffer", set_null(1), 14, (uint64_t[]){a5, a5, a5, a5, a5, a5});

    /* the same columns without the Varchar, padded: Int, SmallInt, flag clear */
    uint8_t padded[] = {2, 0, 0, 0, 0, 1, 0, 0, 0, 2, 0};
    begin(sizeof padded);
    left("set null, a padded row",
         rook_row_handle_set_null(&handle, (const uint8_t *)"\2\1", 2, padded, sizeof padded, 0), 0,
         (uint64_t[]){sizeof padded, 2, 0, 6, 0, 0});
    padded[3] = 0x40;
    begin(sizeof padded);
    left("set null, a padded long row",
         rook_row_handle_set_null(&handle, (const uint8_t *)"\2\1", 2, padded, sizeof padded, 0), 0,
         (uint64_t[]){sizeof padded, 2, 0, 6, 0, 1});

    /* a long row: its offset has four bytes, so that the row of nulls has 15 */
    begin(rook_row_fresh(schema, sizeof schema, true, row, sizeof row).length);
    left("set, a long row", set(1), 0, (uint64_t[]){20, 3, 1, 6, 1, 1});
    begin(20);
    left("set null, a long row", set_null(1), 0, (uint64_t[]){15, 3, 1, 6, 1, 1});
    begin(15);
    left("set null of a long row, no such column", set_null(3), 9, (uint64_t[]){15, a5, a5, a5, a5, a5});

    if (faults == 0)
        printf("every byte of a lent handle is as it must be, after accepted and refused calls\n");
    return faults != 0;
}
