/* The version of the header, as text and as numbers, and that of the library are one. */
#include <stdio.h>
#include <string.h>

#include "rook_row.h"

/* The function that is called after the series of the header's numbers. */
#define JOINED(a, b) rook_row_##a##_##b
#define NAMED_AFTER(a, b) JOINED(a, b)

int main(void) {
    char text[32];
    snprintf(text, sizeof text, "%d.%d.%d", ROOK_ROW_VERSION_MAJOR, ROOK_ROW_VERSION_MINOR, ROOK_ROW_VERSION_PATCH);
    uint32_t series = NAMED_AFTER(ROOK_ROW_VERSION_MAJOR, ROOK_ROW_VERSION_MINOR)();
    if (strcmp(text, ROOK_ROW_VERSION) != 0 || rook_row_version() != ROOK_ROW_VERSION_NUMBER ||
        series != ROOK_ROW_VERSION_NUMBER) {
        printf("the header is %s by its text and %s by its numbers, the library %06X and %06X\n", ROOK_ROW_VERSION,
               text, rook_row_version(), series);
        return 1;
    }
    printf("header and library are version %s\n", ROOK_ROW_VERSION);
    return 0;
}
