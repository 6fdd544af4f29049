/*
 * Moves a sheet to another edition, for a site that has not upgraded yet, or has:
 *
 *     move first|second < SHEET > MOVED
 *
 * Ends with 0 where the moved sheet is written; with 1, a line on standard error and nothing written where the sheet is
 * refused, as one that is of that edition already is; with 2 where it cannot be read or the moved sheet not be written.
 */
#include <inttypes.h>
#include <stdio.h>
#include <string.h>

#include "strovimel.h"

static void tell(strovimel_made refused)
{
    fprintf(stderr, "refused %" PRIu32, refused.number);
    if (refused.number == STROVIMEL_SHEET_COUNTS || refused.number == STROVIMEL_SHEET_RECORD ||
        refused.number == STROVIMEL_SHEET_TERM)
        fprintf(stderr, " %" PRIu32 " %" PRIu32, refused.table, refused.record);
    fprintf(stderr, "\n");
}

int main(int count, char **words)
{
    /* As many bytes of a sheet as show that it is too long, and room for every moved sheet. */
    static uint8_t sheet[STROVIMEL_SHEET_MAX + 1], room[STROVIMEL_SHEET_MAX];
    int first = count == 2 && strcmp(words[1], "first") == 0, second = count == 2 && strcmp(words[1], "second") == 0;
    strovimel_made moved;
    size_t length;

    if (!first && !second) {
        fprintf(stderr, "move first|second < SHEET > MOVED\n");
        return 2;
    }
    length = fread(sheet, 1, sizeof sheet, stdin);
    if (ferror(stdin)) {
        perror("standard input");
        return 2;
    }
    moved = first ? strovimel_to_first(sheet, length, room, sizeof room)
                  : strovimel_to_second(sheet, length, room, sizeof room);
    if (moved.number != STROVIMEL_WRITTEN) {
        tell(moved);
        return 1;
    }
    if (fwrite(room, 1, moved.length, stdout) != moved.length || fclose(stdout) != 0) {
        perror("standard output");
        return 2;
    }
    return 0;
}
