/* Judges the sheet on standard input and prints one line, as the program `judge` does: `holds`, `clashes` with the entry numbers, or
 * `refused N at P`. With an argument, whatever it is, the input is a typed text, as the program `typed` takes it.
 *
 *     cc -I bindings/c bindings/c/example.c target/staticlib/libbaruvkesh.a -o target/example
 *     target/example < sheets/01.sheet
 *     printf 'x0<x1\nx1<x0\n' | target/example text */
#include <stdio.h>

#include "baruvkesh.h"

/* Writes the sheet of the text on standard input, and answers its length; or prints why there is none, and answers 0. */
static size_t read_text(uint8_t *sheet, size_t room_len) {
    /* one byte more than is judged, so that a longer input isn't cut to a text */
    static uint8_t text[65536];
    size_t lent = fread(text, 1, sizeof text, stdin);
    if (lent == sizeof text) {
        printf("refused: more than 65535 bytes\n");
        return 0;
    }
    uint64_t typed = baruvkesh_transcribe(text, lent, sheet, room_len);
    if (baruvkesh_typed_number(typed) != 0) {
        printf("refused %u at %zu\n", baruvkesh_typed_number(typed), baruvkesh_typed_place(typed));
        return 0;
    }
    return baruvkesh_typed_place(typed);
}

int main(int argc, char **argv) {
    (void)argv;
    /* one byte more than the longest sheet, so that a longer input isn't cut to a sheet */
    uint8_t sheet[BARUVKESH_LONGEST_SHEET + 1];
    uint8_t room[BARUVKESH_ROOM_NEEDED];
    size_t lent;
    if (argc < 2) {
        lent = fread(sheet, 1, sizeof sheet, stdin);
    } else if ((lent = read_text(sheet, sizeof sheet)) == 0) {
        return 0;
    }
    uint32_t answer = baruvkesh_judge(sheet, lent, room, sizeof room);
    switch (baruvkesh_number(answer)) {
    case 0:
        printf("holds\n");
        break;
    case 1:
        printf("clashes");
        for (size_t at = 8; at < baruvkesh_place(answer); at++) {
            printf(" %u", (unsigned)room[at]);
        }
        printf("\n");
        break;
    default:
        printf("refused %u at %zu\n", baruvkesh_number(answer), baruvkesh_place(answer));
    }
    return 0;
}
