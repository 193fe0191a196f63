/* How much stack a call uses: judges each sheet named on the command line on a thread whose stack was filled with one byte before, looks
 * how far down other bytes stand after the call, and prints the most of all in bytes. Then the same of the call for reasons, and of the
 * check of the reason that it writes. Behind the sheets comes one more, with a reason that takes the check deepest.
 *
 *     stack SHEET.. */
#define _POSIX_C_SOURCE 200809L
#include <pthread.h>
#include <stdio.h>
#include <string.h>

#include "baruvkesh.h"

#define STACK_SIZE (1024 * 1024)
#define PAINT 0xA5
#define CALLS 3

static _Alignas(4096) uint8_t stack[STACK_SIZE];
static uint8_t sheet[BARUVKESH_LONGEST_SHEET + 1];
static uint8_t room[BARUVKESH_REASON_ROOM], list[BARUVKESH_MAX_ENTRIES], steps[BARUVKESH_REASON_ROOM];
static size_t sheet_len, list_len, steps_len, used;

/* From this function's own frame to the lowest byte that the call wrote: what a thread uses without the call doesn't count. */
static void *measured(void (*call)(void)) {
    const uint8_t *frame = __builtin_frame_address(0);
    const uint8_t *lowest = stack;
    call();
    while (lowest < frame && *lowest == PAINT) {
        lowest++;
    }
    used = (size_t)(frame - lowest);
    return NULL;
}

static void judge(void) { baruvkesh_judge(sheet, sheet_len, room, sizeof room); }
static void reason(void) { baruvkesh_reason(sheet, sheet_len, room, sizeof room); }
static void survey(void) { baruvkesh_survey(sheet, sheet_len, list, list_len, steps, steps_len); }
static void *judged(void *unused) { return (void)unused, measured(judge); }
static void *reasoned(void *unused) { return (void)unused, measured(reason); }
static void *surveyed(void *unused) { return (void)unused, measured(survey); }

static int on_painted_stack(void *(*call)(void *)) {
    pthread_attr_t attributes;
    pthread_t thread;
    memset(stack, PAINT, sizeof stack);
    return pthread_attr_init(&attributes) == 0 && pthread_attr_setstack(&attributes, stack, sizeof stack) == 0
        && pthread_create(&thread, &attributes, call, NULL) == 0 && pthread_join(thread, NULL) == 0;
}

/* Reads a sheet, and lays the reason that is written for it ready for its check: no list and no steps, if there is none. */
static int read_sheet(const char *name) {
    FILE *file = fopen(name, "rb");
    if (file == NULL) {
        return 0;
    }
    sheet_len = fread(sheet, 1, sizeof sheet, file);
    fclose(file);
    uint64_t written = baruvkesh_reason(sheet, sheet_len, room, sizeof room);
    list_len = steps_len = 0;
    if (baruvkesh_reason_number(written) == 1) {
        list_len = room[6] * 256u + room[7];
        steps_len = baruvkesh_reason_place(written) - 10 - list_len;
        memcpy(list, room + 10, list_len);
        memcpy(steps, room + 10 + list_len, steps_len);
    }
    return 1;
}

static void append(uint8_t *bytes, size_t *count, const uint8_t *more, size_t size) {
    memcpy(bytes + *count, more, size);
    *count += size;
}

/* Unknowns of which the first two are equal, each is equal to the next but one, and the last two are unequal. Two neighbours are tied by
 * going over the tie before theirs, so that what is behind the last step is gathered through every tie, one through the other. */
static void make_deepest(void) {
    const uint8_t last = BARUVKESH_MAX_TERMS - 1;
    const uint8_t head[6] = {BARUVKESH_LONGEST_SHEET >> 8, BARUVKESH_LONGEST_SHEET & 255, 1, BARUVKESH_MAX_TERMS, BARUVKESH_MAX_ENTRIES};
    const uint8_t unequal[6] = {1, 0, last - 1, last}, closing[13] = {3, last};
    memset(sheet, 0, sizeof sheet);
    memcpy(sheet, head, sizeof head);
    sheet_len = sizeof head + 6 * BARUVKESH_MAX_TERMS;
    list_len = steps_len = 0;
    for (uint8_t own = 0; own < last; own++) {
        const uint8_t before = own == 0 ? 0 : own - 1;
        const uint8_t equal[6] = {0, 0, before, own + 1};
        const uint8_t first[17] = {0, own, own + 1, 0, 0, 0, 0, 0, 0, 0, 0, 1, 1, 0, own, 1, own};
        const uint8_t later[21] = {0, own, own + 1, 0, 0, 0, 0, 0, 0, 0, 0, 2, 2, 5, before, 0, own, 1, own, 4, before};
        append(sheet, &sheet_len, equal, sizeof equal);
        append(steps, &steps_len, own == 0 ? first : later, own == 0 ? sizeof first : sizeof later);
        append(list, &list_len, &own, 1);
    }
    append(sheet, &sheet_len, unequal, sizeof unequal);
    append(steps, &steps_len, closing, sizeof closing);
    append(list, &list_len, &last, 1);
}

int main(int count, char **names) {
    void *(*const calls[CALLS])(void *) = {judged, reasoned, surveyed};
    size_t most[CALLS] = {0};
    for (int at = 1; at <= count; at++) {
        if (at == count) {
            make_deepest();
        } else if (!read_sheet(names[at])) {
            perror(names[at]);
            return 1;
        }
        for (size_t which = 0; which < CALLS; which++) {
            if (!on_painted_stack(calls[which])) {
                fprintf(stderr, "no thread could be run\n");
                return 1;
            }
            most[which] = used > most[which] ? used : most[which];
        }
    }
    /* one that is sent back isn't gathered at all */
    if (baruvkesh_survey(sheet, sheet_len, list, list_len, steps, steps_len) != 0) {
        fprintf(stderr, "the reason made here gets no yes\n");
        return 1;
    }
    for (size_t which = 0; which < CALLS; which++) {
        printf("%zu\n", most[which]);
    }
    return 0;
}
