/*
 * How many bytes of stack each call takes at most: each is made on a stack of its own, filled with a pattern, and the
 * pattern's end is looked for behind it. `stack SHEET..` puts each sheet to the solver, with a budget, moves it to the
 * second edition and back, and puts each of its rows to the maker at several lengths, and a word to the gate for each
 * list. Faulty sheets are passed over, and those of the second edition are not moved.
 */
#define _DEFAULT_SOURCE
#include <stdio.h>
#include <stdlib.h>
#include <string.h>
#include <ucontext.h>

#include "strovimel.h"

#define STACK 262144
#define FILL 0x5a
#define LIST ((size_t)1 << 22)
#define BUDGET 20000

static uint8_t stack[STACK];
static ucontext_t here, there;

/* The arguments and the answers of the call in hand. */
static uint8_t sheet[STROVIMEL_SHEET_MAX + 1], text[1024], list[LIST], word[STROVIMEL_LONGEST];
static uint8_t first[STROVIMEL_SHEET_MAX], second[STROVIMEL_SHEET_MAX];
static uint64_t work[STROVIMEL_WORK_WORDS];
static size_t sheet_length, row, length;
static strovimel_made made, moved;
static uint32_t answer;

static void nothing(void)
{
}

static void solve(void)
{
    answer = strovimel_solve(sheet, sheet_length, BUDGET, work, STROVIMEL_WORK_WORDS, word, sizeof word).number;
}

static void make(void)
{
    made = strovimel_make(sheet, sheet_length, row, length, list, sizeof list);
    answer = made.number;
}

static void gate(void)
{
    answer = strovimel_gate(list, made.length, text, sizeof text, word, length, work, STROVIMEL_WORK_WORDS);
}

static void to_second(void)
{
    moved = strovimel_to_second(sheet, sheet_length, second, sizeof second);
    answer = moved.number;
}

static void to_first(void)
{
    answer = strovimel_to_first(second, moved.length, first, sizeof first).number;
}

static size_t taken(void (*call)(void))
{
    size_t untouched = 0;

    memset(stack, FILL, sizeof stack);
    getcontext(&there);
    there.uc_stack.ss_sp = stack;
    there.uc_stack.ss_size = sizeof stack;
    there.uc_link = &here;
    makecontext(&there, call, 0);
    swapcontext(&here, &there);
    while (untouched < sizeof stack && stack[untouched] == FILL)
        untouched++;
    return sizeof stack - untouched;
}

static void read_sheet(const char *path)
{
    FILE *file = fopen(path, "rb");

    if (file == NULL) {
        perror(path);
        exit(1);
    }
    sheet_length = fread(sheet, 1, sizeof sheet, file);
    fclose(file);
}

/* A refused call says nothing of what an answer takes. */
static void measure(size_t *most, void (*call)(void))
{
    size_t bytes = taken(call);

    if (answer <= STROVIMEL_SPENT && bytes > *most)
        *most = bytes;
}

int main(int count, char **paths)
{
    size_t none = taken(nothing), most[5] = {0, 0, 0, 0, 0};
    int i;

    for (i = 1; i < count; i++) {
        read_sheet(paths[i]);
        measure(&most[0], solve);
        if (answer > STROVIMEL_SPENT)
            continue;
        measure(&most[3], to_second);
        if (moved.number == STROVIMEL_WRITTEN)
            measure(&most[4], to_first);
        for (row = 0; row == 0 || made.number != STROVIMEL_ROW; row++)
            for (length = 0; length <= STROVIMEL_LONGEST; length += 5) {
                measure(&most[1], make);
                if (made.number == STROVIMEL_WRITTEN)
                    measure(&most[2], gate);
            }
    }
    printf("bytes of stack, of a call alone:\nsolve %zu\nmake %zu\ngate %zu\nto_second %zu\nto_first %zu\n",
           most[0] - none, most[1] - none, most[2] - none, most[3] - none, most[4] - none);
    return 0;
}
