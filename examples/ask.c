/*
 * The plan cache's question, asked both ways: may two users, one with filter A and one with filter B, share a plan?
 *
 *     ask A-NOT-B.sheet B-NOT-A.sheet BUDGET
 *
 * The first sheet asks for a key in A and not in B, the second for a key in B and not in A. Prints `share` when both
 * answers are none; else a line for each answer that is not none. Ends with 0 for share, 1 for any other answer, 2 where
 * it cannot ask or cannot tell. Two equal files are the question asked one way alone, and no ground to share.
 */
#include <errno.h>
#include <inttypes.h>
#include <stdio.h>
#include <stdlib.h>
#include <string.h>

#include "strovimel.h"

/* A file, or as much of it as shows that it is too long for a sheet. */
typedef struct {
    const char *path;
    uint8_t bytes[STROVIMEL_SHEET_MAX + 1];
    size_t length;
} sheet;

static uint64_t work[STROVIMEL_WORK_WORDS];

static int read_sheet(const char *path, sheet *s)
{
    FILE *file = fopen(path, "rb");
    int failed;

    if (file == NULL) {
        perror(path);
        return 0;
    }
    s->path = path;
    s->length = fread(s->bytes, 1, sizeof s->bytes, file);
    failed = ferror(file);
    if (failed)
        perror(path);
    fclose(file);
    return !failed;
}

/* Decimal digits alone, and no more than a budget holds. */
static int read_budget(const char *digits, uint64_t *budget)
{
    unsigned long long number;

    if (*digits == '\0' || strspn(digits, "0123456789") != strlen(digits))
        return 0;
    errno = 0;
    number = strtoull(digits, NULL, 10);
    *budget = number;
    return errno == 0 && number <= UINT64_MAX;
}

static void tell(const char *path, strovimel_solved answer, const uint8_t *word)
{
    uint32_t i;

    printf("%s: ", path);
    switch (answer.number) {
    case STROVIMEL_FOUND:
        printf("found ");
        for (i = 0; i < answer.length; i++)
            printf("%02x", word[i]);
        printf("%s\n", answer.length == 0 ? "-" : "");
        break;
    case STROVIMEL_SPENT:
        printf("spent %" PRIu64 "\n", answer.trials);
        break;
    case STROVIMEL_SHEET_COUNTS:
    case STROVIMEL_SHEET_RECORD:
    case STROVIMEL_SHEET_TERM:
        printf("refused %" PRIu32 " %" PRIu32 " %" PRIu32 "\n", answer.number, answer.table, answer.record);
        break;
    default:
        printf("refused %" PRIu32 "\n", answer.number);
    }
}

/* 1 for none, 0 for any other answer, which is told. */
static int ask(const sheet *s, uint64_t budget)
{
    uint8_t word[STROVIMEL_LONGEST];
    strovimel_solved answer =
        strovimel_solve(s->bytes, s->length, budget, work, STROVIMEL_WORK_WORDS, word, sizeof word);

    if (answer.number == STROVIMEL_NONE)
        return 1;
    tell(s->path, answer, word);
    return 0;
}

int main(int count, char **words)
{
    static sheet one, other;
    uint64_t budget;
    int share;

    if (count != 4) {
        fprintf(stderr, "ask A-NOT-B.sheet B-NOT-A.sheet BUDGET\n");
        return 2;
    }
    if (!read_budget(words[3], &budget)) {
        fprintf(stderr, "not a budget: %s\n", words[3]);
        return 2;
    }
    if (!read_sheet(words[1], &one) || !read_sheet(words[2], &other))
        return 2;
    if (one.length == other.length && memcmp(one.bytes, other.bytes, one.length) == 0) {
        fprintf(stderr, "%s and %s are equal: the question is asked one way alone\n", one.path, other.path);
        return 2;
    }
    share = ask(&one, budget);
    share = ask(&other, budget) && share;
    if (share)
        printf("share\n");
    if (ferror(stdout) || fclose(stdout) != 0) {
        perror("standard output");
        return 2;
    }
    return !share;
}
