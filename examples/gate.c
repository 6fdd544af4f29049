/*
 * A gate machine: the gate's library alone, and a list that was made elsewhere. The list is that of "any number of a"
 * for words of two bytes; it needs no text. Prints what the gate says of `aa` and of `ab`.
 */
#include <stdio.h>

#include "strovimel.h"

static const uint8_t list[108] = {
    /* no bytes: row 0, a, derives nothing; row 1, any number of row 0, the empty word */
    0, 0, 0, 0, 0, 0, 0, 0, 1, 0, 0, 0, 1, 0, 0, 0, 4, 0, 0, 0, 0, 0, 0, 0,
    /* one byte: each of them a */
    0, 0, 1, 0, 1, 0, 0, 0, 1, 0, 'a', 0, 'a', 0, 0, 0, 1, 0, 1, 0, 1, 0, 0, 0, 1, 0, 'a', 0, 'a', 0, 0, 0,
    /* two bytes: row 1 is one byte by row 0 and the rest by row 1 */
    0, 0, 2, 0, 0, 0, 0, 0, 1, 0, 2, 0, 1, 0, 0, 0, 3, 1, 0, 0, 1, 0, 0, 0,
    /* where the groups begin, the root, the row count, n, the total, the mark */
    0, 0, 0, 0, 24, 0, 0, 0, 56, 0, 0, 0, 1, 0, 2, 0, 2, 0, 0, 0, 108, 0, 0, 0, 'C', 'U', 'T', '1'};

static uint64_t work[STROVIMEL_WORK_WORDS];

static void ask(const char *word)
{
    uint32_t number = strovimel_gate(list, sizeof list, list, 0, (const uint8_t *)word, 2, work, STROVIMEL_WORK_WORDS);

    if (number == STROVIMEL_YES)
        printf("%s yes\n", word);
    else if (number == STROVIMEL_NO)
        printf("%s no\n", word);
    else
        printf("%s refused %lu\n", word, (unsigned long)number);
}

int main(void)
{
    ask("aa");
    ask("ab");
    return 0;
}
