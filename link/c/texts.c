/*
 * Every text of up to so many letters through md_check_formula, on a small memory that is the same each time.
 *
 *     texts LETTERS [BEFORE]
 *
 * writes a byte for each text, BEFORE standing before its letters: the text of no letters first, then for each
 * letter in the order of LETTER all texts that begin with it, in this order. The byte's high half is 0 for
 * accepted, 1 for row 15, 2 for 16 and 15 for any other number; its low half is how many were listed and made, or
 * the place, counted from the end of BEFORE. 255 stands for what no such byte can say: another number, a place
 * before that or past 14, numbers listed and made that differ, an out-word or an answer word written that should
 * not be, or a refusal that left something changed. tests/linktexts.py reads it.
 */
#include <stdio.h>
#include <stdlib.h>
#include <string.h>

#include "mangerday.h"

static const char LETTER[] = "mbN&()-> 03x";

enum { NODES = 4, NODE_WORDS = 60, LIST_WORDS = 6, MOST = 256, ANSWER_WORDS = 384, UNTOLD = 7777 };

/* Node 2 is variable 8, node 3 index variable 0. */
static const uint32_t STORE[3 * NODES] = {64, 0, 0, 64, 1, 1, 8, 0, 1, 0, 0, 1};
static const uint32_t RECORD[MD_RECORD] = {1, 1, NODES, 0, 1, 1};

/* One predicate, X at 1, and half of another. */
static const uint32_t TABLE[6] = {1, 0, 1, 1, 0, 1};

static uint32_t record[MD_RECORD], nodes[NODE_WORDS], list[LIST_WORDS], answer[ANSWER_WORDS];
static uint32_t untouched[ANSWER_WORDS];
static uint8_t text[MOST];
static size_t before;

static int same(const uint32_t *one, const uint32_t *other, size_t length)
{
    return memcmp(one, other, length * sizeof *one) == 0;
}

/* The memory as it is before each call. */
static void begin(void)
{
    memcpy(record, RECORD, sizeof record);
    memcpy(nodes, STORE, sizeof STORE);
    memset(nodes + 3 * NODES, 0, sizeof nodes - sizeof STORE);
    memcpy(answer, untouched, sizeof answer);
}

static int told(size_t length)
{
    uint64_t listed = UNTOLD, made = UNTOLD, place = UNTOLD;
    uint32_t row;

    begin();
    row = md_check_formula(record, nodes, NODE_WORDS, list, LIST_WORDS, text, length, TABLE, 6, answer, ANSWER_WORDS, &listed,
                           &made, &place);
    if (row == MD_ACCEPTED) {
        if (listed > 15 || made != listed || place != UNTOLD
            || !same(answer + 3 * listed, untouched, ANSWER_WORDS - 3 * (size_t)listed))
            return 255;
        return (int)listed;
    }
    if (listed != UNTOLD || made != UNTOLD || !same(record, RECORD, MD_RECORD) || !same(nodes, STORE, 3 * NODES)
        || !same(answer, untouched, ANSWER_WORDS))
        return 255;
    if ((row != MD_ROW_FORMULA && row != MD_ROW_NESTING) || place < before || place - before > 14)
        return 255;
    return (row == MD_ROW_FORMULA ? 16 : 32) + (int)(place - before);
}

static void all(size_t length, size_t most)
{
    const char *letter;
    putchar(told(length));
    if (length == most)
        return;
    for (letter = LETTER; *letter; letter++) {
        text[length] = (uint8_t)*letter;
        all(length + 1, most);
    }
}

int main(int count, char **words)
{
    size_t letters;
    int i;

    if (count < 2 || count > 3 || (letters = (size_t)atoi(words[1])) > 14
        || (before = count == 3 ? strlen(words[2]) : 0) + letters > MOST) {
        fprintf(stderr, "usage: texts LETTERS [BEFORE]\n");
        return 2;
    }
    if (before)
        memcpy(text, words[2], before);
    for (i = 0; i < ANSWER_WORDS; i++)
        untouched[i] = UNTOLD;
    all(before, before + letters);
    return fflush(stdout) != 0 || ferror(stdout);
}
