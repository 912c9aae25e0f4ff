/*
 * A written formula, as a verification engineer would write it: asserted on a fresh memory of two locations of
 * one bit, then checked; and one that is no formula, shown with a mark under the byte at which it is refused.
 */
#include <stdio.h>
#include <string.h>

#include "mangerday.h"

enum { NODE_WORDS = 300, LIST_WORDS = 24, ANSWER_WORDS = 30 };

static uint32_t record[MD_RECORD], nodes[NODE_WORDS], list[LIST_WORDS], ports[MD_PORTS], answer[ANSWER_WORDS];

/* m0: 1 at location 0. m1: 0 at location 1. A bit that is 1 is the pair (1,0), one that is 0 the pair (0,1). */
static const uint32_t table[8] = {0, 1, 1, 0, 1, 0, 0, 1};

typedef uint32_t make(uint32_t *, uint32_t *, size_t, const char *, uint64_t *, uint64_t *, uint64_t *);

static uint32_t asserts(uint32_t *r, uint32_t *n, size_t words, const char *text, uint64_t *listed, uint64_t *made, uint64_t *place)
{
    return md_assert_formula(r, n, words, list, LIST_WORDS, (const uint8_t *)text, strlen(text), table, 8, answer, ANSWER_WORDS,
                             listed, made, place);
}

static uint32_t checks(uint32_t *r, uint32_t *n, size_t words, const char *text, uint64_t *listed, uint64_t *made, uint64_t *place)
{
    return md_check_formula(r, n, words, list, LIST_WORDS, (const uint8_t *)text, strlen(text), table, 8, answer, ANSWER_WORDS,
                            listed, made, place);
}

/* The formula, what it lists, and how many accesses were made; or where it is refused. */
static void run(const char *what, make *call, const char *text)
{
    uint64_t listed = 0, made = 0, place = 0, i;
    uint32_t row = call(record, nodes, NODE_WORDS, text, &listed, &made, &place);
    printf("%s %s\n", what, text);
    if (row == MD_ROW_FORMULA || row == MD_ROW_NESTING) {
        printf("%*s^ refused by %u\n", (int)(strlen(what) + 1 + place), "", (unsigned)row);
        return;
    }
    for (i = 0; i < listed; i++)
        printf("  step %u  condition %u  m%u\n", (unsigned)answer[3 * i], (unsigned)answer[3 * i + 1], (unsigned)answer[3 * i + 2]);
    printf("  %u of %u made", (unsigned)made, (unsigned)listed);
    if (row != MD_ACCEPTED)
        printf(", then refused by %u: %s", (unsigned)row, md_reason(row));
    printf("\n");
}

int main(void)
{
    uint32_t wanted;
    if (md_fresh(record, 1, 1, nodes, NODE_WORDS, ports) || md_variable(record, nodes, NODE_WORDS, 8, &wanted))
        return 1;
    run("assert", asserts, "b2 -> m0 & N(m1 & m0)");
    run("check", checks, "(b2 -> m1) & N N m0");
    run("check", checks, "m0 & b2 -> m1");
    return 0;
}
