/* Times of reading formulas: texts of three lengths that are refused at their end, so that all bytes are read and
   nothing is built. Prints a line for each: what, bytes, microseconds (the least of several rounds), the number
   answered. */
#include <mangerday.h>
#include <stdio.h>
#include <string.h>
#include <time.h>

#define MOST 262144

static uint32_t nodes[96], list[6], record[MD_RECORD], ports[MD_PORTS], answer[3];
static uint8_t text[MOST];

/* Predicate 0 is 1 at 0. */
static const uint32_t table[4] = {0, 1, 1, 0};

static double now(void)
{
    struct timespec t;
    clock_gettime(CLOCK_PROCESS_CPUTIME_ID, &t);
    return 1e6 * (double)t.tv_sec + 1e-3 * (double)t.tv_nsec;
}

/* A text of so many bytes: spaces, then a piece as often as it fits, then the end; digits after an m. */
static void fill(size_t length, const char *piece, const char *end)
{
    size_t size = strlen(piece), last = strlen(end), many = (length - last) / size, at = length - last - many * size;
    memset(text, ' ', at);
    for (; many; many--, at += size)
        memcpy(text + at, piece, size);
    memcpy(text + at, end, last);
    if (*piece == '0')
        text[0] = 'm';
}

static uint32_t call(size_t length)
{
    uint64_t listed, made, place;
    return md_check_formula(record, nodes, 96, list, 6, text, length, table, 4, answer, 3, &listed, &made, &place);
}

#define OPEN_32 "(((((((((((((((((((((((((((((((("
#define CLOSED_32 "))))))))))))))))))))))))))))))))"

static const size_t lengths[] = {16384, 65536, MOST};

/* What a text is, the piece that it repeats and its end; the least time and the number answered at each length. */
static struct kind {
    const char *what, *piece, *end;
    double least[3];
    uint32_t row[3];
} kinds[] = {
    {"predicates, outside at the end", "m0&", "x", {0}, {0}},
    {"spaces, outside at the end", " ", "x", {0}, {0}},
    {"digits of one number, past the table", "0", "9", {0}, {0}},
    {"steps, outside at the end", "NNNNNNNNNNNNNNNNm0 & ", "x", {0}, {0}},
    {"32 parentheses, outside at the end", OPEN_32 "m0" CLOSED_32 "&", "x", {0}, {0}},
    {"arrows, outside at the end", "(b2->b2->m0)&", "x", {0}, {0}},
    {"arrows, a wrong node at the end", "(b2->b2->m0)&", "(b3->m0)", {0}, {0}},
    {"predicates, 33 parentheses at the end", "m0&", OPEN_32 "(", {0}, {0}},
    {"32 parentheses, 33 at the end", OPEN_32 "m0" CLOSED_32 "&", OPEN_32 "(", {0}, {0}},
    {"predicates, a short answer", "m0&", "m0", {0}, {0}},
    {"32 parentheses, a short answer", OPEN_32 "m0" CLOSED_32 "&", "m0&m0", {0}, {0}},
    {"arrows, a short answer", "(b2->b2->m0)&", "m0&m0", {0}, {0}},
};

enum { KINDS = sizeof kinds / sizeof *kinds, LENGTHS = sizeof lengths / sizeof *lengths, ROUNDS = 40 };

static void measure(struct kind *kind, unsigned at)
{
    int i, calls = (int)(2 * MOST / lengths[at]);
    double start, each;
    fill(lengths[at], kind->piece, kind->end);
    start = now();
    for (i = 0; i < calls; i++)
        kind->row[at] = call(lengths[at]);
    each = (now() - start) / calls;
    if (kind->least[at] == 0 || each < kind->least[at])
        kind->least[at] = each;
}

/* Each round measures all, so that a slow while of the machine falls on all alike. */
int main(void)
{
    uint32_t node;
    unsigned round, i, at;
    if (md_fresh(record, 1, 1, nodes, 96, ports) || md_variable(record, nodes, 96, 8, &node))
        return 1;
    for (round = 0; round < ROUNDS; round++)
        for (i = 0; i < KINDS; i++)
            for (at = 0; at < LENGTHS; at++)
                measure(&kinds[i], at);
    for (i = 0; i < KINDS; i++)
        for (at = 0; at < LENGTHS; at++)
            printf("%s\t%u\t%.2f\t%u\n", kinds[i].what, (unsigned)lengths[at], kinds[i].least[at], (unsigned)kinds[i].row[at]);
    return 0;
}
