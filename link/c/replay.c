/*
 * The paper's example, once by the calls and once as a case file. Both texts must be the paper's, and both must leave
 * the same record, node words and list words. Where the check fails is found as a witness, and a text that does not fit
 * its buffer must be refused. Then a read that is not enabled must give again what its port holds, and a write that is
 * never enabled must be idle and change nothing. The header's example of counted entries must need exactly as many as
 * it says. Last, a written formula must be listed and made, one outside the language refused at its place, and one that
 * the list has no space for stopped. Else the program says what differs and its status is 1.
 */
#include <stdio.h>
#include <string.h>

#include "mangerday.h"

enum { NODE_WORDS = 96, LIST_WORDS = 24, ENTRY_WORDS = 6, TEXT_BYTES = 256 };

static const char EXPECTED[] =
    "write 0\n"
    "read 1:(8 0 1)\n"
    "check (8 1 0)\n"
    "end 1\n";

static const uint8_t CASE[] = {
    0x01, 0x01,                                                                   /* n, w */
    0x02, 0x00, 0x08, 0x00, 0x00, 0x01, 0x00, 0x08, 0x01, 0x00, 0x00, 0x00,       /* nodes 2 and 3 */
    0x03, 0x00,                                                                   /* three accesses */
    0x01, 0x01, 0x00, 0x00, 0x00, 0x02, 0x00, 0x03, 0x00, 0x01, 0x00, 0x00, 0x00, /* write */
    0x02, 0x00, 0x01, 0x00, 0x00, 0x00, 0x00, 0x00, 0x01, 0x00,                   /* read by port 0 */
    0x04, 0x01, 0x00, 0x00, 0x00, 0x01, 0x00, 0x01, 0x00, 0x00, 0x00,             /* check */
};

/* A memory as the calls pass it on, and a text. */
struct memory {
    uint32_t record[MD_RECORD];
    uint32_t nodes[NODE_WORDS];
    uint32_t list[LIST_WORDS];
    uint32_t ports[MD_PORTS];
    char text[TEXT_BYTES];
    size_t length;
};

static int failures = 0;

/* A call that the example has accepted. */
static void accept(const char *call, uint32_t row)
{
    if (row != MD_ACCEPTED) {
        printf("%s: refused by row %u: %s\n", call, (unsigned)row, md_reason(row));
        failures++;
    }
}

static void put(struct memory *m, const char *bytes)
{
    size_t length = strlen(bytes);
    if (m->length + length > TEXT_BYTES) {
        printf("the text is too long\n");
        failures++;
        return;
    }
    memcpy(m->text + m->length, bytes, length);
    m->length += length;
}

static void put_number(struct memory *m, uint32_t number)
{
    char digits[16];
    snprintf(digits, sizeof digits, "%u", (unsigned)number);
    put(m, digits);
}

/* A condition's text, behind what is there. */
static void put_condition(struct memory *m, uint32_t node)
{
    uint64_t length = 0;
    accept("text", md_text(m->record, m->nodes, NODE_WORDS, node, (uint8_t *)m->text + m->length,
                           TEXT_BYTES - m->length, &length));
    m->length += (size_t)length;
}

static void by_calls(struct memory *m)
{
    static const uint32_t one[2] = {MD_TRUE, MD_FALSE};
    static const uint32_t zero[2] = {MD_FALSE, MD_TRUE};
    uint32_t a = 0, not_a = 0, place = 0;
    uint32_t symbolic[2];
    uint32_t answer[2] = {0, 0};

    accept("fresh", md_fresh(m->record, 1, 1, m->nodes, NODE_WORDS, m->ports));
    accept("variable", md_variable(m->record, m->nodes, NODE_WORDS, 8, &a));
    accept("ite", md_ite(m->record, m->nodes, NODE_WORDS, a, MD_FALSE, MD_TRUE, &not_a));

    symbolic[0] = a;
    symbolic[1] = not_a;
    accept("write", md_write(m->record, m->nodes, NODE_WORDS, m->list, LIST_WORDS, one, 2, symbolic, 2, one, 2, &place));
    put(m, "write ");
    put_number(m, place);

    accept("read", md_read(m->record, m->nodes, NODE_WORDS, m->list, LIST_WORDS, m->ports, 0, one, 2, zero, 2, answer, 2));
    put(m, "\nread ");
    put_condition(m, answer[0]);
    put(m, ":");
    put_condition(m, answer[1]);

    accept("check", md_check(m->record, m->nodes, NODE_WORDS, m->list, LIST_WORDS, MD_TRUE, zero, 2, one, 2));
    put(m, "\ncheck ");
    put_condition(m, m->record[MD_CHECKED]);

    put(m, "\nend ");
    put_number(m, m->record[MD_ENTRIES]);
    put(m, "\n");
}

static void hold_words(const char *name, const uint32_t *one, const uint32_t *other, size_t length)
{
    if (memcmp(one, other, length * sizeof *one) != 0) {
        printf("%s: the words differ\n", name);
        failures++;
    }
}

/* Port 0 holds what was read by it, and gives it again to a read that is not enabled. */
static void hold_port(struct memory *m)
{
    static const uint32_t zero[2] = {MD_FALSE, MD_TRUE};
    uint32_t answer[2] = {0, 0};
    uint32_t held[2];

    memcpy(held, m->ports, sizeof held);
    accept("read", md_read(m->record, m->nodes, NODE_WORDS, m->list, LIST_WORDS, m->ports, 0, zero, 2, zero, 2, answer, 2));
    hold_words("port 0", answer, held, 2);
}

/* A write whose enable is 0 is idle, in a list that one entry fills, and leaves the memory as it was. */
static void hold_idle(struct memory *m)
{
    static const uint32_t one[2] = {MD_TRUE, MD_FALSE};
    static const uint32_t zero[2] = {MD_FALSE, MD_TRUE};
    struct memory before = *m;
    uint32_t place = 0;

    accept("idle write",
           md_write(m->record, m->nodes, NODE_WORDS, m->list, ENTRY_WORDS, zero, 2, one, 2, one, 2, &place));
    if (place != MD_IDLE) {
        printf("idle write: entered at place %u\n", (unsigned)place);
        failures++;
    }
    hold_words("record after the idle write", m->record, before.record, MD_RECORD);
    hold_words("nodes after the idle write", m->nodes, before.nodes, NODE_WORDS);
    hold_words("list after the idle write", m->list, before.list, LIST_WORDS);
}

static void by_case(struct memory *m)
{
    uint64_t count = 0;
    accept("case", md_case(CASE, sizeof CASE, m->nodes, NODE_WORDS, m->list, LIST_WORDS, (uint8_t *)m->text, TEXT_BYTES,
                           m->record, &count));
    m->length = (size_t)count;
}

static void hold_text(const char *way, const struct memory *m)
{
    if (m->length != strlen(EXPECTED) || memcmp(m->text, EXPECTED, m->length) != 0) {
        printf("%s: the text is not the paper's, but:\n%.*s", way, (int)m->length, m->text);
        failures++;
    }
}

/* The write went to location 1 where variable 8 is 1, and to location 0 elsewhere: only there is 0 certain to have 1.
   So the check fails where variable 8 is 1, and a witness of its complement says so. */
static void hold_witness(struct memory *m)
{
    uint32_t fails = MD_FALSE, there = 9, elsewhere = 9;
    uint64_t witness = 0;

    accept("ite", md_ite(m->record, m->nodes, NODE_WORDS, m->record[MD_CHECKED], MD_FALSE, MD_TRUE, &fails));
    accept("witness", md_witness(m->record, m->nodes, NODE_WORDS, fails, &witness));
    accept("evaluate", md_evaluate(m->record, m->nodes, NODE_WORDS, m->record[MD_CHECKED], witness, &there));
    accept("evaluate", md_evaluate(m->record, m->nodes, NODE_WORDS, m->record[MD_CHECKED], 0, &elsewhere));
    if (fails == MD_FALSE || witness != UINT64_C(1) << 8 || there != 0 || elsewhere != 1) {
        printf("the check fails under assignment %llu, where its condition is %u; under 0 that is %u\n",
               (unsigned long long)witness, (unsigned)there, (unsigned)elsewhere);
        failures++;
    }
}

/* The check condition's text, (8 1 0), fits seven bytes; six are all 0 after the refusal. */
static void hold_short(const struct memory *m)
{
    static const uint8_t zeros[6] = {0, 0, 0, 0, 0, 0};
    uint8_t text[7];
    uint64_t length = UINT64_C(77);
    uint32_t row;

    memset(text, '?', sizeof text);
    row = md_text(m->record, m->nodes, NODE_WORDS, m->record[MD_CHECKED], text, 6, &length);
    if (row != MD_ROW_TEXT_FULL || length != 77 || memcmp(text, zeros, 6) != 0 || text[6] != '?') {
        printf("a text in six bytes: %s\n", md_reason(row));
        failures++;
    }
    accept("text", md_text(m->record, m->nodes, NODE_WORDS, m->record[MD_CHECKED], text, 7, &length));
    if (length != 7 || memcmp(text, "(8 1 0)", 7) != 0) {
        printf("a text in seven bytes: %.7s\n", (const char *)text);
        failures++;
    }
}

/* The header's example of counted entries, in a list of so many words: the row of its last access. */
static uint32_t counted(struct memory *m, size_t list_words)
{
    static const uint32_t one[2] = {MD_TRUE, MD_FALSE};
    static const uint32_t zero[2] = {MD_FALSE, MD_TRUE};
    uint32_t a[2] = {0, 0};
    uint32_t out = 0;

    accept("fresh", md_fresh(m->record, 1, 1, m->nodes, NODE_WORDS, m->ports));
    accept("variable", md_variable(m->record, m->nodes, NODE_WORDS, 8, &a[0]));
    accept("ite", md_ite(m->record, m->nodes, NODE_WORDS, a[0], MD_FALSE, MD_TRUE, &a[1]));
    accept("write", md_write(m->record, m->nodes, NODE_WORDS, m->list, list_words, one, 2, zero, 2, one, 2, &out));
    accept("write", md_write(m->record, m->nodes, NODE_WORDS, m->list, list_words, a, 2, one, 2, zero, 2, &out));
    accept("write", md_write(m->record, m->nodes, NODE_WORDS, m->list, list_words, zero, 2, one, 2, one, 2, &out));
    accept("assert", md_assert(m->record, m->nodes, NODE_WORDS, m->list, list_words, MD_TRUE, zero, 2, one, 2, &out));
    accept("assert", md_assert(m->record, m->nodes, NODE_WORDS, m->list, list_words, a[0], one, 2, zero, 2, &out));
    return md_assert(m->record, m->nodes, NODE_WORDS, m->list, list_words, MD_TRUE, one, 2, zero, 2, &out);
}

/* The example needs three entries: with three its last access is accepted, and with two it meets 8. */
static void hold_count(struct memory *m)
{
    uint32_t entries;
    for (entries = 2; entries <= 3; entries++) {
        uint32_t row = counted(m, entries * ENTRY_WORDS);
        if (row != (entries == 3 ? MD_ACCEPTED : MD_ROW_LIST_FULL) || m->record[MD_ENTRIES] != entries) {
            printf("%u entries lent: row %u, and %u entries\n", (unsigned)entries, (unsigned)row,
                   (unsigned)m->record[MD_ENTRIES]);
            failures++;
        }
    }
}

/* What a formula answers and lists. */
struct told {
    uint32_t row;
    uint64_t listed, made, place;
    uint32_t answer[6];
};

enum { UNTOLD = 77 };

/* The text as asserts or as checks of predicates 0, which is 1 at 0, and 1, which is 0 at 1. */
static struct told formula(struct memory *m, int asserts, size_t list_words, const char *text)
{
    static const uint32_t table[8] = {0, 1, 1, 0, 1, 0, 0, 1};
    struct told t = {0, UNTOLD, UNTOLD, UNTOLD, {UNTOLD, UNTOLD, UNTOLD, UNTOLD, UNTOLD, UNTOLD}};
    const uint8_t *bytes = (const uint8_t *)text;
    size_t length = strlen(text);
    if (asserts)
        t.row = md_assert_formula(m->record, m->nodes, NODE_WORDS, m->list, list_words, bytes, length, table, 8, t.answer, 6,
                                  &t.listed, &t.made, &t.place);
    else
        t.row = md_check_formula(m->record, m->nodes, NODE_WORDS, m->list, list_words, bytes, length, table, 8, t.answer, 6,
                                 &t.listed, &t.made, &t.place);
    return t;
}

static void hold_told(const char *text, struct told t, uint32_t row, uint64_t listed, uint64_t made, uint64_t place)
{
    if (t.row != row || t.listed != listed || t.made != made || t.place != place) {
        printf("`%s`: row %u, %u listed, %u made, place %u\n", text, (unsigned)t.row, (unsigned)t.listed, (unsigned)t.made,
               (unsigned)t.place);
        failures++;
    }
}

/* A memory with variable 8 as node 2, and no entry. */
static void begin(struct memory *m)
{
    uint32_t a = 0;
    accept("fresh", md_fresh(m->record, 1, 1, m->nodes, NODE_WORDS, m->ports));
    accept("variable", md_variable(m->record, m->nodes, NODE_WORDS, 8, &a));
}

static void hold_formulas(struct memory *m)
{
    static const char right[] = "b2 -> m0 & N m1", outside[] = "m0 & b1 -> m1", both[] = "N m1 & m0";
    static const uint32_t triples[6] = {0, 2, 0, 1, 2, 1}, ordered[6] = {0, 1, 0, 1, 1, 1};
    static const uint32_t unwritten[6] = {UNTOLD, UNTOLD, UNTOLD, UNTOLD, UNTOLD, UNTOLD};
    struct memory before;
    struct told t;

    begin(m);
    t = formula(m, 1, LIST_WORDS, right);
    hold_told(right, t, MD_ACCEPTED, 2, 2, UNTOLD);
    hold_words("what the formula lists", t.answer, triples, 6);
    t = formula(m, 0, LIST_WORDS, right);
    hold_told(right, t, MD_ACCEPTED, 2, 2, UNTOLD);
    if (m->record[MD_ENTRIES] != 2 || m->record[MD_CHECKED] != MD_TRUE) {
        printf("`%s`: %u entries, check condition %u\n", right, (unsigned)m->record[MD_ENTRIES],
               (unsigned)m->record[MD_CHECKED]);
        failures++;
    }

    /* A fault leaves the memory and the answer as they were, and says where it stands. */
    before = *m;
    t = formula(m, 1, LIST_WORDS, outside);
    hold_told(outside, t, MD_ROW_FORMULA, UNTOLD, UNTOLD, 5);
    hold_words("the answer after a fault", t.answer, unwritten, 6);
    hold_words("record after a fault", m->record, before.record, MD_RECORD);
    hold_words("nodes after a fault", m->nodes, before.nodes, NODE_WORDS);
    hold_words("list after a fault", m->list, before.list, LIST_WORDS);

    /* In a list of one entry the first assert is made, and the second has no space. */
    begin(m);
    t = formula(m, 1, ENTRY_WORDS, both);
    hold_told(both, t, MD_ROW_LIST_FULL, 2, 1, UNTOLD);
    hold_words("what the stopped formula lists", t.answer, ordered, 6);
    if (m->record[MD_ENTRIES] != 1) {
        printf("`%s`: %u entries\n", both, (unsigned)m->record[MD_ENTRIES]);
        failures++;
    }
}

int main(void)
{
    static struct memory calls, whole, budget, written;

    by_calls(&calls);
    by_case(&whole);

    hold_text("calls", &calls);
    hold_text("case file", &whole);
    hold_words("record", calls.record, whole.record, MD_RECORD);
    hold_words("nodes", calls.nodes, whole.nodes, NODE_WORDS);
    hold_words("list", calls.list, whole.list, LIST_WORDS);
    hold_witness(&calls);
    hold_short(&calls);
    hold_port(&calls);
    hold_idle(&calls);
    hold_count(&budget);
    hold_formulas(&written);

    printf("%.*s", (int)whole.length, whole.text);
    return failures != 0;
}
