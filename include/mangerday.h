/*
 * The symbolic memory model, for simulators in C and C++ (C99, x86-64 Linux). In C++, mangerday.hpp has the same
 * calls as classes.
 *
 * Conditions are nodes of decision diagrams in a lent slice of words, three words a node: variable,
 * low child, high child. Node 0 is false, node 1 true. A pair of nodes (h, l) stands for a bit that
 * may be 1 where h holds and 0 where l holds: (1, 0) is 1, (0, 1) is 0, (1, 1) is X. An address is n
 * pairs, a data word w pairs, lowest bit first and h before l, so 2n and 2w words; an enable is one
 * pair, two words. The memory is the record, the node words and the list words together; they go
 * from call to call as the last call left them.
 *
 * There are four read ports, 0 to 3. Each holds the word that was read by it last, w pairs in the
 * first 2w of its own 32 words: MD_PORTS words in all, which go from call to call as the list does.
 * md_fresh begins them, md_read reads and replaces one, and no other call sees them.
 *
 * Every call answers 0, accepted, or the number of the row that refuses it: MD_ROWS below is the table, and
 * md_reason gives a row's sentence.
 *
 * A call tests its rows in the order listed for it, and answers the first that it meets: a write meets
 * 8 after its conditions are built, so that a 9 wins; but an assert meets 8 when its entry is needed, so
 * that only a 9 met before it wins; md_case answers the number of what it meets first in the file,
 * whatever comes later; and of 15 and 16 a formula answers the one with the earlier place. A refused call,
 * but for md_case and a formula that is stopped at one of its accesses, leaves the record, the nodes below
 * the count, the list, the ports, the answer words and the out-word as they were; after 8 or 9 the node
 * words from the count to capacity are 0. An accepted call changes no older node or entry, no word past the
 * new counts, and of the ports nothing but the held word of the port that it reads, or by md_fresh all. Any
 * words may be lent: what is no memory is refused, by row 1, 2 or 3.
 *
 * Node capacity is the words divided by 3, rounded down, at most MD_NODE_LIMIT. List capacity is whole
 * entries of 2 + 2n + 2w words, at most MD_ENTRY_LIMIT.
 *
 * The entry count is exact, and a list can be planned from the accesses. After calls from md_fresh on, the
 * entries are as many as the accepted writes whose enable may be 1 under some assignment, plus the accepted
 * asserts, those that formulas made among them, whose data differs from the look under some assignment with
 * b. The look is the word at the address, as an enabled read before the assert would give it. All else adds
 * none: idle writes, kept asserts, reads, checks, the calls on nodes and what is refused. So a list of that
 * many entries is enough for these accesses, and with one entry less the last that adds one meets 8. In a
 * fresh memory of n = 1 and w = 1, with a the pair of a variable and its Not:
 *
 *    write   enable 1   1 at 0   one
 *    write   enable a   0 at 1   one: a may be 1
 *    write   enable 0   1 at 1   none: never 1
 *    assert  b = 1      1 at 0   none: the look is 1
 *    assert  b = a.h    0 at 1   none: where b holds, the look is 0
 *    assert  b = 1      0 at 1   one: where a is 0, the look is X
 *
 * Three entries of 6 words: a list of 18 words is enough, and in one of 12 the last assert meets 8.
 *
 * What a caller must see to:
 *  - A pointer is not null and is aligned for its type, also where the length beside it is 0.
 *  - What a call is lent does not overlap, but that two slices or records that it only reads may.
 *  - Node, list, port, text and answer words are initialized memory before they are lent: any content will do.
 *  - MD_STACK bytes of stack are free. (The calls use no heap.)
 * Nothing is kept between calls and nothing is global: threads may call at once, each on its own buffers.
 */
#ifndef MANGERDAY_H
#define MANGERDAY_H

#include <stddef.h>
#include <stdint.h>

#ifdef __cplusplus
extern "C" {
#endif

/* The version of what is installed. */
#define MD_VERSION "0.2.0"

/* The stack that a call needs at most, in bytes, with some to spare. */
#define MD_STACK 1048576

/* The nodes, 0 and 1 among them, and the entries that a memory may have at most, whatever it is lent. */
#define MD_NODE_LIMIT 16384
#define MD_ENTRY_LIMIT 4096

/* The record is six words: n, w, node count, entry count, assert condition, check condition. */
enum { MD_N, MD_W, MD_NODES, MD_ENTRIES, MD_ASSERTED, MD_CHECKED, MD_RECORD };

/* The words of the four ports. */
#define MD_PORTS 128

/* The two nodes that every memory has. */
enum { MD_FALSE = 0, MD_TRUE = 1 };

/* What md_assert tells: nothing was entered, or the data was. */
enum { MD_KEPT = 0, MD_ENTERED = 1 };

/* What md_write tells in the place of an idle write; no entry has it. */
#define MD_IDLE 4294967295u

/* The table of refusals: a row's name, number and sentence, each row on a line of its own. In more words:
    2  fewer than 6 node words, or a node count under 2 or over capacity, is no fit
    3  in a read, a held word of any port counts, and not that of the read's own alone
    4  an address is exactly 2n words, data and a read's answer 2w, an enable 2
    5  md_evaluate, md_text and md_witness refuse no node on a variable below 8
   15  a node here is refused as by 5, and a predicate's number may be 4,294,967,295 at most */
#define MD_ROWS(ROW) \
    ROW(MD_ROW_SIZES, 1, "n is not 1 to 8, or w not 1 to 16") \
    ROW(MD_ROW_STORE, 2, "the nodes do not fit the store, or are not in standard form") \
    ROW(MD_ROW_LIST, 3, "the entries do not fit the list, or row 5 would refuse a node of entries, record or ports") \
    ROW(MD_ROW_LENGTHS, 4, "an address, data, an answer or an enable is not as long as n and w say") \
    ROW(MD_ROW_NODE, 5, "a node is not there or is on a variable below 8, or a variable is not 8 to 63") \
    ROW(MD_ROW_PAIR, 6, "some assignment makes a pair neither 1 nor 0") \
    ROW(MD_ROW_ADDRESS, 7, "an assert whose address is X under an assignment where b holds") \
    ROW(MD_ROW_LIST_FULL, 8, "no space in the update list for an entry that is needed") \
    ROW(MD_ROW_STORE_FULL, 9, "no space for a node") \
    ROW(MD_ROW_FILE_SHORT, 10, "the file ends early") \
    ROW(MD_ROW_KIND, 11, "an unknown kind of access") \
    ROW(MD_ROW_FILE_LONG, 12, "bytes after the last access") \
    ROW(MD_ROW_TEXT_FULL, 13, "the text is longer than its buffer, or what a formula lists than its answer slice") \
    ROW(MD_ROW_PORT, 14, "a read by a port above 3") \
    ROW(MD_ROW_FORMULA, 15, "the formula is outside the language, or names a predicate or a node that is not there") \
    ROW(MD_ROW_NESTING, 16, "more than 32 parentheses, N and arrows are open around one place of the formula")

#define MD_ROW_NUMBER(name, number, sentence) , name = number
enum { MD_ACCEPTED = 0 MD_ROWS(MD_ROW_NUMBER) };
#undef MD_ROW_NUMBER

/* The sentence of a row, "accepted" for 0, and "no row of the table" for a number that no call returns. */
static inline const char *md_reason(uint32_t row)
{
#define MD_ROW_SENTENCE(name, number, sentence) \
    case number: \
        return sentence;
    switch (row) {
    case MD_ACCEPTED:
        return "accepted";
    MD_ROWS(MD_ROW_SENTENCE)
    default:
        return "no row of the table";
    }
#undef MD_ROW_SENTENCE
}

/* A memory of n address bits (1 to 8) and w data bits (1 to 16): counts 2 and 0, both conditions 1,
   nodes 0 and 1 written into the node words, which are at least 6, and every word of the ports node 1,
   so that each holds X. Meets 1, 2. */
uint32_t md_fresh(uint32_t record[MD_RECORD], uint32_t n, uint32_t w, uint32_t *nodes, size_t nodes_length,
                  uint32_t ports[MD_PORTS]);

/* The value, 0 or 1, of a node under an assignment, in which bit v is variable v. Meets 1, 2, 5. */
uint32_t md_evaluate(const uint32_t record[MD_RECORD], const uint32_t *nodes, size_t nodes_length, uint32_t node,
                     uint64_t assignment, uint32_t *value);

/* A condition's text, `0`, `1` or `(v low high)`: if variable v then high, else low. Two conditions, of one memory
   or of two, have the same text exactly when they agree under every assignment. It is written from the first byte
   of the buffer on, and length is how many bytes it is; later bytes stay as they are, and no byte 0 is added. A text
   that does not fit meets 13: then every byte of the buffer is 0, and length is as it was. A text may be exponentially
   longer than its diagram; the call's time grows with the buffer, not with the text. Meets 1, 2, 5, 13. */
uint32_t md_text(const uint32_t record[MD_RECORD], const uint32_t *nodes, size_t nodes_length, uint32_t node,
                 uint8_t *text, size_t text_length, uint64_t *length);

/* An assignment under which a node holds, in which bit v is variable v: from the node down to the low child, or where
   that is node 0 to the high child, whose variable is then 1; all other variables are 0. Node 0 holds under none, and
   its assignment is 0. Meets 1, 2, 5. */
uint32_t md_witness(const uint32_t record[MD_RECORD], const uint32_t *nodes, size_t nodes_length, uint32_t node,
                    uint64_t *assignment);

/* The node of a user variable, 8 to 63: it holds where the variable is 1. Meets 1, 2, 5, 9. */
uint32_t md_variable(uint32_t record[MD_RECORD], uint32_t *nodes, size_t nodes_length, uint32_t variable,
                     uint32_t *node);

/* The node that is g where f holds and h elsewhere. Not f is (f, 0, 1), f and g is (f, g, 0), f or g
   is (f, 1, g). Two conditions that agree under every assignment are one node. Meets 1, 2, 5, 9. */
uint32_t md_ite(uint32_t record[MD_RECORD], uint32_t *nodes, size_t nodes_length, uint32_t f, uint32_t g, uint32_t h,
                uint32_t *node);

/* A write under an enable pair: appends an entry to the list and answers its place, counted from 0.
   An enable or an address that is X makes an entry that may or may not hold. A write whose enable is 0
   under every assignment (its h is node 0) is idle: it answers MD_IDLE and changes nothing, and needs
   neither a node nor space. Meets 1, 2, 3, 4, 5, 6, then, if it is not idle, 9, 8. */
uint32_t md_write(uint32_t record[MD_RECORD], uint32_t *nodes, size_t nodes_length, uint32_t *list, size_t list_length,
                  const uint32_t *enable, size_t enable_length, const uint32_t *address, size_t address_length,
                  const uint32_t *data, size_t data_length, uint32_t *place);

/* A read by a port under an enable pair: fills 2w answer words, each bit's h before its l, with the word
   at the address where the enable is 1, with the word that the port holds where it is 0, and where it is
   X with what either may be, bit by bit. Then the port holds them. Where memory and ports are what calls
   left of md_fresh's, they say exactly what plain memories may return. Meets 1, 2, 3, 4, 14, 5, 6, 9. */
uint32_t md_read(uint32_t record[MD_RECORD], uint32_t *nodes, size_t nodes_length, const uint32_t *list,
                 size_t list_length, uint32_t ports[MD_PORTS], uint32_t port, const uint32_t *enable,
                 size_t enable_length, const uint32_t *address, size_t address_length, uint32_t *answer,
                 size_t answer_length);

/* Where the condition b holds, the word at the address is assumed to be admitted by the data: the
   assert condition is narrowed to where the data lies inside what the memory admits, and the data is
   entered (MD_ENTERED), unless that would change nothing (MD_KEPT). Meets 1, 2, 3, 4, 5, 6, 7, 8, 9. */
uint32_t md_assert(uint32_t record[MD_RECORD], uint32_t *nodes, size_t nodes_length, uint32_t *list,
                   size_t list_length, uint32_t b, const uint32_t *address, size_t address_length,
                   const uint32_t *data, size_t data_length, uint32_t *entered);

/* Where the condition b holds, the word at the address must be admitted by the data: the check
   condition is narrowed to where it always is. Meets 1, 2, 3, 4, 5, 6, 9. */
uint32_t md_check(uint32_t record[MD_RECORD], uint32_t *nodes, size_t nodes_length, const uint32_t *list,
                  size_t list_length, uint32_t b, const uint32_t *address, size_t address_length,
                  const uint32_t *data, size_t data_length);

/* Written formulas. `m3` names predicate 3, counted from 0, of a lent table, and `b5` condition node 5. A
   number is decimal digits joined to their letter, zeros before it allowed. In the language are

      unit         m number    N unit    ( formula )
      conjunction  units with & between them
      formula      a conjunction, or: b number -> formula

   and spaces (byte 32, no other) before, between and after tokens, none inside `m3`, `b5` or `->`. An arrow
   reaches to the end of its formula: `m0 & (b1 -> m2)` is a formula, `m0 & b1 -> m2` is none. A predicate of
   the table is 2n words of an address and then 2w words of data; a last one that is not whole is not there.

   The formula is listed in the answer, three words for each predicate in the text: its step, which is the
   number of N around it, its condition, which is the And of the nodes of all arrows around it, and its
   number; ordered by step, and among those of one step as in the text. Answer words past them stay as they
   are. Then the asserts, or checks, are made one after the other in that order, each as md_assert, or
   md_check, with that condition, address and data would make it on what the last one left, up to the first
   that is refused.

   Accepted, it answers 0, and both listed and made are the number of predicates in the text. A formula that
   is stopped answers the number by which its first refused access was refused, and made is how many were
   made before it: those stand, the record is the one that they left, and the answer stays written. A formula
   that is refused before its accesses leaves listed and made as they were, so set listed to 0 before the
   call: after it, 0 means that nothing was made. By 15 and 16 alone place is written: where in the text the
   fault stands, counted from 0. It is the first byte with which no text of the language could go on, or the
   length of the text where its end is too early; a wrong number's is that of its letter; too deep a nesting's
   that of the `(`, the `N` or the `->` that is one too many.

   In a text such as "m0 & b1 -> m2" place is 5, and a tool can show it to whoever wrote the text:

      m0 & b1 -> m2
           ^

   The conditions are built before any access, one And for each arrow in text order, outermost first; nothing
   is built before the whole text is read. Meets 1, 2, 3, then 15 or 16, 13, 9 of the conditions, and then
   what its accesses meet: 5, 6, 9, and by asserts 7 and 8 too. A word of the table meets 5 only in an access
   that uses it. */
uint32_t md_assert_formula(uint32_t record[MD_RECORD], uint32_t *nodes, size_t nodes_length, uint32_t *list,
                           size_t list_length, const uint8_t *text, size_t text_length, const uint32_t *table,
                           size_t table_length, uint32_t *answer, size_t answer_length, uint64_t *listed,
                           uint64_t *made, uint64_t *place);

uint32_t md_check_formula(uint32_t record[MD_RECORD], uint32_t *nodes, size_t nodes_length, const uint32_t *list,
                          size_t list_length, const uint8_t *text, size_t text_length, const uint32_t *table,
                          size_t table_length, uint32_t *answer, size_t answer_length, uint64_t *listed,
                          uint64_t *made, uint64_t *place);

/* A case file, run from its first byte to its last, with ports of its own that hold X at first. Accepted:
   the text is written, count is its length, record the last record. Refused (any row but 3, 4, 15, 16):
   count is the number of accesses already printed, node, list and text words are all 0, and the record is
   as it was. */
uint32_t md_case(const uint8_t *bytes, size_t bytes_length, uint32_t *nodes, size_t nodes_length, uint32_t *list,
                 size_t list_length, uint8_t *text, size_t text_length, uint32_t record[MD_RECORD], uint64_t *count);

#ifdef __cplusplus
}
#endif

#endif
