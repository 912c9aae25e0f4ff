/*
 * What a memory in C++ must answer and what it must refuse: conditions and their texts, values and witnesses against
 * all assignments of a few variables; conditions of another memory, refused before any call; and refused calls, by
 * their row and sentence, with nothing changed. The status is 1 where anything differs, and the program says what.
 */
#include <iostream>
#include <string>
#include <tuple>
#include <type_traits>

#include "mangerday.hpp"

using namespace mangerday;

static_assert(!std::is_copy_constructible<Memory>::value && !std::is_copy_assignable<Memory>::value,
              "a copy would share conditions with another memory");
static_assert(std::is_nothrow_move_constructible<Memory>::value && std::is_nothrow_move_assignable<Memory>::value,
              "a move takes the words along");

namespace {

int failures = 0;

void hold(bool holds, const std::string &what)
{
    if (!holds) {
        std::cout << what << "\n";
        failures++;
    }
}

/* A call that a row refuses, with its sentence. */
template <class Call> void refused(std::uint32_t row, const std::string &what, Call call)
{
    try {
        call();
        hold(false, what + ": accepted");
    } catch (const Refusal &refusal) {
        hold(refusal.row() == row, what + ": refused by row " + std::to_string(refusal.row()));
        hold(refusal.what() == std::string(md_reason(row)), what + ": the sentence is " + refusal.what());
    }
}

/* A use that is refused before any call. */
template <class Call> void wrong(const std::string &what, Call call)
{
    try {
        call();
        hold(false, what + ": accepted");
    } catch (const std::invalid_argument &) {
    }
}

/* What can be seen of a memory: counts, conditions, and what its ports hold, by reads that are not enabled. */
std::string seen(Memory &memory)
{
    std::string found = std::to_string(memory.nodes()) + " " + std::to_string(memory.entries()) + " "
                        + memory.asserted().text() + " " + memory.checked().text();
    for (std::uint32_t port = 0; port < 4; port++)
        found += "; " + text(memory.read(port, Bit::zero(), word(0, memory.n())));
    return found;
}

/* The same before a call. The reads are made once before, so that the nodes which they need are there. */
std::string seen_before(Memory &memory)
{
    seen(memory);
    return seen(memory);
}

/* A refused call that must change nothing. */
template <class Call> void refused_whole(Memory &memory, std::uint32_t row, const std::string &what, Call call)
{
    const std::string before = seen_before(memory);
    refused(row, what, call);
    hold(seen(memory) == before, what + ": the memory was changed");
}

/* Operators, values and witnesses against each assignment of three variables. */
void conditions()
{
    Memory memory(1, 1);
    const Condition a = memory.variable(8), b = memory.variable(9), c = memory.variable(63);
    const Condition zero = Condition::zero(), one = Condition::one();
    const Condition mixed = ite(a, b ^ c, ~b | c), all = a & b & c;
    for (int i = 0; i < 8; i++) {
        const bool x = i & 1, y = i & 2, z = i & 4;
        const std::uint64_t assignment =
            std::uint64_t(x) << 8 | std::uint64_t(y) << 9 | std::uint64_t(z) << 63 | std::uint64_t(i % 3) << 20;
        hold(mixed.evaluate(assignment) == (x ? y != z : !y || z), "ite, or, xor and not under " + std::to_string(i));
        hold(all.evaluate(assignment) == (x && y && z), "and under " + std::to_string(i));
        hold(zero.evaluate(assignment) == false && one.evaluate(assignment), "constants under " + std::to_string(i));
    }
    hold(mixed.witness() && mixed.evaluate(*mixed.witness()), "the witness of a mixed condition");
    hold(all.witness() == (std::uint64_t(1) << 8 | std::uint64_t(1) << 9 | std::uint64_t(1) << 63), "the only witness");
    hold(!(a & !a).witness() && !zero.witness() && one.witness() == std::uint64_t(0), "witnesses of constants");

    hold((a & b) == (b & a) && (a | one) == one && (a ^ a) == zero && a != b, "equal conditions");
    hold((one & one) == one && (one ^ one) == zero && ~zero == one && (!a) == ~a, "constants, and both ways of Not");
    hold(a.text() == "(8 0 1)" && (a & b).text() == "(8 0 (9 0 1))", "texts");
    hold(zero.text() == "0" && one.text() == "1", "texts of constants");
    hold(text({Bit::of(a), Bit::x(), Bit::zero()}) == "0:1 1:1 (8 0 1):(8 1 0)", "the text of a word");
    hold(text(word(5, 3)) == "1:0 0:1 1:0" && word(1, 70).size() == 70, "words of numbers");
    wrong("a number that does not fit", [] { word(8, 3); });
    hold(a.node() == 2 && memory.nodes() > 4, "node numbers");
}

/* The parity of many variables has two nodes for each, and a text twice as long with each. */
void long_text()
{
    Memory memory(1, 1);
    Condition odd = Condition::zero();
    for (std::uint32_t variable = 8; variable < 64; variable++) {
        odd = odd ^ memory.variable(variable);
        if (variable == 16)
            hold(odd.text().size() > 2048 && odd.text(odd.text().size()) == odd.text(), "a text of thousands of bytes");
    }
    refused_whole(memory, MD_ROW_TEXT_FULL, "a text without end", [&] { odd.text(); });
    refused_whole(memory, MD_ROW_TEXT_FULL, "a text in six bytes", [&] { memory.variable(8).text(6); });
    refused_whole(memory, MD_ROW_TEXT_FULL, "a text in no byte", [&] { Condition::one().text(0); });
    hold(memory.variable(8).text(7) == "(8 0 1)", "a text that just fits");
    hold(odd.witness() == std::uint64_t(1) << 63, "the witness of a parity");
}

/* A condition of one memory is none of another, whatever call it is given to, and changes nothing there. */
void other_memory()
{
    Memory mine(1, 1), other(1, 1);
    const Condition a = mine.variable(8), theirs = other.variable(8);
    const Bit foreign = Bit::of(theirs);
    const std::string before = seen_before(mine), there = seen_before(other);
    wrong("and", [&] { a & theirs; });
    wrong("ite", [&] { ite(Condition::one(), a, theirs); });
    wrong("equality", [&] { return a == theirs; });
    wrong("the enable of a write", [&] { mine.write(foreign, word(0, 1), word(1, 1)); });
    wrong("the address of a write", [&] { mine.write(Bit::one(), {foreign}, word(1, 1)); });
    wrong("the data of a write", [&] { mine.write(Bit::one(), word(0, 1), {foreign}); });
    wrong("the enable of a read", [&] { mine.read(0, foreign, word(0, 1)); });
    wrong("the condition of an assert", [&] { mine.assert_(theirs, word(0, 1), word(1, 1)); });
    wrong("the data of a check", [&] { mine.check(a, word(0, 1), {foreign}); });
    wrong("a predicate", [&] { mine.check_formula("m0", {{word(0, 1), {foreign}}}); });
    hold(seen(mine) == before && seen(other) == there, "a condition of another memory changed something");
    hold(a.text() == theirs.text(), "conditions of two memories have one text");
    hold((Condition::one() & theirs) == theirs && mine.write(Bit::x(), {Bit::x()}, {Bit::zero()}) == 0u,
         "constants are of every memory");
    mine.check(theirs | ~theirs, word(0, 1), {Bit::of(theirs ^ theirs)});
    hold(mine.asserted() == other.asserted(), "constants that a memory made are of every memory");
}

/* A memory that is moved keeps its conditions; the one that it was moved from is none. */
void moves()
{
    Memory first(1, 1);
    const Condition a = first.variable(8);
    Memory second(std::move(first));
    hold(second.write(Bit::of(a), word(0, 1), word(1, 1)) == 0u && second.entries() == 1, "a write after a move");
    wrong("a memory that was moved from", [&] { first.variable(8); });
    wrong("its counts", [&] { first.nodes(); });

    Condition kept;
    {
        Memory gone(1, 1);
        kept = gone.variable(9);
    }
    hold((!kept).text() == "(9 1 0)", "a condition that outlives its memory");
    wrong("a condition of a memory that is gone", [&] { second.check(kept, word(0, 1), word(1, 1)); });
}

/* Each row that a memory can meet, and nothing changed. */
void rows()
{
    refused(MD_ROW_SIZES, "no address bit", [] { Memory(0, 1); });
    refused(MD_ROW_SIZES, "17 data bits", [] { Memory(8, 17); });
    refused(MD_ROW_SIZES, "more bits than there are", [] { Memory(4294967295u, 4294967295u); });
    refused(MD_ROW_STORE, "room for one node", [] { Memory(1, 1, 1); });

    const std::size_t most_nodes = 24;
    Memory memory(2, 1, most_nodes, 1);
    const Condition a = memory.variable(8);
    const Bit bit = Bit::of(a), one = Bit::one();
    refused_whole(memory, MD_ROW_LENGTHS, "an address of one bit", [&] { memory.write(one, word(0, 1), {one}); });
    refused_whole(memory, MD_ROW_LENGTHS, "no address", [&] { memory.read(0, one, {}); });
    refused_whole(memory, MD_ROW_LENGTHS, "no data", [&] { memory.check(a, word(0, 2), {}); });
    refused_whole(memory, MD_ROW_LENGTHS, "a predicate of no data",
                  [&] { memory.check_formula("m0", {{word(0, 2), {}}}); });
    refused_whole(memory, MD_ROW_NODE, "variable 7", [&] { memory.variable(7); });
    refused_whole(memory, MD_ROW_NODE, "variable 64", [&] { memory.variable(64); });
    refused_whole(memory, MD_ROW_PAIR, "no bit", [&] { memory.write({a, Condition::zero()}, word(0, 2), {one}); });
    refused_whole(memory, MD_ROW_ADDRESS, "an assert at X", [&] { memory.assert_(a, {Bit::x(), one}, {one}); });
    refused_whole(memory, MD_ROW_PORT, "port 4", [&] { memory.read(4, one, word(0, 2)); });
    hold(memory.write(one, word(1, 2), {bit}) == 0u, "the first entry");
    refused_whole(memory, MD_ROW_LIST_FULL, "the second entry", [&] { memory.write(one, word(1, 2), {bit}); });
    hold(!memory.write(Bit::zero(), word(1, 2), {bit}), "an idle write in a full list");
    std::uint32_t variable = 9;
    while (memory.nodes() < most_nodes)
        memory.variable(variable++);
    refused_whole(memory, MD_ROW_STORE_FULL, "one node more", [&] { memory.variable(variable); });
    refused_whole(memory, MD_ROW_STORE_FULL, "an Or that needs a node", [&] { a | memory.variable(variable - 1); });
}

void accesses()
{
    Memory memory(1, 2);
    const Condition a = memory.variable(8);
    hold(memory.assert_(a, word(0, 1), word(2, 2)), "an assert that is entered");
    hold(!memory.assert_(a, word(0, 1), word(2, 2)), "an assert that is kept");
    hold(text(memory.read(3, Bit::one(), word(0, 1))) == "1:(8 1 0) (8 1 0):1", "a read");
    hold(text(memory.read(3, Bit::zero(), word(1, 1))) == "1:(8 1 0) (8 1 0):1", "what port 3 holds");
    memory.check(Condition::one(), word(0, 1), word(2, 2));
    hold(memory.checked() == a && memory.asserted() == Condition::one(), "the two conditions");
    hold((!memory.checked()).witness() == std::uint64_t(0), "where the check fails");
}

void formulas()
{
    Memory memory(1, 1, 64, 2);
    const Condition a = memory.variable(8);
    const std::vector<Predicate> table = {{word(0, 1), word(1, 1)}, {word(1, 1), word(0, 1)}};
    const auto listed = memory.assert_formula("N m1 & (b" + std::to_string(a.node()) + " -> m0)", table);
    hold(listed.size() == 2 && listed[0].step == 0 && listed[0].condition == a && listed[0].predicate == 0
             && listed[1].step == 1 && listed[1].condition == Condition::one() && listed[1].predicate == 1,
         "what a formula lists");
    hold(memory.check_formula("b2 -> m0&m1", table).size() == 2 && memory.checked() == Condition::one(), "a check");
    hold(memory.check_formula("m0&m0&m0&m0&m0", table).size() == 5, "as many predicates as fit a text");

    const std::string before = seen_before(memory);
    for (const auto &[wrong_text, row, place] :
         {std::tuple<std::string, std::uint32_t, std::uint64_t>{"m0 & b2 -> m1", MD_ROW_FORMULA, 5},
          {"", MD_ROW_FORMULA, 0},
          {"m2", MD_ROW_FORMULA, 0},
          {std::string(33, '(') + "m0", MD_ROW_NESTING, 32}})
        try {
            memory.check_formula(wrong_text, table);
            hold(false, wrong_text + ": accepted");
        } catch (const FormulaRefusal &refusal) {
            hold(refusal.row() == row && refusal.place() == place, wrong_text + ": row and place");
            hold(refusal.listed().empty() && refusal.made() == 0, wrong_text + ": something was made");
        }
    hold(seen(memory) == before, "a formula that is none changed something");
    try {
        memory.check_formula("m0", {});
        hold(false, "a predicate of no table: accepted");
    } catch (const FormulaRefusal &refusal) {
        hold(refusal.row() == MD_ROW_FORMULA, "a predicate of no table");
    }

    Memory small(1, 1, 64, 1);
    try {
        small.assert_formula("N m1 & m0", table);
        hold(false, "two entries in a list of one: accepted");
    } catch (const FormulaRefusal &refusal) {
        hold(refusal.row() == MD_ROW_LIST_FULL && !refusal.place() && refusal.made() == 1 && small.entries() == 1,
             "a formula that is stopped");
        hold(refusal.listed().size() == 2 && refusal.listed()[1].predicate == 1, "what a stopped formula lists");
    }
}

void cases()
{
    const std::vector<std::uint8_t> worked = {1, 1, 2, 0, 8, 0, 0, 1, 0, 8, 1, 0, 0, 0, 3, 0, 1, 1, 0, 0,
                                              0, 2, 0, 3, 0, 1, 0, 0, 0, 2, 0, 1, 0, 0, 0, 0, 0, 1, 0, 4,
                                              1, 0, 0, 0, 1, 0, 1, 0, 0, 0};
    const std::string printed = "write 0\nread 1:(8 0 1)\ncheck (8 1 0)\nend 1\n";
    hold(run_case(worked) == printed, "the paper's file");
    hold(run_case(worked, 30, 6, printed.size()) == printed, "the paper's file in just enough room");
    refused(MD_ROW_TEXT_FULL, "a byte less", [&] { run_case(worked, 30, 6, printed.size() - 1); });
    refused(MD_ROW_STORE_FULL, "a node less", [&] { run_case(worked, 29); });
    refused(MD_ROW_LIST_FULL, "no list", [&] { run_case(worked, 30, 0); });
    refused(MD_ROW_FILE_SHORT, "no file", [] { run_case({}); });
    try {
        run_case({worked.begin(), worked.end() - 1});
        hold(false, "a file that ends early: accepted");
    } catch (const CaseRefusal &refusal) {
        hold(refusal.row() == MD_ROW_FILE_SHORT && refusal.after() == 2, "a file that ends early");
    }
}

} // namespace

int main()
try {
    conditions();
    long_text();
    other_memory();
    moves();
    rows();
    accesses();
    formulas();
    cases();
    return failures != 0;
} catch (const std::exception &error) {
    std::cout << "not expected: " << error.what() << "\n";
    return 1;
}
