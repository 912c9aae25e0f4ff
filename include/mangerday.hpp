/*
 * The symbolic memory model, for simulators in C++17: the calls of mangerday.h, which has each call's rule, as a
 * memory that owns all its words, conditions that know their memory, and refusals as exceptions.
 *
 *    using namespace mangerday;
 *    Memory memory(1, 1);                                          // one address bit, one data bit
 *    Condition a = memory.variable(8);
 *    memory.write(Bit::one(), {Bit::of(a)}, {Bit::one()});         // 1 at location 1 or 0, as variable 8 says
 *    Word read = memory.read(0, Bit::one(), word(0, 1));           // by port 0, at location 0
 *    memory.check(Condition::one(), word(0, 1), word(1, 1));       // it must be 1
 *    std::optional<std::uint64_t> fails = (!memory.checked()).witness();
 *
 * A call that the library refuses throws a Refusal, whose row() is the row's number and whose what() its sentence, and
 * leaves the memory as it was; only a formula may be stopped after some of its accesses. A condition of another memory,
 * and a memory that was moved from, are refused by std::invalid_argument before any call.
 *
 * A condition keeps the words of its memory, so that it may outlive the Memory. Memories of their own may be used by
 * threads at once, one memory by one thread at a time. A call needs up to MD_STACK bytes of stack.
 */
#ifndef MANGERDAY_HPP
#define MANGERDAY_HPP

#include <algorithm>
#include <cstddef>
#include <cstdint>
#include <memory>
#include <optional>
#include <stdexcept>
#include <string>
#include <utility>
#include <vector>

#include "mangerday.h"

namespace mangerday {

/* A refused call. */
class Refusal : public std::runtime_error {
public:
    explicit Refusal(std::uint32_t row) : std::runtime_error(md_reason(row)), row_(row) {}
    /* The number of the row, as in MD_ROWS. */
    std::uint32_t row() const noexcept { return row_; }

private:
    std::uint32_t row_;
};

/* A refused case file, and how many accesses were printed before. */
class CaseRefusal : public Refusal {
public:
    CaseRefusal(std::uint32_t row, std::uint64_t after) : Refusal(row), after_(after) {}
    std::uint64_t after() const noexcept { return after_; }

private:
    std::uint64_t after_;
};

namespace detail {

inline void accept(std::uint32_t row)
{
    if (row != MD_ACCEPTED)
        throw Refusal(row);
}

/* All that the calls of one memory are lent. Node and list words are one more than asked for, so that neither is
   empty; a word that is no whole node or entry is not used. */
struct Words {
    Words(std::uint32_t n, std::uint32_t w, std::size_t most_nodes, std::size_t most_entries)
        : nodes(3 * std::min<std::size_t>(most_nodes, MD_NODE_LIMIT) + 1)
    {
        accept(md_fresh(record, n, w, nodes.data(), nodes.size(), ports));
        const std::size_t entry = 2 + 2 * std::size_t(n) + 2 * std::size_t(w);
        list.resize(entry * std::min<std::size_t>(most_entries, MD_ENTRY_LIMIT) + 1);
    }

    std::uint32_t record[MD_RECORD] = {};
    std::uint32_t ports[MD_PORTS] = {};
    std::vector<std::uint32_t> nodes, list;
};

using Owner = std::shared_ptr<Words>;

/* Where a slice begins that is only read: a pointer that is not null, also where the slice is empty. */
template <class T> const T *begin(const std::vector<T> &slice) noexcept
{
    static const T none = 0;
    return slice.empty() ? &none : slice.data();
}

} // namespace detail

/* A condition of one memory, or one of the two that every memory has. Two conditions of a memory are equal exactly
   where they agree under every assignment; those of two memories can be compared by their texts alone. */
class Condition {
public:
    /* As zero(). */
    Condition() = default;
    /* The condition that holds nowhere, and the one that holds everywhere. */
    static Condition zero() { return Condition(); }
    static Condition one() { return Condition(nullptr, MD_TRUE); }

    /* Its node, by which a formula names it: `b2` is node 2. */
    std::uint32_t node() const noexcept { return node_; }

    /* Its value under an assignment, in which bit v is variable v. */
    bool evaluate(std::uint64_t assignment) const
    {
        if (!owner_)
            return node_ == MD_TRUE;
        std::uint32_t value = 0;
        detail::accept(
            md_evaluate(owner_->record, owner_->nodes.data(), owner_->nodes.size(), node_, assignment, &value));
        return value != 0;
    }

    /* Its text, `0`, `1` or `(v low high)`; a Refusal by row 13 where that is more than so many bytes. (A text may be
       exponentially longer than its diagram.) */
    std::string text(std::size_t most = 65536) const
    {
        if (!owner_)
            return text_of_constant(most);
        std::vector<std::uint8_t> bytes;
        for (std::size_t room = 64;; room *= 2) {
            const std::size_t lent = std::min(room, most);
            bytes.resize(lent + 1);
            std::uint64_t length = 0;
            const std::uint32_t row = md_text(owner_->record, owner_->nodes.data(), owner_->nodes.size(), node_,
                                              bytes.data(), lent, &length);
            if (row == MD_ACCEPTED)
                return std::string(bytes.begin(), bytes.begin() + static_cast<std::ptrdiff_t>(length));
            if (row != MD_ROW_TEXT_FULL || lent == most)
                throw Refusal(row);
        }
    }

    /* An assignment under which it holds; none where it holds nowhere. */
    std::optional<std::uint64_t> witness() const
    {
        if (node_ == MD_FALSE)
            return std::nullopt;
        if (!owner_)
            return 0;
        std::uint64_t assignment = 0;
        detail::accept(md_witness(owner_->record, owner_->nodes.data(), owner_->nodes.size(), node_, &assignment));
        return assignment;
    }

    /* The condition that is g where f holds and h elsewhere. */
    friend Condition ite(const Condition &f, const Condition &g, const Condition &h)
    {
        const detail::Owner owner = same(same(f.owner_, g.owner_), h.owner_);
        if (!owner)
            return f.node_ == MD_TRUE ? g : h;
        std::uint32_t node = 0;
        detail::accept(
            md_ite(owner->record, owner->nodes.data(), owner->nodes.size(), f.node_, g.node_, h.node_, &node));
        return Condition(owner, node);
    }

    /* Not, And, Or and exclusive Or. (`~f` is `!f`, without the warning that compilers give of `!f & g`.) */
    friend Condition operator!(const Condition &f) { return ite(f, zero(), one()); }
    friend Condition operator~(const Condition &f) { return !f; }
    friend Condition operator&(const Condition &f, const Condition &g) { return ite(f, g, zero()); }
    friend Condition operator|(const Condition &f, const Condition &g) { return ite(f, one(), g); }
    friend Condition operator^(const Condition &f, const Condition &g) { return ite(f, !g, g); }

    friend bool operator==(const Condition &f, const Condition &g)
    {
        same(f.owner_, g.owner_);
        return f.node_ == g.node_;
    }
    friend bool operator!=(const Condition &f, const Condition &g) { return !(f == g); }

private:
    friend class Memory;

    /* Nodes 0 and 1 are those of every memory, and belong to none. */
    Condition(const detail::Owner &owner, std::uint32_t node) : owner_(node > MD_TRUE ? owner : nullptr), node_(node) {}

    /* The memory that both belong to; one that belongs to none goes with every other. */
    static const detail::Owner &same(const detail::Owner &one, const detail::Owner &other)
    {
        if (one && other && one != other)
            throw std::invalid_argument("a condition of another memory");
        return one ? one : other;
    }

    std::string text_of_constant(std::size_t most) const
    {
        if (most == 0)
            throw Refusal(MD_ROW_TEXT_FULL);
        return node_ == MD_TRUE ? "1" : "0";
    }

    detail::Owner owner_;
    std::uint32_t node_ = MD_FALSE;
};

/* A bit that may be 1 where h holds, and 0 where l holds. */
struct Bit {
    Condition h, l;

    static Bit zero() { return {Condition::zero(), Condition::one()}; }
    static Bit one() { return {Condition::one(), Condition::zero()}; }
    /* Unknown. */
    static Bit x() { return {Condition::one(), Condition::one()}; }
    /* 1 where the condition holds, and 0 elsewhere. */
    static Bit of(const Condition &condition) { return {condition, !condition}; }

    /* As memcase prints a bit: `h:l`. */
    std::string text(std::size_t most = 65536) const { return h.text(most) + ":" + l.text(most); }
};

/* Bits, the lowest first. */
using Word = std::vector<Bit>;

/* A number as so many bits, which it has to fit. */
inline Word word(std::uint64_t number, std::size_t bits)
{
    if (bits < 64 && number >> bits)
        throw std::invalid_argument("a number that does not fit its word");
    Word found;
    for (std::size_t i = 0; i < bits; i++)
        found.push_back(i < 64 && number >> i & 1 ? Bit::one() : Bit::zero());
    return found;
}

/* As memcase prints a word: the highest bit first. */
inline std::string text(const Word &bits, std::size_t most = 65536)
{
    std::string found;
    for (auto bit = bits.rbegin(); bit != bits.rend(); ++bit)
        found += (found.empty() ? "" : " ") + bit->text(most);
    return found;
}

/* What `m0`, `m1` and on name in a formula: data at an address. */
struct Predicate {
    Word address, data;
};

/* A predicate as a formula lists it: how many steps on, under which condition, and its number. */
struct Listed {
    std::uint32_t step;
    Condition condition;
    std::uint32_t predicate;
};

/* A refused formula. */
class FormulaRefusal : public Refusal {
public:
    FormulaRefusal(std::uint32_t row, std::optional<std::uint64_t> place, std::vector<Listed> listed,
                   std::uint64_t made)
        : Refusal(row), place_(place), listed_(std::make_shared<std::vector<Listed>>(std::move(listed))), made_(made)
    {
    }
    /* By rows 15 and 16: where in the text the fault stands, counted from 0. */
    std::optional<std::uint64_t> place() const noexcept { return place_; }
    /* What the formula lists, where it was stopped at one of its accesses; else nothing. */
    const std::vector<Listed> &listed() const noexcept { return *listed_; }
    /* How many accesses were made before it was stopped: they stand. */
    std::uint64_t made() const noexcept { return made_; }

private:
    std::optional<std::uint64_t> place_;
    std::shared_ptr<const std::vector<Listed>> listed_;
    std::uint64_t made_;
};

/* A memory with its node words, its update list and its read ports. It can be moved, and its conditions go with it; it
   cannot be copied. */
class Memory {
public:
    /* A memory of n address bits, 1 to 8, and w data bits, 1 to 16, with room for so many nodes, at least 2, and
       entries. No more than MD_NODE_LIMIT and MD_ENTRY_LIMIT are used. */
    Memory(std::uint32_t n, std::uint32_t w, std::size_t nodes = MD_NODE_LIMIT, std::size_t entries = MD_ENTRY_LIMIT)
        : owner_(std::make_shared<detail::Words>(n, w, nodes, entries))
    {
    }
    Memory(Memory &&) noexcept = default;
    Memory &operator=(Memory &&) noexcept = default;

    /* Address bits, data bits, and the nodes and entries so far. */
    std::uint32_t n() const { return words().record[MD_N]; }
    std::uint32_t w() const { return words().record[MD_W]; }
    std::uint32_t nodes() const { return words().record[MD_NODES]; }
    std::uint32_t entries() const { return words().record[MD_ENTRIES]; }

    /* The assert condition and the check condition so far. */
    Condition asserted() const { return condition(words().record[MD_ASSERTED]); }
    Condition checked() const { return condition(words().record[MD_CHECKED]); }

    /* The condition that holds where a variable, 8 to 63, is 1. */
    Condition variable(std::uint32_t variable)
    {
        detail::Words &m = words();
        std::uint32_t node = 0;
        detail::accept(md_variable(m.record, m.nodes.data(), m.nodes.size(), variable, &node));
        return condition(node);
    }

    /* The place of the write's entry, counted from 0; none for an idle write, whose enable is 0 everywhere. */
    std::optional<std::uint32_t> write(const Bit &enable, const Word &address, const Word &data)
    {
        detail::Words &m = words();
        const Slice enabled = slice({enable}), at = slice(address), given = slice(data);
        std::uint32_t place = MD_IDLE;
        detail::accept(md_write(m.record, m.nodes.data(), m.nodes.size(), m.list.data(), m.list.size(), enabled.data(),
                                enabled.size(), detail::begin(at), at.size(), detail::begin(given), given.size(),
                                &place));
        return place == MD_IDLE ? std::nullopt : std::optional<std::uint32_t>(place);
    }

    /* The word that a read by a port, 0 to 3, gives; the port then holds it. */
    Word read(std::uint32_t port, const Bit &enable, const Word &address)
    {
        detail::Words &m = words();
        const Slice enabled = slice({enable}), at = slice(address);
        Slice answer(2 * std::size_t(w()));
        detail::accept(md_read(m.record, m.nodes.data(), m.nodes.size(), m.list.data(), m.list.size(), m.ports, port,
                               enabled.data(), enabled.size(), detail::begin(at), at.size(), answer.data(),
                               answer.size()));
        Word found;
        for (std::size_t i = 0; i < answer.size(); i += 2)
            found.push_back({condition(answer[i]), condition(answer[i + 1])});
        return found;
    }

    /* Whether the assert was entered; else it was kept, and changed nothing. */
    bool assert_(const Condition &b, const Word &address, const Word &data)
    {
        detail::Words &m = words();
        const Slice at = slice(address), given = slice(data);
        std::uint32_t entered = MD_KEPT;
        detail::accept(md_assert(m.record, m.nodes.data(), m.nodes.size(), m.list.data(), m.list.size(), node(b),
                                 detail::begin(at), at.size(), detail::begin(given), given.size(), &entered));
        return entered == MD_ENTERED;
    }

    void check(const Condition &b, const Word &address, const Word &data)
    {
        detail::Words &m = words();
        const Slice at = slice(address), given = slice(data);
        detail::accept(md_check(m.record, m.nodes.data(), m.nodes.size(), m.list.data(), m.list.size(), node(b),
                                detail::begin(at), at.size(), detail::begin(given), given.size()));
    }

    /* A written formula as asserts, or as checks, over predicates `m0` and on: what it lists, in the order in which the
       accesses were made. One that is refused throws a FormulaRefusal. */
    std::vector<Listed> assert_formula(const std::string &text, const std::vector<Predicate> &predicates)
    {
        return formula(md_assert_formula, text, predicates);
    }
    std::vector<Listed> check_formula(const std::string &text, const std::vector<Predicate> &predicates)
    {
        return formula(md_check_formula, text, predicates);
    }

private:
    using Slice = std::vector<std::uint32_t>;

    detail::Words &words() const
    {
        if (!owner_)
            throw std::invalid_argument("a memory that was moved from");
        return *owner_;
    }

    Condition condition(std::uint32_t node) const { return Condition(owner_, node); }

    /* The node of a condition of this memory. */
    std::uint32_t node(const Condition &condition) const
    {
        Condition::same(owner_, condition.owner_);
        return condition.node_;
    }

    void put(Slice &words, const Word &bits) const
    {
        for (const Bit &bit : bits) {
            words.push_back(node(bit.h));
            words.push_back(node(bit.l));
        }
    }

    /* The words of bits, as a call is lent them. */
    Slice slice(const Word &bits) const
    {
        Slice found;
        put(found, bits);
        return found;
    }

    /* The words of predicates one after the other, each as long as n and w say. */
    Slice table(const std::vector<Predicate> &predicates) const
    {
        Slice found;
        for (const Predicate &predicate : predicates) {
            if (predicate.address.size() != n() || predicate.data.size() != w())
                throw Refusal(MD_ROW_LENGTHS);
            put(found, predicate.address);
            put(found, predicate.data);
        }
        return found;
    }

    std::vector<Listed> listed(const Slice &answer, std::uint64_t many) const
    {
        std::vector<Listed> found;
        for (std::size_t i = 0; i < many; i++)
            found.push_back({answer[3 * i], condition(answer[3 * i + 1]), answer[3 * i + 2]});
        return found;
    }

    template <class Call>
    std::vector<Listed> formula(Call call, const std::string &text, const std::vector<Predicate> &predicates)
    {
        detail::Words &m = words();
        const Slice given = table(predicates);
        /* A predicate and the `&` before the next are three bytes or more, and three words are listed of it. */
        Slice answer(text.size() + 3);
        std::uint64_t many = 0, made = 0, place = 0;
        const std::uint32_t row = call(m.record, m.nodes.data(), m.nodes.size(), m.list.data(), m.list.size(),
                                       reinterpret_cast<const std::uint8_t *>(text.c_str()), text.size(),
                                       detail::begin(given), given.size(), answer.data(), answer.size(), &many, &made,
                                       &place);
        std::vector<Listed> found = listed(answer, many);
        if (row == MD_ROW_FORMULA || row == MD_ROW_NESTING)
            throw FormulaRefusal(row, place, {}, 0);
        if (row != MD_ACCEPTED)
            throw FormulaRefusal(row, std::nullopt, std::move(found), made);
        return found;
    }

    detail::Owner owner_;
};

/* The text of a case file, run with ports of its own in buffers that are as long as memcase's, or as told; one that is
   refused throws a CaseRefusal. */
inline std::string run_case(const std::vector<std::uint8_t> &bytes, std::size_t node_words = 16384,
                            std::size_t list_words = 16384, std::size_t text_bytes = 65536)
{
    std::uint32_t record[MD_RECORD] = {};
    std::vector<std::uint32_t> nodes(node_words + 1), list(list_words + 1);
    std::vector<std::uint8_t> printed(text_bytes + 1);
    std::uint64_t count = 0;
    const std::uint32_t row = md_case(detail::begin(bytes), bytes.size(), nodes.data(), node_words, list.data(),
                                      list_words, printed.data(), text_bytes, record, &count);
    if (row != MD_ACCEPTED)
        throw CaseRefusal(row, count);
    return std::string(printed.begin(), printed.begin() + static_cast<std::ptrdiff_t>(count));
}

} // namespace mangerday

#endif
