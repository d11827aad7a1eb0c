// A judge of rows, written from docs/SPEC.md alone: section 2 for what clauses mean and how they read as joins, 6.8 for
// what is accepted, rejected and named, and section 7 for 18 and 19; refusals 1 to 10 are those of reader.hpp. It shares
// no code with the headers and the library, which it is to be compared with.
#ifndef ZIMORGAL_TESTS_JUDGE_HPP
#define ZIMORGAL_TESTS_JUDGE_HPP

#include <bitset>
#include <iterator>
#include <set>
#include <utility>
#include <vector>

#include "reader.hpp"

namespace reader {

// ---------------------------------------------------------------- Shares as 1,024 leaves

using Row = std::bitset<1024>;

inline Row row_of_leaves(std::uint32_t leaves) {
    static const Row block(0xFFFFFFFF);
    Row row;
    for (std::size_t i = 0; i < 32; ++i)
        if (leaves >> i & 1) row |= block << 32 * i;
    return row;
}

inline Row row_of_bytes(const std::uint8_t* bytes) {
    Row row;
    for (std::size_t leaf = 0; leaf < 1024; ++leaf) row[leaf] = bytes[leaf / 8] >> leaf % 8 & 1;
    return row;
}

// All 12 rows.
inline std::vector<Row> rows_of_bytes(const std::vector<std::uint8_t>& bytes) {
    std::vector<Row> rows;
    for (std::size_t v = 0; v < 12; ++v) rows.push_back(row_of_bytes(bytes.data() + 128 * v));
    return rows;
}

// ---------------------------------------------------------------- The first system

// What is said of the terms, at every leaf.
inline bool is_so(Said said, const Row (&terms)[3]) {
    const auto& [a, b, c] = terms;
    switch (said) {
        case Said::join: return (a & b).none() && (a | b) == c;
        case Said::equal: return a == b;
        case Said::full: return a.all();
        case Said::empty: return a.none();
        case Said::together: return (a & b).none();
    }
    return false;
}

// A positive clause holds at every leaf, a disequation fails as a clause at one.
inline bool holds(const Clause& clause, const std::vector<Row>& variables) {
    Row terms[3];
    for (std::size_t i = 0; i < clause.terms.size(); ++i) {
        const Term& term = clause.terms[i];
        terms[i] = term.sort == Sort::share ? row_of_leaves(term.value) : variables[term.value];
    }
    return is_so(clause.said, terms) != clause.negated;
}

// Whether a term of the first system is full at a leaf.
inline bool full_at(const Term& term, const std::vector<Row>& variables, std::size_t leaf) {
    return term.sort == Sort::share ? (term.value >> leaf / 32 & 1) != 0 : variables[term.value][leaf];
}

// How the test of a join comes out at a leaf, by its parts and its sum there: 0 holds, 1 overlap, 2 surplus, 3 shortfall.
inline unsigned way_of(bool first, bool second, bool sum) {
    static constexpr unsigned ways[2][2][2] = {{{0, 3}, {2, 0}}, {{2, 0}, {1, 1}}};
    return ways[first][second][sum];
}

// The same of a positive clause, which reads as a join.
inline unsigned way_at(const Clause& clause, const std::vector<Row>& variables, std::size_t leaf) {
    const auto full = [&](std::size_t term) { return full_at(clause.terms[term], variables, leaf); };
    switch (clause.said) {
        case Said::join: return way_of(full(0), full(1), full(2));
        case Said::equal: return way_of(full(0), false, full(1));
        case Said::full: return way_of(full(0), false, true);
        case Said::together: return full(0) && full(1) ? 1 : 0;
        case Said::empty: break;  // of disequations alone
    }
    return 0;
}

// A clause that does not hold: which one, by its number, and where and how it fails if it is a positive one.
struct Broken {
    const Clause* clause;
    std::size_t number;
    unsigned way;
    std::size_t leaf;
};

// The lowest clause of the first system that does not hold, in the order of the question; none if all hold.
inline Broken lowest_broken(const Question& question, const std::vector<Row>& rows) {
    std::size_t number = 0;
    for (const Clause& clause : question.clauses) {
        if (clause.second) continue;
        if (!holds(clause, rows)) {
            for (std::size_t leaf = 0; leaf < 1024 && !clause.negated; ++leaf)
                if (const unsigned way = way_at(clause, rows, leaf); way != 0) return {&clause, number, way, leaf};
            return {&clause, number, 0, 0};
        }
        ++number;
    }
    return {nullptr, 0, 0, 0};
}

// ---------------------------------------------------------------- The second system

// The values at one leaf: bit v that of free variable v, bit v of `own` that of own variable v; the leaf of the
// constants.
struct Values {
    unsigned free, own;
    std::size_t leaf;
};

inline bool value_of(const Term& term, const Values& values) {
    if (term.sort == Sort::share) return term.value >> values.leaf & 1;
    return (term.sort == Sort::free ? values.free : values.own) >> term.value & 1;
}

// What is said of the terms, at one leaf.
inline bool is_so_at(const Clause& clause, const Values& values) {
    bool terms[3] = {};
    for (std::size_t i = 0; i < clause.terms.size(); ++i) terms[i] = value_of(clause.terms[i], values);
    const auto& [a, b, c] = terms;
    switch (clause.said) {
        case Said::join: return !(a && b) && (a || b) == c;
        case Said::equal: return a == b;
        case Said::full: return a;
        case Said::empty: return !a;
        case Said::together: return !(a && b);
    }
    return false;
}

inline bool meets_positives(const Question& question, const Values& values) {
    for (const Clause& clause : question.clauses)
        if (clause.second && !clause.negated && !is_so_at(clause, values)) return false;
    return true;
}

// The values of the free variables, and the leaf of the constants, at every leaf of the rows; each once.
inline std::set<std::pair<unsigned, std::size_t>> leaves_of(const Question& question, const std::vector<Row>& rows) {
    std::set<std::pair<unsigned, std::size_t>> leaves;
    for (std::size_t i = 0; i < 1024; ++i) {
        unsigned free = 0;
        for (std::size_t v = 0; v < question.free; ++v) free |= unsigned{rows[v][i]} << v;
        leaves.insert({free, i / 32});
    }
    return leaves;
}

// Whether own shares of some height extend the rows to the second system. Below each leaf own variables may have as
// many sub-leaves as are needed: so each leaf needs own values that meet the positive clauses, and each disequation one
// leaf with own values that meet both them and it.
inline bool extends(const Question& question, const std::vector<Row>& rows) {
    std::set<const Clause*> wanted;
    for (const Clause& clause : question.clauses)
        if (clause.second && clause.negated) wanted.insert(&clause);
    for (const auto& [free, leaf] : leaves_of(question, rows)) {
        bool met = false;
        for (unsigned own = 0; own < 1u << question.own; ++own) {
            const Values values{free, own, leaf};
            if (!meets_positives(question, values)) continue;
            met = true;
            for (auto clause = wanted.begin(); clause != wanted.end();)
                clause = is_so_at(**clause, values) ? std::next(clause) : wanted.erase(clause);
        }
        if (!met) return false;
    }
    return wanted.empty();
}

// ---------------------------------------------------------------- Judging

// The number that judging is to give.
inline std::uint64_t judge(const std::vector<std::uint8_t>& question, const std::vector<std::uint8_t>& rows) {
    const Reading reading = read(question.data(), question.size());
    if (reading.refusal != 0) return std::uint64_t{reading.refusal} << 8 | std::uint64_t{reading.place} << 16;
    if (rows.size() != 1536) return 18 << 8;
    for (std::size_t i = 128 * reading.question.free; i < rows.size(); ++i)
        if (rows[i] != 0) return 19 << 8;
    const std::vector<Row> shares = rows_of_bytes(rows);
    const Broken broken = lowest_broken(reading.question, shares);
    if (broken.clause != nullptr)
        return std::uint64_t{2} | std::uint64_t{broken.number} << 32 | std::uint64_t{broken.way} << 40 |
               std::uint64_t{broken.leaf} << 48;
    return reading.question.entailment && extends(reading.question, shares) ? 3 : 1;
}

// Of an accepted question, the one whether its first system alone is satisfiable.
inline std::vector<std::uint8_t> first_alone(const std::vector<std::uint8_t>& question) {
    std::vector<std::uint8_t> alone = {0x01, 0x00, question[2], 0x00};
    for (std::size_t at = 4; at < question.size();) {
        const std::size_t next = at + 1 + static_cast<std::size_t>(parts::operands(question[at]));
        const ClauseSort* const sort = parts::sort_of(question[at]);
        if (sort == nullptr || question[at] == sort->commands[0])
            for (; at < next; ++at) alone.push_back(question[at]);
        at = next;
    }
    return alone;
}

}  // namespace reader

#endif
