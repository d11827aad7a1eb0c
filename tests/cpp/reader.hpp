// A reader of questions and one of tree texts, written from docs/FORMAT.md alone. They share no code with the headers and
// the library, which they are to be compared with.
#ifndef ZIMORGAL_TESTS_READER_HPP
#define ZIMORGAL_TESTS_READER_HPP

#include <cstddef>
#include <cstdint>
#include <string>
#include <vector>

namespace reader {

enum class Sort { free, own, share };

// A variable by its number among those of its sort, or a share by its leaves.
struct Term {
    Sort sort;
    std::uint32_t value;
};

// What a clause says of its terms. A negated one, a disequation, says that it is not so.
enum class Said { join, equal, full, empty, together };

struct Clause {
    bool second, negated;
    Said said;
    std::vector<Term> terms;
};

struct Question {
    bool entailment = false;
    unsigned free = 0, own = 0;
    std::vector<std::uint32_t> constants;
    std::vector<Clause> clauses;
};

inline bool operator==(const Term& a, const Term& b) { return a.sort == b.sort && a.value == b.value; }
inline bool operator==(const Clause& a, const Clause& b) {
    return a.second == b.second && a.negated == b.negated && a.said == b.said && a.terms == b.terms;
}
inline bool operator==(const Question& a, const Question& b) {
    return a.entailment == b.entailment && a.free == b.free && a.own == b.own && a.constants == b.constants &&
           a.clauses == b.clauses;
}

// A sort of clause: its commands in the first and in the second system, what it says, and how many terms it
// has.
struct ClauseSort {
    std::uint8_t commands[2];
    bool negated;
    Said said;
    std::uint8_t terms;
};

inline constexpr ClauseSort sorts[] = {
    {{0x10, 0x20}, false, Said::join, 3},      // a join b is c
    {{0x11, 0x21}, true, Said::join, 3},       // not (a join b is c)
    {{0x12, 0x22}, false, Said::equal, 2},     // a is b
    {{0x13, 0x23}, true, Said::equal, 2},      // a is not b
    {{0x30, 0x38}, false, Said::full, 1},      // a is full
    {{0x31, 0x39}, true, Said::empty, 1},      // a is not empty
    {{0x32, 0x3A}, false, Said::together, 2},  // the join of a and b is defined
};

// The refusal number, 0 for none, and the place.
struct Reading {
    unsigned refusal;
    std::size_t place;
    Question question;
};

namespace parts {

// The sort of clause with that command, in either system; none if it is not the command of a clause.
inline const ClauseSort* sort_of(unsigned command) {
    for (const ClauseSort& sort : sorts)
        if (sort.commands[0] == command || sort.commands[1] == command) return &sort;
    return nullptr;
}

// How many operand bytes a command has; -1 if there is no such command.
inline int operands(unsigned command) {
    switch (command) {
        case 0x00: return 0;
        case 0x01: return 3;
        case 0x03: return 4;
        default: break;
    }
    const ClauseSort* const sort = sort_of(command);
    return sort != nullptr ? sort->terms : -1;
}

// Whether a term may stand in a clause of that system; if so, what it means.
inline bool means(const Question& question, bool second, unsigned byte, Term& term) {
    if (byte < question.free) {
        term = {Sort::free, byte};
        return true;
    }
    if (byte < question.free + question.own) {
        term = {Sort::own, byte - question.free};
        return second;
    }
    if (byte < 0x20 || byte - 0x20 >= question.constants.size()) return false;
    term = {Sort::share, question.constants[byte - 0x20]};
    return true;
}

// The fault of a head, 0 for none.
inline unsigned head(const std::uint8_t* operand, Question& question) {
    const unsigned kind = operand[0];
    question.entailment = kind == 1;
    question.free = operand[1];
    question.own = operand[2];
    return kind > 1 || question.free + question.own > 12 || (kind == 0 && question.own > 0) ? 5 : 0;
}

inline unsigned constant(const std::uint8_t* operand, Question& question) {
    if (!question.clauses.empty()) return 4;
    if (question.constants.size() == 32) return 6;
    std::uint32_t leaves = 0;
    for (unsigned leaf = 0; leaf < 32; ++leaf)
        if (operand[leaf / 8] >> leaf % 8 & 1) leaves |= std::uint32_t{1} << leaf;
    question.constants.push_back(leaves);
    return 0;
}

inline unsigned clause(unsigned command, const std::uint8_t* operand, Question& question) {
    const ClauseSort& sort = *sort_of(command);
    Clause made{command == sort.commands[1], sort.negated, sort.said, {}};
    if (made.second && !question.entailment) return 9;
    unsigned alike = 0;
    for (const Clause& other : question.clauses) alike += other.second == made.second && other.negated == made.negated;
    if (alike == (made.negated ? 31u : 64u)) return 7;
    for (int i = 0; i < sort.terms; ++i) {
        Term term{};
        if (!means(question, made.second, operand[i], term)) return 8;
        made.terms.push_back(term);
    }
    question.clauses.push_back(made);
    return 0;
}

}  // namespace parts

inline Reading read(const std::uint8_t* bytes, std::size_t length) {
    Reading reading{0, 0, {}};
    const auto refuse = [&](unsigned number, std::size_t place) {
        reading.refusal = number;
        reading.place = place;
        return reading;
    };
    if (length == 0 || bytes[0] != 0x01) return refuse(1, 0);
    std::size_t at = 0;
    while (true) {
        if (at == length) return refuse(2, length);
        const unsigned command = bytes[at];
        const int count = parts::operands(command);
        if (count < 0) return refuse(3, at);
        if (length - at - 1 < static_cast<std::size_t>(count)) return refuse(2, at);
        const std::uint8_t* const operand = bytes + at + 1;
        unsigned fault = 0;
        if (command == 0x00) break;
        if (command == 0x01)
            fault = at > 0 ? 4 : parts::head(operand, reading.question);
        else if (command == 0x03)
            fault = parts::constant(operand, reading.question);
        else
            fault = parts::clause(command, operand, reading.question);
        if (fault != 0) return refuse(fault, at);
        at += 1 + static_cast<std::size_t>(count);
    }
    if (at + 1 < length) return refuse(10, at + 1);
    return reading;
}

// ---------------------------------------------------------------- Tree texts of constants and of rows

// A tree as it is written: the sign that it starts with, where that stands, and of a pair the halves.
struct Tree {
    char sign;
    std::size_t at;
    std::vector<Tree> halves;
};

// The refusal number, 0 for none, the place of the fault, and the leaves.
struct TreeReading {
    unsigned refusal;
    std::size_t place;
    std::uint32_t leaves;
};

// The same for a row, whose faults have the numbers that they have in the text of a constant.
struct RowReading {
    unsigned refusal;
    std::size_t place;
    std::vector<bool> leaves;
};

namespace parts {

// Reads the tree that starts at an offset, which is then past it. False if it meets a character that cannot stand where it
// is: then the offset is that one's.
inline bool tree(const std::string& text, std::size_t& at, Tree& made) {
    if (at >= text.size() || std::string("o*(").find(text[at]) == std::string::npos) return false;
    made = {text[at], at, {}};
    ++at;
    if (made.sign != '(') return true;
    made.halves.resize(2);
    for (Tree& half : made.halves)
        if (!tree(text, at, half)) return false;
    if (at >= text.size() || text[at] != ')') return false;
    ++at;
    return true;
}

// The pair of two equal leaves that is closed first; none if the tree is folded.
inline const Tree* unfolded(const Tree& tree) {
    for (const Tree& half : tree.halves)
        if (const Tree* const found = unfolded(half)) return found;
    const bool equal = tree.sign == '(' && tree.halves[0].sign == tree.halves[1].sign;
    return equal && tree.halves[0].sign != '(' ? &tree : nullptr;
}

// The pair that is opened first inside of so many others; none if the tree is no taller.
inline const Tree* inside(const Tree& tree, unsigned others) {
    if (tree.sign == '(' && others == 0) return &tree;
    for (const Tree& half : tree.halves)
        if (const Tree* const found = inside(half, others - 1)) return found;
    return nullptr;
}

// The leaf of a tree that a path leads to, its first step in the highest of so many bits: 0 goes left, 1 goes right.
inline bool full(const Tree& tree, unsigned path, unsigned bits) {
    if (tree.sign != '(') return tree.sign == '*';
    return full(tree.halves[path >> (bits - 1) & 1], path, bits - 1);
}

// The refusal number of a text that is to be a tree of at most that height, in at most so many characters, and the
// place. The tree is read too.
inline unsigned tree_fault(const std::string& text, std::size_t most, unsigned tallest, Tree& made,
                           std::size_t& place) {
    place = 0;
    // Nothing can stand behind the longest text.
    if (!tree(text.substr(0, most), place, made) || place < text.size()) return 15;
    if (const Tree* const pair = unfolded(made)) {
        place = pair->at;
        return 16;
    }
    if (const Tree* const pair = inside(made, tallest)) {
        place = pair->at;
        return 17;
    }
    place = 0;
    return 0;
}

}  // namespace parts

inline TreeReading read_tree(const std::string& text) {
    Tree tree{};
    TreeReading reading{0, 0, 0};
    reading.refusal = parts::tree_fault(text, 94, 5, tree, reading.place);
    for (unsigned leaf = 0; leaf < 32 && reading.refusal == 0; ++leaf)
        if (parts::full(tree, leaf, 5)) reading.leaves |= std::uint32_t{1} << leaf;
    return reading;
}

inline RowReading read_row(const std::string& text) {
    Tree tree{};
    RowReading reading{0, 0, {}};
    reading.refusal = parts::tree_fault(text, 3070, 10, tree, reading.place);
    for (unsigned leaf = 0; leaf < 1024 && reading.refusal == 0; ++leaf)
        reading.leaves.push_back(parts::full(tree, leaf, 10));
    return reading;
}

}  // namespace reader

#endif
