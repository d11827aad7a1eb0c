// An accepted question, read from its bytes. The faults that the library refuses are not looked for here.
#pragma once

#include <algorithm>
#include <cstdint>
#include <iterator>
#include <vector>

extern "C" uint32_t zimorgal_height(uint32_t constant);

// What a clause, or a disequation's negation, says of its terms.
enum class Relation { join, equal, full, empty, together };

struct Clause {
    Relation relation;
    std::vector<uint8_t> terms;
};

// A sort of clause: its command in either system, and how it is read.
struct ClauseSort {
    uint8_t first, second;
    Relation relation;
    size_t terms;
    bool disequation;
};

constexpr ClauseSort sorts[] = {
    {0x10, 0x20, Relation::join, 3, false},     {0x11, 0x21, Relation::join, 3, true},
    {0x12, 0x22, Relation::equal, 2, false},    {0x13, 0x23, Relation::equal, 2, true},
    {0x30, 0x38, Relation::full, 1, false},     {0x31, 0x39, Relation::empty, 1, true},
    {0x32, 0x3A, Relation::together, 2, false},
};

// The sort of clause with this command. It is always found, since only accepted questions come here.
inline const ClauseSort &sort_of(uint8_t command) {
    return *std::find_if(std::begin(sorts), std::end(sorts), [command](const ClauseSort &sort) {
        return sort.first == command || sort.second == command;
    });
}

struct System {
    std::vector<Clause> positive;
    std::vector<Clause> disequations;
};

struct Question {
    bool entailment = false;
    int free = 0;
    int own = 0;
    std::vector<uint32_t> constants;
    // Which constants some clause names, constant i at bit i.
    uint32_t named = 0;
    System first, second;

    int variables() const { return free + own; }

    bool names(size_t constant) const { return named >> constant & 1; }

    // How many leaves the question falls into: those of the tallest constant that some clause names.
    int leaves() const {
        uint32_t height = 0;
        for (size_t constant = 0; constant < constants.size(); constant++) {
            if (names(constant)) height = std::max(height, zimorgal_height(constants[constant]));
        }
        return 1 << height;
    }

    // The value at one of these leaves of a constant that is named.
    bool full(size_t constant, int leaf) const { return constants[constant] >> (leaf * (32 / leaves())) & 1; }
};

inline Question read(const std::vector<uint8_t> &bytes) {
    Question question;
    question.entailment = bytes[1] == 1;
    question.free = bytes[2];
    question.own = bytes[3];
    size_t at = 4;
    while (bytes[at] != 0x00) {
        const uint8_t command = bytes[at++];
        if (command == 0x03) {
            uint32_t constant = 0;
            for (int byte = 0; byte < 4; byte++) constant |= uint32_t(bytes[at++]) << (8 * byte);
            question.constants.push_back(constant);
            continue;
        }
        const ClauseSort &sort = sort_of(command);
        System &system = command == sort.second ? question.second : question.first;
        auto &section = sort.disequation ? system.disequations : system.positive;
        section.push_back({sort.relation, {bytes.begin() + at, bytes.begin() + at + sort.terms}});
        for (uint8_t term : section.back().terms) {
            if (term >= 0x20) question.named |= uint32_t(1) << (term - 0x20);
        }
        at += sort.terms;
    }
    return question;
}
