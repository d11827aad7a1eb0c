// Prints one table: nanoseconds per question for the library and for general solvers, family by family, and
// how many times the library's time theirs is; then the solvers' versions. Reads the families from standard
// input. All must decide every question alike.

#include <cstdio>
#include <cstdlib>
#include <functional>
#include <iostream>
#include <string>

#include "decide.hpp"

extern "C" uint64_t zimorgal_ask(const uint8_t *question, size_t question_bytes, uint8_t *answer,
                                 size_t answer_bytes, uint8_t *work, size_t work_bytes);

using Bytes = std::vector<uint8_t>;
using Clock = std::chrono::steady_clock;

struct Family {
    std::string name;
    std::vector<Bytes> questions;
};

// How long the rounds of one family and one solver go on.
constexpr std::chrono::milliseconds long_enough(200);
// A solver that takes longer for one question is left out for that family; the table says so.
constexpr std::chrono::milliseconds too_long(10'000);

static std::vector<Family> read_families() {
    std::vector<Family> families;
    for (std::string line; std::getline(std::cin, line);) {
        if (line.rfind("family ", 0) == 0) {
            families.push_back({line.substr(7), {}});
            continue;
        }
        Bytes question;
        for (size_t at = 0; at < line.size(); at += 2) {
            question.push_back(uint8_t(std::stoi(line.substr(at, 2), nullptr, 16)));
        }
        families.back().questions.push_back(question);
    }
    return families;
}

static Decision by_library(const Bytes &question) {
    uint8_t answer[1536], work[4096];
    const uint64_t said =
        zimorgal_ask(question.data(), question.size(), answer, sizeof answer, work, sizeof work);
    if ((said & 0xFF) == 0) {
        std::fprintf(stderr, "the library refused a question\n");
        std::exit(1);
    }
    return {(said & 0xFF) == 1, int(said >> 40 & 0xFF), int(said >> 48 & 0xFF)};
}

template <class Engine>
static Decision by(const Bytes &bytes) {
    const Deadline deadline(too_long);
    const Question question = read(bytes);
    return Decider<Engine>(question, deadline).decide();
}

using Solver = std::function<Decision(const Bytes &)>;

// Asks all questions once and ends the program if a decision is not the library's.
static void must_agree(const Family &family, const char *name, const Solver &solver) {
    for (const Bytes &question : family.questions) {
        const Decision given = solver(question), due = by_library(question);
        if (given == due) continue;
        std::fprintf(stderr, "%s: %s says %d %d %d, the library %d %d %d:\n", family.name.c_str(), name,
                     given.yes, given.reason, given.disequation, due.yes, due.reason, due.disequation);
        for (uint8_t byte : question) std::fprintf(stderr, "%02X ", byte);
        std::fprintf(stderr, "\n");
        std::exit(1);
    }
}

// The nanoseconds per question of the median round.
static double median_round(const Family &family, const Solver &solver) {
    std::vector<double> rounds;
    const auto began = Clock::now();
    while (rounds.empty() || Clock::now() - began < long_enough) {
        const auto round = Clock::now();
        for (const Bytes &question : family.questions) solver(question);
        const std::chrono::duration<double, std::nano> took = Clock::now() - round;
        rounds.push_back(took.count() / double(family.questions.size()));
    }
    std::nth_element(rounds.begin(), rounds.begin() + rounds.size() / 2, rounds.end());
    return rounds[rounds.size() / 2];
}

static void print_other(const Family &family, const char *name, const Solver &solver, double library) {
    try {
        must_agree(family, name, solver);
        const double took = median_round(family, solver);
        std::printf(" %12.0f %9.1f", took, took / library);
    } catch (const TooLong &) {
        const double least = std::chrono::nanoseconds(too_long).count();
        std::printf(" >%11.0f >%8.0f", least, least / library);
    }
    std::fflush(stdout);
}

int main() {
    std::printf("%-52s %9s %11s %12s %9s %12s %9s\n", "family", "questions", "library ns", "Z3 ns", "ratio",
                "CaDiCaL ns", "ratio");
    for (const Family &family : read_families()) {
        const double library = median_round(family, by_library);
        std::printf("%-52s %9zu %11.0f", family.name.c_str(), family.questions.size(), library);
        print_other(family, "Z3", by<Z3>, library);
        print_other(family, "CaDiCaL", by<Cadical>, library);
        std::printf("\n");
    }
    std::printf("%s, %s\n", Z3::version().c_str(), Cadical::version().c_str());
}
