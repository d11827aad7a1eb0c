// Decides a question with a general solver, leaf by leaf: the reduction that the library's proofs establish
// (crates/leaves/specs/Problem.antt and Second.antt) is given to it for nothing.
//
// The clauses are handed over once for each question, with a variable for each constant. A leaf is then one
// call with the values there of the constants that clauses name as assumptions, and a disequation is switched
// on by a variable of its own, so that the solver keeps what it has learnt.
#pragma once

#include <array>
#include <optional>
#include <stdexcept>

#include "engines.hpp"
#include "question.hpp"

struct Decision {
    bool yes;
    int reason;
    int disequation;

    bool operator==(const Decision &other) const {
        return yes == other.yes && reason == other.reason && disequation == other.disequation;
    }
};

template <class Engine>
class Decider {
  public:
    Decider(const Question &question, const Deadline &deadline)
        : question(question), leaves(question.leaves()), first(deadline) {
        state_first();
        if (question.entailment) state_second(deadline);
    }

    Decision decide() {
        const bool solved = solvable(std::nullopt);
        if (!question.entailment) return {solved, 0, 0};
        if (!solved) return {true, 1, 0};
        const Target unmet = target(nullptr);
        for (int leaf = 0; leaf < leaves; leaf++) {
            if (some_choice(leaf, {}, unmet)) return {false, 2, 0};
        }
        for (size_t number = 0; number < question.second.disequations.size(); number++) {
            if (solvable(target(&question.second.disequations[number]))) return {false, 3, int(number)};
        }
        return {true, 0, 0};
    }

  private:
    // What no own values may meet: a formula, switched on by one variable in each solver.
    struct Target {
        Cnf cnf;
        int in_first;
        int in_second;
    };

    // In both solvers a variable of the question is its number plus 1, and a constant comes after the
    // variables.
    int literal(uint8_t term) const {
        return term < 0x20 ? term + 1 : question.variables() + (term - 0x20) + 1;
    }

    // The literals of three terms, 0 where the clause has fewer.
    std::array<int, 3> literals(const Clause &clause) const {
        std::array<int, 3> found{};
        for (size_t term = 0; term < clause.terms.size(); term++) found[term] = literal(clause.terms[term]);
        return found;
    }

    Cnf holds(const Clause &clause) const {
        const auto [a, b, c] = literals(clause);
        switch (clause.relation) {
            case Relation::join:
                return {{-a, -b}, {-a, c}, {-b, c}, {a, b, -c}};
            case Relation::equal:
                return {{-a, b}, {a, -b}};
            case Relation::full:
                return {{a}};
            case Relation::empty:
                return {{-a}};
            case Relation::together:
                return {{-a, -b}};
        }
        throw std::logic_error("a relation without a meaning");
    }

    Cnf fails(const Clause &clause) const {
        const auto [a, b, c] = literals(clause);
        switch (clause.relation) {
            case Relation::join:
                return {{a, b, c}, {-a, b, -c}, {a, -b, -c}};
            case Relation::equal:
                return {{a, b}, {-a, -b}};
            case Relation::full:
                return {{-a}};
            case Relation::empty:
                return {{a}};
            case Relation::together:
                return {{a}, {b}};
        }
        throw std::logic_error("a relation without a meaning");
    }

    static void add_if(Engine &engine, int guard, const Cnf &cnf) {
        for (Literals clause : cnf) {
            clause.push_back(-guard);
            engine.add(clause);
        }
    }

    void name_terms(Engine &engine) {
        const int terms = question.variables() + int(question.constants.size());
        for (int term = 0; term < terms; term++) engine.fresh();
    }

    void state_first() {
        name_terms(first);
        for (const Clause &clause : question.first.positive) {
            for (const Literals &part : holds(clause)) first.add(part);
        }
        for (const Clause &disequation : question.first.disequations) {
            switches.push_back(first.fresh());
            add_if(first, switches.back(), fails(disequation));
        }
    }

    void state_second(const Deadline &deadline) {
        if (!Engine::quantifies) {
            second.emplace(deadline);
            name_terms(*second);
        }
        for (const Clause &clause : question.second.positive) {
            for (const Literals &part : holds(clause)) {
                positive.push_back(part);
                if (second) second->add(part);
            }
        }
        for (int own = question.free; own < question.variables(); own++) owns.push_back(own + 1);
    }

    // The second system's positive clauses, with or without one of its disequations.
    Target target(const Clause *disequation) {
        Target made{positive, first.fresh(), second ? second->fresh() : 0};
        if (disequation != nullptr) {
            const Cnf more = fails(*disequation);
            made.cnf.insert(made.cnf.end(), more.begin(), more.end());
            if (second) add_if(*second, made.in_second, more);
        }
        if constexpr (Engine::quantifies) first.add_never(made.in_first, owns, made.cnf);
        return made;
    }

    Literals at(int leaf) const {
        Literals values;
        for (size_t constant = 0; constant < question.constants.size(); constant++) {
            if (!question.names(constant)) continue;
            const int variable = literal(uint8_t(0x20 + constant));
            values.push_back(question.full(constant, leaf) ? variable : -variable);
        }
        return values;
    }

    // Every leaf has a choice, and each disequation of the first system has a leaf with a choice that meets
    // it.
    bool solvable(const std::optional<Target> &target) {
        for (int leaf = 0; leaf < leaves; leaf++) {
            if (!some_choice(leaf, {}, target)) return false;
        }
        for (int disequation : switches) {
            bool met = false;
            for (int leaf = 0; leaf < leaves && !met; leaf++) {
                met = some_choice(leaf, {disequation}, target);
            }
            if (!met) return false;
        }
        return true;
    }

    // A choice of the free variables at a leaf that meets the first system's positive clauses and, where a
    // target is given, beside which no own values meet that. A solver without quantifiers proposes a choice;
    // own values that meet the target beside it are forbidden from then on, at all leaves, and it proposes
    // another.
    bool some_choice(int leaf, Literals assumptions, const std::optional<Target> &target) {
        const Literals constants = at(leaf);
        assumptions.insert(assumptions.end(), constants.begin(), constants.end());
        if (target) assumptions.push_back(target->in_first);
        while (first.solve(assumptions)) {
            if (!target) return true;
            if constexpr (Engine::quantifies) {
                return true;
            } else {
                if (!own_values_beside(constants, *target)) return true;
                forbid_own_values(*target);
            }
        }
        return false;
    }

    // Own values that meet the target beside the choice that the first solver found.
    bool own_values_beside(Literals given, const Target &target) {
        given.push_back(target.in_second);
        for (int free = 1; free <= question.free; free++) {
            given.push_back(first.value(free) ? free : -free);
        }
        return second->solve(given);
    }

    // With the own values that the second solver found, some part of the target must fail.
    void forbid_own_values(const Target &target) {
        Literals some_part{-target.in_first};
        for (const Literals &clause : target.cnf) {
            Literals rest;
            bool met = false;
            for (int one : clause) {
                const int variable = one < 0 ? -one : one;
                if (variable <= question.free || variable > question.variables()) {
                    rest.push_back(one);
                } else if (second->value(variable) == (one > 0)) {
                    met = true;
                }
            }
            if (met) continue;
            const int fails = first.fresh();
            for (int one : rest) first.add({-fails, -one});
            some_part.push_back(fails);
        }
        first.add(some_part);
    }

    const Question &question;
    const int leaves;
    Engine first;
    // Finds own values; a solver with quantifiers needs none.
    std::optional<Engine> second;
    Literals switches;
    Cnf positive;
    Literals owns;
};
