// The general solvers behind one interface: variables are numbers from 1, a literal is a variable or its
// negative.
#pragma once

#include <z3++.h>

#include <cadical.hpp>
#include <chrono>
#include <stdexcept>
#include <string>
#include <vector>

using Literals = std::vector<int>;
using Cnf = std::vector<Literals>;

// Thrown where a question takes too long. It is looked for between two calls of a solver, not during one: a
// time limit of Z3's own would cost it a thread for each call.
struct TooLong {};

class Deadline {
  public:
    explicit Deadline(std::chrono::milliseconds limit) : end(std::chrono::steady_clock::now() + limit) {}

    void check() const {
        if (std::chrono::steady_clock::now() > end) throw TooLong();
    }

  private:
    std::chrono::steady_clock::time_point end;
};

class Cadical {
  public:
    static constexpr bool quantifies = false;

    static std::string version() { return std::string("CaDiCaL ") + CaDiCaL::Solver::version(); }

    // Without its messages: it writes them to standard output, where the table is.
    explicit Cadical(const Deadline &deadline) : deadline(deadline) {
        if (!solver.set("quiet", 1)) throw std::runtime_error("CaDiCaL has no option quiet");
    }

    int fresh() { return ++variables; }

    void add(const Literals &clause) {
        for (int literal : clause) solver.add(literal);
        solver.add(0);
    }

    bool solve(const Literals &assumptions) {
        deadline.check();
        for (int literal : assumptions) solver.assume(literal);
        return solver.solve() == 10;
    }

    // In the last solution.
    bool value(int variable) { return solver.val(variable) > 0; }

  private:
    const Deadline &deadline;
    CaDiCaL::Solver solver;
    int variables = 0;
};

// Z3 with quantifiers. The simple solver, since the default one takes milliseconds to begin with.
class Z3 {
  public:
    static constexpr bool quantifies = true;

    static std::string version() {
        unsigned major, minor, build, revision;
        Z3_get_version(&major, &minor, &build, &revision);
        return "Z3 " + std::to_string(major) + "." + std::to_string(minor) + "." + std::to_string(build);
    }

    explicit Z3(const Deadline &deadline) : deadline(deadline), solver(context(), z3::solver::simple()) {}

    int fresh() {
        variables++;
        while (int(pool().size()) <= variables) {
            pool().push_back(context().bool_const(("x" + std::to_string(pool().size())).c_str()));
        }
        return variables;
    }

    void add(const Literals &clause) { solver.add(disjunction(clause)); }

    // If the guard holds, no values of these variables meet the formula.
    void add_never(int guard, const Literals &bound, const Cnf &cnf) {
        z3::expr_vector clauses(context()), variables(context());
        for (const Literals &clause : cnf) clauses.push_back(disjunction(clause));
        for (int variable : bound) variables.push_back(pool()[variable]);
        const z3::expr never = !z3::mk_and(clauses);
        solver.add(z3::implies(literal(guard), bound.empty() ? never : z3::forall(variables, never)));
    }

    bool solve(const Literals &assumptions) {
        deadline.check();
        z3::expr_vector given(context());
        for (int one : assumptions) given.push_back(literal(one));
        const z3::check_result result = solver.check(given);
        if (result == z3::unknown) throw std::runtime_error(solver.reason_unknown());
        return result == z3::sat;
    }

  private:
    // One context for all questions: making one takes far longer than most questions do.
    static z3::context &context() {
        static z3::context shared;
        return shared;
    }

    static std::vector<z3::expr> &pool() {
        static std::vector<z3::expr> shared{context().bool_val(true)};
        return shared;
    }

    static z3::expr literal(int number) {
        const z3::expr &variable = pool()[number < 0 ? -number : number];
        return number < 0 ? !variable : variable;
    }

    static z3::expr disjunction(const Literals &clause) {
        z3::expr_vector literals(context());
        for (int one : clause) literals.push_back(literal(one));
        return z3::mk_or(literals);
    }

    const Deadline &deadline;
    z3::solver solver;
    int variables = 0;
};
