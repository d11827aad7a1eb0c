// Random programs for the builder of zimorgal.hpp. Each step is also put to a model, which says whether it is to be
// taken and what the question means after it. The question's bytes, read by a reader of its own (reader.hpp), must mean
// just that, and the library must accept them: after every step, taken or not, with any value of any enum, with numbers
// that name nothing, and with constants of other questions and of earlier starts. Rows are judged for some of the
// questions, and must come out, and be told as one line, as a judge of its own (judge.hpp) says.
//
//     programs [FOLDER [PROGRAMS]]
//
// FOLDER: some questions are left there, as text (N.shares) and as bytes (N.bytes), and many as bytes with their meaning
// (meanings, for tests/cpp/decoder); - for none. PROGRAMS: how many, 120 if not said; the same ones in every run. The
// last line is 'N passed, M failed'.
#include <array>
#include <cstdio>
#include <cstdlib>
#include <fstream>
#include <optional>
#include <string>
#include <vector>

#include "judge.hpp"
#include "zimorgal.hpp"

using namespace zimorgal;

namespace {

int passed = 0, failed = 0;

void check(bool holds, const std::string& what) {
    ++(holds ? passed : failed);
    if (!holds) std::printf("FAILED %s\n", what.c_str());
}

class Random {
  public:
    explicit Random(std::uint64_t seed) : state_(seed) {}

    std::uint64_t next() {
        std::uint64_t z = state_ += 0x9E3779B97F4A7C15;
        z = (z ^ z >> 30) * 0xBF58476D1CE4E5B9;
        z = (z ^ z >> 27) * 0x94D049BB133111EB;
        return z ^ z >> 31;
    }
    unsigned below(unsigned bound) { return static_cast<unsigned>(next() % bound); }
    bool one_in(unsigned count) { return below(count) == 0; }

  private:
    std::uint64_t state_;
};

// ---------------------------------------------------------------- The model

// What a question is to mean, and which line of questions it is of: a new one from its first constant on, the same one
// for copies. 0 before the first constant.
struct Model {
    reader::Question question;
    int line = 0;
};

int lines = 0;

// A constant that some question gave: what it means, and where.
struct Kept {
    Constant constant;
    int line;
    std::size_t number;
    Leaves leaves;
};

// A term for the builder, and what it is to mean. `kept` is the constant, `number` the variable, as the program has it.
struct Put {
    reader::Sort sort;
    long long number;
    Kept kept;

    Term term() const {
        switch (sort) {
            case reader::Sort::free: return Free{number};
            case reader::Sort::own: return Own{number};
            default: return kept.constant;
        }
    }
};

struct Step {
    enum class Sort { satisfiability, entailment, leaves, text, join, add, first, second } sort;
    std::size_t free = 0, own = 0;
    Leaves leaves = 0;  // of a constant
    std::string text;
    Leaves parts[2] = {};             // which are joined
    Error share_error = Error::none;  // of the text or the join
    unsigned system = 0, relation = 0;
    std::vector<Put> terms;  // always three

    bool gives_constant() const { return sort == Sort::leaves || sort == Sort::text || sort == Sort::join; }
};

// How often each error was due, each judgement, and of broken clauses each way; way 0 is a disequation's.
struct Seen {
    std::array<long, static_cast<std::size_t>(Error::undefined_join) + 1> errors{};
    std::array<long, 4> judgements{}, ways{};
    long started_anew = 0;  // drafts, after an error
};

Error due_term(const Model& model, bool second, const Put& put, reader::Term& means) {
    const bool free = put.sort == reader::Sort::free, own = put.sort == reader::Sort::own;
    if (free || own) {
        if (put.number < 0 || put.number >= (own ? model.question.own : model.question.free))
            return Error::names_nothing;
        if (own && !second) return Error::own_variable_in_first;
        means = {put.sort, static_cast<std::uint32_t>(put.number)};
        return Error::none;
    }
    if (put.kept.line == 0) return Error::names_nothing;
    const auto& constants = model.question.constants;
    if (put.kept.line != model.line || put.kept.number >= constants.size() ||
        constants[put.kept.number] != put.kept.leaves)
        return Error::foreign_constant;
    means = {reader::Sort::share, put.kept.leaves};
    return Error::none;
}

Error due_clause(Model& model, const Step& step) {
    if (step.system > 1) return Error::unknown_system;
    if (step.relation >= std::size(reader::sorts)) return Error::unknown_relation;
    const reader::ClauseSort& sort = reader::sorts[step.relation];  // which stand in the order of the relations
    reader::Clause clause{step.system == 1, sort.negated, sort.said, {}};
    if (clause.second && !model.question.entailment) return Error::no_second_system;
    std::size_t alike = 0;
    for (const auto& other : model.question.clauses)
        alike += other.second == clause.second && other.negated == clause.negated;
    if (clause.negated && alike == 31) return Error::too_many_disequations;
    if (!clause.negated && alike == 64) return Error::too_many_positives;
    for (std::size_t i = 0; i < sort.terms; ++i) {
        reader::Term means{};
        if (const Error error = due_term(model, clause.second, step.terms[i], means); error != Error::none)
            return error;
        clause.terms.push_back(means);
    }
    model.question.clauses.push_back(clause);
    return Error::none;
}

Error due_constant(Model& model, Leaves leaves) {
    auto& constants = model.question.constants;
    for (const std::uint32_t other : constants)
        if (other == leaves) return Error::none;
    if (constants.size() == 32) return Error::too_many_constants;
    constants.push_back(leaves);
    if (model.line == 0) model.line = ++lines;
    return Error::none;
}

// What a step is to say. The model takes it.
Error due(Model& model, const Step& step) {
    switch (step.sort) {
        case Step::Sort::satisfiability:
        case Step::Sort::entailment: {
            const bool entailment = step.sort == Step::Sort::entailment;
            const std::size_t own = entailment ? step.own : 0;
            if (step.free > 12 || own > 12 || step.free + own > 12) return Error::too_many_variables;
            model = Model();
            model.question.entailment = entailment;
            model.question.free = static_cast<unsigned>(step.free);
            model.question.own = static_cast<unsigned>(own);
            return Error::none;
        }
        case Step::Sort::leaves:
        case Step::Sort::text:
        case Step::Sort::join:
            return step.share_error != Error::none ? step.share_error : due_constant(model, step.leaves);
        default: return due_clause(model, step);
    }
}

// ---------------------------------------------------------------- The builder

Clause clause_of(const Step& step) {
    return {static_cast<Relation>(step.relation), {step.terms[0].term(), step.terms[1].term(), step.terms[2].term()}};
}

Error take(Question& question, const Step& step, Constant& constant) {
    const auto keep = [&](const NewConstant& made) {
        constant = made.constant;
        return made.error;
    };
    switch (step.sort) {
        case Step::Sort::satisfiability: return question.start_satisfiability(step.free);
        case Step::Sort::entailment: return question.start_entailment(step.free, step.own);
        case Step::Sort::leaves: return keep(question.constant(step.leaves));
        case Step::Sort::text: return keep(question.constant(step.text));
        case Step::Sort::join: return keep(question.constant(join(step.parts[0], step.parts[1])));
        case Step::Sort::add: return question.add(static_cast<System>(step.system), clause_of(step));
        case Step::Sort::first: return question.first(FirstClause{clause_of(step)});
        default: return question.second(clause_of(step));
    }
}

void take(Draft& draft, const Step& step, Constant& constant) {
    switch (step.sort) {
        case Step::Sort::satisfiability: draft.start_satisfiability(step.free); return;
        case Step::Sort::entailment: draft.start_entailment(step.free, step.own); return;
        case Step::Sort::leaves: constant = draft.constant(step.leaves); return;
        case Step::Sort::text: constant = draft.constant(step.text); return;
        case Step::Sort::join: constant = draft.constant(join(step.parts[0], step.parts[1])); return;
        case Step::Sort::add: draft.add(static_cast<System>(step.system), clause_of(step)); return;
        case Step::Sort::first: draft.first(FirstClause{clause_of(step)}); return;
        default: draft.second(clause_of(step)); return;
    }
}

// ---------------------------------------------------------------- Random steps

// The tree text of leaves, by halves.
std::string text_by_halves(Leaves leaves, unsigned width) {
    const Leaves all = full_share >> (32 - width);
    if ((leaves & all) == 0) return "o";
    if ((leaves & all) == all) return "*";
    return "(" + text_by_halves(leaves, width / 2) + text_by_halves(leaves >> width / 2, width / 2) + ")";
}

const struct {
    const char* text;
    Error error;
} wrong_texts[] = {{"", Error::not_tree_text},      {"(*o", Error::not_tree_text},
                   {"(*o))", Error::not_tree_text}, {"(oo)", Error::not_folded},
                   {"((**)o)", Error::not_folded},  {"(o(o(o(o(o(o*))))))", Error::too_tall}};

class Program {
  public:
    // Some start anew all the time, some fill a question up; some have no wild values.
    explicit Program(std::uint64_t seed)
        : random_(seed), starts_(seed % 2 == 0 ? 12 : 1000), wild_(seed % 3 == 0 ? 1000000 : 12) {}

    // Some steps on three questions. Gives how many were wrong. Some questions are left in a stream, if there is one.
    long run(int steps, Seen& seen, std::ostream* meanings);

    const Question& question() const { return questions_[0]; }

  private:
    Leaves leaves() {
        const auto some = static_cast<Leaves>(random_.next());
        switch (random_.below(4)) {
            case 0: return some;
            case 1: return some % 2 == 0 ? empty_share : full_share;
            case 2: return some % 2 == 0 ? 0x0000FFFF : 0xFFFF0000;
            default: return some & static_cast<Leaves>(random_.next());
        }
    }

    // Mostly one that is there; now and then none, a negative one or a huge one.
    long long number(unsigned defined) {
        if (defined > 0 && !random_.one_in(wild_)) return random_.below(defined);
        const long long wild[] = {-1, -128, 12, 13, 32, 256, 1LL << 32, -9223372036854775807 - 1, 9223372036854775807};
        return random_.one_in(2) ? static_cast<long long>(defined) : wild[random_.below(9)];
    }

    Put term(const Model& model, bool second) {
        const unsigned sort = random_.below(8);
        if (sort < 3) return {reader::Sort::free, number(model.question.free), {}};
        if (sort < 5 && ((second && model.question.own > 0) || random_.one_in(wild_)))
            return {reader::Sort::own, number(model.question.own), {}};
        if (kept_.empty() || random_.one_in(wild_)) return {reader::Sort::share, 0, {}};
        // Mostly the newest, which are this question's as often as not.
        const auto among = random_.one_in(4) ? kept_.size() : std::min<std::size_t>(kept_.size(), 6);
        return {reader::Sort::share, 0, kept_[kept_.size() - 1 - random_.below(static_cast<unsigned>(among))]};
    }

    // A constant by its leaves, as text, or as the join of two parts. Now and then a wrong text, or parts that have a
    // leaf in common.
    Step constant() {
        const Step::Sort sorts[] = {Step::Sort::leaves, Step::Sort::text, Step::Sort::join};
        Step step{};
        step.sort = sorts[random_.below(3)];
        step.leaves = leaves();
        step.text = text_by_halves(step.leaves, 32);
        step.parts[0] = step.leaves & leaves();
        step.parts[1] = step.leaves & ~step.parts[0];
        if (step.sort == Step::Sort::leaves || !random_.one_in(wild_)) return step;
        if (step.sort == Step::Sort::text) {
            const auto& wrong = wrong_texts[random_.below(6)];
            step.text = wrong.text;
            step.share_error = wrong.error;
        } else {
            const Leaves common = Leaves{1} << random_.below(32);
            for (Leaves& part : step.parts) part |= common;
            step.share_error = Error::undefined_join;
        }
        return step;
    }

    Step step(const Model& model) {
        Step step{};
        if (random_.one_in(starts_) || model.question.free + model.question.own == 0) {
            step.sort = random_.one_in(3) ? Step::Sort::satisfiability : Step::Sort::entailment;
            step.free = random_.below(9);
            step.own = random_.below(6);
            if (random_.one_in(wild_)) step.free = static_cast<std::size_t>(random_.next());
            if (random_.one_in(wild_)) step.own = static_cast<std::size_t>(-1) - random_.below(13);
            return step;
        }
        if (random_.one_in(5)) return constant();
        step.system = random_.below(2);
        step.sort = random_.one_in(2) ? Step::Sort::add : step.system == 0 ? Step::Sort::first : Step::Sort::second;
        step.relation = random_.below(std::size(reader::sorts));
        if (random_.one_in(wild_)) step.relation = random_.below(256);
        if (random_.one_in(wild_) && step.sort == Step::Sort::add) step.system = random_.below(256);
        for (int i = 0; i < 3; ++i) step.terms.push_back(term(model, step.system == 1));
        return step;
    }

    // What a step gave is kept, with what it is to mean.
    bool keep(const Step& step, const Model& model, Error error, Constant constant) {
        if (!step.gives_constant()) return true;
        if (error != Error::none) return constant.leaves() == 0;
        const auto& constants = model.question.constants;
        std::size_t number = 0;
        while (constants[number] != step.leaves) ++number;
        kept_.push_back({constant, model.line, number, step.leaves});
        return constant.leaves() == step.leaves;
    }

    bool take_step(std::size_t which, Seen& seen);
    bool take_draft(std::size_t which, Seen& seen);
    bool means_its_model(std::size_t which) const;
    bool reads_damage_alike(std::size_t which);
    bool finds_its_clauses(std::size_t which) const;
    Rows first_solution(std::size_t which);
    void turn_leaf(Rows& rows, std::size_t free);
    bool judges_alike(std::size_t which, const Rows& rows, Seen& seen) const;
    bool judges_alike(std::size_t which, Seen& seen);

    Random random_;
    unsigned starts_, wild_;
    Question questions_[3];
    Model models_[3];
    std::vector<Kept> kept_;
};

std::vector<std::uint8_t> copy(const Question& question) {
    const Bytes bytes = question.bytes();
    return std::vector<std::uint8_t>(bytes.begin(), bytes.end());
}

// What the library says of a string's form alone: with no answer buffer an accepted string is refused 11.
Result form(const std::vector<std::uint8_t>& bytes) {
    return decode(zimorgal_ask(bytes.data(), bytes.size(), nullptr, 0, nullptr, 0));
}

// ---------------------------------------------------------------- Questions with their meaning

std::string digits(std::uint32_t number, int width) {
    std::string text;
    for (int i = width - 1; i >= 0; --i) text += "0123456789ABCDEF"[number >> 4 * i & 0xF];
    return text;
}

std::string hexadecimal(const std::vector<std::uint8_t>& bytes) {
    std::string text;
    for (const std::uint8_t byte : bytes) text += digits(byte, 2);
    return text;
}

// What a model means, on a line: kind and variables, the constants, the clauses of the first system, those of the second.
std::string meaning(const reader::Question& question) {
    const char* const words[] = {" join", " equal", " full", " empty", " together"};  // for what is said
    std::string text = question.entailment ? "entails " : "satisfiable ";
    text += std::to_string(question.free) + " " + std::to_string(question.own) + " |";
    for (const std::uint32_t leaves : question.constants) text += " " + digits(leaves, 8);
    for (const bool second : {false, true})
        for (const reader::Clause& clause : question.clauses) {
            if (clause.second != second) continue;
            text += second ? " | 2" : " | 1";
            text += clause.negated ? "-" : "+";
            text += words[static_cast<std::size_t>(clause.said)];
            for (const reader::Term& term : clause.terms) {
                const bool share = term.sort == reader::Sort::share;
                text += term.sort == reader::Sort::free ? " f" : share ? " " : " o";
                text += share ? digits(term.value, 8) : std::to_string(term.value);
            }
        }
    return text;
}

// ---------------------------------------------------------------- Running

bool Program::take_step(std::size_t which, Seen& seen) {
    const Step next = step(models_[which]);
    const std::vector<std::uint8_t> before = copy(questions_[which]);
    const Error expected = due(models_[which], next);
    Constant constant;
    const Error error = take(questions_[which], next, constant);
    ++seen.errors[static_cast<std::size_t>(expected)];
    return error == expected && (error == Error::none || copy(questions_[which]) == before) &&
           keep(next, models_[which], error, constant);
}

// A whole question by a draft, put in the place of another one if there was no error. A start throws away all before it.
bool Program::take_draft(std::size_t which, Seen& seen) {
    Draft draft;
    Model model;
    Error first = Error::none;
    std::size_t taken = 0;
    bool right = true;
    for (unsigned i = random_.below(30); i > 0; --i) {
        const Step next = step(model);
        Constant constant;
        take(draft, next, constant);
        if (next.sort == Step::Sort::satisfiability || next.sort == Step::Sort::entailment) {
            seen.started_anew += first != Error::none;
            first = Error::none;
            taken = 0;
        }
        if (first != Error::none) {
            right = right && constant.leaves() == 0;
            continue;
        }
        first = due(model, next);
        ++seen.errors[static_cast<std::size_t>(first)];
        taken += first == Error::none;
        right = right && keep(next, model, first, constant);
    }
    const std::vector<std::uint8_t> before = copy(questions_[which]);
    const Error error = draft.finish(questions_[which]);
    if (first == Error::none)
        models_[which] = model;
    else
        right = right && copy(questions_[which]) == before;
    return right && error == first && draft.error() == first && draft.step() == taken;
}

bool Program::means_its_model(std::size_t which) const {
    const std::vector<std::uint8_t> bytes = copy(questions_[which]);
    const reader::Reading reading = reader::read(bytes.data(), bytes.size());
    return reading.refusal == 0 && reading.question == models_[which].question &&
           form(bytes).refusal == Refusal::answer_too_short;
}

// The reader is held to the library too, on bytes that are damaged.
bool Program::reads_damage_alike(std::size_t which) {
    std::vector<std::uint8_t> bytes = copy(questions_[which]);
    for (unsigned i = random_.below(3) + 1; i > 0; --i) {
        const auto at = random_.below(static_cast<unsigned>(bytes.size()));
        if (random_.one_in(3))
            bytes.resize(at + 1);
        else if (random_.one_in(2))
            bytes.insert(bytes.begin() + at, static_cast<std::uint8_t>(random_.below(64)));
        else
            bytes[at] = static_cast<std::uint8_t>(random_.below(random_.one_in(2) ? 64 : 256));
    }
    const reader::Reading reading = reader::read(bytes.data(), bytes.size());
    const Result result = form(bytes);
    if (reading.refusal == 0) return result.refusal == Refusal::answer_too_short && result.place == 0;
    return static_cast<unsigned>(result.refusal) == reading.refusal && result.place == reading.place;
}

// ---------------------------------------------------------------- Clauses by their number

// A clause with these texts for its terms.
std::string clause_with(const reader::Clause& clause, const std::string (&terms)[3]) {
    const auto& [a, b, c] = terms;
    switch (clause.said) {
        case reader::Said::join: return (clause.negated ? "not " : "") + a + " join " + b + " is " + c;
        case reader::Said::equal: return a + (clause.negated ? " is not " : " is ") + b;
        case reader::Said::full: return a + " may write";
        case reader::Said::empty: return a + " may read";
        default: return a + " with " + b;
    }
}

// A clause as ClauseText is to write it.
std::string clause_text(const reader::Question& question, const reader::Clause& clause) {
    std::string terms[3];
    for (std::size_t i = 0; i < clause.terms.size(); ++i) {
        const reader::Term& term = clause.terms[i];
        const unsigned variable = term.value + (term.sort == reader::Sort::own ? question.free : 0);
        terms[i] = term.sort == reader::Sort::share ? text_by_halves(term.value, 32)
                                                    : (variable < 10 ? "v0" : "v") + std::to_string(variable);
    }
    return clause_with(clause, terms);
}

// Each clause is found by its number in its system, a disequation also by its number among the disequations, and no other.
bool Program::finds_its_clauses(std::size_t which) const {
    const Question& question = questions_[which];
    std::size_t counts[2] = {}, disequations[2] = {};
    bool right = true;
    for (const reader::Clause& clause : models_[which].question.clauses) {
        const auto system = static_cast<System>(clause.second);
        const std::string due = clause_text(models_[which].question, clause);
        right = right && text_of(question, system, ClauseNumber{counts[clause.second]++}).str() == due;
        if (clause.negated)
            right = right && text_of(question, system, DisequationNumber{disequations[clause.second]++}).str() == due;
    }
    for (const System system : {System::first, System::second}) {
        const ClauseNumber count{counts[static_cast<std::size_t>(system)]};
        const DisequationNumber none{disequations[static_cast<std::size_t>(system)]};
        right = right && question.clauses(system) == count.number && text_of(question, system, count).str().empty() &&
                text_of(question, system, none).str().empty();
    }
    return right;
}

// ---------------------------------------------------------------- Rows

// A solution of the first system alone; random shares if it has none.
Rows Program::first_solution(std::size_t which) {
    const std::vector<std::uint8_t> alone = reader::first_alone(copy(questions_[which]));
    Workspace workspace;
    const Solution solution = ask(Bytes{alone.data(), alone.size()}, workspace).solution;
    Rows rows;
    for (std::size_t i = 0; i < questions_[which].free_variables(); ++i) {
        const Free variable{i};
        const SetShare set = solution ? rows.set(variable, solution.row(variable)) : rows.set(variable, leaves());
        if (set.error != Error::none) check(false, "a share is set");
    }
    return rows;
}

// Turns a leaf of a free variable round, or now and then of a variable that is none.
void Program::turn_leaf(Rows& rows, std::size_t free) {
    const Free variable{free == 0 || random_.one_in(10) ? random_.below(12)
                                                        : random_.below(static_cast<unsigned>(free))};
    const Bytes row = rows.row(variable);
    std::vector<std::uint8_t> bytes(row.begin(), row.end());
    const unsigned leaf = random_.below(1024);
    bytes[leaf / 8] = static_cast<std::uint8_t>(bytes[leaf / 8] ^ 1u << leaf % 8);
    const SetShare set = rows.set(variable, Bytes{bytes.data(), bytes.size()});
    if (set.error != Error::none) check(false, "a row is set");
}

// A positive clause at the leaf where it fails, as it is to be told.
std::string failing_text(const reader::Broken& broken, const std::vector<reader::Row>& rows) {
    const char* const ways[] = {"", "overlap: both parts are full",
                                "surplus: just one part is full and the sum is empty",
                                "shortfall: both parts are empty and the sum is full"};
    std::string path, values[3];
    std::size_t from = 0;
    for (std::size_t width = 512; width > 0; width /= 2) {
        const bool right = broken.leaf >= from + width;
        path += right ? 'R' : 'L';
        from += right ? width : 0;
    }
    for (std::size_t i = 0; i < broken.clause->terms.size(); ++i)
        values[i] = reader::full_at(broken.clause->terms[i], rows, broken.leaf) ? "*" : "o";
    return std::string("; ") + ways[broken.way] + ", at leaf " + std::to_string(broken.leaf) + ", " + path + ": " +
           clause_with(*broken.clause, values);
}

// What judging is to give, as JudgedText is to write it.
std::string judged_text(const reader::Question& question, const Rows& rows, std::uint64_t due) {
    const char* const judgements[] = {"refused: a bit set in a row of no free variable", "accepted",
                                      "rejected: a clause of the first system is broken",
                                      "rejected: the rows extend to the second system"};
    const std::string judgement = judgements[due & 0xFF];
    if ((due & 0xFF) != 2) return judgement;
    const Bytes bytes = rows.bytes();
    const std::vector<reader::Row> shares = reader::rows_of_bytes({bytes.begin(), bytes.end()});
    const reader::Broken broken = reader::lowest_broken(question, shares);
    const std::string told =
        judgement + ", number " + std::to_string(broken.number) + ": " + clause_text(question, *broken.clause);
    return broken.way == 0 ? told : told + failing_text(broken, shares);
}

// The fields of what judging is to give.
bool has_fields(const Judged& judged, std::uint64_t due) {
    const bool broken = (due & 0xFF) == 2, positive = broken && (due >> 40 & 0xFF) != 0;
    return static_cast<std::uint64_t>(judged.judgement) == (due & 0xFF) &&
           static_cast<std::uint64_t>(judged.refusal) == (due >> 8 & 0xFF) && judged.place == 0 &&
           judged.clause == (broken ? std::optional(ClauseNumber{due >> 32 & 0xFF}) : std::nullopt) &&
           judged.failing.has_value() == positive &&
           (!positive || (static_cast<std::uint64_t>(judged.failing->way) == (due >> 40 & 0xFF) &&
                          judged.failing->leaf == due >> 48));
}

bool Program::judges_alike(std::size_t which, const Rows& rows, Seen& seen) const {
    const std::vector<std::uint8_t> question = copy(questions_[which]);
    const Bytes bytes = rows.bytes();
    const std::uint64_t due = reader::judge(question, {bytes.begin(), bytes.end()});
    const Judged judged = judge(questions_[which], rows);
    ++seen.judgements[due & 0xFF];
    if ((due & 0xFF) == 2) ++seen.ways[due >> 40 & 0xFF];
    return zimorgal_judge(question.data(), question.size(), bytes.data, bytes.size) == due && has_fields(judged, due) &&
           text_of(questions_[which], rows, judged).str() == judged_text(models_[which].question, rows, due);
}

// A solution of the first system is judged, and rows that differ from it at some leaves; and what asking shows is
// accepted.
bool Program::judges_alike(std::size_t which, Seen& seen) {
    Rows rows = first_solution(which);
    bool right = judges_alike(which, rows, seen);
    for (int i = 0; i < 3; ++i) {
        turn_leaf(rows, questions_[which].free_variables());
        right = judges_alike(which, rows, seen) && right;
    }
    Workspace workspace;
    const auto [result, solution] = ask(questions_[which], workspace);
    return right && result.verdict != Verdict::refused &&
           (!solution || judge(questions_[which], solution).judgement == Judgement::accepted);
}

// ---------------------------------------------------------------- All of it

long Program::run(int steps, Seen& seen, std::ostream* meanings) {
    long wrong = 0;
    for (int i = 0; i < steps; ++i) {
        const std::size_t which = starts_ > 12 && !random_.one_in(4) ? 0 : random_.below(3);
        bool right = true;
        if (random_.one_in(which == 0 ? 10 * starts_ : 60)) {
            const std::size_t from = random_.below(3);
            questions_[which] = questions_[from];
            models_[which] = models_[from];
        } else if (random_.one_in(which == 0 ? 10 * starts_ : 60)) {
            right = take_draft(which, seen);
        } else {
            right = take_step(which, seen);
        }
        right = right && means_its_model(which);
        if (right && random_.one_in(20)) right = reads_damage_alike(which);
        if (right && random_.one_in(20)) right = finds_its_clauses(which);
        if (right && random_.one_in(20)) right = judges_alike(which, seen);
        wrong += !right;
        if (meanings != nullptr && i % 25 == 24)
            *meanings << hexadecimal(copy(questions_[which])) << '\t' << meaning(models_[which].question) << '\n';
    }
    return wrong;
}

// ---------------------------------------------------------------- Questions as text

void leave(const std::string& folder, int number, const Question& question) {
    const std::string name = folder + "/" + std::to_string(number);
    const QuestionText text = text_of(question);
    std::ofstream(name + ".shares", std::ios::binary) << question;
    const Bytes bytes = question.bytes();
    std::ofstream file(name + ".bytes", std::ios::binary);
    for (const std::uint8_t byte : bytes) file.put(static_cast<char>(byte));
    check(file.good() && text.str() == text.view(), "leaves " + name);
}

// The question with the longest text.
Question longest_text() {
    Question question;
    bool made = question.start_entailment(6, 6) == Error::none;
    for (unsigned i = 0; i < 32; ++i) {
        Leaves leaves = 0x55555555;  // 16 pairs of two unlike leaves, five of which may be turned round
        for (unsigned pair = 0; pair < 5; ++pair) leaves ^= (i >> pair & 1) * (Leaves{3} << 2 * pair);
        made = made && question.constant(leaves).error == Error::none;
    }
    for (int i = 0; i < 95; ++i) {
        const Relation relation = i < 64 ? Relation::join : Relation::not_join;
        made = made && question.add(System::second, {relation, {Own{0}, Own{5}, Free{5}}}) == Error::none;
        made = made && question.add(System::first, {relation, {Free{0}, Free{1}, Free{5}}}) == Error::none;
    }
    check(made, "the question with the longest text is made");
    const QuestionText text = text_of(question);
    check(text.view().size() == most_question_text && text.view().back() == '\n', "the longest text just fits");
    return question;
}

}  // namespace

int main(int count, char** words) {
    const std::string folder = count > 1 && std::string(words[1]) != "-" ? words[1] : "";
    const int enough = 120, programs = count > 2 ? std::atoi(words[2]) : enough;
    Seen seen;
    std::ofstream meanings;
    if (!folder.empty()) meanings.open(folder + "/meanings");
    for (int seed = 0; seed < programs; ++seed) {
        Program program(static_cast<std::uint64_t>(seed));
        const long wrong = program.run(500, seen, folder.empty() ? nullptr : &meanings);
        check(wrong == 0, "program " + std::to_string(seed) + ": " + std::to_string(wrong) + " steps are wrong");
        if (!folder.empty() && seed < 10) leave(folder, seed, program.question());
    }
    for (unsigned i = 0; i < seen.errors.size() && programs >= enough; ++i)
        check(seen.errors[i] > 20, "the programs meet: " + std::string(describe(static_cast<Error>(i))));
    if (programs >= enough) check(seen.started_anew > 200, "drafts are started anew after an error");
    for (unsigned i = 0; i < seen.judgements.size() && programs >= enough; ++i)
        check(seen.judgements[i] > 200, "rows are: " + std::string(describe(static_cast<Judgement>(i))));
    for (unsigned i = 0; i < seen.ways.size() && programs >= enough; ++i)
        check(seen.ways[i] > 200, "a broken clause, way " + std::to_string(i));
    check(meanings.flush().good(), "the meanings are written");
    const Question longest = longest_text();
    if (!folder.empty()) leave(folder, 10, longest);
    if (!folder.empty()) leave(folder, 11, Question());
    std::printf("%d passed, %d failed\n", passed, failed);
    return failed == 0 ? 0 : 1;
}
