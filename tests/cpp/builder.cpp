// Tests of zimorgal.hpp against docs/SPEC.md and against the library. The last line is 'N passed, M failed'.
#include <cstdio>
#include <cstdlib>
#include <cstring>
#include <iomanip>
#include <limits>
#include <new>
#include <optional>
#include <sstream>
#include <string>
#include <vector>

#include "reader.hpp"
#include "zimorgal.hpp"

using namespace zimorgal;

// ---------------------------------------------------------------- Counting

namespace {

int passed = 0, failed = 0;
long allocations = 0;

void check(bool holds, const std::string& what) {
    ++(holds ? passed : failed);
    if (!holds) std::printf("FAILED %s\n", what.c_str());
}

using String = std::vector<std::uint8_t>;

String copy(const Question& question) {
    const Bytes bytes = question.bytes();
    return String(bytes.begin(), bytes.end());
}

// What the library says of a string's form alone: with no answer buffer an accepted string is refused 11.
Refusal form(const String& bytes) {
    return decode(zimorgal_ask(bytes.data(), bytes.size(), nullptr, 0, nullptr, 0)).refusal;
}

bool accepted(const Question& question) { return form(copy(question)) == Refusal::answer_too_short; }

// A step that is meant to succeed; counted only if it does not.
void take(Error error) {
    if (error != Error::none) check(false, "a step of a test: " + std::string(describe(error)));
}

Constant take(NewConstant made) {
    take(made.error);
    return made.constant;
}

Question satisfiability(std::size_t free) {
    Question question;
    take(question.start_satisfiability(free));
    return question;
}

Question entailment(std::size_t free, std::size_t own) {
    Question question;
    take(question.start_entailment(free, own));
    return question;
}

}  // namespace

void* operator new(std::size_t size) {
    ++allocations;
    if (void* memory = std::malloc(size)) return memory;
    std::abort();
}
void operator delete(void* memory) noexcept { std::free(memory); }
void operator delete(void* memory, std::size_t) noexcept { std::free(memory); }

// ---------------------------------------------------------------- At compile time; refuses.txt has what does not compile

// A program's own functions stay its own, also where the namespace is opened and the arguments must be converted.
struct Point {};
struct Corner : Point {};
static constexpr bool equal(double a, double b) { return a <= b && b <= a; }
static constexpr int not_equal(const Point&, const Point&) { return 7; }
static constexpr long join(long a, long b, long c) { return a + b + c; }
static constexpr long join(long a, long b) { return a * b; }
static constexpr int height(const Point&) { return 10; }
static constexpr double not_join(double a, double b, double c) { return a * b * c; }
static constexpr int may_write(const Point&) { return 8; }
static constexpr int may_read(const Point&) { return 9; }
static constexpr long together(long a, long b) { return a - b; }
static constexpr int judge(const Point&, const Point&) { return 11; }
static constexpr int path_of(const Point&) { return 12; }
static constexpr long full_at(long a, long b) { return a % b; }
static_assert(equal(1, 1) && !equal(0, 1) && join(1, 2, 3) == 6 && equal(not_join(1, 2, 3), 6), "not captured");
static_assert(not_equal(Corner(), Corner()) == 7 && may_write(Corner()) == 8 && may_read(Corner()) == 9 &&
                  together(5, 3) == 2 && join(5, 3) == 15 && height(Corner()) == 10 &&
                  judge(Corner(), Corner()) == 11 && path_of(Corner()) == 12 && full_at(5, 3) == 2,
              "not captured");

namespace {

template <class T, class = void>
constexpr bool stands_first = false;
template <class T>
constexpr bool stands_first<T, std::void_t<decltype(std::declval<Question&>().first(std::declval<T>()))>> = true;

template <class T, class = void>
constexpr bool stands_second = false;
template <class T>
constexpr bool stands_second<T, std::void_t<decltype(std::declval<Question&>().second(std::declval<T>()))>> = true;

constexpr Free v0{0}, v1{1}, v2{2}, v3{3}, v4{4};
constexpr Own own0{0}, own1{1};
constexpr Constant c0;

static_assert(stands_first<decltype(join(v0, c0, v1))> && stands_second<decltype(join(v0, c0, v1))>);
static_assert(stands_first<decltype(not_join(c0, c0, c0))> && stands_first<decltype(equal(v0, c0))> &&
              stands_first<decltype(not_equal(c0, v0))>);
static_assert(stands_first<decltype(may_write(v0))> && stands_first<decltype(may_read(c0))> &&
              stands_first<decltype(together(v0, c0))>);
static_assert(!stands_first<decltype(join(own0, v0, v0))> && !stands_first<decltype(join(v0, own0, v0))> &&
              !stands_first<decltype(join(v0, v0, own0))> && !stands_first<decltype(not_join(v0, own0, c0))> &&
              !stands_first<decltype(equal(v0, own0))> && !stands_first<decltype(not_equal(own0, c0))> &&
              !stands_first<decltype(together(own0, v0))>);
static_assert(stands_second<decltype(join(own0, v0, c0))> && stands_second<decltype(not_equal(own0, own1))> &&
              stands_second<decltype(may_write(own0))> && stands_second<decltype(may_read(own0))> &&
              stands_second<decltype(together(v0, own0))>);
static_assert(!stands_first<decltype(equal(Term(v0), c0))>, "a term known only at run time");
static_assert(!stands_first<Clause> && !std::is_convertible_v<int, Term> && !std::is_convertible_v<Own, Free>);

static_assert(noexcept(from_text(std::string_view())) && noexcept(join(1u, 2u)) && noexcept(height(1u)));
static_assert(std::is_same_v<decltype(join(1u, 2u)), std::optional<Leaves>>);
static_assert(Error{13} == Error::unknown_system && Error{14} == Error::undefined_join, "errors keep their values");
template <class Asked, class Shares>
constexpr bool judged_without_throwing = noexcept(judge(std::declval<Asked>(), std::declval<Shares>()));
static_assert(judged_without_throwing<Bytes, Bytes> && judged_without_throwing<Bytes, const Rows&> &&
              judged_without_throwing<Bytes, const Solution&> && judged_without_throwing<const Question&, Bytes> &&
              judged_without_throwing<const Question&, const Rows&> &&
              judged_without_throwing<const Question&, const Solution&>);
static_assert(noexcept(Rows().set(v0, "*")) && noexcept(text_of(Question(), System::first, ClauseNumber{0})));
static_assert(decode_judged(0x200000002).clause == ClauseNumber{2} && !decode_judged(3).clause &&
              describe(Judgement::accepted) == "accepted");
constexpr Judged surplus_at_1022 = decode_judged(0x03FE'02'07'0000'00'02), disequation_broken = decode_judged(2);
static_assert(surplus_at_1022.clause == ClauseNumber{7} && surplus_at_1022.failing &&
              surplus_at_1022.failing->leaf == 1022 && surplus_at_1022.failing->way == Way::surplus &&
              disequation_broken.clause == ClauseNumber{0} && !disequation_broken.failing);
static_assert(describe(Way::holds) == "holds" && describe(Way::overlap) == "overlap: both parts are full" &&
              describe(Way::surplus) == "surplus: just one part is full and the sum is empty" &&
              describe(Way::shortfall) == "shortfall: both parts are empty and the sum is full");
constexpr Judged of_four{Judgement::broken, Refusal::none, 0, ClauseNumber{3}};
static_assert(of_four.clause == ClauseNumber{3} && !of_four.failing, "as programs wrote it before there was a failing");
constexpr std::uint8_t row_of_leaf_10[128] = {0x00, 0x04};
static_assert(full_at(Bytes{row_of_leaf_10, 128}, 10) && !full_at(Bytes{row_of_leaf_10, 128}, 9) &&
              full_at(Leaves{4}, 64) && !full_at(Leaves{4}, 63));
template <class Shares>
constexpr bool told_without_throwing = noexcept(text_of(std::declval<const Question&>(), std::declval<Shares>(),
                                                        std::declval<const Judged&>()));
static_assert(told_without_throwing<Bytes> && told_without_throwing<const Rows&> &&
              told_without_throwing<const Solution&>&& noexcept(path_of(Failing{})) && noexcept(
                  full_at(Bytes{}, 0)) && noexcept(full_at(1u, 0)));
static_assert(!std::is_convertible_v<ClauseNumber, DisequationNumber> &&
              !std::is_constructible_v<ClauseNumber, DisequationNumber> &&
              !std::is_constructible_v<DisequationNumber, ClauseNumber> &&
              !std::is_convertible_v<DisequationNumber, std::size_t> && !std::is_convertible_v<int, ClauseNumber>);
static_assert(ClauseNumber{}.number == 0 && ClauseNumber{-1}.number == 0xFFFFFFFF &&
              DisequationNumber{0x100000000u}.number == 0xFFFFFFFF && ClauseNumber{94} != ClauseNumber{93});
static_assert(std::is_same_v<decltype(Result::height), unsigned> && std::is_same_v<decltype(Result::place), unsigned> &&
              std::is_same_v<decltype(ClauseNumber::number), unsigned> && std::is_aggregate_v<Result>);
static_assert(noexcept(text_of(std::declval<const Question&>(), std::declval<const Result&>())));
static_assert(describe(Verdict::no) == "no" && decode(2).verdict == Verdict::no, "at compile time too");

// Variables from any integer; one out of range names nothing, and is no undefined behaviour.
enum Seats { lights, sound };
static_assert(Free{1}.number == 1 && Free{1u}.number == 1 && Own{std::size_t{11}}.number == 11 &&
              Free{sound}.number == 1);
static_assert(Free{-1}.number == 12 && Free{12}.number == 12 &&
              Own{std::numeric_limits<long long>::min()}.number == 12 &&
              Own{std::numeric_limits<unsigned long long>::max()}.number == 12 && Free{std::int8_t{-128}}.number == 12);

// ---------------------------------------------------------------- Bytes

void bytes_of_questions() {
    check(copy(Question()) == String{0x01, 0x00, 0x00, 0x00, 0x00}, "bytes of a new question");

    Question example = satisfiability(1);
    const Constant left = take(example.constant(0x0000FFFFu));
    const Constant whole = take(example.constant("*"));
    take(example.first(join(v0, left, whole)));
    check(copy(example) == String{0x01, 0x00, 0x01, 0x00, 0x03, 0xFF, 0xFF, 0x00, 0x00, 0x03, 0xFF, 0xFF, 0xFF, 0xFF,
                                  0x10, 0x00, 0x20, 0x21, 0x00},
          "bytes of the example");

    // Every command and every sort of term; the systems alternate; the second constant comes after clauses.
    Question every = entailment(2, 2);
    const Constant first = take(every.constant(0x04030201u));
    take(every.second(join(v1, own0, first)));
    take(every.first(join(v0, v1, first)));
    take(every.first(not_join(first, v0, v1)));
    const Constant second = take(every.constant(0x80000000));
    take(every.second(not_join(own1, own0, v0)));
    take(every.first(equal(v1, second)));
    take(every.second(equal(own1, second)));
    take(every.first(not_equal(second, v0)));
    take(every.second(not_equal(first, own1)));
    take(every.first(may_write(v1)));
    take(every.second(may_write(own0)));
    take(every.first(may_read(second)));
    take(every.second(may_read(own1)));
    take(every.first(together(v0, second)));
    take(every.second(together(own1, v1)));
    check(
        copy(every) == String{0x01, 0x01, 0x02, 0x02, 0x03, 0x01, 0x02, 0x03, 0x04, 0x03, 0x00, 0x00, 0x00, 0x80, 0x20,
                              0x01, 0x02, 0x20, 0x10, 0x00, 0x01, 0x20, 0x11, 0x20, 0x00, 0x01, 0x21, 0x03, 0x02, 0x00,
                              0x12, 0x01, 0x21, 0x22, 0x03, 0x21, 0x13, 0x21, 0x00, 0x23, 0x20, 0x03, 0x30, 0x01, 0x38,
                              0x02, 0x31, 0x21, 0x39, 0x03, 0x32, 0x00, 0x21, 0x3A, 0x03, 0x01, 0x00},
        "bytes of every command");
    check(accepted(every), "every command is accepted");
    Question again = every;
    take(again.start_satisfiability(3));
    check(copy(again) == String{0x01, 0x00, 0x03, 0x00, 0x00} && again.constants() == 0, "starting anew");
    for (int i = 0; i < 64; ++i) take(again.first(equal(v0, v1)));
    for (int i = 0; i < 31; ++i) take(again.first(not_equal(v0, v1)));
    check(again.first(equal(v0, v1)) == Error::too_many_positives, "clauses are counted anew");
    check(every.kind() == Kind::entailment && every.free_variables() == 2 && every.own_variables() == 2 &&
              every.constants() == 2,
          "what a question says of itself");
}

// ---------------------------------------------------------------- Errors and limits

// A step that must fail with an error and leave the question as it was.
template <class Step>
void refused(Question& question, Error error, const std::string& what, Step step) {
    const String before = copy(question);
    check(step() == error, "error: " + what);
    check(copy(question) == before && accepted(question), "left as it was: " + what);
}

void errors() {
    Question sat = satisfiability(2);
    const Constant empty = take(sat.constant("o"));
    take(sat.first(equal(v0, empty)));
    refused(sat, Error::too_many_variables, "13 free", [&] { return sat.start_satisfiability(13); });
    refused(sat, Error::too_many_variables, "12 free, 1 own", [&] { return sat.start_entailment(12, 1); });
    refused(sat, Error::too_many_variables, "0 free, 13 own", [&] { return sat.start_entailment(0, 13); });
    refused(sat, Error::too_many_variables, "a sum past the largest number",
            [&] { return sat.start_entailment(1, static_cast<std::size_t>(-1)); });
    refused(sat, Error::names_nothing, "free variable 2 of 2", [&] { return sat.first(equal(v2, v0)); });
    refused(sat, Error::names_nothing, "in the second place", [&] { return sat.first(not_equal(v0, v2)); });
    refused(sat, Error::names_nothing, "in the third place", [&] { return sat.first(join(v0, v1, v2)); });
    refused(sat, Error::names_nothing, "one that may write", [&] { return sat.first(may_write(v2)); });
    refused(sat, Error::names_nothing, "one that may read", [&] { return sat.first(may_read(v2)); });
    refused(sat, Error::names_nothing, "the second held together", [&] { return sat.first(together(v0, v2)); });
    refused(sat, Error::names_nothing, "no constant", [&] { return sat.first(equal(v0, Constant{})); });
    refused(sat, Error::names_nothing, "free variable 32 is no constant",
            [&] { return sat.first(equal(Free{32}, v0)); });
    refused(sat, Error::names_nothing, "free variable 256 is not 0", [&] { return sat.first(equal(Free{256}, v0)); });
    refused(sat, Error::no_second_system, "second system", [&] { return sat.second(equal(v0, empty)); });
    refused(sat, Error::no_second_system, "before a term that names nothing", [&] { return sat.second(may_read(v2)); });
    refused(sat, Error::not_tree_text, "a constant that is no tree", [&] { return sat.constant("(*").error; });
    refused(sat, Error::too_tall, "a tall constant", [&] { return sat.constant("((((((*o)o)o)o)o)o)").error; });
    refused(sat, Error::not_folded, "a constant not folded", [&] { return sat.constant("(oo)").error; });
    refused(sat, Error::names_nothing, "a refused constant",
            [&] { return sat.first(equal(v0, sat.constant("(oo)").constant)); });
    refused(sat, Error::names_nothing, "free variable -1", [&] { return sat.first(equal(Free{-1}, v0)); });
    Free set{0};
    set.number = 256;
    refused(sat, Error::names_nothing, "a number that was set", [&] { return sat.first(equal(set, v0)); });

    Question ent = entailment(2, 1);
    refused(ent, Error::names_nothing, "own variable 1 of 1", [&] { return ent.second(equal(own1, v0)); });
    refused(ent, Error::names_nothing, "a free variable that is an own one", [&] { return ent.second(equal(v2, v0)); });
    refused(ent, Error::own_variable_in_first, "own variable in the first",
            [&] { return ent.add(System::first, equal(v0, own0)); });
    refused(ent, Error::own_variable_in_first, "a clause that claims to be of the first",
            [&] { return ent.first(FirstClause{join(v0, own0, v0)}); });
    take(ent.add(System::second, equal(v0, own0)));
}

// Constants from joins, in a question.
void constants_from_joins() {
    Question question = satisfiability(1);
    const Constant half = take(question.constant("(*o)")), whole = take(question.constant("*"));
    const Constant joined = take(question.constant(join(half.leaves(), 0xFFFF0000u)));
    check(question.constants() == 2 && joined.leaves() == whole.leaves(), "one that is there is not made again");
    refused(question, Error::undefined_join, "an undefined join",
            [&] { return question.constant(join(3u, 6u)).error; });
    refused(question, Error::names_nothing, "the constant of an undefined join",
            [&] { return question.first(equal(v0, question.constant(join(3u, 6u)).constant)); });
    for (Leaves i = 2; i < 32; ++i) take(question.constant(i));
    refused(question, Error::too_many_constants, "a 33rd by a join",
            [&] { return question.constant(join(1u, 32u)).error; });
    refused(question, Error::undefined_join, "before a 33rd", [&] { return question.constant(join(1u, 33u)).error; });
}

void limits() {
    Question constants;
    Constant last;
    for (Leaves i = 0; i < 32; ++i) last = take(constants.constant(i));
    check(accepted(constants), "32 constants");
    refused(constants, Error::too_many_constants, "a 33rd constant", [&] { return constants.constant(32u).error; });
    take(constants.first(equal(last, take(constants.constant(0u)))));
    refused(constants, Error::too_many_constants, "a 33rd by text", [&] { return constants.constant("*").error; });

    // Of every sort some; one more of any sort is too many, whatever it names.
    const Clause positives[] = {equal(v0, v0), join(v0, v0, v0), may_write(v0), together(v0, v0)};
    const Clause disequations[] = {not_equal(v0, v0), not_join(v0, v0, v0), may_read(v0)};
    const auto relation = [](const Clause& clause) {
        return "relation " + std::to_string(static_cast<unsigned>(clause.relation));
    };
    for (const System system : {System::first, System::second}) {
        Question question = entailment(1, 0);
        for (std::size_t i = 0; i < 64; ++i) take(question.add(system, positives[i % 4]));
        check(accepted(question), "64 positive clauses");
        for (const Clause& clause : positives)
            refused(question, Error::too_many_positives, "a 65th, " + relation(clause),
                    [&] { return question.add(system, clause); });
        refused(question, Error::too_many_positives, "before a term that names nothing",
                [&] { return question.add(system, may_write(v1)); });
        for (std::size_t i = 0; i < 31; ++i) take(question.add(system, disequations[i % 3]));
        check(accepted(question), "31 disequations");
        for (const Clause& clause : disequations)
            refused(question, Error::too_many_disequations, "a 32nd, " + relation(clause),
                    [&] { return question.add(system, clause); });
        refused(question, Error::too_many_disequations, "before a term that names nothing",
                [&] { return question.add(system, may_read(v1)); });
    }

    // Everything at its limit, the longest string, answered.
    Question longest = entailment(6, 6);
    for (int i = 0; i < 64; ++i) {
        take(longest.first(join(v0, v1, v2)));
        take(longest.second(join(own0, own1, v0)));
    }
    for (int i = 0; i < 31; ++i) {
        take(longest.first(not_join(v2, v3, v4)));
        take(longest.second(not_join(own0, Own{5}, Free{5})));
    }
    for (Leaves i = 0; i < 32; ++i) take(longest.constant(i));
    check(longest.bytes().size == ZIMORGAL_QUESTION_BYTES, "the longest question has 925 bytes");
    Workspace workspace;
    check(ask(longest, workspace).result.verdict != Verdict::refused, "the longest question is answered");
    check(satisfiability(12).free_variables() == 12 && accepted(satisfiability(12)), "12 free variables");
    check(accepted(entailment(0, 12)) && accepted(entailment(12, 0)) && accepted(entailment(5, 7)), "12 of both sorts");
}

class Random {
  public:
    unsigned below(unsigned bound) {
        state_ = state_ * 6364136223846793005u + 1442695040888963407u;
        return static_cast<unsigned>(state_ >> 33) % bound;
    }
    Leaves leaves() { return below(1u << 31) * 2 + below(2); }

  private:
    std::uint64_t state_ = 20;
};

// A question written by hand, byte by byte.
struct ByHand {
    String head{0x01, 0x00, 0x00, 0x00}, constants, clauses;
    std::vector<Constant> made{};  // what the builder gave for the constants

    String bytes() const {
        String all = head;
        all.insert(all.end(), constants.begin(), constants.end());
        all.insert(all.end(), clauses.begin(), clauses.end());
        all.push_back(0x00);
        return all;
    }
};

std::uint8_t byte(unsigned number) { return static_cast<std::uint8_t>(number); }

// The commands of a relation in the first and in the second system, and how many terms it has; in the order of the
// relations.
const struct {
    std::uint8_t commands[2];
    std::uint8_t terms;
} relations[] = {{{0x10, 0x20}, 3}, {{0x11, 0x21}, 3}, {{0x12, 0x22}, 2}, {{0x13, 0x23}, 2},
                 {{0x30, 0x38}, 1}, {{0x31, 0x39}, 1}, {{0x32, 0x3A}, 2}};

// A term of a sort that the system may have, and its byte. Now and then one past the last that is defined, or an own
// variable in the first system.
Term random_term(Random& random, const ByHand& hand, System system, std::uint8_t& written) {
    const unsigned n = hand.head[2], m = hand.head[3], constants = static_cast<unsigned>(hand.made.size());
    const bool wrong = random.below(40) == 0;
    const unsigned sort = random.below(3);
    if (sort == 0 && (constants > 0 || wrong)) {
        const unsigned number = wrong ? constants : random.below(constants);
        written = byte(0x20 + number);
        return wrong ? Constant{} : hand.made[number];
    }
    if (sort == 1 && (wrong || (m > 0 && system == System::second))) {
        const unsigned number = m == 0 || (wrong && system == System::second) ? m : random.below(m);
        written = byte(n + number);
        return Own{number};
    }
    const unsigned number = n == 0 ? 12 : random.below(n);
    written = byte(number);
    return Free{number};
}

// The refusal of a step that has an error; 11, for the missing buffer, of one that has none.
Refusal refusal_for(Error error) {
    switch (error) {
        case Error::none: return Refusal::answer_too_short;
        case Error::too_many_variables: return Refusal::bad_head;
        case Error::too_many_constants: return Refusal::too_many_constants;
        case Error::too_many_positives:
        case Error::too_many_disequations: return Refusal::too_many_clauses;
        case Error::names_nothing:
        case Error::own_variable_in_first: return Refusal::bad_term;
        case Error::no_second_system: return Refusal::no_second_system;
        default: return Refusal::none;
    }
}

// Random steps, taken by the builder and written by hand. The library judges what is written: the builder takes exactly
// what the library accepts, refuses the rest for the same reason, and has the same bytes.
void random_steps() {
    Random random;
    long steps = 0, wrong = 0;
    long seen[15] = {};
    for (int round = 0; round < 100; ++round) {
        Question question;
        ByHand hand;
        const auto compare = [&](Error error, const ByHand& tried) {
            const Refusal refusal = form(tried.bytes());
            ++steps;
            ++seen[static_cast<std::size_t>(refusal)];
            if (error == Error::none) hand = tried;
            wrong += refusal != refusal_for(error) || copy(question) != hand.bytes();
        };

        const unsigned kind = random.below(4) == 0 ? 0 : 1;
        Error error;
        do {
            const unsigned n = random.below(14), m = kind == 0 ? 0 : random.below(14);
            error = kind == 0 ? question.start_satisfiability(n) : question.start_entailment(n, m);
            compare(error, {{0x01, byte(kind), byte(n), byte(m)}, {}, {}, {}});
        } while (error != Error::none);

        for (int step = 0; step < 300; ++step) {
            ByHand tried = hand;
            if (random.below(6) == 0) {
                const Leaves leaves = random.leaves();
                tried.constants.push_back(0x03);
                for (int i = 0; i < 4; ++i) tried.constants.push_back(byte(leaves >> 8 * i & 0xFF));
                const NewConstant made = question.constant(leaves);
                tried.made.push_back(made.constant);
                compare(made.error, tried);
                continue;
            }
            const System system = random.below(2) == 0 ? System::first : System::second;
            const unsigned relation = random.below(std::size(relations));
            std::uint8_t written[3];
            const Term a = random_term(random, hand, system, written[0]);
            const Term b = random_term(random, hand, system, written[1]);
            const Term c = random_term(random, hand, system, written[2]);
            tried.clauses.push_back(relations[relation].commands[system == System::second]);
            tried.clauses.insert(tried.clauses.end(), written, written + relations[relation].terms);
            compare(question.add(system, {static_cast<Relation>(relation), {a, b, c}}), tried);
        }
    }
    check(steps > 30000 && wrong == 0, "random steps: " + std::to_string(wrong) + " wrong of " + std::to_string(steps));
    for (const Refusal refusal : {Refusal::bad_head, Refusal::too_many_constants, Refusal::too_many_clauses,
                                  Refusal::bad_term, Refusal::no_second_system, Refusal::answer_too_short})
        check(seen[static_cast<std::size_t>(refusal)] > 50, "random steps meet: " + std::string(describe(refusal)));
}

// ---------------------------------------------------------------- Any value of any enum

// Every byte as a relation and as a system: only the seven and the two are taken, and each puts its own command.
void every_enum_value() {
    for (unsigned system = 0; system < 256; ++system) {
        for (unsigned relation = 0; relation < 256; ++relation) {
            Question question = entailment(2, 0);
            const String before = copy(question);
            const Error error =
                question.add(static_cast<System>(system), {static_cast<Relation>(relation), {v0, v1, v0}});
            const Error due = system > 1 ? Error::unknown_system : relation > 6 ? Error::unknown_relation : Error::none;
            String after = before;
            if (due == Error::none) {
                const std::uint8_t written[] = {0x00, 0x01, 0x00};
                after.back() = relations[relation].commands[system];
                after.insert(after.end(), written, written + relations[relation].terms);
                after.push_back(0x00);
            }
            if (error != due || copy(question) != after || !accepted(question))
                check(false, "system " + std::to_string(system) + ", relation " + std::to_string(relation));
        }
    }
    check(true, "every system and relation");

    // A relation that was once taken for a disequation without being counted.
    Question question = entailment(1, 0);
    for (int i = 0; i < 64; ++i)
        check(question.add(System::first, {static_cast<Relation>(0x13), {v0, v0, v0}}) == Error::unknown_relation,
              "relation 13");
    check(accepted(question), "accepted after 64 of them");

    // One that was once put as a clause of the second system.
    question = entailment(1, 0);
    const Constant whole = take(question.constant("*"));
    refused(question, Error::unknown_relation, "relation 12, which with the digit of the system makes command 22", [&] {
        return question.add(System::first, {static_cast<Relation>(0x12), {v0, whole, whole}});
    });
}

// ---------------------------------------------------------------- Constants of a question

void whose_constant() {
    // Equal constants are one.
    Question question = satisfiability(1);
    const Constant whole = take(question.constant("*")), half = take(question.constant("(*o)"));
    take(question.first(equal(v0, take(question.constant(full_share)))));
    check(question.constants() == 2 && copy(question) == String{0x01, 0x00, 0x01, 0x00, 0x03, 0xFF, 0xFF, 0xFF, 0xFF,
                                                                0x03, 0xFF, 0xFF, 0x00, 0x00, 0x12, 0x00, 0x20, 0x00},
          "equal constants are one");
    check(half.leaves() == 0x0000FFFF && Constant{}.leaves() == 0, "a constant says its share");

    // One kept over a start is refused, whatever the question has by then.
    Question again = question;
    take(again.start_satisfiability(1));
    refused(again, Error::foreign_constant, "kept over a start", [&] { return again.first(equal(v0, whole)); });
    take(again.constant("(o*)"));
    refused(again, Error::foreign_constant, "another share there", [&] { return again.first(equal(v0, whole)); });
    take(again.start_satisfiability(1));
    const Constant new_whole = take(again.constant("*"));
    refused(again, Error::foreign_constant, "the same share there", [&] { return again.first(equal(v0, whole)); });
    take(again.first(equal(v0, new_whole)));

    // One of another question is refused.
    Question other = satisfiability(1);
    refused(other, Error::foreign_constant, "of another, none there", [&] { return other.first(equal(v0, whole)); });
    take(other.constant("*"));
    refused(other, Error::foreign_constant, "of another, same share", [&] { return other.first(equal(v0, whole)); });
    refused(other, Error::foreign_constant, "in the third place", [&] { return other.first(join(v0, v0, whole)); });
    refused(other, Error::foreign_constant, "at run time",
            [&] { return other.add(System::first, equal(Term(whole), v0)); });

    // A start that fails changes nothing.
    check(question.start_satisfiability(13) == Error::too_many_variables, "13 variables");
    take(question.first(not_equal(v0, half)));

    // A copy takes the constants of its original, and the other way round, as long as they mean the same share there.
    Question copied = question;
    take(copied.first(equal(v0, whole)));
    const Constant left = take(question.constant("(*(*o))")), right = take(copied.constant("(o(o*))"));
    refused(copied, Error::foreign_constant, "added to the original", [&] { return copied.first(equal(v0, left)); });
    refused(question, Error::foreign_constant, "added to the copy", [&] { return question.first(equal(v0, right)); });
    take(question.first(equal(v0, left)));
    take(copied.first(equal(v0, right)));
    const Constant both = take(question.constant("(*(o*))"));
    refused(copied, Error::foreign_constant, "not there yet", [&] { return copied.first(equal(v0, both)); });
    take(copied.constant("(*(o*))"));
    take(copied.first(equal(v0, both)));

    // Going back to a copy gives up what came after it.
    Question back = satisfiability(1);
    take(back.constant("o"));
    const Question saved = back;
    const Constant gone = take(back.constant("*"));
    back = saved;
    refused(back, Error::foreign_constant, "given up", [&] { return back.first(equal(v0, gone)); });
    take(back.constant("(*o)"));
    refused(back, Error::foreign_constant, "another in its place", [&] { return back.first(equal(v0, gone)); });

    // Copies made before the first constant go their own ways.
    Question early = satisfiability(1), twin = early;
    const Constant first = take(early.constant("*"));
    take(twin.constant("*"));
    refused(twin, Error::foreign_constant, "of a twin", [&] { return twin.first(equal(v0, first)); });
}

// ---------------------------------------------------------------- Drafts

void drafts() {
    Draft draft;
    draft.start_entailment(1, 1);
    const Constant whole = draft.constant("*"), half = draft.constant(0x0000FFFFu);
    draft.first(not_equal(v0, half)).second(join(v0, own0, whole)).add(System::second, not_equal(own0, whole));
    Question question;
    check(draft.error() == Error::none && draft.step() == 6 && draft.finish(question) == Error::none, "a draft");
    check(draft.clauses(System::first) == 1 && draft.clauses(System::second) == 2, "counts of clauses of a draft");
    check(copy(question) == String{0x01, 0x01, 0x01, 0x01, 0x03, 0xFF, 0xFF, 0xFF, 0xFF, 0x03, 0xFF, 0xFF, 0x00,
                                   0x00, 0x13, 0x00, 0x21, 0x20, 0x00, 0x01, 0x20, 0x23, 0x01, 0x20, 0x00},
          "bytes of a draft");
    take(question.second(equal(own0, half)));

    // The first error stays, no step is taken after it, and the question is left alone.
    const String before = copy(question);
    Draft wrong;
    wrong.start_satisfiability(2);
    const Constant none = wrong.constant("(*(oo))");
    wrong.first(equal(v0, none)).second(equal(v0, v1)).add(System::first, equal(v0, v1));
    check(wrong.constant("*").leaves() == 0, "no constant after an error");
    check(wrong.error() == Error::not_folded && wrong.step() == 1 && wrong.place() == 2, "the first error of a draft");
    check(wrong.finish(question) == Error::not_folded && copy(question) == before,
          "a draft with an error is not given");
    check(wrong.constant(join(3u, 6u)).leaves() == 0 && wrong.error() == Error::not_folded && wrong.place() == 2,
          "an undefined join comes after the first error");

    // A draft can go on after it was given.
    draft.second(equal(own0, half));
    Question longer;
    check(draft.finish(longer) == Error::none && copy(longer) == copy(question), "a draft goes on");
    check(Draft().finish(question) == Error::none && copy(question) == copy(Question()), "an empty draft");
}

// Each start throws away what a draft has, an error too, and is step 0.
void drafts_started_anew() {
    Draft draft;
    draft.start_satisfiability(2);
    const Constant before = draft.constant("(*o)"), wrong = draft.constant("(*(oo))");
    check(draft.error() == Error::not_folded && draft.step() == 2 && draft.place() == 2 && wrong.leaves() == 0,
          "a draft with an error");
    draft.start_entailment(1, 1);
    check(draft.error() == Error::none && draft.step() == 1 && draft.place() == 0 && draft.clauses(System::first) == 0,
          "a draft with an error is started anew");
    draft.second(together(v0, own0)).first(may_read(v0));
    Question question;
    check(draft.finish(question) == Error::none && draft.step() == 3, "and given");
    check(copy(question) == String{0x01, 0x01, 0x01, 0x01, 0x3A, 0x00, 0x01, 0x31, 0x00, 0x00}, "its bytes");
    check(draft.first(equal(v0, before)).error() == Error::foreign_constant && draft.step() == 3,
          "a constant from before is none of it");

    // A start that is not taken leaves nothing of the draft before it either.
    draft.start_satisfiability(1).first(may_write(v0)).start_satisfiability(13).first(may_read(v0));
    check(draft.error() == Error::too_many_variables && draft.step() == 0 && draft.clauses(System::first) == 0 &&
              draft.finish(question) == Error::too_many_variables && question.clauses(System::first) == 1,
          "a start with an error");
    draft.start_satisfiability(12);
    check(draft.finish(question) == Error::none && question.free_variables() == 12 && draft.step() == 1,
          "a start after a start with an error");
}

// A null pointer is known only at run time: it is no tree text, and no more is done with it.
void null_texts() {
    const char* const none = nullptr;
    char* const writable = nullptr;
    const Parsed parsed = from_text(none);
    check(parsed.error == Error::not_tree_text && parsed.leaves == 0 && parsed.place == 0, "no text is read");
    check(from_text(writable).error == Error::not_tree_text, "nor one that could be written");
    Question question = satisfiability(1);
    const String before = copy(question);
    const auto [error, constant, place] = question.constant(none);
    check(error == Error::not_tree_text && constant.leaves() == 0 && place == 0 && copy(question) == before,
          "no text is no constant of a question");
    check(question.constant({none}).error == Error::not_tree_text, "in braces neither");
    Draft draft;
    draft.start_satisfiability(1);
    check(draft.constant(none).leaves() == 0 && draft.error() == Error::not_tree_text && draft.step() == 1,
          "no text is no constant of a draft");
    Rows rows;
    check(rows.set(v0, "(*o)").error == Error::none, "a row");
    const SetShare set = rows.set(v0, none);
    check(set.error == Error::not_row_text && set.place == 0 && rows.text(v0).str() == "(*o)", "no text is no row");
    check(rows.set(Free{12}, none).error == Error::names_nothing, "the variable comes first");
}

void drafts_with_joins() {
    Draft draft;
    draft.start_satisfiability(1);
    const Constant left = draft.constant("(*o)"), corner = draft.constant(0xFF000000u);
    const Constant both = draft.constant(join(left.leaves(), corner.leaves()));
    draft.first(equal(v0, both));
    Question question;
    check(draft.finish(question) == Error::none && draft.step() == 5 && both.leaves() == 0xFF00FFFF, "a join");
    check(copy(question) == String{0x01, 0x00, 0x01, 0x00, 0x03, 0xFF, 0xFF, 0x00, 0x00, 0x03, 0x00, 0x00,
                                   0x00, 0xFF, 0x03, 0xFF, 0xFF, 0x00, 0xFF, 0x12, 0x00, 0x22, 0x00},
          "bytes of a join");

    // An undefined join stays as the first error.
    const Constant none = draft.constant(join(both.leaves(), left.leaves()));
    check(none.leaves() == 0 && draft.error() == Error::undefined_join && draft.step() == 5 && draft.place() == 0,
          "an undefined join");
    check(draft.constant("(*(oo))").leaves() == 0 && draft.place() == 0, "no place of a text after it");
    const String before = copy(question);
    check(draft.first(equal(v0, none)).finish(question) == Error::undefined_join && copy(question) == before,
          "a draft with an undefined join is not given");
}

// ---------------------------------------------------------------- Results

// Asks, and compares every field and the tree texts of what is shown. Own variables and refusals have none.
void answers(const char* what, const Question& question, Result expected, const std::vector<const char*>& texts,
             bool shown) {
    Workspace workspace;
    const auto [result, solution] = ask(question, workspace);
    check(result.verdict == expected.verdict && result.refusal == expected.refusal && result.place == expected.place &&
              result.height == expected.height && result.reason == expected.reason &&
              result.disequation == expected.disequation,
          std::string("result: ") + what);
    check(bool(solution) == shown && solution.variables() == texts.size(), std::string("shown or not: ") + what);
    for (std::size_t i = 0; i < texts.size(); ++i) {
        const Text text = solution.text(Free{i});
        check(text.view() == texts[i], std::string("text: ") + what + ": " + std::string(text.view()));
    }
}

// Of the worked questions of SPEC 12 one of each kind of result. Where a solution is shown it is the only one, or the
// one that the examples of tests/cli have.
void results() {
    answers("nothing asked", Question(), {Verdict::yes, Refusal::none, 0, 0, Reason::none, {}}, {}, true);

    Question question = satisfiability(1);
    Constant whole = take(question.constant(full_share));
    take(question.first(join(v0, v0, whole)));
    answers("not satisfiable", question, {Verdict::no, Refusal::none, 0, 0, Reason::none, {}}, {}, false);

    question = satisfiability(2);
    Constant left = take(question.constant("(*o)"));
    whole = take(question.constant("*"));
    take(question.first(join(v0, left, whole)));
    take(question.first(equal(v1, left)));
    answers("satisfiable", question, {Verdict::yes, Refusal::none, 0, 1, Reason::none, {}}, {"(o*)", "(*o)"}, true);

    question = entailment(1, 0);
    whole = take(question.constant("*"));
    Constant empty = take(question.constant("o"));
    take(question.first(join(v0, v0, whole)));
    take(question.second(equal(v0, empty)));
    answers("reason 1", question, {Verdict::yes, Refusal::none, 0, 0, Reason::first_unsolvable, {}}, {}, false);

    question = entailment(1, 2);
    empty = take(question.constant(empty_share));
    take(question.first(not_equal(v0, empty)));
    take(question.second(join(own0, own1, v0)));
    take(question.second(not_equal(own0, empty)));
    take(question.second(not_equal(own1, empty)));
    answers("yes, reason 0", question, {Verdict::yes, Refusal::none, 0, 0, Reason::none, {}}, {}, false);

    question = entailment(2, 1);
    left = take(question.constant("(*o)"));
    const Constant right = take(question.constant("(o*)"));
    empty = take(question.constant("o"));
    take(question.first(not_equal(v0, empty)));
    take(question.first(equal(v1, right)));
    take(question.second(join(left, own0, v0)));
    answers("reason 2", question, {Verdict::no, Refusal::none, 0, 2, Reason::positives_unmet, {}}, {"((o*)o)", "(o*)"},
            true);

    question = entailment(2, 0);
    whole = take(question.constant("*"));
    empty = take(question.constant("o"));
    take(question.first(join(v0, v1, whole)));
    take(question.second(not_equal(empty, whole)));
    take(question.second(not_equal(v0, empty)));
    answers("reason 3 with 1", question,
            {Verdict::no, Refusal::none, 0, 0, Reason::disequation_unmet, DisequationNumber{1}}, {"o", "*"}, true);

    Workspace workspace;
    String late = copy(question);
    late.insert(late.end() - 1, {0x03, 0x00, 0x00, 0x00, 0x00});
    const auto [result, solution] = ask(Bytes{late.data(), late.size()}, workspace);
    check(result.verdict == Verdict::refused && result.refusal == Refusal::out_of_order &&
              result.place == late.size() - 6 && !solution && solution.variables() == 0,
          "a refusal and its place");
    check(ask(Bytes{nullptr, 0}, workspace).result.refusal == Refusal::no_head, "no bytes");

    // Every byte of the number, each value unlike the others.
    const Result fields = decode(0x001E'03'0A'039D'08'02);
    check(fields.verdict == Verdict::no && fields.refusal == Refusal::bad_term && fields.place == 925 &&
              fields.height == 10 && fields.reason == Reason::disequation_unmet && fields.disequation.number == 30,
          "each field where SPEC 4.2 has it");
    check(decode(1).verdict == Verdict::yes && decode(0).verdict == Verdict::refused, "verdicts");

    for (unsigned i = 0; i <= 19; ++i)
        check(describe(static_cast<Refusal>(i)) != "unknown refusal", "a text for refusal " + std::to_string(i));
    for (unsigned i = 0; i <= 17; ++i)
        check(describe(static_cast<Error>(i)) != "unknown error", "a text for error " + std::to_string(i));
    check(describe(Error::not_tree_text) == describe(Refusal::not_tree_text),
          "no tree text, in the words of the C header");
    check(describe(static_cast<Error>(18)) == "unknown error" &&
              describe(static_cast<Judgement>(4)) == "unknown judgement" &&
              describe(static_cast<Way>(4)) == "unknown way" && describe(static_cast<Way>(255)) == "unknown way" &&
              describe(static_cast<Verdict>(3)) == "unknown verdict" &&
              describe(static_cast<Refusal>(255)) == "unknown refusal" &&
              describe(static_cast<Reason>(4)) == "unknown reason",
          "texts for what has no meaning");
    const Result wild = decode(0xFFFFFFFFFFFFFFFF);
    check(wild.place == 0xFFFF && wild.height == 0xFF && wild.disequation.number == 0xFF, "every number is decoded");
}

// Whether the result of a question names this clause and no other.
void names(const Question& question, const std::string& clause) {
    Workspace workspace;
    const Result result = ask(question, workspace).result;
    check(text_of(question, result).str() == clause, "the clause of a result: " + clause);
    if (!clause.empty())
        check(text_of(question, System::second, result.disequation).str() == clause, "by its number: " + clause);
}

// In the second system stand two positive clauses before disequation 0 and one before disequation 1, in the first some
// of both between them: neither is counted.
void clauses_of_results() {
    Question question = entailment(2, 1);
    const Constant left = take(question.constant("(*o)"));
    take(question.second(join(v0, own0, v1)));
    take(question.first(join(v0, left, v1)));
    take(question.first(may_read(v1)));
    take(question.second(together(v0, own0)));
    take(question.second(may_read(v1)));
    names(question, "");
    take(question.second(equal(own0, left)));
    take(question.second(not_equal(v0, v1)));
    take(question.second(not_join(left, left, left)));
    names(question, "");
    take(question.second(not_equal(own0, left)));
    take(question.second(may_read(v0)));
    names(question, "v02 is not (*o)");
    Workspace workspace;
    const Result result = ask(question, workspace).result;
    check(result.reason == Reason::disequation_unmet && result.disequation == DisequationNumber{3}, "disequation 3");
    check(text_of(question, System::second, ClauseNumber{3}).str() == "v02 is (*o)" &&
              text_of(question, System::second, ClauseNumber{6}).str() == "v02 is not (*o)",
          "which is clause 6");
    std::ostringstream out;
    out << text_of(question, result) << ' ' << result.disequation << ' ' << result.height << ' ' << result.place << ' '
        << ClauseNumber{6} << ' ' << *decode_judged(0x900000002).clause;
    check(out.str() == "v02 is not (*o) 3 2 0 6 9", "numbers are written as numbers");
}

// A result that names no clause, and one of another question.
void results_without_a_clause() {
    Question question = entailment(1, 0);
    take(question.first(may_write(v0)));
    take(question.second(not_equal(v0, v0)));
    names(question, "v00 is not v00");
    for (const Reason reason : {Reason::none, Reason::first_unsolvable, Reason::positives_unmet, Reason{4}})
        check(text_of(question, {Verdict::no, Refusal::none, 0, 0, reason, DisequationNumber{0}}).str().empty(),
              "a result that names no clause");
    for (const unsigned i : {1u, 31u, 0xFFu, 0xFFFFFFFFu})
        check(text_of(question, {Verdict::no, Refusal::none, 0, 0, Reason::disequation_unmet, DisequationNumber{i}})
                  .str()
                  .empty(),
              "a disequation that is not there");
    Question other = entailment(1, 0);
    take(other.second(may_read(v0)));
    names(other, "v00 may read");
    take(other.second(may_write(v0)));
    names(other, "");
    other = satisfiability(1);
    take(other.first(may_read(v0)));
    names(other, "");
}

// Constants that no clause names do not count for the height given.
void unnamed_constants() {
    Question question = satisfiability(1);
    for (Leaves i = 0; i < 30; ++i) take(question.constant(Leaves{1} << i));
    const Constant left = take(question.constant("(*o)")), whole = take(question.constant("*"));
    take(question.first(join(v0, left, whole)));
    answers("two of 32 constants named", question, {Verdict::yes, Refusal::none, 0, 1, Reason::none, {}}, {"(o*)"},
            true);

    question = satisfiability(1);
    const Constant one = take(question.constant("(*(*o))")), other = take(question.constant("(o(o*))"));
    take(question.first(equal(v0, take(question.constant(join(one.leaves(), other.leaves()))))));
    answers("a join named, its parts not", question, {Verdict::yes, Refusal::none, 0, 0, Reason::none, {}}, {"*"},
            true);

    question = entailment(1, 0);
    take(question.constant(1u));
    take(question.second(equal(v0, take(question.constant("(o*)")))));
    answers("a tall one that is not named", question, {Verdict::no, Refusal::none, 0, 1, Reason::positives_unmet, {}},
            {"(*o)"}, true);

    question = entailment(1, 0);
    take(question.second(not_equal(v0, take(question.constant(1u)))));
    answers("a tall one that the second system names", question,
            {Verdict::no, Refusal::none, 0, 5, Reason::disequation_unmet, DisequationNumber{0}}, {"(((((*o)o)o)o)o)"},
            true);
}

// One that may write and one that may read, held together.
Question writer_and_reader(Question question, Free writer, Free reader) {
    take(question.first(may_write(writer)));
    take(question.first(may_read(reader)));
    take(question.first(together(reader, writer)));
    return question;
}

// What may write, what may read and what may be held together, in both systems.
void policies() {
    const Result never{Verdict::no, Refusal::none, 0, 0, Reason::none, {}};
    answers("a writer and a reader", writer_and_reader(satisfiability(2), v0, v1), never, {}, false);
    answers("who does both", writer_and_reader(satisfiability(1), v0, v0), never, {}, false);
    answers("from which all follows", writer_and_reader(entailment(2, 0), v1, v0),
            {Verdict::yes, Refusal::none, 0, 0, Reason::first_unsolvable, {}}, {}, false);

    Question question = satisfiability(2);
    take(question.first(may_read(v0)));
    take(question.first(may_read(v1)));
    take(question.first(together(v0, v1)));
    answers("two readers", question, {Verdict::yes, Refusal::none, 0, 1, Reason::none, {}}, {"(*o)", "(o*)"}, true);

    question = entailment(1, 0);
    take(question.first(may_write(v0)));
    take(question.second(may_read(v0)));
    answers("a writer may read", question, {Verdict::yes, Refusal::none, 0, 0, Reason::none, {}}, {}, false);

    question = entailment(1, 0);
    take(question.first(may_read(v0)));
    take(question.second(may_write(v0)));
    answers("a reader may write", question, {Verdict::no, Refusal::none, 0, 1, Reason::positives_unmet, {}}, {"(o*)"},
            true);

    question = entailment(1, 1);
    take(question.second(not_join(v0, v0, v0)));
    take(question.second(together(v0, own0)));
    take(question.second(may_read(own0)));
    take(question.first(may_read(v0)));
    answers("a part is left for a reader", question,
            {Verdict::no, Refusal::none, 0, 1, Reason::disequation_unmet, DisequationNumber{1}}, {"*"}, true);
}

// ---------------------------------------------------------------- Tree text

void right_texts() {
    const struct {
        const char* text;
        Leaves leaves;
    } trees[] = {
        {"o", 0},
        {"*", 0xFFFFFFFF},
        {"(*o)", 0x0000FFFF},
        {"(o*)", 0xFFFF0000},
        {"((*o)o)", 0x000000FF},
        {"(o(o*))", 0xFF000000},
        {"(((((*o)o)o)o)o)", 0x00000001},
        {"(o(o(o(o(o*)))))", 0x80000000},
        {"(((((*o)(*o))((*o)(*o)))(((*o)(*o))((*o)(*o))))((((*o)(*o))((*o)(*o)))(((*o)(*o))((*o)(*o)))))", 0x55555555}};
    for (const auto& tree : trees) {
        const Parsed parsed = from_text(tree.text);
        check(parsed.error == Error::none && parsed.leaves == tree.leaves, std::string("from text: ") + tree.text);
        const Text text = text_of(tree.leaves);
        check(text.view() == tree.text, std::string("to text: ") + tree.text);
    }
}

// Texts with one fault, and with several.
const struct {
    const char* text;
    Error error;
    std::size_t place;
} refused_texts[] = {{"", Error::not_tree_text, 0},
                     {"x", Error::not_tree_text, 0},
                     {"O", Error::not_tree_text, 0},
                     {" o", Error::not_tree_text, 0},
                     {"o ", Error::not_tree_text, 1},
                     {"oo", Error::not_tree_text, 1},
                     {"(", Error::not_tree_text, 1},
                     {")", Error::not_tree_text, 0},
                     {"()", Error::not_tree_text, 1},
                     {"(*)", Error::not_tree_text, 2},
                     {"(*o", Error::not_tree_text, 3},
                     {"(*o*)", Error::not_tree_text, 3},
                     {"(*o))", Error::not_tree_text, 4},
                     {"(* o)", Error::not_tree_text, 2},
                     {"(*x)", Error::not_tree_text, 2},
                     {"(*oo", Error::not_tree_text, 3},
                     {"(oo", Error::not_tree_text, 3},
                     {"(*(o*)", Error::not_tree_text, 6},
                     {"(*(o*)x", Error::not_tree_text, 6},
                     {"(oo)o", Error::not_tree_text, 4},
                     {"((oo)(**", Error::not_tree_text, 8},
                     {"((((((*o)o)o)o)o)x", Error::not_tree_text, 17},
                     {"((((((oo)o)o)o)o)o", Error::not_tree_text, 18},
                     {"(oo)", Error::not_folded, 0},
                     {"(**)", Error::not_folded, 0},
                     {"((oo)*)", Error::not_folded, 1},
                     {"(*(**))", Error::not_folded, 2},
                     {"((*o)(oo))", Error::not_folded, 5},
                     {"((**)(oo))", Error::not_folded, 1},
                     {"((((((**)o)o)o)o)o)", Error::not_folded, 5},
                     {"((((((*o)o)o)o)o)(**))", Error::not_folded, 17},
                     {"((((((*o)o)o)o)o)o)", Error::too_tall, 5},
                     {"(o(o(o(o(o(o*))))))", Error::too_tall, 10}};

void wrong_texts() {
    for (const auto& text : refused_texts) {
        const Parsed parsed = from_text(text.text);
        check(parsed.error == text.error && parsed.leaves == 0 && parsed.place == text.place,
              std::string("no tree: ") + text.text);
        Question question = satisfiability(1);
        const auto [error, constant, place] = question.constant(text.text);
        check(error == text.error && place == text.place, std::string("no constant: ") + text.text);
    }
    const Parsed parsed = from_text(std::string(1000000, '('));
    check(parsed.error == Error::not_tree_text && parsed.place == 94, "a text that only opens pairs");
    check(from_text(std::string_view("o\0", 2)).place == 1, "a byte 0 is a character");
}

// Compares texts with what reader.hpp reads: what the call gives, and what from_text and a question say.
class TextsCompared {
  public:
    void add(const std::string& text) {
        const reader::TreeReading due = reader::read_tree(text);
        const std::uint64_t number = zimorgal_constant(reinterpret_cast<const std::uint8_t*>(text.data()), text.size());
        const Parsed parsed = from_text(text);
        Question question;
        const auto [error, constant, place] = question.constant(text);
        const bool same = number == (std::uint64_t{due.refusal} << 32 | due.leaves) && parsed.error == error &&
                          error == error_for(due.refusal) && parsed.leaves == due.leaves &&
                          constant.leaves() == due.leaves && parsed.place == due.place && place == due.place;
        ++seen_[static_cast<std::size_t>(error_for(due.refusal))];
        if (!same) wrong_.push_back(text);
    }

    long seen(Error error) const { return seen_[static_cast<std::size_t>(error)]; }

    void done(const std::string& which) const {
        const std::string one = wrong_.empty() ? "" : ", one of them " + wrong_[0];
        check(wrong_.empty(), which + ": " + std::to_string(wrong_.size()) + " wrong" + one);
    }

  private:
    static Error error_for(unsigned refusal) {
        const Error errors[] = {Error::not_tree_text, Error::not_folded, Error::too_tall};
        return refusal == 0 ? Error::none : errors[refusal - 15];
    }

    std::vector<std::string> wrong_{};
    long seen_[15] = {};  // by error
};

constexpr std::string_view signs = "o*()x";

void every_short_text() {
    TextsCompared compared;
    std::vector<std::string> texts{""};
    for (std::size_t i = 0; i < texts.size(); ++i) {
        compared.add(texts[i]);
        if (texts[i].size() == 6) continue;
        for (const char sign : signs) texts.push_back(texts[i] + sign);
    }
    compared.done("every text of up to 6 signs");
    check(compared.seen(Error::none) == 4 && compared.seen(Error::not_folded) == 2 &&
              compared.seen(Error::not_tree_text) == 19525,
          "o, *, (o*) and (*o) are read, (oo) and (**) could be folded, and all others are no tree text");
}

// Every byte as a tree, as a half and as the end of a pair.
void every_sign() {
    TextsCompared compared;
    for (unsigned number = 0; number < 256; ++number) {
        const std::string sign(1, static_cast<char>(number));
        for (const std::string& text : {sign, "(o" + sign + ")", "(*o" + sign}) compared.add(text);
    }
    compared.done("every byte as a sign");
    check(compared.seen(Error::none) == 4 && compared.seen(Error::not_folded) == 1,
          "o, *, (o*) and (*o) are read, and (oo) could be folded");
}

// The tree text of some tree with so many leaves. A folded one has no pair of two equal leaves.
std::string random_tree(Random& random, unsigned leaves, bool folded) {
    if (leaves == 1) return random.below(2) == 0 ? "o" : "*";
    if (leaves == 2 && folded) return random.below(2) == 0 ? "(o*)" : "(*o)";
    const unsigned left = random.below(2) == 0 ? leaves / 2 : 1 + random.below(leaves - 1);
    return "(" + random_tree(random, left, folded) + random_tree(random, leaves - left, folded) + ")";
}

// Takes a sign away or none, and puts up to two there.
void damage(Random& random, std::string& text) {
    const std::size_t at = random.below(static_cast<unsigned>(text.size()));
    const char sign = signs[random.below(static_cast<unsigned>(signs.size()))];
    text.replace(at, random.below(2), random.below(3), sign);
}

// Trees of 1 to 34 leaves, the last two of which are too long, as they are and damaged.
void random_texts() {
    Random random;
    TextsCompared compared;
    for (int i = 0; i < 20000; ++i) {
        std::string text = random_tree(random, 1 + random.below(34), random.below(3) > 0);
        if (random.below(3) == 0) damage(random, text);
        compared.add(text);
    }
    compared.done("random texts");
    for (const Error error : {Error::none, Error::not_tree_text, Error::not_folded, Error::too_tall})
        check(compared.seen(error) > 1000, "random texts meet: " + std::string(describe(error)));
}

// The longest text has 94 characters.
void longest_texts() {
    const std::string halves = text_of(0x55555555u).str();
    std::string deep = std::string(31, '(') + 'o';
    for (int i = 0; i < 31; ++i) deep += "*)";
    const auto says = [](const std::string& text, Error error, std::size_t place) {
        const Parsed parsed = from_text(text);
        check(parsed.error == error && parsed.place == place, std::to_string(text.size()) + " characters: " + text);
    };
    says(halves, Error::none, 0);
    says(deep, Error::too_tall, 5);
    deep[31] = '*';
    says(deep, Error::not_folded, 30);
    says("(" + halves + "o)", Error::not_tree_text, 94);
    says(halves + "x", Error::not_tree_text, 94);
    says("ox" + halves, Error::not_tree_text, 1);

    TextsCompared compared;
    for (const std::string& text : {halves, deep, std::string(), "(" + halves + "o)", "(o" + halves + ")"})
        for (std::size_t length = 93; length <= 96; ++length)
            for (const char sign : signs) {
                std::string cut = text;
                cut.resize(length, sign);
                compared.add(cut);
            }
    compared.done("texts of 93 to 96 characters");
}

void texts_of_leaves() {
    Random random;
    long wrong_trips = 0;
    for (int i = 0; i < 3000; ++i) {
        // Both sparse and dense leaves, so that there are pairs at every height.
        Leaves leaves = random.leaves();
        if (i % 3 == 1) leaves &= random.leaves() & random.leaves();
        if (i % 3 == 2) leaves = full_share << random.below(32) & full_share >> random.below(32);
        const Text text = text_of(leaves);
        const Parsed parsed = from_text(text.view());
        wrong_trips += parsed.error != Error::none || parsed.leaves != leaves;
        for (std::size_t cut = 0; cut < text.view().size(); cut += 7)
            wrong_trips += from_text(text.view().substr(0, cut)).error == Error::none;
    }
    check(wrong_trips == 0, "leaves to text and back: " + std::to_string(wrong_trips) + " wrong");
}

void texts_in_buffers() {
    Question question = satisfiability(1);
    take(question.first(equal(v0, take(question.constant("((*o)o)")))));
    Workspace workspace;
    const Solution solution = ask(question, workspace).solution;
    char text[8];
    std::memset(text, '#', sizeof text);
    Written written = solution.text(v0, text, 6);
    check(written.refusal == Refusal::text_too_short && written.length == 0 && text[0] == '#',
          "a buffer one too short");
    written = solution.text(v0, text, 7);
    check(written.refusal == Refusal::none && std::string_view(text, written.length) == "((*o)o)" && text[7] == '#',
          "a buffer that just fits");
    written = solution.text(v1, text, sizeof text);
    check(written.refusal == Refusal::not_a_row && written.length == 0, "no such variable");
    check(
        solution.row(v0).data == workspace.answer.data() && solution.row(v0).size == 128 && solution.row(v1).size == 0,
        "rows");
    const Text none = Solution().text(v0);
    check(none.view().empty(), "no solution, no text");
}

// ---------------------------------------------------------------- Join and height of constants

// Parts of a share join to it, in either order, and do not with one leaf that is full in both.
void joins() {
    check(join(0x0000FFFFu, 0xFFFF0000u) == full_share && join(empty_share, empty_share) == empty_share, "joins");
    check(!join(3u, 6u) && !join(full_share, full_share), "undefined joins");
    Random random;
    long wrong = 0;
    for (int i = 0; i < 3200; ++i) {
        const Leaves share = random.leaves(), part = share & random.leaves(), rest = share & ~part;
        const Leaves leaf = Leaves{1} << i % 32;
        wrong += join(part, rest) != share || join(rest, part) != share || join(part | leaf, rest | leaf);
    }
    check(wrong == 0, "joins of parts: " + std::to_string(wrong) + " wrong");
}

void heights() {
    const Leaves shares[] = {full_share, 0x0000FFFF, 0x00FF00FF, 0x0F0F0F0F, 0x33333333, 0x55555555};
    for (unsigned tall = 0; tall < 6; ++tall)
        check(height(shares[tall]) == tall && height(~shares[tall]) == tall, "height " + std::to_string(tall));
    check(height(1u) == 5, "the height of one leaf");
}

// ---------------------------------------------------------------- Texts

// programs.cpp leaves further questions for ./ask to read.
void texts() {
    Question question = entailment(2, 1);
    const Constant half = take(question.constant("(*o)"));
    take(question.first(join(v0, v1, half)));
    take(question.second(not_join(v0, own0, v1)));
    take(question.second(equal(own0, half)));
    take(question.first(not_equal(v1, take(question.constant("o")))));
    take(question.first(may_write(half)));
    take(question.second(may_read(own0)));
    take(question.second(together(own0, v1)));
    const char* const due =
        "entails\nfree v00 v01\nown v02\nlet c00 = (*o)\nlet c01 = o\nv00 join v01 is c00\nthen\n"
        "not v00 join v02 is v01\nv02 is c00\nif\nv01 is not c01\nc00 may write\nthen\nv02 may read\nv02 with v01\n";
    const QuestionText text = text_of(question);
    check(text.view() == due && text.str() == due, "a question as text");
    const QuestionText nothing = text_of(Question());
    check(nothing.view() == "satisfiable\n", "a new question as text");

    std::ostringstream out;
    out << question << '|' << std::setw(6) << text_of(0x0000FFFFu) << '|' << text_of(Question());
    check(out.str() == std::string(due) + "|  (*o)|satisfiable\n", "written to a stream");
    check(text_of(full_share).str() == "*", "a text as a string");
}

// ---------------------------------------------------------------- Clauses by their number

void clauses_by_number() {
    Question question = entailment(2, 1);
    check(question.clauses(System::first) == 0 && question.clauses(System::second) == 0,
          "a new question has no clause");
    const Constant half = take(question.constant("(*o)"));
    take(question.second(join(v0, own0, v1)));
    take(question.first(may_read(v0)));
    take(question.first(not_join(half, v1, take(question.constant("((*o)o)")))));
    take(question.second(not_equal(own0, half)));
    take(question.first(together(v0, v1)));
    check(question.clauses(System::first) == 3 && question.clauses(System::second) == 2, "counts of clauses");
    check(question.first(may_write(v2)) == Error::names_nothing && question.clauses(System::first) == 3,
          "a clause that is not taken is not counted");
    const char* const first[] = {"v00 may read", "not (*o) join v01 is ((*o)o)", "v00 with v01", ""};
    const char* const second[] = {"v00 join v02 is v01", "v02 is not (*o)", ""};
    for (std::size_t i = 0; i < 4; ++i)
        check(text_of(question, System::first, ClauseNumber{i}).str() == first[i], first[i]);
    for (std::size_t i = 0; i < 3; ++i)
        check(text_of(question, System::second, ClauseNumber{i}).str() == second[i], second[i]);
    for (unsigned i = 2; i < 256; ++i) {
        const auto other = static_cast<System>(i);
        if (question.clauses(other) != 0 || !text_of(question, other, ClauseNumber{0}).str().empty())
            check(false, "there is no system " + std::to_string(i));
    }
    check(text_of(question, System::first, ClauseNumber{static_cast<std::size_t>(-1)}).str().empty(),
          "a number past all");
    std::ostringstream out;
    out << text_of(question, System::first, ClauseNumber{2});
    check(out.str() == "v00 with v01", "a clause written to a stream");

    // The longest text, the last of as many clauses as there can be.
    Question longest = satisfiability(1);
    const Constant tall = take(longest.constant(0x55555555u));
    for (int i = 0; i < 64; ++i) take(longest.first(may_write(v0)));
    for (int i = 0; i < 31; ++i) take(longest.first(not_join(tall, tall, tall)));
    const ClauseText text = text_of(longest, System::first, ClauseNumber{94});
    const std::string tree = text_of(tall.leaves()).str();
    check(text.view() == "not " + tree + " join " + tree + " is " + tree && text.view().size() == most_clause_text,
          "the longest clause just fits");
}

// ---------------------------------------------------------------- Rows to be judged

String copy(const Rows& rows) {
    const Bytes bytes = rows.bytes();
    return String(bytes.begin(), bytes.end());
}

// A share that is meant to be set; counted only if it is not.
void take(SetShare set) { take(set.error); }

// The 12 rows with this one in the place of a variable's.
String with_row(String rows, std::size_t variable, const String& row) {
    std::copy(row.begin(), row.end(), rows.begin() + static_cast<std::ptrdiff_t>(128 * variable));
    return rows;
}

void rows_of_shares() {
    const String zero(1536), full(128, 0xFF);
    String left(128), corner(128), leaf(128);
    std::fill(left.begin(), left.begin() + 64, std::uint8_t{0xFF});
    std::fill(corner.begin() + 124, corner.end(), std::uint8_t{0xFF});
    leaf[1] = 0x04;  // leaf 10
    Rows rows;
    check(copy(rows) == zero, "new rows are empty shares");
    take(rows.set(v0, "(*o)"));
    check(copy(rows) == with_row(zero, 0, left), "a tree text");
    take(rows.set(Free{11}, 0x80000000u));
    check(copy(rows) == with_row(with_row(zero, 0, left), 11, corner), "leaves, and the last variable");
    take(rows.set(v0, join(0x0000FFFFu, 0xFFFF0000u)));
    check(copy(rows) == with_row(with_row(zero, 0, full), 11, corner), "a join, over what was there");
    take(rows.set(Free{11}, Bytes{leaf.data(), leaf.size()}));
    check(copy(rows) == with_row(with_row(zero, 0, full), 11, leaf), "the bytes of a row");
    take(rows.set(v1, rows.row(Free{11})));
    take(rows.set(v0, rows.row(v0)));
    check(copy(rows) == with_row(with_row(with_row(zero, 0, full), 1, leaf), 11, leaf), "a row of its own");
    take(rows.set(v1, Bytes{rows.bytes().data + 64, 128}));
    String halves(128);
    std::fill(halves.begin(), halves.begin() + 64, std::uint8_t{0xFF});
    halves[65] = 0x04;
    check(copy(rows) == with_row(with_row(with_row(zero, 0, full), 1, halves), 11, leaf), "halves of two of its own");
    take(rows.set(v1, "((((((((*o)o)o)o)o)o)o)o)"));
    take(rows.set(v1, "(((((((o(o((*o)o)))o)o)o)o)o)o)"));
    take(rows.set(Free{11}, "o"));
    String fine(128);
    fine[1] = 0x10;  // leaf 12
    check(copy(rows) == with_row(with_row(zero, 0, full), 1, fine), "a tree of height 10, over one of height 8");
    check(rows.text(v1).str() == "(((((((o(o((*o)o)))o)o)o)o)o)o)" && rows.text(v0).str() == "*", "its text");
    check(rows.row(v1).data == rows.bytes().data + 128 && rows.row(v1).size == 128 && rows.row(Free{12}).size == 0 &&
              rows.text(Free{-1}).str().empty(),
          "the row of a variable");
}

// A share that must not be set, and leaves the rows as they were.
template <class Share>
void not_set(Rows& rows, Free variable, Share share, Error error, std::size_t place, const std::string& what) {
    const String before = copy(rows);
    const SetShare set = rows.set(variable, share);
    check(set.error == error && set.place == place && copy(rows) == before, "no share: " + what);
}

void rows_with_errors() {
    const String bytes(129, 0xAA);
    Rows rows;
    take(rows.set(v0, "(*o)"));
    take(rows.set(v1, "*"));
    not_set(rows, Free{12}, "*", Error::names_nothing, 0, "variable 12, a text");
    not_set(rows, Free{-1}, full_share, Error::names_nothing, 0, "variable -1, leaves");
    not_set(rows, Free{99}, join(1u, 2u), Error::names_nothing, 0, "variable 99, a join");
    not_set(rows, Free{12}, Bytes{bytes.data(), 128}, Error::names_nothing, 0, "variable 12, a row");
    not_set(rows, Free{12}, "(*", Error::names_nothing, 0, "before a fault in the text");
    not_set(rows, Free{12}, join(3u, 6u), Error::names_nothing, 0, "before an undefined join");
    Free far{0};
    far.number = 256;
    not_set(rows, far, "*", Error::names_nothing, 0, "a number that was set");
    not_set(rows, v0, join(3u, 6u), Error::undefined_join, 0, "an undefined join");
    for (const std::size_t size : {0u, 1u, 127u, 129u})
        not_set(rows, v0, Bytes{bytes.data(), size}, Error::not_a_row, 0, std::to_string(size) + " bytes");
    not_set(rows, v0, Bytes{nullptr, 0}, Error::not_a_row, 0, "no bytes");
    for (const auto& text : refused_texts) {
        if (text.error == Error::too_tall) continue;  // not for a row
        const Error error = text.error == Error::not_tree_text ? Error::not_row_text : text.error;
        not_set(rows, v1, text.text, error, text.place, text.text);
    }
    not_set(rows, v1, "(((((((((((*o)o)o)o)o)o)o)o)o)o)o)", Error::row_too_tall, 10, "11 pairs, to the left");
    not_set(rows, v1, "(o(o(o(o(o(o(o(o(o(o(o*)))))))))))", Error::row_too_tall, 20, "11 pairs, to the right");
    not_set(rows, v1, "(((((((((((oo)o)o)o)o)o)o)o)o)o)o)", Error::not_folded, 10, "not folded, before too tall");
    check(copy(rows).front() == 0xFF, "and the rows are not empty");
}

// Compares texts with what reader.hpp reads as a row.
class RowTextsCompared {
  public:
    void add(const std::string& text) {
        const reader::RowReading due = reader::read_row(text);
        const Error errors[] = {Error::not_row_text, Error::not_folded, Error::row_too_tall};
        const Error error = due.refusal == 0 ? Error::none : errors[due.refusal - 15];
        String row(128, 0x5A);
        Rows rows;
        take(rows.set(v1, Bytes{row.data(), row.size()}));
        if (error == Error::none)
            for (std::size_t leaf = 0; leaf < 1024; ++leaf)
                row[leaf / 8] = byte((row[leaf / 8] & ~(1u << leaf % 8)) | unsigned{due.leaves[leaf]} << leaf % 8);
        const SetShare set = rows.set(v1, text);
        const bool again =
            error != Error::none || rows.text(v1).str() == text;  // each text that is read is what is written
        ++seen_[static_cast<std::size_t>(error)];
        if (set.error != error || set.place != due.place || copy(rows) != with_row(String(1536), 1, row) || !again)
            wrong_.push_back(text);
    }

    long seen(Error error) const { return seen_[static_cast<std::size_t>(error)]; }

    void done(const std::string& which) const {
        check(wrong_.empty(), which + ": " + std::to_string(wrong_.size()) + " wrong" +
                                  (wrong_.empty() ? "" : ", one of them " + wrong_[0]));
    }

  private:
    std::vector<std::string> wrong_{};
    long seen_[18] = {};  // by error
};

// Short texts, trees of 1 to 160 leaves, as they are and damaged, and texts round the longest.
void texts_of_rows() {
    RowTextsCompared compared;
    std::vector<std::string> texts{""};
    for (std::size_t i = 0; i < texts.size(); ++i) {
        compared.add(texts[i]);
        if (texts[i].size() == 5) continue;
        for (const char sign : signs) texts.push_back(texts[i] + sign);
    }
    Random random;
    for (int i = 0; i < 6000; ++i) {
        std::string text = random_tree(random, 1 + random.below(160), random.below(4) > 0);
        if (random.below(4) == 0) damage(random, text);
        compared.add(text);
    }
    const std::string longest = Text(Bytes{String(128, 0x55).data(), 128}).str();
    std::string deep = std::string(1023, '(') + 'o';
    for (int i = 0; i < 1023; ++i) deep += "*)";
    check(longest.size() == 3070 && deep.size() == 3070, "the longest texts");
    for (const std::string& text : {longest, deep, std::string(), "(" + longest + "o)"})
        for (std::size_t length = 3069; length <= 3072; ++length)
            for (const char sign : signs) {
                std::string cut = text;
                cut.resize(length, sign);
                compared.add(cut);
            }
    compared.done("texts of rows");
    for (const Error error : {Error::none, Error::not_row_text, Error::not_folded, Error::row_too_tall})
        check(compared.seen(error) > 500, "texts of rows meet: " + std::string(describe(error)));
}

// Any row, written and read again, is itself.
void rows_written_and_read() {
    Random random;
    long wrong = 0;
    for (int i = 0; i < 500; ++i) {
        String row(128);
        for (std::uint8_t& part : row) part = byte(random.below(256) & (i % 2 == 0 ? 0xFF : random.below(256)));
        if (i % 4 == 3) std::fill(row.begin(), row.begin() + random.below(128), std::uint8_t{0xFF});
        Rows rows;
        const Text text = Text(Bytes{row.data(), row.size()});
        take(rows.set(v2, text.view()));
        wrong += copy(rows) != with_row(String(1536), 2, row);
    }
    check(wrong == 0, "rows written and read again: " + std::to_string(wrong) + " wrong");
}

// ---------------------------------------------------------------- Judging

// Judges the shares of these tree texts, variable by variable.
Judged judge_texts(const Question& question, const std::vector<const char*>& shares) {
    Rows rows;
    for (std::size_t i = 0; i < shares.size(); ++i) take(rows.set(Free{i}, shares[i]));
    return judge(question, rows);
}

bool same(const std::optional<Failing>& a, const std::optional<Failing>& b) {
    return a.has_value() == b.has_value() && (!a || (a->way == b->way && a->leaf == b->leaf));
}

bool same(const std::optional<ClauseNumber>& a, const std::optional<unsigned>& b) {
    return a == (b ? std::optional(ClauseNumber{*b}) : std::nullopt);
}

void judges(const char* what, const Question& question, const std::vector<const char*>& shares, Judgement due,
            std::optional<unsigned> clause = std::nullopt, std::optional<Failing> failing = std::nullopt) {
    const Judged judged = judge_texts(question, shares);
    check(judged.judgement == due && same(judged.clause, clause) && same(judged.failing, failing) &&
              judged.refusal == Refusal::none && judged.place == 0,
          std::string("judged: ") + what);
}

void judged_satisfiability() {
    judges("nothing asked", Question(), {}, Judgement::accepted);
    Question question = satisfiability(3);
    const Constant left = take(question.constant("(*o)"));
    take(question.first(join(v0, v1, v2)));
    take(question.first(may_read(v0)));
    take(question.first(equal(v2, left)));
    take(question.first(not_join(v0, v0, v0)));
    take(question.first(not_equal(v1, left)));
    judges("a solution", question, {"((*o)o)", "((o*)o)", "(*o)"}, Judgement::accepted);
    judges("one as tall as rows can be", question,
           {"((((((((((*o)o)o)o)o)o)o)o)o)o)", "((((((((((o*)*)*)*)*)*)*)*)*)o)", "(*o)"}, Judgement::accepted);
    judges("an overlap", question, {"(*o)", "((o*)o)", "(*o)"}, Judgement::broken, 0, Failing{Way::overlap, 256});
    judges("a surplus", question, {"((*o)o)", "((o*)(*o))", "(*o)"}, Judgement::broken, 0, Failing{Way::surplus, 512});
    judges("a shortfall", question, {"((*o)o)", "o", "(*o)"}, Judgement::broken, 0, Failing{Way::shortfall, 256});
    judges("at the last leaf alone", question, {"((*o)o)", "((o*)o)", "(*(o(o(o(o(o(o(o(o(o*))))))))))"},
           Judgement::broken, 0, Failing{Way::shortfall, 1023});
    judges("a disequation", question, {"o", "(*o)", "(*o)"}, Judgement::broken, 1);
    judges("an equality behind a disequation", question, {"(o*)", "(*o)", "*"}, Judgement::broken, 2,
           Failing{Way::surplus, 512});
    judges("the lowest of two", question, {"o", "*", "*"}, Judgement::broken, 1);
    take(question.first(may_write(v1)));
    judges("the last clause", question, {"((*o)o)", "((o*)o)", "(*o)"}, Judgement::broken, 5,
           Failing{Way::shortfall, 0});
    check(text_of(question, System::first, *judge_texts(question, {"o", "*", "*"}).clause).str() == "v00 may read",
          "the text of the broken clause");
}

// Clauses of the second system stand before, between and behind those of the first, and are not counted.
void judged_entailment() {
    Question question = entailment(2, 1);
    const Constant whole = take(question.constant("*"));
    take(question.second(join(v0, own0, whole)));
    take(question.first(together(v0, v1)));
    take(question.second(may_read(own0)));
    take(question.second(together(own0, v1)));
    take(question.first(may_read(v0)));
    take(question.second(not_equal(own0, v0)));
    take(question.first(not_equal(v0, v1)));
    judges("rows that extend", question, {"(*o)", "o"}, Judgement::extends);
    judges("a positive clause unmet", question, {"(*o)", "(o*)"}, Judgement::accepted);
    judges("a disequation unmet", question, {"*", "o"}, Judgement::accepted);
    judges("clause 0", question, {"*", "*"}, Judgement::broken, 0, Failing{Way::overlap, 0});
    judges("clause 1", question, {"o", "*"}, Judgement::broken, 1);
    judges("clauses 1 and 2", question, {"o", "o"}, Judgement::broken, 1);

    // Own shares may be taller than any row.
    question = entailment(1, 2);
    take(question.first(may_read(v0)));
    take(question.second(join(own0, own1, v0)));
    take(question.second(may_read(own0)));
    take(question.second(may_read(own1)));
    judges("one leaf of 1,024 is split", question, {"((((((((((*o)o)o)o)o)o)o)o)o)o)"}, Judgement::extends);
    judges("clause 0 of one", question, {"o"}, Judgement::broken, 0);

    // Each disequation may have a leaf of its own.
    question = entailment(1, 0);
    const Constant left = take(question.constant("(*o)"));
    take(question.second(not_equal(v0, left)));
    take(question.second(may_read(v0)));
    take(question.second(not_join(v0, v0, v0)));
    judges("disequations at two leaves", question, {"(*(o(o*)))"}, Judgement::extends);
    judges("the first unmet", question, {"(*o)"}, Judgement::accepted);
    judges("the others unmet", question, {"o"}, Judgement::accepted);
    judges("an empty second system is met", entailment(1, 1), {"*"}, Judgement::extends);
}

// The solution that a question shows is accepted, by each way of handing it over.
void judged_as_shown() {
    Question question = entailment(2, 1);
    const Constant left = take(question.constant("(*o)"));
    take(question.first(may_read(v0)));
    take(question.second(join(left, own0, v0)));
    Workspace workspace;
    const auto [result, solution] = ask(question, workspace);
    check(bool(solution) && result.verdict == Verdict::no, "a solution is shown");
    check(solution.bytes().data == workspace.answer.data() && solution.bytes().size == 1536, "the bytes of a solution");
    const String rows(workspace.answer.begin(), workspace.answer.end());
    const String asked = copy(question);
    check(judge(question, solution).judgement == Judgement::accepted &&
              judge(question, Bytes{rows.data(), rows.size()}).judgement == Judgement::accepted &&
              judge(question.bytes(), solution.bytes()).judgement == Judgement::accepted &&
              judge(question.bytes(), solution).judgement == Judgement::accepted,
          "what is shown is accepted");
    Rows again;
    for (std::size_t i = 0; i < solution.variables(); ++i) take(again.set(Free{i}, solution.text(Free{i}).str()));
    check(copy(again) == rows && judge(question, again).judgement == Judgement::accepted &&
              judge(question.bytes(), again).judgement == Judgement::accepted,
          "and by its texts");
    check(copy(question) == asked && String(workspace.answer.begin(), workspace.answer.end()) == rows,
          "and nothing changed");

    question = satisfiability(1);
    take(question.first(join(v0, v0, take(question.constant("*")))));
    const Solution none = ask(question, workspace).solution;
    check(!none && none.bytes().size == 0 && judge(question, none).refusal == Refusal::not_12_rows &&
              judge(question.bytes(), none).refusal == Refusal::not_12_rows,
          "no solution has no rows");
}

// Questions that are refused, with the place; those of 6 and 7 are made in judging_refused.
const struct {
    Refusal refusal;
    std::uint16_t place;
    String bytes;
} refused_questions[] = {{Refusal::no_head, 0, {}},
                         {Refusal::no_head, 0, {0x02, 0x00, 0x00, 0x00, 0x00}},
                         {Refusal::cut_short, 4, {0x01, 0x00, 0x01, 0x00}},
                         {Refusal::cut_short, 6, {0x01, 0x00, 0x01, 0x00, 0x31, 0x00, 0x13, 0x00}},
                         {Refusal::unknown_command, 4, {0x01, 0x00, 0x01, 0x00, 0x04, 0x00}},
                         {Refusal::out_of_order, 6, {0x01, 0x00, 0x01, 0x00, 0x31, 0x00, 0x01, 0x00, 0x01, 0x00, 0x00}},
                         {Refusal::bad_head, 0, {0x01, 0x02, 0x01, 0x00, 0x00}},
                         {Refusal::bad_head, 0, {0x01, 0x01, 0x0C, 0x01, 0x00}},
                         {Refusal::bad_term, 7, {0x01, 0x00, 0x02, 0x00, 0x12, 0x00, 0x01, 0x12, 0x00, 0x02, 0x00}},
                         {Refusal::no_second_system, 4, {0x01, 0x00, 0x01, 0x00, 0x38, 0x00, 0x00}},
                         {Refusal::after_the_end, 5, {0x01, 0x00, 0x01, 0x00, 0x00, 0x00}}};

// The refusals of the question come before those of the rows, whatever the rows are.
void judged_not(const String& question, Refusal refusal, std::size_t place) {
    const String wrong(1536, 0xFF), zero(1536);
    const Bytes asked{question.data(), question.size()};
    for (const Bytes rows :
         {Bytes{nullptr, 0}, Bytes{wrong.data(), 1535}, Bytes{wrong.data(), 1536}, Bytes{zero.data(), 1536}}) {
        const Judged judged = judge(asked, rows);
        check(judged.judgement == Judgement::refused && judged.refusal == refusal && judged.place == place &&
                  !judged.clause && !judged.failing,
              "judging is refused: " + std::string(describe(refusal)));
    }
    Workspace workspace;
    const Result result = ask(asked, workspace).result;
    check(result.refusal == refusal && result.place == place, "asking too: " + std::string(describe(refusal)));
}

void judging_refused() {
    for (const auto& question : refused_questions) judged_not(question.bytes, question.refusal, question.place);
    String constants{0x01, 0x00, 0x01, 0x00}, clauses{0x01, 0x01, 0x01, 0x00};
    for (int i = 0; i < 33; ++i) constants.insert(constants.end(), {0x03, 0x00, 0x00, 0x00, 0x00});
    for (int i = 0; i < 65; ++i) clauses.insert(clauses.end(), {0x38, 0x00});
    judged_not(constants, Refusal::too_many_constants, 4 + 5 * 32);
    judged_not(clauses, Refusal::too_many_clauses, 4 + 2 * 64);

    // The rows: 18 before 19, and 19 before a broken clause.
    Question question = entailment(2, 1);
    take(question.first(may_write(v0)));
    const String wrong(1537, 0xFF);
    for (const std::size_t size : {0u, 1u, 128u, 256u, 1535u, 1537u}) {
        const Judged judged = judge(question, Bytes{wrong.data(), size});
        check(judged.judgement == Judgement::refused && judged.refusal == Refusal::not_12_rows && judged.place == 0 &&
                  !judged.clause && !judged.failing,
              std::to_string(size) + " bytes are no rows");
    }
    Rows rows;
    for (std::size_t i = 0; i < 12; ++i) {
        Rows one = rows;
        take(one.set(Free{i}, "(o(o(o(o(o(o(o(o(o(o*))))))))))"));
        const Judged judged = judge(question, one);
        const bool free = i < 2;
        check(judged.judgement == (free ? Judgement::broken : Judgement::refused) && judged.place == 0 &&
                  judged.refusal == (free ? Refusal::none : Refusal::row_not_zero) &&
                  judged.clause.has_value() == free &&
                  same(judged.failing, free ? std::optional(Failing{Way::shortfall, 0}) : std::nullopt),
              "a leaf of variable " + std::to_string(i));
    }
}

void judged_fields() {
    // Every byte of the number, each value unlike the others.
    const Judged fields = decode_judged(0x03FE'01'5E'A39D'08'02);
    check(fields.judgement == Judgement::broken && fields.refusal == Refusal::bad_term && fields.place == 0xA39D &&
              fields.clause == ClauseNumber{94} && same(fields.failing, Failing{Way::overlap, 1022}),
          "each field of a judgement");
    for (const std::uint64_t number : {0u, 1u, 3u}) {
        const Judged other = decode_judged(number | 0x0101'02'07'0000'00'00);
        check(!other.clause && !other.failing, "a clause number, way and leaf only where one is broken");
    }
    check(!decode_judged(0x0101'00'07'0000'00'02).failing, "a way and a leaf only of a positive clause");
    for (unsigned i = 1; i < 256; ++i) {
        const std::optional<Failing> failing = decode_judged(2 | std::uint64_t{i} << 40).failing;
        if (!same(failing, Failing{static_cast<Way>(i), 0})) check(false, "way " + std::to_string(i) + " is decoded");
    }
    const Judged wild = decode_judged(0xFFFFFFFFFFFFFF02);
    check(wild.clause == ClauseNumber{255} && same(wild.failing, Failing{static_cast<Way>(255), 0xFFFF}),
          "every number is decoded");
    for (unsigned i = 0; i < 4; ++i) {
        check(describe(static_cast<Judgement>(i)) != "unknown judgement", "a text for judgement " + std::to_string(i));
        check(describe(static_cast<Way>(i)) == zimorgal_describe_way(static_cast<int>(i)), "way " + std::to_string(i));
    }
}

// ---------------------------------------------------------------- At a leaf of the rows

// Each sort of positive clause, and how it fails by the values of its terms: v0 is bit 0, v1 bit 1, v2 bit 2.
const struct {
    FirstClause clause;
    std::vector<Way> ways;
} clauses_at_a_leaf[] = {
    {join(v0, v1, v2),
     {Way::holds, Way::surplus, Way::surplus, Way::overlap, Way::shortfall, Way::holds, Way::holds, Way::overlap}},
    {equal(v0, v1), {Way::holds, Way::surplus, Way::shortfall, Way::holds}},
    {may_write(v0), {Way::shortfall, Way::holds}},
    {together(v0, v1), {Way::holds, Way::holds, Way::holds, Way::overlap}}};

// Rows with these values of v0, v1 and v2 from a leaf on, and before it some with which the clause holds.
Rows with_values(std::size_t values, std::size_t from, bool full_before) {
    Rows rows;
    for (std::size_t i = 0; i < 3; ++i) {
        String row(128, full_before ? 0xFF : 0x00);
        for (std::size_t leaf = from; leaf < 1024; ++leaf) {
            const unsigned bit = 1u << leaf % 8;
            row[leaf / 8] = byte((row[leaf / 8] & ~bit) | (values >> i & 1 ? bit : 0));
        }
        take(rows.set(Free{i}, Bytes{row.data(), row.size()}));
    }
    return rows;
}

void each_way() {
    for (const auto& [clause, ways] : clauses_at_a_leaf) {
        Question question = satisfiability(3);
        take(question.first(equal(v0, v0)));
        take(question.first(clause));
        const bool full_before = clause.relation == Relation::may_write;
        for (std::size_t values = 0; values < ways.size(); ++values)
            for (const std::size_t from : {0u, 1u, 31u, 32u, 63u, 64u, 500u, 512u, 1023u}) {
                const Judged judged = judge(question, with_values(values, from, full_before));
                const bool holds = ways[values] == Way::holds;
                const std::optional<Failing> failing = Failing{ways[values], from};
                check(judged.judgement == (holds ? Judgement::accepted : Judgement::broken) &&
                          same(judged.failing, holds ? std::nullopt : failing),
                      text_of(question, System::first, ClauseNumber{1}).str() + ", values " + std::to_string(values) +
                          " from " + std::to_string(from));
            }
    }
}

// A broken disequation of each sort: there is no leaf to name.
void disequations_broken() {
    for (const FirstClause& clause : {not_join(v0, v1, v2), not_equal(v0, v1), may_read(v0)}) {
        Question question = satisfiability(3);
        take(question.first(clause));
        const Judged judged = judge(question, Rows());
        check(judged.judgement == Judgement::broken && judged.clause == ClauseNumber{0} && !judged.failing,
              text_of(question, System::first, ClauseNumber{0}).str());
    }
}

void paths() {
    const std::pair<std::size_t, const char*> due[] = {
        {0, "LLLLLLLLLL"},   {1, "LLLLLLLLLR"},    {2, "LLLLLLLLRL"}, {511, "LRRRRRRRRR"},  {512, "RLLLLLLLLL"},
        {768, "RRLLLLLLLL"}, {1023, "RRRRRRRRRR"}, {1024, ""},        {std::size_t(-1), ""}};
    for (const auto& [leaf, path] : due)
        check(path_of(Failing{Way::overlap, leaf}).str() == path, "the path to leaf " + std::to_string(leaf));

    // A tree with one full leaf, put there by the path.
    for (std::size_t leaf = 0; leaf < 1024; ++leaf) {
        const std::string path = path_of(Failing{Way::overlap, leaf}).str();
        std::string tree = "*";
        for (auto step = path.rbegin(); step != path.rend(); ++step)
            tree = *step == 'R' ? "(o" + tree + ")" : "(" + tree + "o)";
        Rows rows;
        take(rows.set(v1, tree));
        if (!full_at(rows.row(v1), leaf)) check(false, "leaf " + std::to_string(leaf) + " is at " + path);
    }
}

void values_at_a_leaf() {
    Rows rows;
    take(rows.set(v1, "((((((((((o*)o)o)o)o)o)o)o)(o*))(o*))"));  // full at leaf 1, in 384 to 511 and from 768 on
    take(rows.set(v2, 0xC0000001u));
    std::size_t wrong = 0;
    for (std::size_t leaf = 0; leaf < 1024; ++leaf) {
        wrong += full_at(rows.row(v0), leaf);
        wrong += full_at(rows.row(v1), leaf) != (leaf == 1 || (leaf >= 384 && leaf < 512) || leaf >= 768);
        wrong += full_at(rows.row(v2), leaf) != full_at(0xC0000001u, leaf);
        wrong += full_at(0xC0000001u, leaf) != (leaf < 32 || leaf >= 960);
    }
    check(wrong == 0, "values at leaves: " + std::to_string(wrong) + " wrong");
    const String full(1536, 0xFF);
    check(!full_at(Bytes{full.data(), 128}, 1024) && !full_at(full_share, 1024) && full_at(full_share, 1023) &&
              full_at(Bytes{full.data(), 128}, 1023) && !full_at(full_share, static_cast<std::size_t>(-1)) &&
              !full_at(Bytes{full.data(), 128}, static_cast<std::size_t>(-1)),
          "no share is full past the leaves");
    check(!full_at(rows.row(Free{12}), 0) && !full_at(Bytes{nullptr, 0}, 0) && !full_at(Bytes{full.data(), 127}, 0) &&
              !full_at(Bytes{full.data(), 1536}, 0),
          "nor is what is no row");
}

// ---------------------------------------------------------------- A judgement as one line

// Whether the judgement of these shares is told so.
void tells(const Question& question, const std::vector<const char*>& shares, const std::string& line) {
    Rows rows;
    for (std::size_t i = 0; i < shares.size(); ++i) take(rows.set(Free{i}, shares[i]));
    const Judged judged = judge(question, rows);
    const String bytes = copy(rows);
    check(text_of(question, rows, judged).str() == line, "told: " + line);
    check(text_of(question, Bytes{bytes.data(), bytes.size()}, judged).str() == line, "told of bytes: " + line);
}

const std::string broken = "rejected: a clause of the first system is broken, number ";
const std::string surplus = "; surplus: just one part is full and the sum is empty, at leaf ";
const std::string shortfall = "; shortfall: both parts are empty and the sum is full, at leaf ";
const std::string overlap = "; overlap: both parts are full, at leaf ";

void judged_as_text() {
    Question question = entailment(3, 1);
    const Constant left = take(question.constant("(*o)"));
    take(question.second(together(v0, own0)));
    take(question.first(join(v0, left, v1)));
    take(question.first(may_read(v1)));
    take(question.first(equal(v2, left)));
    take(question.second(may_read(own0)));
    take(question.first(not_join(v0, v0, v1)));
    take(question.first(together(v0, v2)));
    take(question.first(may_write(v1)));
    tells(question, {"(o*)", "*", "(*o)"}, "rejected: the rows extend to the second system");
    tells(question, {"(o*)", "*", "(*o)", "*"}, "refused: a bit set in a row of no free variable");
    const std::string clause_0 = broken + "0: v00 join (*o) is v01";
    tells(question, {"((o*)o)"}, clause_0 + surplus + "0, LLLLLLLLLL: o join * is o");
    tells(question, {"((o*)o)", "(*o)"}, clause_0 + overlap + "256, LRLLLLLLLL: * join * is *");
    tells(question, {"o", "(*(o(o*)))"}, clause_0 + shortfall + "896, RRRLLLLLLL: o join o is *");
    tells(question, {"(o*)", "*", "(*(*o))"}, broken + "2: v02 is (*o)" + surplus + "512, RLLLLLLLLL: * is o");
    tells(question, {"(o*)", "*"}, broken + "2: v02 is (*o)" + shortfall + "0, LLLLLLLLLL: o is *");
    tells(question, {"o", "(*o)", "(*o)"}, broken + "5: v01 may write" + shortfall + "512, RLLLLLLLLL: o may write");

    question = satisfiability(2);
    take(question.first(together(v0, v1)));
    take(question.first(may_read(v1)));
    tells(question, {"o", "*"}, "accepted");
    tells(question, {"*"}, broken + "1: v01 may read");
    tells(question, {"*", "(o(o(o(o(o(o(o(o(o(o*))))))))))"},
          broken + "0: v00 with v01" + overlap + "1023, RRRRRRRRRR: * with *");
}

// A shown solution of another question, a stream, no rows, and what judging does not give.
void judged_as_text_from_elsewhere() {
    Question shown = satisfiability(1), question = satisfiability(1);
    take(shown.first(equal(v0, take(shown.constant("(*o)")))));
    take(question.first(equal(v0, take(question.constant("((*o)o)")))));
    Workspace workspace;
    const Solution solution = ask(shown, workspace).solution;
    const Judged judged = judge(question, solution);
    const std::string line = broken + "0: v00 is ((*o)o)" + surplus + "256, LRLLLLLLLL: ";
    std::ostringstream out;
    out << text_of(question, solution, judged) << '|' << path_of(*judged.failing);
    check(out.str() == line + "* is o|LRLLLLLLLL", "a solution's, written to a stream");
    check(text_of(question, Solution(), judge(question, Solution())).str() ==
              "refused: the rows have not exactly 1,536 bytes",
          "no solution");
    check(text_of(question, Bytes{nullptr, 0}, judged).str() == line + "o is o",
          "without the rows no variable is full");

    const Judged elsewhere{Judgement::broken, Refusal::none, 0, ClauseNumber{7}, Failing{static_cast<Way>(9), 5000}};
    check(text_of(question, solution, elsewhere).str() == broken + "7: ; unknown way, at leaf 5000, : ",
          "a clause and a leaf that are not there");
    const Judged far{Judgement::broken, Refusal::none, 0, ClauseNumber{static_cast<std::size_t>(-1)}, std::nullopt};
    check(text_of(question, solution, far).str() == broken + "4294967295: ", "the greatest number");
}

// The longest line just fits, and one that would be longer is cut.
void longest_judged() {
    Question question = satisfiability(1);
    const Constant tall = take(question.constant(0x55555555u)), other = take(question.constant(0xAAAAAAAAu));
    for (int i = 0; i < 63; ++i) take(question.first(equal(v0, v0)));
    take(question.first(join(tall, other, tall)));
    const Judged judged = judge(question, Rows());
    check(judged.clause == ClauseNumber{63} && same(judged.failing, Failing{Way::surplus, 32}),
          "a join of three tall constants");
    const std::string first = text_of(tall.leaves()).str(), second = text_of(other.leaves()).str();
    const std::string clause = first + " join " + second + " is " + first;
    const std::string head = broken + "63: " + clause;
    tells(question, {}, head + surplus + "32, LLLLRLLLLL: o join * is o");

    const Judged longest{Judgement::broken, Refusal::none, 0, ClauseNumber{63}, Failing{Way::shortfall, 1023}};
    const std::string line = head + shortfall + "1023, RRRRRRRRRR: o join * is o";
    check(text_of(question, Rows(), longest).str() == line && line.size() == most_judged_text,
          "the longest line just fits");
    const Judged longer{Judgement::broken, Refusal::none, 0, ClauseNumber{63},
                        Failing{Way::shortfall, static_cast<std::size_t>(-1)}};
    const std::string whole = head + shortfall + "18446744073709551615, : o join o is o";
    check(
        whole.size() > most_judged_text && text_of(question, Rows(), longer).str() == whole.substr(0, most_judged_text),
        "a longer one, which judging does not give, is cut");
    for (unsigned i = 0; i <= 19; ++i) {
        const Judged refused{Judgement::refused, static_cast<Refusal>(i), 0, std::nullopt};
        const std::string due = "refused: " + std::string(describe(static_cast<Refusal>(i)));
        check(text_of(question, Rows(), refused).str() == due, due);
    }
}

void at_a_leaf() {
    each_way();
    disequations_broken();
    paths();
    values_at_a_leaf();
    judged_as_text();
    judged_as_text_from_elsewhere();
    longest_judged();
}

// ---------------------------------------------------------------- No heap

void no_heap() {
    const long before = allocations;
    static Workspace workspace;
    Question question, drafted;
    bool fine = question.start_entailment(2, 1) == Error::none;
    const auto [error, half, place] = question.constant("(*o)");
    fine = fine && error == Error::none && place == 0 && question.first(join(v0, half, v1)) == Error::none &&
           question.second(not_equal(own0, v0)) == Error::none && question.second(equal(v0, half)) == Error::none;
    Draft draft;
    draft.start_satisfiability(1);
    fine =
        fine && draft.constant(join(half.leaves(), 0xFFFF0000u)).leaves() == full_share && height(half.leaves()) == 1;
    fine = fine && draft.error() == Error::none && draft.finish(drafted) == Error::none;
    fine = fine && from_text("(o").place == 2 && from_text("(o(oo))").place == 2 &&
           from_text("((((((o*)o)o)o)o)o)").place == 5;
    const QuestionText asked = text_of(question);
    const auto [result, solution] = ask(question, workspace);
    const Text text = solution.text(v0);
    Rows rows;
    fine = fine && rows.set(v0, text.view()).error == Error::none && rows.set(v1, "((oo)*)").place == 1 &&
           judge(question, solution).judgement == Judgement::accepted;
    const Judged judged = judge(question, rows);
    const ClauseText clause = text_of(question, System::first, judged.clause.value_or(ClauseNumber{99}));
    const PathText path = path_of(judged.failing.value_or(Failing{Way::holds, 1024}));
    const JudgedText line = text_of(question, rows, judged);
    fine = fine && path.view() == "LLLLLLLLLL" && line.view().substr(line.view().size() - 13) == "o join * is o";
    fine = fine && clause.view() == "v00 join (*o) is v01" && result.verdict == Verdict::no && !text.view().empty() &&
           !asked.view().empty() && allocations == before;
    check(fine, "no heap from building to judging");
    delete new int;
    check(allocations > before, "allocations are counted");
}

}  // namespace

int main() {
    bytes_of_questions();
    errors();
    constants_from_joins();
    limits();
    random_steps();
    every_enum_value();
    whose_constant();
    drafts();
    drafts_started_anew();
    null_texts();
    drafts_with_joins();
    results();
    clauses_of_results();
    results_without_a_clause();
    unnamed_constants();
    policies();
    right_texts();
    wrong_texts();
    every_short_text();
    every_sign();
    random_texts();
    longest_texts();
    texts_of_leaves();
    texts_in_buffers();
    joins();
    heights();
    texts();
    clauses_by_number();
    rows_of_shares();
    rows_with_errors();
    texts_of_rows();
    rows_written_and_read();
    judged_satisfiability();
    judged_entailment();
    judged_as_shown();
    judging_refused();
    judged_fields();
    at_a_leaf();
    no_heap();
    std::printf("%d passed, %d failed\n", passed, failed);
    return failed == 0 ? 0 : 1;
}
