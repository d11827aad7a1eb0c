// Zimorgal for C++17: questions about tree shares, put together by name and asked. The calls of zimorgal.h are proved;
// this header is only tested. A whole program, which writes 'yes' and the share 'o':
//
//     #include <iostream>
//
//     #include "zimorgal.hpp"
//
//     int main() {
//         using namespace zimorgal;
//         const Free left{0}, right{1};  // two unknown shares
//
//         Draft draft;
//         draft.start_satisfiability(2);
//         const Constant whole = draft.constant("*");
//         draft.first(join(left, right, whole));  // left join right is the whole
//         draft.first(may_read(right));           // right is not empty
//
//         Question question;
//         if (const Error error = draft.finish(question); error != Error::none) {
//             std::cerr << "step " << draft.step() << ": " << describe(error) << '\n';
//             return 1;
//         }
//
//         Workspace workspace;
//         const auto [result, solution] = ask(question, workspace);
//         std::cout << describe(result.verdict) << '\n';
//         if (solution) std::cout << solution.text(left) << '\n';
//     }
//
// Each step of a Question returns Error::none, or says why it was not taken and leaves the question as it was. So a
// Question is one that the library accepts, at any time, whatever values a step was given. A Draft takes steps without a
// test after each and keeps the first error.
//
// A solution that someone else found is put together as Rows, or is there as bytes, and judge() says whether it is one, or
// which clause it breaks, at which leaf and how.
//
// Nothing here throws, and nothing uses the heap but str(). Each value belongs to one thread at a time; the threads share
// only an atomic counter, from which questions are told apart.
#ifndef ZIMORGAL_HPP
#define ZIMORGAL_HPP

#if __cplusplus < 201703L
#error "zimorgal.hpp needs C++17 or later: compile with -std=c++17"
#else

#include <algorithm>
#include <array>
#include <atomic>
#include <cstddef>
#include <cstdint>
#include <cstring>
#include <initializer_list>
#include <iosfwd>
#include <optional>
#include <string>
#include <string_view>
#include <type_traits>

#include "zimorgal.h"

namespace zimorgal {

inline constexpr std::size_t most_variables = 12;
inline constexpr std::size_t most_constants = 32;
inline constexpr std::size_t most_positives = 64;     // positive clauses in one system
inline constexpr std::size_t most_disequations = 31;  // in one system

// Shares of height at most 5 are 32 leaves, leaf i at bit i.
using Leaves = std::uint32_t;
inline constexpr Leaves empty_share = 0;
inline constexpr Leaves full_share = 0xFFFFFFFF;

// Why a step was not taken.
enum class Error : std::uint8_t {
    none,
    too_many_variables,     // more than 12, of both sorts
    too_many_constants,     // a 33rd
    too_many_positives,     // a 65th positive clause in one system
    too_many_disequations,  // a 32nd in one system
    names_nothing,          // a variable that the question has not, for a row one above 11, or Constant{}
    own_variable_in_first,  // an own variable in the first system
    no_second_system,       // a clause of the second system in a satisfiability question
    not_tree_text,          // a text over 94 characters, or no tree text
    too_tall,               // a tree taller than 5
    not_folded,             // a pair that could be folded
    foreign_constant,       // of another question, or from before this one was started anew
    unknown_relation,       // a Relation that is none of the seven
    unknown_system,         // a System that is none of the two
    undefined_join,         // a share from a join that is undefined
    not_row_text,           // for a row: a text over 3,070 characters, or no tree text
    row_too_tall,           // for a row: a tree taller than 10
    not_a_row,              // bytes for a row that are not 128
};

constexpr std::string_view describe(Error error) noexcept {
    switch (error) {
        case Error::none: return "no error";
        case Error::too_many_variables: return "more than 12 variables";
        case Error::too_many_constants: return "a 33rd constant";
        case Error::too_many_positives: return "a 65th positive clause in one system";
        case Error::too_many_disequations: return "a 32nd disequation in one system";
        case Error::names_nothing: return "a variable or a constant that names nothing";
        case Error::own_variable_in_first: return "an own variable in the first system";
        case Error::no_second_system: return "a clause of the second system in a satisfiability question";
        case Error::not_tree_text: return "a text over 94 bytes, or no tree text";
        case Error::too_tall: return "a tree taller than 5";
        case Error::not_folded: return "a pair that could be folded";
        case Error::foreign_constant: return "a constant of another question, or from before this one was started anew";
        case Error::unknown_relation: return "a relation that is none of the seven";
        case Error::unknown_system: return "a system that is none of the two";
        case Error::undefined_join: return "an undefined join";
        case Error::not_row_text: return "a text over 3,070 bytes, or no tree text";
        case Error::row_too_tall: return "a tree taller than 10";
        case Error::not_a_row: return "a row that is not 128 bytes";
    }
    return "unknown error";
}

// ---------------------------------------------------------------- Terms

namespace detail {

template <class T, class... Types>
inline constexpr bool is_one_of = (std::is_same_v<T, Types> || ...);

// What a variable is numbered with: an integer, or an enum that is one. Characters and bool are not.
template <class T>
inline constexpr bool is_number = is_one_of<T, signed char, unsigned char, short, unsigned short, int, unsigned, long,
                                            unsigned long, long long, unsigned long long> ||
                                  (std::is_enum_v<T> && std::is_convertible_v<T, long long>);

template <class T>
using IfNumber = std::enable_if_t<is_number<T>, int>;

// The number of a variable; 12, which no question has, for any number that is not 0 to 11.
template <class Number>
constexpr std::size_t variable_number(Number number) noexcept {
    const auto wide = static_cast<long long>(number);
    return wide >= 0 && wide < 12 ? static_cast<std::size_t>(wide) : most_variables;
}

}  // namespace detail

// A free variable of the question, from 0. One that the question has not names nothing: the step says so.
struct Free {
    template <class Number, detail::IfNumber<Number> = 0>
    constexpr explicit Free(Number variable) noexcept : number(detail::variable_number(variable)) {}

    std::size_t number;
};

// An own variable of the second system, from 0.
struct Own {
    template <class Number, detail::IfNumber<Number> = 0>
    constexpr explicit Own(Number variable) noexcept : number(detail::variable_number(variable)) {}

    std::size_t number;
};

// A constant, as a question gave it. It is that question's until that is started anew, and its copies' as far as they
// have the same share there; any other question refuses it. So it never means another share. Constant{} names nothing.
class Constant {
  public:
    constexpr Constant() noexcept = default;

    // The share that it means; 0 if it names nothing.
    constexpr Leaves leaves() const noexcept { return leaves_; }

  private:
    friend class Question;
    constexpr Constant(std::uint64_t question, std::size_t number, Leaves leaves) noexcept
        : question_(question), number_(number), leaves_(leaves) {}

    std::uint64_t question_ = 0;  // no question has 0
    std::size_t number_ = 0;
    Leaves leaves_ = 0;
};

// Any of the three, where the sort is known only at run time.
class Term {
  public:
    constexpr Term(Free variable) noexcept : sort_(Sort::free), number_(variable.number) {}
    constexpr Term(Own variable) noexcept : sort_(Sort::own), number_(variable.number) {}
    constexpr Term(Constant constant) noexcept : sort_(Sort::constant), constant_(constant) {}

  private:
    friend class Question;
    enum class Sort : std::uint8_t { free, own, constant };

    Sort sort_;
    std::size_t number_ = 0;  // of a variable
    Constant constant_;
};

// ---------------------------------------------------------------- Clauses

enum class Relation : std::uint8_t { join, not_join, equal, not_equal, may_write, may_read, together };

struct Clause {
    Relation relation;
    std::array<Term, 3> terms;  // of which a relation has the first one, two or three
};

// A clause whose terms are Free and Constant, which no own variable can be: it may stand in the first system.
struct FirstClause : Clause {};

namespace detail {

// The number of a thing among those that are counted with it, from 0. It converts neither into the number of another
// thing nor into a plain one, which is its member. What fits no unsigned becomes the greatest, which names nothing.
template <class Thing>
struct Counted {
    constexpr Counted() noexcept = default;
    template <class Number, IfNumber<Number> = 0>
    constexpr explicit Counted(Number given) noexcept : number(fitting(static_cast<long long>(given))) {}

    unsigned number = 0;

    friend constexpr bool operator==(Counted a, Counted b) noexcept { return a.number == b.number; }
    friend constexpr bool operator!=(Counted a, Counted b) noexcept { return a.number != b.number; }

  private:
    static constexpr unsigned fitting(long long given) noexcept {
        constexpr unsigned greatest = 0xFFFFFFFF;
        return given >= 0 && given < greatest ? static_cast<unsigned>(given) : greatest;
    }
};

template <class Traits, class Thing>
std::basic_ostream<char, Traits>& operator<<(std::basic_ostream<char, Traits>& out, Counted<Thing> counted) {
    return out << counted.number;
}

struct Disequation;

}  // namespace detail

// Which clause of a system, positive ones and disequations counted together, in the order in which they were added.
// Judging names a clause so.
using ClauseNumber = detail::Counted<Clause>;

// Which disequation of a system, the positive clauses not counted. Asking names a disequation so.
using DisequationNumber = detail::Counted<detail::Disequation>;

namespace detail {

// A sort of clause: how a relation is written and counted.
struct ClauseSort {
    std::uint8_t command[2];  // its byte, by system
    std::uint8_t terms;       // how many
    bool disequation;
    std::string_view words[4];  // as text: before its terms, and after each of them
};

// By relation, in the order of their values.
inline constexpr ClauseSort sorts[] = {
    {{0x10, 0x20}, 3, false, {"", " join ", " is ", ""}},     // join
    {{0x11, 0x21}, 3, true, {"not ", " join ", " is ", ""}},  // not_join
    {{0x12, 0x22}, 2, false, {"", " is ", ""}},               // equal
    {{0x13, 0x23}, 2, true, {"", " is not ", ""}},            // not_equal
    {{0x30, 0x38}, 1, false, {"", " may write"}},             // may_write
    {{0x31, 0x39}, 1, true, {"", " may read"}},               // may_read
    {{0x32, 0x3A}, 2, false, {"", " with ", ""}},             // together
};

template <class... Terms>
using ClauseOf = std::conditional_t<(is_one_of<Terms, Free, Constant> && ...), FirstClause, Clause>;

// The functions below take terms and nothing else, so that a program's own functions of these names stay its own.
template <class T>
inline constexpr bool is_term = is_one_of<T, Free, Own, Constant, Term>;

template <class... Terms>
using IfTerms = std::enable_if_t<(is_term<Terms> && ...), int>;

}  // namespace detail

// a join b is c
template <class A, class B, class C, detail::IfTerms<A, B, C> = 0>
constexpr detail::ClauseOf<A, B, C> join(A a, B b, C c) noexcept {
    return {Clause{Relation::join, {a, b, c}}};
}

// not (a join b is c); so also where the join is undefined
template <class A, class B, class C, detail::IfTerms<A, B, C> = 0>
constexpr detail::ClauseOf<A, B, C> not_join(A a, B b, C c) noexcept {
    return {Clause{Relation::not_join, {a, b, c}}};
}

// a is b
template <class A, class B, detail::IfTerms<A, B> = 0>
constexpr detail::ClauseOf<A, B> equal(A a, B b) noexcept {
    return {Clause{Relation::equal, {a, b, b}}};
}

// a is not b
template <class A, class B, detail::IfTerms<A, B> = 0>
constexpr detail::ClauseOf<A, B> not_equal(A a, B b) noexcept {
    return {Clause{Relation::not_equal, {a, b, b}}};
}

// a is full: whoever holds it may write
template <class A, detail::IfTerms<A> = 0>
constexpr detail::ClauseOf<A> may_write(A a) noexcept {
    return {Clause{Relation::may_write, {a, a, a}}};
}

// a is not empty: whoever holds it may read; a disequation
template <class A, detail::IfTerms<A> = 0>
constexpr detail::ClauseOf<A> may_read(A a) noexcept {
    return {Clause{Relation::may_read, {a, a, a}}};
}

// the join of a and b is defined: they may be held together; no solution has this with may_write(a) and may_read(b)
template <class A, class B, detail::IfTerms<A, B> = 0>
constexpr detail::ClauseOf<A, B> together(A a, B b) noexcept {
    return {Clause{Relation::together, {a, b, b}}};
}

// ---------------------------------------------------------------- Tree text of constants

struct Parsed {
    Error error;
    Leaves leaves;      // 0 with an error
    std::size_t place;  // of the fault: the offset in the text
};

namespace detail {

// Why the library turned a tree text away.
constexpr Error error_of(int refusal) noexcept {
    switch (refusal) {
        case ZIMORGAL_NOT_REFUSED: return Error::none;
        case ZIMORGAL_NOT_FOLDED: return Error::not_folded;
        case ZIMORGAL_TOO_TALL: return Error::too_tall;
        case ZIMORGAL_NOT_TREE_TEXT:
        default: return Error::not_tree_text;  // reading gives no other number
    }
}

inline constexpr std::size_t tallest = 5;       // of a constant
inline constexpr std::size_t tallest_row = 10;  // of a row

// How far a text is the beginning of one tree text whose pairs are at most so deep, and whether it is all of one.
struct Scanned {
    std::size_t at;
    bool whole;
};

// Goes over a text, of which only so many characters count: nothing can stand behind them.
template <std::size_t Most>
Scanned scan(std::string_view whole_text, std::size_t deepest) noexcept {
    const std::string_view text = whole_text.substr(0, Most);
    // How many trees are due: in the text, then in each pair that is open.
    std::array<std::uint8_t, Most + 1> due{1};
    std::size_t open = 0, at = 0;
    for (; at < text.size(); ++at) {
        const char sign = text[at];
        if (due[open] == 0) {
            if (open == 0 || sign != ')') break;
            --open;
        } else if (sign == 'o' || sign == '*') {
            --due[open];
        } else {
            if (sign != '(' || open == deepest) break;
            --due[open];
            due[++open] = 2;
        }
    }
    return {at, at == whole_text.size() && open == 0 && due[0] == 0};
}

// The first pair that must be folded, in a tree text; npos if there is none. Two equal leaves in a row are its halves.
inline std::size_t place_to_fold(std::string_view text) noexcept {
    const std::size_t leaves = std::min(text.find("oo"), text.find("**"));
    return leaves == std::string_view::npos ? leaves : leaves - 1;
}

// Where the fault is for which the library turned a tree text away. It only looks for the place.
inline std::size_t place_of_fault(Error error, std::string_view text) noexcept {
    if (error == Error::not_folded) return place_to_fold(text);
    constexpr std::size_t most = ZIMORGAL_CONSTANT_TEXT_BYTES;
    return scan<most>(text, error == Error::too_tall ? tallest : most).at;
}

// Two texts in braces, which C++20 would take for the beginning and the end of one text.
struct TwoTexts {
    TwoTexts(std::string_view, std::string_view) noexcept {}
};

// A text as a step takes it: what converts to std::string_view. A null pointer, which does too, and of which the length
// would be asked, is the empty text: no tree text.
struct AnyText {
    template <class Given, std::enable_if_t<std::is_convertible_v<const Given&, std::string_view> &&
                                                !std::is_pointer_v<std::decay_t<Given> >,
                                            int> = 0>
    AnyText(const Given& given) noexcept(noexcept(std::string_view(given))) : view(given) {}
    AnyText(const char* given) noexcept : view(given == nullptr ? std::string_view() : given) {}
    AnyText(const char* given, std::size_t size) noexcept : view(given, size) {}

    std::string_view view;
};

}  // namespace detail

// The share that a tree text stands for: o empty, * full, ( left right ) a pair, folded, at most five pairs deep, no
// spaces. The library reads it. Of several faults not the first from the left decides: not_tree_text comes before
// not_folded, and that before too_tall. The place is that of the first character that cannot stand there (the length if
// the text ends too soon, and at most 94, where nothing can stand), of the first pair that must be folded, or of the first
// pair that is one too deep. A null pointer is no tree text.
[[nodiscard]] inline Parsed from_text(detail::AnyText given) noexcept {
    const std::string_view text = given.view;
    const std::uint64_t number = zimorgal_constant(reinterpret_cast<const std::uint8_t*>(text.data()), text.size());
    const Error error = detail::error_of(zimorgal_constant_refusal(number));
    if (error != Error::none) return {error, 0, detail::place_of_fault(error, text)};
    return {Error::none, zimorgal_constant_leaves(number), 0};
}
Parsed from_text(std::nullptr_t) = delete;
Parsed from_text(detail::TwoTexts) = delete;

// ---------------------------------------------------------------- Join and height of constants

namespace detail {

// Leaves and nothing else: a character, bool or signed number would be taken for leaves without a word.
template <class T>
using IfLeaves = std::enable_if_t<std::is_same_v<T, Leaves>, int>;

}  // namespace detail

// The join of two shares, their sum; none, undefined, exactly if some leaf is full in both. A constant joins by its
// leaves(), which are 0, the empty share, if it names nothing.
template <class Share, detail::IfLeaves<Share> = 0>
[[nodiscard]] std::optional<Leaves> join(Share a, Share b) noexcept {
    const std::uint64_t number = zimorgal_join(a, b);
    if (!zimorgal_join_defined(number)) return std::nullopt;
    return zimorgal_join_leaves(number);
}
template <class A, class B, detail::IfTerms<A, B> = 0>
std::optional<Leaves> join(A, B) = delete;  // a clause has three terms: join(a, b, c); constants join by leaves()

// The height of a share, 0 to 5.
template <class Share, detail::IfLeaves<Share> = 0>
[[nodiscard]] unsigned height(Share leaves) noexcept {
    return zimorgal_height(leaves);
}

// ---------------------------------------------------------------- Questions

// Bytes to be read, kept by someone else.
struct Bytes {
    const std::uint8_t* data;
    std::size_t size;

    constexpr const std::uint8_t* begin() const noexcept { return data; }
    constexpr const std::uint8_t* end() const noexcept { return data + size; }
};

enum class Kind : std::uint8_t { satisfiability = ZIMORGAL_SATISFIABILITY, entailment = ZIMORGAL_ENTAILMENT };
enum class System : std::uint8_t { first = 0, second = 1 };

struct NewConstant {
    Error error;
    Constant constant;  // names nothing with an error
    std::size_t place;  // of a fault in the tree text
};

namespace detail {

// What is neither Leaves, nor tree text, nor what a join gives.
template <class T>
using IfNoShare =
    std::enable_if_t<!is_one_of<T, std::optional<Leaves>, Leaves> &&
                         (!std::is_convertible_v<const T&, std::string_view> || std::is_null_pointer_v<T>),
                     int>;

// The leaves of a constant from its four bytes.
inline Leaves leaves_at(const std::uint8_t* bytes) noexcept {
    Leaves leaves = 0;
    for (std::size_t i = 4; i > 0; --i) leaves = leaves << 8 | bytes[i - 1];
    return leaves;
}

// A number that it gives only once.
inline std::uint64_t next_identity() noexcept {
    static std::atomic<std::uint64_t> last{0};
    return last.fetch_add(1, std::memory_order_relaxed) + 1;
}

}  // namespace detail

// A question that the library accepts. A new one asks whether the empty system over no variables is satisfiable.
class Question {
  public:
    // Both throw away what is there and start anew.
    [[nodiscard]] Error start_satisfiability(std::size_t free) noexcept { return start(Kind::satisfiability, free, 0); }
    [[nodiscard]] Error start_entailment(std::size_t free, std::size_t own) noexcept {
        return start(Kind::entailment, free, own);
    }

    // The constant with these leaves, of this tree text, or of a join, constant(join(a, b)): the one that is there,
    // otherwise the next. It may come after clauses: its bytes are put before them.
    [[nodiscard]] NewConstant constant(Leaves leaves) noexcept {
        std::size_t number = 0;
        while (number < constants_ && leaves_of(number) != leaves) ++number;
        if (number == most_constants) return {Error::too_many_constants, {}, 0};
        if (number == constants_) put_constant(leaves);
        return {Error::none, Constant(identity_, number, leaves), 0};
    }
    [[nodiscard]] NewConstant constant(detail::AnyText text) noexcept {
        const Parsed parsed = from_text(text);
        if (parsed.error != Error::none) return {parsed.error, {}, parsed.place};
        return constant(parsed.leaves);
    }
    [[nodiscard]] NewConstant constant(std::optional<Leaves> joined) noexcept {
        if (!joined) return {Error::undefined_join, {}, 0};
        return constant(*joined);
    }
    template <class Other, detail::IfNoShare<Other> = 0>
    NewConstant constant(const Other&) = delete;  // a constant is made of Leaves (std::uint32_t), a tree text or a join
    template <class Other = std::nullptr_t, detail::IfNoShare<Other> = 0>
    NewConstant constant(std::initializer_list<Other>) = delete;  // in braces too
    NewConstant constant(detail::TwoTexts) = delete;

    // A clause of the first or of the second system. Own variables in the first do not compile.
    [[nodiscard]] Error first(const FirstClause& clause) noexcept { return add(System::first, clause); }
    Error first(const Clause&) =
        delete;  // an own variable, or a Term that may be one, cannot stand in the first system
    [[nodiscard]] Error second(const Clause& clause) noexcept { return add(System::second, clause); }

    // The same where system or terms are known only at run time.
    [[nodiscard]] Error add(System system, const Clause& clause) noexcept {
        if (system > System::second) return Error::unknown_system;
        const auto relation = static_cast<std::size_t>(clause.relation);
        if (relation >= std::size(detail::sorts)) return Error::unknown_relation;
        const bool second = system == System::second;
        if (second && kind() == Kind::satisfiability) return Error::no_second_system;

        const detail::ClauseSort& sort = detail::sorts[relation];
        std::uint8_t& count = clauses_[second][sort.disequation];
        if (sort.disequation && count == most_disequations) return Error::too_many_disequations;
        if (!sort.disequation && count == most_positives) return Error::too_many_positives;

        for (std::size_t i = 0; i < sort.terms; ++i)
            if (const Error error = fault_of(system, clause.terms[i]); error != Error::none) return error;

        std::size_t at = size_ - 1;  // over the end
        bytes_[at++] = sort.command[second];
        for (std::size_t i = 0; i < sort.terms; ++i) bytes_[at++] = byte_of(clause.terms[i]);
        bytes_[at++] = 0x00;
        size_ = at;
        ++count;
        return Error::none;
    }

    Kind kind() const noexcept { return static_cast<Kind>(bytes_[1]); }
    std::size_t free_variables() const noexcept { return bytes_[2]; }
    std::size_t own_variables() const noexcept { return bytes_[3]; }
    std::size_t constants() const noexcept { return constants_; }

    // How many clauses a system has, positive ones and disequations together. It is the ClauseNumber of the next one.
    std::size_t clauses(System system) const noexcept {
        if (system > System::second) return 0;
        const std::uint8_t* const counts = clauses_[static_cast<std::size_t>(system)];
        return std::size_t{counts[0]} + counts[1];
    }

    // The finished string, until the next step.
    Bytes bytes() const& noexcept { return {bytes_.data(), size_}; }
    Bytes bytes() const&& = delete;

  private:
    Error start(Kind kind, std::size_t free, std::size_t own) noexcept {
        if (free > most_variables || own > most_variables - free) return Error::too_many_variables;
        *this = Question();
        bytes_[1] = static_cast<std::uint8_t>(kind);
        bytes_[2] = static_cast<std::uint8_t>(free);
        bytes_[3] = static_cast<std::uint8_t>(own);
        return Error::none;
    }

    // Where a constant's command stands, or is to stand.
    static std::size_t place_of(std::size_t constant) noexcept { return 4 + 5 * constant; }

    Leaves leaves_of(std::size_t constant) const noexcept {
        return detail::leaves_at(bytes_.data() + place_of(constant) + 1);
    }

    void put_constant(Leaves leaves) noexcept {
        const auto place = bytes_.begin() + place_of(constants_);
        const auto end = bytes_.begin() + size_;
        std::copy_backward(place, end, end + 5);
        place[0] = 0x03;
        for (int i = 0; i < 4; ++i) place[1 + i] = static_cast<std::uint8_t>(leaves >> 8 * i & 0xFF);
        size_ += 5;
        ++constants_;
        if (identity_ == 0) identity_ = detail::next_identity();
    }

    Error fault_of(System system, const Term& term) const noexcept {
        if (term.sort_ == Term::Sort::constant) return fault_of(term.constant_);
        const bool own = term.sort_ == Term::Sort::own;
        if (term.number_ >= (own ? own_variables() : free_variables())) return Error::names_nothing;
        return own && system == System::first ? Error::own_variable_in_first : Error::none;
    }

    Error fault_of(const Constant& constant) const noexcept {
        if (constant.question_ == 0) return Error::names_nothing;
        const bool known = constant.question_ == identity_ && constant.number_ < constants_ &&
                           constant.leaves_ == leaves_of(constant.number_);
        return known ? Error::none : Error::foreign_constant;
    }

    std::uint8_t byte_of(const Term& term) const noexcept {
        std::size_t byte = term.number_;
        if (term.sort_ == Term::Sort::own) byte += free_variables();
        if (term.sort_ == Term::Sort::constant) byte = 0x20 + term.constant_.number_;
        return static_cast<std::uint8_t>(byte);
    }

    std::array<std::uint8_t, ZIMORGAL_QUESTION_BYTES> bytes_{0x01, 0x00, 0x00, 0x00, 0x00};  // head and end
    std::size_t size_ = 5;
    std::size_t constants_ = 0;
    std::uint8_t clauses_[2][2] = {};  // by system; positive clauses, then disequations
    std::uint64_t identity_ = 0;       // what its constants carry; 0 before the first of them
};

// A question in the making, without a test after each step. Once a step has an error no further step is taken, until
// the draft is started anew.
class Draft {
  public:
    // Both throw away what is there, an error too, and start anew. They are step 0.
    Draft& start_satisfiability(std::size_t free) noexcept {
        *this = Draft();
        return take([&] { return question_.start_satisfiability(free); });
    }
    Draft& start_entailment(std::size_t free, std::size_t own) noexcept {
        *this = Draft();
        return take([&] { return question_.start_entailment(free, own); });
    }

    Draft& first(const FirstClause& clause) noexcept {
        return take([&] { return question_.first(clause); });
    }
    Draft& first(const Clause&) =
        delete;  // an own variable, or a Term that may be one, cannot stand in the first system
    Draft& second(const Clause& clause) noexcept {
        return take([&] { return question_.second(clause); });
    }
    Draft& add(System system, const Clause& clause) noexcept {
        return take([&] { return question_.add(system, clause); });
    }

    // A constant, also of the finished question. It names nothing if there is an error.
    [[nodiscard]] Constant constant(Leaves leaves) noexcept { return make(leaves); }
    [[nodiscard]] Constant constant(detail::AnyText text) noexcept { return make(text); }
    [[nodiscard]] Constant constant(std::optional<Leaves> joined) noexcept { return make(joined); }
    template <class Other, detail::IfNoShare<Other> = 0>
    Constant constant(const Other&) = delete;  // a constant is made of Leaves (std::uint32_t), a tree text or a join
    template <class Other = std::nullptr_t, detail::IfNoShare<Other> = 0>
    Constant constant(std::initializer_list<Other>) = delete;  // in braces too
    Constant constant(detail::TwoTexts) = delete;

    // The first error since the start, which step had it, from 0, and the place of a fault in a tree text.
    Error error() const noexcept { return error_; }
    std::size_t step() const noexcept { return steps_; }
    std::size_t place() const noexcept { return place_; }

    // How many clauses a system has so far: the ClauseNumber of the next one.
    std::size_t clauses(System system) const noexcept { return question_.clauses(system); }

    // Gives the question if every step was taken. Otherwise it says the first error and leaves `question` as it was.
    [[nodiscard]] Error finish(Question& question) const noexcept {
        if (error_ == Error::none) question = question_;
        return error_;
    }

  private:
    template <class Step>
    Draft& take(Step step) noexcept {
        if (error_ != Error::none) return *this;
        error_ = step();
        if (error_ == Error::none) ++steps_;
        return *this;
    }

    template <class Share>
    Constant make(Share share) noexcept {
        NewConstant made{};
        take([&] {
            made = question_.constant(share);
            place_ = made.place;
            return made.error;
        });
        return made.constant;
    }

    Question question_;
    Error error_ = Error::none;
    std::size_t steps_ = 0;
    std::size_t place_ = 0;
};

// ---------------------------------------------------------------- Results

enum class Verdict : std::uint8_t { refused = ZIMORGAL_REFUSED, yes = ZIMORGAL_YES, no = ZIMORGAL_NO };

enum class Refusal : std::uint8_t {
    none = ZIMORGAL_NOT_REFUSED,
    no_head = ZIMORGAL_NO_HEAD,
    cut_short = ZIMORGAL_CUT_SHORT,
    unknown_command = ZIMORGAL_UNKNOWN_COMMAND,
    out_of_order = ZIMORGAL_OUT_OF_ORDER,
    bad_head = ZIMORGAL_BAD_HEAD,
    too_many_constants = ZIMORGAL_TOO_MANY_CONSTANTS,
    too_many_clauses = ZIMORGAL_TOO_MANY_CLAUSES,
    bad_term = ZIMORGAL_BAD_TERM,
    no_second_system = ZIMORGAL_NO_SECOND_SYSTEM,
    after_the_end = ZIMORGAL_AFTER_THE_END,
    answer_too_short = ZIMORGAL_ANSWER_TOO_SHORT,
    work_too_short = ZIMORGAL_WORK_TOO_SHORT,
    text_too_short = ZIMORGAL_TEXT_TOO_SHORT,
    not_a_row = ZIMORGAL_NOT_A_ROW,
    not_tree_text = ZIMORGAL_NOT_TREE_TEXT,
    not_folded = ZIMORGAL_NOT_FOLDED,
    too_tall = ZIMORGAL_TOO_TALL,
    not_12_rows = ZIMORGAL_NOT_12_ROWS,
    row_not_zero = ZIMORGAL_ROW_NOT_ZERO,
};

enum class Reason : std::uint8_t {
    none = ZIMORGAL_NO_REASON,
    first_unsolvable = ZIMORGAL_FIRST_UNSOLVABLE,
    positives_unmet = ZIMORGAL_POSITIVES_UNMET,
    disequation_unmet = ZIMORGAL_DISEQUATION_UNMET,
};

constexpr std::string_view describe(Verdict verdict) noexcept {
    return zimorgal_describe_verdict(static_cast<int>(verdict));
}
constexpr std::string_view describe(Refusal refusal) noexcept {
    return zimorgal_describe_refusal(static_cast<int>(refusal));
}
constexpr std::string_view describe(Reason reason) noexcept {
    return zimorgal_describe_reason(static_cast<int>(reason));
}

// Fields without a meaning are 0.
struct Result {
    Verdict verdict;
    Refusal refusal;
    unsigned place;   // of a refusal: the offset in the question
    unsigned height;  // given with a shown solution, which is no taller; it goes by the constants that clauses name
    Reason reason;
    DisequationNumber disequation;  // of the second system, for Reason::disequation_unmet: text_of(question, result)
};

// The fields of what zimorgal_ask gives.
constexpr Result decode(std::uint64_t number) noexcept {
    return {static_cast<Verdict>(zimorgal_verdict(number)),
            static_cast<Refusal>(zimorgal_refusal(number)),
            zimorgal_place(number),
            zimorgal_height_given(number),
            static_cast<Reason>(zimorgal_reason(number)),
            DisequationNumber{zimorgal_disequation(number)}};
}

// ---------------------------------------------------------------- Texts

struct Written {
    Refusal refusal;
    std::size_t length;  // 0 if refused
};

// Writes the tree text of a row, without a byte 0 at its end.
inline Written write_text(Bytes row, char* text, std::size_t size) noexcept {
    const std::uint64_t number = zimorgal_text(row.data, row.size, reinterpret_cast<std::uint8_t*>(text), size);
    return {static_cast<Refusal>(zimorgal_text_refusal(number)), zimorgal_text_length(number)};
}

namespace detail {

// A text in a buffer of its own.
template <std::size_t Most>
class FixedText {
  public:
    std::string_view view() const& noexcept { return {text_.data(), length_}; }
    std::string_view view() const&& = delete;

    std::string str() const { return std::string(text_.data(), length_); }

  protected:
    std::array<char, Most> text_;
    std::size_t length_ = 0;
};

// The sort of clause with this command, in either system. Every command of a clause has one.
inline const ClauseSort& sort_of(std::uint8_t command) noexcept {
    return *std::find_if(std::begin(sorts), std::end(sorts), [&](const ClauseSort& sort) {
        return sort.command[0] == command || sort.command[1] == command;
    });
}

// The system of the clause with this command.
inline System system_of(std::uint8_t command) noexcept {
    return command == sort_of(command).command[1] ? System::second : System::first;
}

// A text that is put together from words.
template <std::size_t Most>
class PutText : public FixedText<Most> {
  protected:
    void put(std::string_view words) noexcept {
        words = words.substr(0, Most - this->length_);
        std::copy(words.begin(), words.end(), this->text_.begin() + this->length_);
        this->length_ += words.size();
    }

    // A letter and two digits.
    void put_name(char letter, std::size_t number) noexcept {
        const char name[] = {letter, static_cast<char>('0' + number / 10), static_cast<char>('0' + number % 10)};
        put({name, 3});
    }

    // A number, in decimal.
    void put_number(std::size_t number) noexcept {
        char digits[20];
        std::size_t from = sizeof digits;
        do digits[--from] = static_cast<char>('0' + number % 10);
        while ((number /= 10) > 0);
        put({digits + from, sizeof digits - from});
    }

    // Writes the clause that starts there, each term by a function that is given its byte. Gives the next one's start.
    template <class PutTerm>
    const std::uint8_t* put_clause(const std::uint8_t* at, PutTerm put_term) noexcept {
        const ClauseSort& sort = sort_of(*at++);
        put(sort.words[0]);
        for (std::size_t i = 0; i < sort.terms; ++i) {
            put_term(*at++);
            put(sort.words[i + 1]);
        }
        return at;
    }
};

template <std::size_t Most, class Traits>
std::basic_ostream<char, Traits>& operator<<(std::basic_ostream<char, Traits>& out, const FixedText<Most>& text) {
    return out << text.view();
}

}  // namespace detail

// The tree text of a row, in a buffer in which every one fits. It is empty if there was no row.
class Text : public detail::FixedText<ZIMORGAL_TEXT_BYTES> {
  public:
    explicit Text(Bytes row) noexcept { length_ = write_text(row, text_.data(), text_.size()).length; }
};

namespace detail {

// The row of a constant.
inline std::array<std::uint8_t, ZIMORGAL_ROW_BYTES> row_of(Leaves leaves) noexcept {
    std::array<std::uint8_t, ZIMORGAL_ROW_BYTES> row{};
    for (std::size_t i = 0; i < row.size(); ++i) row[i] = leaves >> i / 4 & 1 ? 0xFF : 0x00;
    return row;
}

}  // namespace detail

// The tree text of a constant.
template <class Share, detail::IfLeaves<Share> = 0>
[[nodiscard]] Text text_of(Share leaves) noexcept {
    const auto row = detail::row_of(leaves);
    return Text({row.data(), row.size()});
}

// No question is longer as text: 12 variables, 32 constants of 94 characters, and all clauses, whose systems alternate.
inline constexpr std::size_t most_question_text = 8233;

// A question as text, for logs. `./ask` of the sources reads it, and it asks the same bytes again. Variables are named
// v00, v01 and so on, the free ones first, and constants c00, c01 and so on.
class QuestionText : public detail::PutText<most_question_text> {
  public:
    explicit QuestionText(const Question& question) noexcept {
        const std::size_t free = question.free_variables(), own = question.own_variables();
        put(question.kind() == Kind::entailment ? "entails\n" : "satisfiable\n");
        put_variables("free", 0, free);
        put_variables("own", free, own);
        const std::uint8_t* at = question.bytes().begin() + 4;
        for (std::size_t number = 0; number < question.constants(); ++number, at += 5) put_constant(number, at + 1);
        System system = System::first;
        while (*at != 0x00) at = put_line(at, system);
        if (question.kind() == Kind::entailment && question.clauses(System::second) == 0) put("then\n");
    }

  private:
    void put_variables(std::string_view word, std::size_t from, std::size_t count) noexcept {
        if (count == 0) return;
        put(word);
        for (std::size_t i = from; i < from + count; ++i) {
            put(" ");
            put_name('v', i);
        }
        put("\n");
    }

    void put_constant(std::size_t number, const std::uint8_t* bytes) noexcept {
        const Text tree = text_of(detail::leaves_at(bytes));
        put("let ");
        put_name('c', number);
        put(" = ");
        put(tree.view());
        put("\n");
    }

    void put_term(std::uint8_t term) noexcept {
        if (term < 0x20)
            put_name('v', term);
        else
            put_name('c', term - std::size_t{0x20});
    }

    // Writes the clause that starts there, after a line that changes the system if it must. Gives the next one's start.
    const std::uint8_t* put_line(const std::uint8_t* at, System& system) noexcept {
        if (const System next = detail::system_of(*at); next != system) {
            system = next;
            put(system == System::second ? "then\n" : "if\n");
        }
        at = put_clause(at, [this](std::uint8_t term) { put_term(term); });
        put("\n");
        return at;
    }
};

[[nodiscard]] inline QuestionText text_of(const Question& question) noexcept { return QuestionText(question); }

template <class Traits>
std::basic_ostream<char, Traits>& operator<<(std::basic_ostream<char, Traits>& out, const Question& question) {
    return out << QuestionText(question);
}

namespace detail {

// Whether a clause of this sort is counted by such a number.
constexpr bool counts(const ClauseSort&, ClauseNumber) noexcept { return true; }
constexpr bool counts(const ClauseSort& sort, DisequationNumber) noexcept { return sort.disequation; }

// Where a clause starts, by its number in its system; nullptr if the system has no such clause.
template <class Thing>
const std::uint8_t* find_clause(const Question& question, System system, Counted<Thing> number) noexcept {
    unsigned before = number.number;
    const std::uint8_t* at = question.bytes().begin() + 4 + 5 * question.constants();
    for (; *at != 0x00; at += 1 + sort_of(*at).terms)
        if (system_of(*at) == system && counts(sort_of(*at), number) && before-- == 0) return at;
    return nullptr;
}

// The leaves of the constant that a term is.
inline Leaves constant_of(const Question& question, std::uint8_t term) noexcept {
    return leaves_at(question.bytes().begin() + 4 + 5 * (term - 0x20) + 1);
}

}  // namespace detail

// No clause is longer as text: a negated join of three constants of 94 characters.
inline constexpr std::size_t most_clause_text = 296;

// One clause of a question as text, by its number in its system. Variables are named as in the text of the question,
// constants are tree texts. It is empty if the system has no such clause.
class ClauseText : public detail::PutText<most_clause_text> {
  public:
    ClauseText() noexcept = default;
    template <class Thing>
    ClauseText(const Question& question, System system, detail::Counted<Thing> number) noexcept {
        const std::uint8_t* const at = detail::find_clause(question, system, number);
        if (at != nullptr) put_clause(at, [&](std::uint8_t term) { put_term(question, term); });
    }

  private:
    void put_term(const Question& question, std::uint8_t term) noexcept {
        if (term < 0x20) {
            put_name('v', term);
        } else {
            const Text tree = text_of(detail::constant_of(question, term));
            put(tree.view());
        }
    }
};

[[nodiscard]] inline ClauseText text_of(const Question& question, System system, ClauseNumber number) noexcept {
    return ClauseText(question, system, number);
}
[[nodiscard]] inline ClauseText text_of(const Question& question, System system, DisequationNumber number) noexcept {
    return ClauseText(question, system, number);
}

// The clause that a result of this question names: the disequation of the second system that cannot always be had, for
// Reason::disequation_unmet. Every other result names none, and the text is empty.
[[nodiscard]] inline ClauseText text_of(const Question& question, const Result& result) noexcept {
    if (result.reason != Reason::disequation_unmet) return {};
    return text_of(question, System::second, result.disequation);
}

// ---------------------------------------------------------------- Asking

// The two buffers that a call is lent. One for each thread that asks.
struct Workspace {
    std::array<std::uint8_t, ZIMORGAL_ANSWER_BYTES> answer{};
    std::array<std::uint8_t, ZIMORGAL_WORK_BYTES> work{};
};

// A shown solution, to be read from the workspace that the question was asked with, until the next asking with it: of
// several the fixed one, so that the same question always shows the same. Empty if none is shown.
class Solution {
  public:
    Solution() noexcept = default;
    Solution(const Workspace& workspace, std::size_t variables) noexcept
        : workspace_(&workspace), variables_(variables) {}
    Solution(const Workspace&&, std::size_t) = delete;

    explicit operator bool() const noexcept { return workspace_ != nullptr; }

    // How many free variables it gives a share.
    std::size_t variables() const noexcept { return variables_; }

    // The 128 bytes of a share, unfolded to height 10; none if the solution has no such variable.
    Bytes row(Free variable) const noexcept {
        if (variable.number >= variables_) return {nullptr, 0};
        const auto& answer = workspace_->answer;
        const std::uint64_t part = zimorgal_row(answer.data(), answer.size(), variable.number);
        return {answer.data() + zimorgal_row_offset(part), zimorgal_row_length(part)};
    }

    // All 12 rows, as judging takes them; none if no solution is shown.
    Bytes bytes() const noexcept {
        if (workspace_ == nullptr) return {nullptr, 0};
        return {workspace_->answer.data(), ZIMORGAL_ROWS_BYTES};
    }

    // The tree text of a share, in a buffer of its own or in the caller's. Refusal::not_a_row if there is no such
    // variable.
    Text text(Free variable) const noexcept { return Text(row(variable)); }
    Written text(Free variable, char* text, std::size_t size) const noexcept {
        return write_text(row(variable), text, size);
    }

  private:
    const Workspace* workspace_ = nullptr;
    std::size_t variables_ = 0;
};

struct Answer {
    Result result;
    Solution solution;
};

// Asks a question in bytes, from wherever it comes. They lie outside the workspace.
[[nodiscard]] inline Answer ask(Bytes question, Workspace& workspace) noexcept {
    const std::uint64_t number = zimorgal_ask(question.data, question.size, workspace.answer.data(),
                                              workspace.answer.size(), workspace.work.data(), workspace.work.size());
    const Result result = decode(number);
    // One that is not refused has a head, with the kind at byte 1 and the number of free variables at byte 2.
    if (result.verdict == Verdict::refused || !zimorgal_shows(number, question.data[1])) return {result, {}};
    return {result, Solution(workspace, question.data[2])};
}

[[nodiscard]] inline Answer ask(const Question& question, Workspace& workspace) noexcept {
    return ask(question.bytes(), workspace);
}

// ---------------------------------------------------------------- Judging

struct SetShare {
    Error error;
    std::size_t place;  // of a fault in the tree text
};

namespace detail {

// Why a text is no tree text of a row, and where. The faults have the order that they have in the text of a constant.
inline SetShare fault_of_row_text(std::string_view text) noexcept {
    constexpr std::size_t most = ZIMORGAL_TEXT_BYTES;
    if (const Scanned read = scan<most>(text, most); !read.whole) return {Error::not_row_text, read.at};
    if (const std::size_t place = place_to_fold(text); place != text.npos) return {Error::not_folded, place};
    if (const Scanned read = scan<most>(text, tallest_row); !read.whole) return {Error::row_too_tall, read.at};
    return {Error::none, 0};
}

}  // namespace detail

// Rows to be judged, whoever found them: a share for each free variable, the empty one where none was set.
//
//     Rows rows;
//     if (const SetShare set = rows.set(left, "(*(o*))"); set.error != Error::none) ..
//     const Judged judged = judge(question, rows);
//     if (judged.clause) std::cout << "broken: " << text_of(question, System::first, *judged.clause) << '\n';
//     if (judged.failing) std::cout << describe(judged.failing->way) << ", at leaf " << judged.failing->leaf << '\n';
//     std::cout << text_of(question, rows, judged) << '\n';  // all of it, as one line
class Rows {
  public:
    // The share of a variable: its leaves, its tree text, at most ten pairs deep, a join, set(v, join(a, b)), or the
    // 128 bytes of its row. With an error the rows are left as they were. A variable above 11 names nothing; one that
    // the question has not as a free one is refused by judging, unless its share is empty. A tree text is read here and
    // not by the library, whose reader stops at height 5: it is tested, not proved.
    [[nodiscard]] SetShare set(Free variable, Leaves leaves) noexcept {
        const auto row = detail::row_of(leaves);
        return set(variable, Bytes{row.data(), row.size()});
    }
    [[nodiscard]] SetShare set(Free variable, detail::AnyText text) noexcept {
        if (variable.number >= most_variables) return {Error::names_nothing, 0};
        if (const SetShare fault = detail::fault_of_row_text(text.view); fault.error != Error::none) return fault;
        put_tree(start_of(variable), text.view);
        return {Error::none, 0};
    }
    [[nodiscard]] SetShare set(Free variable, std::optional<Leaves> joined) noexcept {
        if (variable.number >= most_variables) return {Error::names_nothing, 0};
        if (!joined) return {Error::undefined_join, 0};
        return set(variable, *joined);
    }
    [[nodiscard]] SetShare set(Free variable, Bytes row) noexcept {
        if (variable.number >= most_variables) return {Error::names_nothing, 0};
        if (row.size != ZIMORGAL_ROW_BYTES) return {Error::not_a_row, 0};
        std::memmove(start_of(variable), row.data, row.size);
        return {Error::none, 0};
    }
    template <class Other, detail::IfNoShare<Other> = 0>
    SetShare set(Free, const Other&) = delete;  // a share is Leaves (std::uint32_t), a tree text, a join or a row
    template <class Other = std::nullptr_t, detail::IfNoShare<Other> = 0>
    SetShare set(Free, std::initializer_list<Other>) = delete;  // in braces too
    SetShare set(Free, detail::TwoTexts) = delete;

    // The 128 bytes of a share, until the next step, and its tree text; none for a variable above 11.
    Bytes row(Free variable) const& noexcept {
        if (variable.number >= most_variables) return {nullptr, 0};
        return {bytes_.data() + ZIMORGAL_ROW_BYTES * variable.number, ZIMORGAL_ROW_BYTES};
    }
    Bytes row(Free) const&& = delete;
    Text text(Free variable) const noexcept { return Text(row(variable)); }

    // All 12 rows, until the next step.
    Bytes bytes() const& noexcept { return {bytes_.data(), bytes_.size()}; }
    Bytes bytes() const&& = delete;

  private:
    std::uint8_t* start_of(Free variable) noexcept { return bytes_.data() + ZIMORGAL_ROW_BYTES * variable.number; }

    // Puts a tree, leaf by leaf of its text: one inside of k pairs stands for 2^(10-k) leaves of the row.
    static void put_tree(std::uint8_t* row, std::string_view text) noexcept {
        std::fill_n(row, ZIMORGAL_ROW_BYTES, std::uint8_t{0});
        std::size_t pairs = 0, leaf = 0;
        for (const char sign : text) {
            if (sign == '(') {
                ++pairs;
            } else if (sign == ')') {
                --pairs;
            } else {
                const std::size_t width = std::size_t{1} << (detail::tallest_row - pairs);
                if (sign == '*') put_full(row, leaf, width);
                leaf += width;
            }
        }
    }

    // Fills so many leaves from one on.
    static void put_full(std::uint8_t* row, std::size_t from, std::size_t width) noexcept {
        for (std::size_t i = from; i < from + width; ++i)
            row[i / 8] = static_cast<std::uint8_t>(row[i / 8] | 1u << i % 8);
    }

    std::array<std::uint8_t, ZIMORGAL_ROWS_BYTES> bytes_{};
};

enum class Judgement : std::uint8_t {
    refused = ZIMORGAL_NOT_JUDGED,
    accepted = ZIMORGAL_ROWS_ACCEPTED,
    broken = ZIMORGAL_CLAUSE_BROKEN,
    extends = ZIMORGAL_ROWS_EXTEND,
};

constexpr std::string_view describe(Judgement judgement) noexcept {
    return zimorgal_describe_judgement(static_cast<int>(judgement));
}

// How the test of a positive clause comes out at one leaf. There it reads as a join of two parts that give a sum:
// equal(a, b) as a join empty is b, may_write(a) as a join empty is full; together(a, b) has the parts a and b, whatever
// they give.
enum class Way : std::uint8_t {
    holds = ZIMORGAL_HOLDS,
    overlap = ZIMORGAL_OVERLAP,      // both parts are full
    surplus = ZIMORGAL_SURPLUS,      // just one part is full, and the sum is empty
    shortfall = ZIMORGAL_SHORTFALL,  // both parts are empty, and the sum is full
};

constexpr std::string_view describe(Way way) noexcept { return zimorgal_describe_way(static_cast<int>(way)); }

// Where and how a positive clause fails.
struct Failing {
    Way way;           // at this leaf; never Way::holds
    std::size_t leaf;  // the leftmost of the rows at which it fails, 0 to 1,023
};

// Fields without a meaning are 0, and the clause and its failing are none.
struct Judged {
    Judgement judgement;
    Refusal refusal;
    unsigned place;  // of a refusal: the offset in the question
    // For Judgement::broken: the lowest clause of the first system that does not hold.
    std::optional<ClauseNumber> clause;
    // Of that clause if it is a positive one. A disequation fails because what it negates holds at every leaf.
    std::optional<Failing> failing = std::nullopt;
};

// The fields of what zimorgal_judge gives.
constexpr Judged decode_judged(std::uint64_t number) noexcept {
    const auto judgement = static_cast<Judgement>(zimorgal_judgement(number));
    const bool broken = judgement == Judgement::broken;
    const std::optional<ClauseNumber> clause = ClauseNumber{zimorgal_broken_clause(number)};
    const auto way = static_cast<Way>(zimorgal_broken_way(number));
    const std::optional<Failing> failing = Failing{way, zimorgal_broken_leaf(number)};
    return {judgement, static_cast<Refusal>(zimorgal_refusal(number)), zimorgal_place(number),
            broken ? clause : std::nullopt, broken && way != Way::holds ? failing : std::nullopt};
}

// Judges rows as a solution of a question: bytes from wherever they come, rows that were put together, or a shown
// solution. The question too may be bytes. For a satisfiability the rows are accepted exactly if they solve the system;
// for an entailment exactly if they solve the first system and no own shares of any height extend them to the second. A
// solution that asking shows is accepted by the question that was asked; an empty one has no rows, and is refused by
// Refusal::not_12_rows.
[[nodiscard]] inline Judged judge(Bytes question, Bytes rows) noexcept {
    return decode_judged(zimorgal_judge(question.data, question.size, rows.data, rows.size));
}
[[nodiscard]] inline Judged judge(Bytes question, const Rows& rows) noexcept { return judge(question, rows.bytes()); }
[[nodiscard]] inline Judged judge(Bytes question, const Solution& solution) noexcept {
    return judge(question, solution.bytes());
}
[[nodiscard]] inline Judged judge(const Question& question, Bytes rows) noexcept {
    return judge(question.bytes(), rows);
}
[[nodiscard]] inline Judged judge(const Question& question, const Rows& rows) noexcept {
    return judge(question.bytes(), rows.bytes());
}
[[nodiscard]] inline Judged judge(const Question& question, const Solution& solution) noexcept {
    return judge(question.bytes(), solution.bytes());
}

// ---------------------------------------------------------------- At a leaf of the rows

namespace detail {

inline constexpr std::size_t row_leaves = std::size_t{1} << tallest_row;

}  // namespace detail

// Whether a share is full at a leaf of the rows, 0 to 1,023: that of a row, full_at(rows.row(v), leaf), or of a constant,
// full_at(c.leaves(), leaf), each leaf of which is 32 of them. No share is full at another leaf, nor is what is no row.
[[nodiscard]] constexpr bool full_at(Bytes row, std::size_t leaf) noexcept {
    return row.size == ZIMORGAL_ROW_BYTES && leaf < detail::row_leaves && (row.data[leaf / 8] >> leaf % 8 & 1) != 0;
}
template <class Share, detail::IfLeaves<Share> = 0>
[[nodiscard]] constexpr bool full_at(Share leaves, std::size_t leaf) noexcept {
    return leaf < detail::row_leaves && (leaves >> leaf / 32 & 1) != 0;
}

// The path from the root to a leaf of the rows, as ten letters: L to the left half, R to the right. Whoever follows it in
// a tree text may reach a leaf sooner. It is empty for a leaf above 1,023.
class PathText : public detail::FixedText<detail::tallest_row> {
  public:
    explicit PathText(std::size_t leaf) noexcept {
        if (leaf >= detail::row_leaves) return;
        for (std::size_t half = detail::row_leaves / 2; half > 0; half /= 2)
            text_[length_++] = (leaf & half) != 0 ? 'R' : 'L';
    }
};

// The path to the leaf at which a clause fails.
[[nodiscard]] inline PathText path_of(const Failing& failing) noexcept { return PathText(failing.leaf); }

// No judgement is longer as text: a shortfall of a join of three constants of 94 characters, at a leaf of four digits.
inline constexpr std::size_t most_judged_text = 447;

// What judging rows for a question gave, as one line for logs: the judgement, the refusal or the broken clause; of a
// positive one also how it fails, at which leaf, the path to it, and the clause with the values there, o or *:
//
//     rejected: a clause of the first system is broken, number 3: v02 with v03; overlap: both parts are full, at leaf
//     768, RRLLLLLLLL: * with *
class JudgedText : public detail::PutText<most_judged_text> {
  public:
    JudgedText(const Question& question, Bytes rows, const Judged& judged) noexcept {
        put(describe(judged.judgement));
        if (judged.judgement == Judgement::refused) {
            put(": ");
            put(describe(judged.refusal));
        }
        if (judged.clause) put_broken(question, *judged.clause);
        if (judged.clause && judged.failing) put_failing(question, rows, *judged.clause, *judged.failing);
    }

  private:
    void put_broken(const Question& question, ClauseNumber number) noexcept {
        const ClauseText clause = text_of(question, System::first, number);
        put(", number ");
        put_number(number.number);
        put(": ");
        put(clause.view());
    }

    void put_failing(const Question& question, Bytes rows, ClauseNumber number, const Failing& failing) noexcept {
        const PathText path = path_of(failing);
        put("; ");
        put(describe(failing.way));
        put(", at leaf ");
        put_number(failing.leaf);
        put(", ");
        put(path.view());
        put(": ");
        if (const std::uint8_t* const at = detail::find_clause(question, System::first, number); at != nullptr)
            put_clause(at, [&](std::uint8_t term) { put(full(question, rows, term, failing.leaf) ? "*" : "o"); });
    }

    static bool full(const Question& question, Bytes rows, std::uint8_t term, std::size_t leaf) noexcept {
        if (term >= 0x20) return full_at(detail::constant_of(question, term), leaf);
        const std::size_t start = ZIMORGAL_ROW_BYTES * std::size_t{term};
        return rows.size == ZIMORGAL_ROWS_BYTES && full_at(Bytes{rows.data + start, ZIMORGAL_ROW_BYTES}, leaf);
    }
};

// The rows are those that were judged for the question.
[[nodiscard]] inline JudgedText text_of(const Question& question, Bytes rows, const Judged& judged) noexcept {
    return JudgedText(question, rows, judged);
}
[[nodiscard]] inline JudgedText text_of(const Question& question, const Rows& rows, const Judged& judged) noexcept {
    return JudgedText(question, rows.bytes(), judged);
}
[[nodiscard]] inline JudgedText text_of(const Question& question, const Solution& solution,
                                        const Judged& judged) noexcept {
    return JudgedText(question, solution.bytes(), judged);
}

}  // namespace zimorgal

#endif

#endif
