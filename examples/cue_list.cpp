// Two threads of a lighting desk hold parts of a cue list. This program asks what an analyser would ask before it lets
// a third thread in or lets the next line write, and judges what another prover found.
//
//     g++ -std=c++17 -Iinclude examples/cue_list.cpp crates/zimorgal/out/libzimorgal.a -o cue_list && ./cue_list
//
// It writes examples/cue_list.out.
#include <cstdlib>
#include <initializer_list>
#include <iomanip>
#include <iostream>

#include "zimorgal.hpp"

using zimorgal::Constant;
using zimorgal::Error;
using zimorgal::Free;
using zimorgal::Own;
using zimorgal::Question;

namespace {

// The free variables of the questions here.
constexpr Free lights{0};    // the part that the thread of the lights holds
constexpr Free sound{1};     // the part that the thread of the sound holds
constexpr Free both{2};      // what the two have together
constexpr Free recorder{3};  // the part that a third thread holds
constexpr const char* names[] = {"lights", "sound", "both", "recorder"};

// No step here can fail; one that does is a mistake in this program.
void take(Error error) {
    if (error == Error::none) return;
    std::cerr << "not taken: " << describe(error) << '\n';
    std::exit(1);
}

Constant take(zimorgal::NewConstant made) {
    take(made.error);
    return made.constant;
}

// The parts of the lights and of the sound join, and both threads may read.
void two_threads(Question& question) {
    take(question.first(join(lights, sound, both)));
    take(question.first(may_read(lights)));
    take(question.first(may_read(sound)));
}

// A third thread may read beside them.
void third_thread(Question& question) {
    take(question.first(together(both, recorder)));
    take(question.first(may_read(recorder)));
}

// Asks, and writes the verdict and what is shown with it.
void report(const char* asked, const Question& question, zimorgal::Workspace& workspace) {
    const auto [result, solution] = ask(question, workspace);
    std::cout << asked << '\n' << "  " << describe(result.verdict);
    if (result.reason != zimorgal::Reason::none) std::cout << ": " << describe(result.reason);
    if (result.reason == zimorgal::Reason::disequation_unmet) std::cout << ", here: " << text_of(question, result);
    std::cout << '\n';
    if (!solution) return;
    std::cout << "  for instance, no taller than " << result.height << ":\n";
    for (std::size_t i = 0; i < solution.variables(); ++i)
        std::cout << "    " << std::left << std::setw(10) << names[i] << solution.text(Free{i}) << '\n';
}

// Judges what another prover found, a tree text for each free variable, and writes what comes of it.
void report_judged(const char* judged, const Question& question, std::initializer_list<const char*> found) {
    std::cout << judged << '\n';
    zimorgal::Rows rows;
    std::size_t variable = 0;
    for (const char* const share : found) {
        std::cout << "    " << std::left << std::setw(10) << names[variable] << share << '\n';
        take(rows.set(Free{variable++}, share).error);
    }
    const zimorgal::Judged result = judge(question, rows);
    std::cout << "  " << text_of(question, rows, result) << '\n';
    if (!result.failing) return;
    std::cout << "  at leaf " << result.failing->leaf << ":\n";
    for (std::size_t i = 0; i < variable; ++i)
        std::cout << "    " << std::left << std::setw(10) << names[i]
                  << (full_at(rows.row(Free{i}), result.failing->leaf) ? "full" : "empty") << '\n';
}

// What another prover found: that a third thread may read, and that there is not always a part left.
void other_prover() {
    Question question;
    take(question.start_satisfiability(4));
    two_threads(question);
    third_thread(question);
    report_judged("Another prover lets the third thread read. Is it right?", question,
                  {"((*o)o)", "((o*)o)", "(*o)", "(o*)"});
    report_judged("And these parts?", question, {"(*o)", "(o*)", "*", "(o(o*))"});

    take(question.start_entailment(3, 1));
    const Own rest{0};
    two_threads(question);
    take(question.second(together(both, rest)));
    take(question.second(may_read(rest)));
    report_judged("Another prover says that there may be no part left. Is it right?", question, {"(*o)", "(o*)", "*"});
    report_judged("And these parts?", question, {"(*o)", "(o(*o))", "(*(*o))"});
    report_judged("And with a part for the recorder, which that question has not?", question,
                  {"(*o)", "o", "(*o)", "(o*)"});
}

// May threads hold such parts at once?
void at_once(zimorgal::Workspace& workspace) {
    Question question;
    take(question.start_satisfiability(4));
    two_threads(question);
    third_thread(question);
    report("Two threads may read the cue list. May a third read it as well?", question, workspace);

    take(question.start_satisfiability(4));
    two_threads(question);
    third_thread(question);
    take(question.first(may_write(both)));
    report("And if the two together may write the list?", question, workspace);

    take(question.start_satisfiability(2));
    take(question.first(may_write(lights)));
    take(question.first(may_read(sound)));
    take(question.first(together(lights, sound)));
    report("The lights may write the list, and the sound may read it. May their parts be held together?", question,
           workspace);
}

// What follows from the parts that the two threads hold?
void what_follows(zimorgal::Workspace& workspace) {
    Question question;
    take(question.start_entailment(3, 0));
    two_threads(question);
    take(question.second(may_write(both)));
    report("The sound gives its part to the lights. May the next line of the lights write the list?", question,
           workspace);

    take(question.start_entailment(3, 0));
    const Constant left = take(question.constant("(*o)"));
    const Constant right = take(question.constant("(o*)"));
    two_threads(question);
    take(question.first(equal(lights, left)));
    take(question.first(equal(sound, right)));
    take(question.second(may_write(both)));
    report("And if the list was split between them, left half and right half?", question, workspace);

    take(question.start_entailment(3, 1));
    const Own rest{0};
    two_threads(question);
    take(question.second(together(both, rest)));
    take(question.second(may_read(rest)));
    report("Is there always a part left with which one thread more may read?", question, workspace);
}

}  // namespace

int main() {
    zimorgal::Workspace workspace;
    at_once(workspace);
    what_follows(workspace);
    other_prover();
}
