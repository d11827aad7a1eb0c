// SPEC 12.13: which share joins the left half to the full one? Writes it.
#include <iostream>
#include <zimorgal.hpp>

int main() {
    using namespace zimorgal;
    const Free share{0};
    Draft draft;
    draft.start_satisfiability(1);
    draft.first(join(share, draft.constant("(*o)"), draft.constant("*")));
    Question question;
    if (draft.finish(question) != Error::none) return 1;

    Workspace workspace;
    const auto [result, solution] = ask(question, workspace);
    std::cout << describe(result.verdict) << ' ' << solution.text(share) << '\n';
}
