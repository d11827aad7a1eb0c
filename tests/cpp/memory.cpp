// Under MemorySanitizer, which ends the program where it depends on a byte that nobody has written: every byte that the
// library writes counts as written, in C++ and by the calls of C, and no other byte does. The last line is 'N passed, M
// failed'.
#include <sanitizer/msan_interface.h>

#include <cstdio>
#include <vector>

#include "zimorgal.hpp"

using namespace zimorgal;

namespace {

int passed = 0, failed = 0;

void check(bool holds, const char* what) {
    ++(holds ? passed : failed);
    if (!holds) std::printf("FAILED %s\n", what);
}

// How many bytes of a part, from its first on, count as written.
std::size_t written(const void* part, std::size_t size) {
    const auto first_not = __msan_test_shadow(part, size);
    return first_not < 0 ? size : static_cast<std::size_t>(first_not);
}

constexpr Free v0{0};

// v0 joins the left half to the full share: it is the right half.
Question satisfiable() {
    Draft draft;
    draft.start_satisfiability(1).first(join(v0, draft.constant("(*o)"), draft.constant("*")));
    Question question;
    check(draft.finish(question) == Error::none, "a question");
    return question;
}

// A part of so many bytes, none of which counts as written.
std::vector<std::uint8_t> unwritten(std::size_t size) {
    std::vector<std::uint8_t> part(size);
    __msan_poison(part.data(), size);
    return part;
}

void of_a_solution() {
    Workspace workspace;
    __msan_poison(&workspace, sizeof workspace);
    const auto [result, solution] = ask(satisfiable(), workspace);
    check(result.verdict == Verdict::yes && solution, "asked");
    check(written(workspace.answer.data(), ZIMORGAL_ANSWER_BYTES) == ZIMORGAL_ANSWER_BYTES, "the rows that are shown");
    check(written(workspace.work.data(), ZIMORGAL_WORK_BYTES) == ZIMORGAL_WORK_BYTES, "the work area");
    const Text text = solution.text(v0);
    check(text.view() == "(o*)", "a text is compared");
    char own[8];
    const Written by_caller = solution.text(v0, own, sizeof own);
    check(by_caller.length == 4 && own[3] == ')' && written(own, sizeof own) == 4, "a text in the caller's buffer");
    check(text_of(satisfiable()).str().size() > 40 && text_of(0xFFFF0000u).str() == "(o*)", "other texts");
    check(judge(satisfiable(), solution).judgement == Judgement::accepted, "judged");
}

// The bytes that the calls leave as they were do not count as written.
void of_the_calls() {
    const Question question = satisfiable();
    const Bytes bytes = question.bytes();
    std::vector<std::uint8_t> answer = unwritten(1600), work = unwritten(4100), text = unwritten(3070);
    const std::uint64_t refused = zimorgal_ask(bytes.data, bytes.size - 1, answer.data(), 1600, work.data(), 4100);
    check(
        zimorgal_verdict(refused) == ZIMORGAL_REFUSED && written(answer.data(), 1) == 0 && written(work.data(), 1) == 0,
        "a refusal writes nothing");
    const std::uint64_t result = zimorgal_ask(bytes.data, bytes.size, answer.data(), 1600, work.data(), 4100);
    check(zimorgal_verdict(result) == ZIMORGAL_YES && written(answer.data(), 1600) == 1536 &&
              written(work.data(), 4100) == 4096,
          "the first 1,536 bytes of an answer and 4,096 of a work area");
    const std::uint64_t too_long = zimorgal_text(answer.data(), ZIMORGAL_ROW_BYTES, text.data(), 3);
    check(zimorgal_text_refusal(too_long) == ZIMORGAL_TEXT_TOO_SHORT && written(text.data(), 1) == 0,
          "a text that does not fit is not written");
    const std::uint64_t told = zimorgal_text(answer.data(), ZIMORGAL_ROW_BYTES, text.data(), text.size());
    check(zimorgal_text_length(told) == 4 && written(text.data(), text.size()) == 4, "a text as long as it is");

    const std::uint8_t entailed[] = {0x01, 0x01, 0x01, 0x00, 0x00};
    __msan_poison(answer.data(), 1600);
    const std::uint64_t yes = zimorgal_ask(entailed, sizeof entailed, answer.data(), 1600, work.data(), 4100);
    check(zimorgal_verdict(yes) == ZIMORGAL_YES && written(answer.data(), 1) == 0, "nothing shown is nothing written");
}

}  // namespace

int main() {
    of_a_solution();
    of_the_calls();
    std::printf("%d passed, %d failed\n", passed, failed);
    return failed == 0 ? 0 : 1;
}
