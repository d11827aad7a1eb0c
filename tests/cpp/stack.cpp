// The stack that a call takes: threads with exactly ZIMORGAL_STACK_BYTES of it, and nothing that can be read or written
// below, ask the dearest shapes of questions, judge rows for them and read the deepest tree texts. What they touched is
// measured too: it must leave a quarter, and judging must take under 16 KB and any other call under 8 KB, that is, a
// thread that calls more than one that does nothing. By itself, from the repository's top folder:
//
//     g++ -std=c++17 -O1 -pthread -Iinclude tests/cpp/stack.cpp crates/zimorgal/out/libzimorgal.a -o stack && ./stack
//
// The last line is 'N passed, M failed'. A stack that is too small ends the program by a signal.
#include <pthread.h>
#include <sys/mman.h>

#include <algorithm>
#include <cstdio>
#include <cstring>
#include <string>
#include <vector>

#include "zimorgal.hpp"

using namespace zimorgal;

namespace {

constexpr std::uint8_t paint = 0xA5;
constexpr std::size_t guard = 1 << 20;

struct Shape {
    const char* name;
    Question question;
    Verdict verdict;
    Reason reason;
};

bool made = true;

void take(Error error) { made = made && error == Error::none; }

Question entailment(std::size_t free, std::size_t own) {
    Question question;
    take(question.start_entailment(free, own));
    return question;
}

// Every search, every reason, few and many disequations, all variables free or some of them own, all leaves unlike.
std::vector<Shape> shapes() {
    const Free free{0}, last{11};
    const Own own{0};
    std::vector<Shape> all;

    Question question = entailment(6, 6);
    Constant tall = question.constant(1u).constant;
    for (int i = 0; i < 31; ++i) take(question.first(not_equal(free, tall)));
    for (int i = 0; i < 30; ++i) take(question.second(not_equal(own, tall)));
    take(question.second(not_equal(free, question.constant(empty_share).constant)));
    all.push_back({"the last of 31 disequations, 6 own", question, Verdict::no, Reason::disequation_unmet});

    question = entailment(12, 0);
    tall = question.constant(0x55555555u).constant;
    for (int i = 0; i < 31; ++i) take(question.first(not_equal(free, last)));
    for (int i = 0; i < 30; ++i) take(question.second(not_equal(last, free)));
    take(question.second(not_equal(free, tall)));
    all.push_back({"the last of 31 disequations, 12 free", question, Verdict::no, Reason::disequation_unmet});

    question = entailment(12, 0);
    tall = question.constant(0x55555555u).constant;
    take(question.second(not_equal(free, tall)));
    all.push_back({"one disequation, 12 free", question, Verdict::no, Reason::disequation_unmet});

    question = entailment(12, 0);
    tall = question.constant(0x55555555u).constant;
    for (int i = 0; i < 31; ++i) take(question.first(not_join(free, last, tall)));
    for (int i = 0; i < 64; ++i) take(question.second(join(free, last, tall)));
    all.push_back({"positive clauses not met", question, Verdict::no, Reason::positives_unmet});

    question = entailment(0, 12);
    tall = question.constant(0x55555555u).constant;
    for (int i = 0; i < 64; ++i) take(question.second(join(own, Own{11}, tall)));
    for (int i = 0; i < 31; ++i) take(question.second(not_equal(own, tall)));
    all.push_back({"entailed, 12 own", question, Verdict::yes, Reason::none});

    question = entailment(12, 0);
    tall = question.constant(0x55555555u).constant;
    take(question.first(join(free, free, tall)));
    all.push_back({"no solution of the first", question, Verdict::yes, Reason::first_unsolvable});

    question = entailment(6, 6);
    tall = question.constant(0x55555555u).constant;
    for (int i = 0; i < 31; ++i) take(question.first(may_read(free)));
    for (int i = 0; i < 64; ++i) take(question.first(together(free, tall)));
    for (int i = 0; i < 63; ++i) take(question.second(together(free, own)));
    take(question.second(together(tall, own)));
    for (int i = 0; i < 31; ++i) take(question.second(may_read(own)));
    all.push_back({"no part left to read with, 6 own", question, Verdict::no, Reason::disequation_unmet});

    question = Question();
    take(question.start_satisfiability(12));
    tall = question.constant(0x55555555u).constant;
    for (int i = 0; i < 31; ++i) take(question.first(not_equal(free, tall)));
    for (int i = 0; i < 64; ++i) take(question.first(join(free, last, tall)));
    all.push_back({"satisfiable, 12 free", question, Verdict::yes, Reason::none});
    take(question.start_satisfiability(12));
    tall = question.constant(0x55555555u).constant;
    take(question.first(equal(free, last)));
    take(question.first(join(free, last, tall)));
    all.push_back({"not satisfiable", question, Verdict::no, Reason::none});
    return all;
}

struct TreeText {
    const char* name;
    std::string text;
    Error error;
};

// Pairs in pairs, as many as a text of 94 characters can have.
std::vector<TreeText> tree_texts() {
    std::string left = std::string(31, '(') + 'o', right;
    for (int i = 0; i < 31; ++i) {
        left += "*)";
        right += "(o";
    }
    right += '*' + std::string(31, ')');
    return {{"pairs that are only opened", std::string(94, '('), Error::not_tree_text},
            {"pairs that are left halves", left, Error::too_tall},
            {"pairs that are right halves", right, Error::too_tall}};
}

struct Run {
    const Shape* shape;
    const TreeText* text;
    Parsed parsed;
    Workspace workspace;
    Result result;
    std::size_t length;
    Bytes rows;
    Judged judged;
};

// Does nothing, so that what a thread takes for itself is known.
void* do_nothing(void*) { return nullptr; }

// Asks with buffers elsewhere.
void* ask_only(void* argument) {
    Run& run = *static_cast<Run*>(argument);
    run.result = ask(run.shape->question, run.workspace).result;
    return nullptr;
}

// Asks as a C++ program does, with everything on this stack, and writes a tree text.
void* ask_with_all(void* argument) {
    Run& run = *static_cast<Run*>(argument);
    Workspace workspace;
    const Question question = run.shape->question;
    const Answer answer = ask(question, workspace);
    run.result = answer.result;
    const Text text = answer.solution.text(Free{0});
    run.length = text.view().size();
    return nullptr;
}

// Judges rows that lie elsewhere.
void* judge_only(void* argument) {
    Run& run = *static_cast<Run*>(argument);
    run.judged = judge(run.shape->question, run.rows);
    return nullptr;
}

// Puts rows together from tree texts, judges them and writes what comes of it, with everything on this stack.
void* judge_with_all(void* argument) {
    Run& run = *static_cast<Run*>(argument);
    const Question question = run.shape->question;
    Rows rows;
    for (std::size_t i = 0; i < question.free_variables(); ++i) {
        const Text text(Bytes{run.rows.data + ZIMORGAL_ROW_BYTES * i, ZIMORGAL_ROW_BYTES});
        if (rows.set(Free{i}, text.view()).error != Error::none) return nullptr;
    }
    run.judged = judge(question, rows);
    const ClauseText clause = text_of(question, System::first, run.judged.clause.value_or(ClauseNumber{0}));
    const JudgedText line = text_of(question, rows, run.judged);
    run.length = clause.view().size() + line.view().size();
    return nullptr;
}

void* read_text(void* argument) {
    Run& run = *static_cast<Run*>(argument);
    run.parsed = from_text(run.text->text);
    return nullptr;
}

// Runs a thread with that much stack, and gives how much of it was touched; 0 if there is no such thread.
std::size_t touched(std::size_t size, void* (*call)(void*), Run& run) {
    void* const memory = mmap(nullptr, guard + size, PROT_NONE, MAP_PRIVATE | MAP_ANONYMOUS, -1, 0);
    if (memory == MAP_FAILED) return 0;
    auto* const stack = static_cast<std::uint8_t*>(memory) + guard;
    pthread_attr_t attributes;
    pthread_t thread;
    std::size_t used = 0;
    if (mprotect(stack, size, PROT_READ | PROT_WRITE) == 0 && pthread_attr_init(&attributes) == 0) {
        std::memset(stack, paint, size);
        if (pthread_attr_setstack(&attributes, stack, size) == 0 &&
            pthread_create(&thread, &attributes, call, &run) == 0 && pthread_join(thread, nullptr) == 0)
            used = static_cast<std::size_t>(
                stack + size - std::find_if(stack, stack + size, [](std::uint8_t byte) { return byte != paint; }));
        pthread_attr_destroy(&attributes);
    }
    munmap(memory, guard + size);
    return used;
}

// ---------------------------------------------------------------- What is touched at most

int passed = 0, failed = 0;

void check(bool holds, const char* what, const char* name) {
    ++(holds ? passed : failed);
    if (!holds) std::printf("FAILED %s: %s\n", what, name);
}

// By a thread that asks, judges or reads a tree text, with buffers elsewhere or with all on its stack.
struct Most {
    std::size_t asking = 0, asking_with_all = 0, judging = 0, judging_with_all = 0, reading = 0;
};

// Runs a thread and keeps the most that one touched. Gives whether there was such a thread.
bool runs(void* (*call)(void*), Run& run, std::size_t& most) {
    const std::size_t used = touched(ZIMORGAL_STACK_BYTES, call, run);
    most = std::max(most, used);
    return used > 0;
}

void asked(const Shape& shape, Run& run, Most& most) {
    check(runs(ask_only, run, most.asking) && run.result.verdict == shape.verdict && run.result.reason == shape.reason,
          "asked", shape.name);
    check(runs(ask_with_all, run, most.asking_with_all) && run.result.verdict == shape.verdict,
          "asked with all on the stack", shape.name);
}

// What is shown is judged, and must be accepted; empty shares where nothing is shown, and must not.
void judged(const Shape& shape, Run& run, Most& most) {
    const Rows none;
    const Solution solution = ask(shape.question, run.workspace).solution;
    run.rows = solution ? solution.bytes() : none.bytes();
    const auto right = [&] {
        const Judgement judgement = run.judged.judgement;
        return judgement != Judgement::refused && (judgement == Judgement::accepted) == bool(solution);
    };
    check(runs(judge_only, run, most.judging) && right(), "judged", shape.name);
    run.judged = {};
    check(runs(judge_with_all, run, most.judging_with_all) && right(), "judged with all on the stack", shape.name);
}

}  // namespace

int main() {
    static Run run;
    const std::size_t own = touched(ZIMORGAL_STACK_BYTES, do_nothing, run);
    Most most;
    const std::vector<Shape> all = shapes();
    check(made, "the questions", "every step is taken");
    for (const Shape& shape : all) {
        run.shape = &shape;
        asked(shape, run, most);
        judged(shape, run, most);
    }
    for (const TreeText& text : tree_texts()) {
        run.text = &text;
        check(runs(read_text, run, most.reading) && run.parsed.error == text.error, "read", text.name);
    }
    std::printf("a thread that does nothing touches %zu bytes of its stack, one that asks %zu, so a call %zu;\n", own,
                most.asking, most.asking - own);
    std::printf("with question, buffers and text on it %zu; one that judges %zu, so a call %zu;\n",
                most.asking_with_all, most.judging, most.judging - own);
    std::printf("with question, rows and texts on it %zu; one that reads a tree text %zu, so a call %zu\n",
                most.judging_with_all, most.reading, most.reading - own);
    const struct {
        const char* name;
        std::size_t used, bound;
    } calls[] = {
        {"asking", most.asking, 8192}, {"judging", most.judging, 16384}, {"reading a tree text", most.reading, 8192}};
    for (const auto& [name, used, bound] : calls) {
        check(own > 0 && own < used && used - own < bound, "a call takes no more than is said", name);
        check(used > 1000 && used <= ZIMORGAL_STACK_BYTES / 4 * 3, "a quarter of the stack is left", name);
    }
    std::printf("%d passed, %d failed\n", passed, failed);
    return failed == 0 ? 0 : 1;
}
