// The C calls, for libFuzzer. The first byte of an input chooses the lengths of the lent buffers and what they hold, and
// whether the rest is the question as it is, or numbers that one is made of which is accepted. The rest is read as a tree
// text as well, and rows are made of it, which are judged. What is checked of each call is in docs/SPEC.md: 4 and 7 for
// asking, 6 for rows and texts, 6.5.2 and 7 for the constant call; ../cpp/judge.hpp says what judging is to give.
// tests/fuzz/run builds and runs it.
#include <algorithm>
#include <cstdio>
#include <cstdlib>
#include <cstring>
#include <memory>
#include <string>
#include <vector>

#include "../cpp/judge.hpp"
#include "zimorgal.h"

namespace {

using Bytes = std::vector<std::uint8_t>;

void check(bool holds, const char* what) {
    if (holds) return;
    std::fprintf(stderr, "FAILED %s\n", what);
    std::abort();
}

// Bytes on the heap, as many as are lent and no more, so that the sanitizer sees a step past them.
struct Lent {
    explicit Lent(const Bytes& bytes) : size(bytes.size()), data(new std::uint8_t[bytes.size()]) {
        if (size > 0) std::memcpy(data.get(), bytes.data(), size);
    }
    Bytes now() const { return Bytes(data.get(), data.get() + size); }

    std::size_t size;
    std::unique_ptr<std::uint8_t[]> data;
};

// The least k with n <= 2^k.
unsigned c(std::size_t n) {
    unsigned k = 0;
    while (n > std::size_t{1} << k) ++k;
    return k;
}

// ---------------------------------------------------------------- Shares as 1,024 leaves

using reader::Row;

// The leaves from one on, as tree text; and how tall that tree is.
std::string text(const Row& row, std::size_t from, std::size_t width, unsigned& height) {
    bool same = true;
    for (std::size_t i = from + 1; same && i < from + width; ++i) same = row[i] == row[from];
    height = 0;
    if (same) return row[from] ? "*" : "o";
    unsigned left = 0, right = 0;
    const std::string halves = text(row, from, width / 2, left) + text(row, from + width / 2, width / 2, right);
    height = 1 + std::max(left, right);
    return "(" + halves + ")";
}

unsigned height(const Row& row) {
    unsigned found = 0;
    text(row, 0, 1024, found);
    return found;
}

// ---------------------------------------------------------------- Questions made of numbers

class Maker {
  public:
    Maker(const std::uint8_t* data, std::size_t size) : data_(data), end_(data + size) {}

    Bytes make() {
        const unsigned kind = below(2), free = below(13), own = kind == 0 ? 0 : below(13 - free), constants = below(7);
        Bytes bytes = {0x01, byte(kind), byte(free), byte(own)};
        for (unsigned i = 0; i < constants; ++i) {
            // Blocks of 1, 2, 4, .. or 32 leaves, so that there are constants of every height.
            const unsigned width = 1u << below(6);
            std::uint32_t leaves = 0;
            for (unsigned leaf = 0; leaf < 32; leaf += width)
                if (below(2) == 1) leaves |= 0xFFFFFFFF >> (32 - width) << leaf;
            bytes.insert(bytes.end(), {0x03, byte(leaves & 0xFF), byte(leaves >> 8 & 0xFF), byte(leaves >> 16 & 0xFF),
                                       byte(leaves >> 24)});
        }
        unsigned left[2][2] = {{64, 31}, {64, 31}};
        while (data_ < end_) {
            const unsigned second = below(kind + 1), named = second == 1 ? free + own : free;
            const reader::ClauseSort& sort = reader::sorts[below(std::size(reader::sorts))];
            if (named + constants == 0 || left[second][sort.negated]-- == 0) break;
            bytes.push_back(sort.commands[second]);
            for (int i = 0; i < sort.terms; ++i) {
                const unsigned term = below(named + constants);
                bytes.push_back(byte(term < named ? term : 0x20 + term - named));
            }
        }
        bytes.push_back(0x00);
        return bytes;
    }

  private:
    static std::uint8_t byte(unsigned number) { return static_cast<std::uint8_t>(number); }
    unsigned below(unsigned bound) { return data_ < end_ ? *data_++ % bound : 0; }

    const std::uint8_t* data_;
    const std::uint8_t* end_;
};

// ---------------------------------------------------------------- The calls

// The constant call, on the bytes as they are and with each taken for a sign.
void tree_texts(const Bytes& bytes) {
    Bytes signs = bytes;
    for (std::uint8_t& byte : signs) byte = static_cast<std::uint8_t>("o*()x"[byte % 5]);
    for (const Bytes& text : {bytes, signs}) {
        const reader::TreeReading due = reader::read_tree(std::string(text.begin(), text.end()));
        const Lent lent(text);
        check(zimorgal_constant(lent.data.get(), lent.size) == (std::uint64_t{due.refusal} << 32 | due.leaves),
              "a tree text is read");
        check(lent.now() == text, "the tree text is unchanged");
    }
}

// The row and the text call, on every row.
std::vector<Row> rows(const Lent& answer) {
    std::vector<Row> all;
    for (std::size_t variable = 0; variable < 13; ++variable) {
        const std::uint64_t part = zimorgal_row(answer.data.get(), answer.size, variable);
        check(part == (variable < 12 ? std::uint64_t{128} << 32 | 128 * variable : 0), "place of a row");
        if (variable == 12) break;
        const std::uint8_t* const bytes = answer.data.get() + zimorgal_row_offset(part);
        all.push_back(reader::row_of_bytes(bytes));
        unsigned tall = 0;
        const std::string due = text(all.back(), 0, 1024, tall);
        Lent fits(Bytes(due.size(), '#')), short_by_one(Bytes(due.size() - 1, '#'));
        const std::uint64_t written = zimorgal_text(bytes, 128, fits.data.get(), fits.size);
        check(written == due.size() && fits.now() == Bytes(due.begin(), due.end()), "text of a row");
        check(zimorgal_text(bytes, 128, short_by_one.data.get(), short_by_one.size) == std::uint64_t{13} << 32 &&
                  short_by_one.now() == Bytes(due.size() - 1, '#'),
              "text that does not fit");
    }
    return all;
}

// The constants, each written and read again, and measured.
void constants(const reader::Question& question) {
    for (const std::uint32_t leaves : question.constants) {
        unsigned tall = 0;
        const std::string written = text(reader::row_of_leaves(leaves), 0, 1024, tall);
        const Lent lent(Bytes(written.begin(), written.end()));
        check(zimorgal_height(leaves) == tall, "height of a constant");
        check(zimorgal_constant(lent.data.get(), lent.size) == leaves, "a constant written and read again");
    }
}

// The height that is given with a shown solution: it is told by the constants that some clause names.
unsigned height_due(const reader::Question& question) {
    unsigned tallest = 0;
    std::size_t disequations = 0;
    for (const reader::Clause& clause : question.clauses) {
        for (const reader::Term& term : clause.terms)
            if (term.sort == reader::Sort::share)
                tallest = std::max(tallest, height(reader::row_of_leaves(term.value)));
        disequations += clause.negated && !clause.second;
    }
    return tallest + c(disequations + question.entailment);
}

// The judge call.
std::uint64_t judge(const Bytes& question, const Bytes& rows) {
    const Lent asked(question), judged(rows);
    const std::uint64_t result = zimorgal_judge(asked.data.get(), asked.size, judged.data.get(), judged.size);
    check(asked.now() == question && judged.now() == rows, "judging leaves every byte unchanged");
    return result;
}

// The same, compared with what ../cpp/judge.hpp gives.
void judge_twice(const Bytes& question, const Bytes& rows) {
    check(judge(question, rows) == reader::judge(question, rows), "judged otherwise");
}

// A solution of the first system alone; no bytes if there is none.
Bytes first_solution(const Bytes& question) {
    const Bytes alone = reader::first_alone(question);
    Bytes answer(1536), work(4096);
    const std::uint64_t result =
        zimorgal_ask(alone.data(), alone.size(), answer.data(), answer.size(), work.data(), work.size());
    check(zimorgal_verdict(result) != ZIMORGAL_REFUSED, "the first system alone is accepted");
    if (zimorgal_verdict(result) != ZIMORGAL_YES) return {};
    check(judge(alone, answer) == ZIMORGAL_ROWS_ACCEPTED, "a solution of the first system alone is accepted");
    return answer;
}

void shown(const Bytes& bytes, const reader::Question& question, const Lent& answer, unsigned given) {
    const std::vector<Row> all = rows(answer);
    for (std::size_t variable = 0; variable < 12; ++variable) {
        check(height(all[variable]) <= given, "a shown tree is too tall");
        check(variable < question.free || all[variable].none(), "a row of no free variable");
    }
    for (const reader::Clause& clause : question.clauses)
        check(clause.second || reader::holds(clause, all), "what is shown does not solve the first system");
    const Bytes now = answer.now();
    check(judge(bytes, Bytes(now.begin(), now.begin() + 1536)) == ZIMORGAL_ROWS_ACCEPTED, "what is shown is accepted");
}

// Judges whatever stands in the answer buffer, and however long it is. Of an accepted question it judges a solution of
// the first system too, also with up to three leaves turned round, and rows made of the input.
void judged(const Bytes& question, const Bytes& answer, bool accepted, const std::uint8_t* data, std::size_t size) {
    judge_twice(question, answer);
    if (!accepted) return;
    Bytes rows = first_solution(question);
    if (!rows.empty()) {
        judge_twice(question, rows);
        for (std::size_t i = 0; i + 2 < size && i < 9; i += 3) {
            const std::size_t leaf = data[i] % 4 * 256 + data[i + 1], row = data[i + 2] % (question[2] + 1) % 12;
            rows[128 * row + leaf / 8] ^= static_cast<std::uint8_t>(1u << leaf % 8);
            judge_twice(question, rows);
        }
    }
    Bytes made(1536);
    for (std::size_t i = 0; i < std::size_t{128} * question[2]; ++i) made[i] = data[i / 8 % size];
    judge_twice(question, made);
}

// The number that asking gives if it refuses, 0 if it does not.
std::uint64_t refusal_due(const reader::Reading& reading, std::size_t answer_bytes, std::size_t work_bytes) {
    if (reading.refusal != 0) return reading.refusal << 8 | reading.place << 16;
    if (answer_bytes < 1536) return 11 << 8;
    return work_bytes < 4096 ? 12 << 8 : 0;
}

// The fields of what asking gives for an accepted question.
void fields(const reader::Question& asked, std::uint64_t result, bool shows) {
    const int verdict = zimorgal_verdict(result), reason = zimorgal_reason(result);
    check((verdict == ZIMORGAL_YES || verdict == ZIMORGAL_NO) && result >> 56 == 0, "a verdict");
    check(zimorgal_refusal(result) == 0 && zimorgal_place(result) == 0, "no refusal, no place");
    check(zimorgal_height_given(result) == (shows ? height_due(asked) : 0), "the height given");
    check(asked.entailment ? (verdict == ZIMORGAL_YES ? reason <= 1 : reason == 2 || reason == 3) : reason == 0,
          "reason");
    check(zimorgal_disequation(result) <= (reason == 3 ? 30 : 0), "a disequation");
}

// The answer buffer outside of what is shown is as it was, and the work area is cleared.
void buffers(const Bytes& answer_before, Bytes answer, Bytes work_before, const Bytes& work, bool shows) {
    std::fill(work_before.begin(), work_before.begin() + 4096, std::uint8_t{0});
    check(work == work_before, "the work area is cleared");
    if (shows) answer.erase(answer.begin(), answer.begin() + 1536);
    check(answer == Bytes(answer_before.end() - static_cast<std::ptrdiff_t>(answer.size()), answer_before.end()),
          "bytes that nothing is shown in");
}

}  // namespace

extern "C" int LLVMFuzzerTestOneInput(const std::uint8_t* data, std::size_t size) {
    if (size == 0) return 0;
    tree_texts(Bytes(data + 1, data + size));
    const unsigned choice = data[0];
    const std::size_t answer_bytes = choice % 8 == 1 ? 1535 : choice % 8 == 2 ? 0 : 1536 + choice % 8;
    const std::size_t work_bytes = choice / 8 % 8 == 1 ? 4095 : choice / 8 % 8 == 2 ? 0 : 4096 + choice / 8 % 8;
    const bool made = choice / 64 % 2 == 1;
    const Bytes bytes = made ? Maker(data + 1, size - 1).make() : Bytes(data + 1, data + size);
    const Bytes answer_before(answer_bytes, static_cast<std::uint8_t>(choice / 128 * 0x55));
    const Bytes work_before(work_bytes, static_cast<std::uint8_t>(~choice));
    const Lent question(bytes), answer(answer_before), work(work_before);
    const reader::Reading reading = reader::read(bytes.data(), bytes.size());
    check(!made || reading.refusal == 0, "what is made is accepted");

    const std::uint64_t result =
        zimorgal_ask(question.data.get(), question.size, answer.data.get(), answer.size, work.data.get(), work.size);
    check(question.now() == bytes, "the question is unchanged");
    // Judging twice takes longer than all else here: about every eighth input is judged so, by the byte in its middle.
    if (data[size / 2] % 8 == 3) judged(bytes, answer.now(), reading.refusal == 0, data, size);

    if (const std::uint64_t refusal = refusal_due(reading, answer_bytes, work_bytes); refusal != 0) {
        check(result == refusal, "another refusal");
        check(answer.now() == answer_before && work.now() == work_before, "a refusal leaves every byte unchanged");
        return 0;
    }

    constants(reading.question);
    const bool shows = zimorgal_shows(result, reading.question.entailment) != 0;
    fields(reading.question, result, shows);
    buffers(answer_before, answer.now(), work_before, work.now(), shows);
    if (shows) shown(bytes, reading.question, answer, zimorgal_height_given(result));

    const Lent again(answer_before), work_again(work_before);
    check(zimorgal_ask(question.data.get(), question.size, again.data.get(), again.size, work_again.data.get(),
                       work_again.size) == result &&
              again.now() == answer.now(),
          "the same question again");
    return 0;
}
