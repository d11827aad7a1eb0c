/* The C header from C: the calls, the fields of their numbers, the words, and NULL with length 0 for every part. The last
   line is 'N passed, M failed'. */
#include <stdio.h>
#include <string.h>

#include "zimorgal.h"

static int passed = 0, failed = 0;

static void check(int holds, const char *what) {
    ++*(holds ? &passed : &failed);
    if (!holds) printf("FAILED %s\n", what);
}

static uint8_t answer[ZIMORGAL_ANSWER_BYTES], work[ZIMORGAL_WORK_BYTES], text[ZIMORGAL_TEXT_BYTES];
static uint8_t rows[ZIMORGAL_ROWS_BYTES + 1];

/* SPEC 12.13. */
static const uint8_t example[] = {0x01, 0x00, 0x01, 0x00, 0x03, 0xFF, 0xFF, 0x00, 0x00, 0x03,
                                  0xFF, 0xFF, 0xFF, 0xFF, 0x10, 0x00, 0x20, 0x21, 0x00};

static void calls(void) {
    const uint64_t result = zimorgal_ask(example, sizeof example, answer, sizeof answer, work, sizeof work);
    check(result == (ZIMORGAL_YES | (uint64_t)1 << 32), "the example is answered yes, height 1");
    const uint64_t row = zimorgal_row(answer, sizeof answer, 0);
    check(row == (uint64_t)ZIMORGAL_ROW_BYTES << 32, "row 0 is the first 128 bytes");
    const uint64_t written =
        zimorgal_text(answer + zimorgal_row_offset(row), zimorgal_row_length(row), text, sizeof text);
    check(written == 4 && memcmp(text, "(o*)", 4) == 0, "the text of row 0 is (o*)");
    check(zimorgal_constant(text, zimorgal_text_length(written)) == 0xFFFF0000, "(o*) is read again");
    check(zimorgal_judge(example, sizeof example, answer, sizeof answer) == ZIMORGAL_ROWS_ACCEPTED,
          "what is shown of the example is accepted");
}

static int reason_of(const uint8_t *question, size_t length) {
    return zimorgal_reason(zimorgal_ask(question, length, answer, sizeof answer, work, sizeof work));
}

/* Reason 0: of a satisfiability yes and no, of a refusal, and of every yes of an entailment but that of reason 1. */
static void reasons(void) {
    static const uint8_t full_and_empty[] = {0x01, 0x00, 0x01, 0x00, 0x03, 0x00, 0x00, 0x00,
                                             0x00, 0x30, 0x00, 0x12, 0x00, 0x20, 0x00};
    static const uint8_t writer_reads[] = {0x01, 0x01, 0x01, 0x00, 0x30, 0x00, 0x39, 0x00, 0x00};
    static const uint8_t nobody_writes[] = {0x01, 0x01, 0x01, 0x00, 0x30, 0x00, 0x13, 0x00, 0x00, 0x38, 0x00, 0x00};
    check(reason_of(example, sizeof example) == ZIMORGAL_NO_REASON, "satisfiable");
    check(zimorgal_verdict(zimorgal_ask(full_and_empty, sizeof full_and_empty, answer, sizeof answer, work,
                                        sizeof work)) == ZIMORGAL_NO &&
              reason_of(full_and_empty, sizeof full_and_empty) == ZIMORGAL_NO_REASON,
          "not satisfiable");
    check(reason_of(example, 1) == ZIMORGAL_NO_REASON, "refused");
    check(reason_of(writer_reads, sizeof writer_reads) == ZIMORGAL_NO_REASON, "entailed");
    check(reason_of(nobody_writes, sizeof nobody_writes) == ZIMORGAL_FIRST_UNSOLVABLE, "nothing to extend");
}

/* Judges all rows, of which the first two are repeated bytes. */
static uint64_t judge_repeated(const uint8_t *question, size_t length, int first, int second) {
    memset(rows, 0, sizeof rows);
    memset(rows, first, ZIMORGAL_ROW_BYTES);
    memset(rows + ZIMORGAL_ROW_BYTES, second, ZIMORGAL_ROW_BYTES);
    return zimorgal_judge(question, length, rows, ZIMORGAL_ROWS_BYTES);
}

/* A broken clause; of a disequation way and leaf are 0. */
static uint64_t broken(unsigned clause, unsigned way, size_t leaf) {
    return ZIMORGAL_CLAUSE_BROKEN | (uint64_t)clause << 32 | (uint64_t)way << 40 | (uint64_t)leaf << 48;
}

/* v0 and v1 held together, v1 not empty, v1 is full. */
static void judged_satisfiability(void) {
    static const uint8_t question[] = {0x01, 0x00, 0x02, 0x00, 0x32, 0x00, 0x01, 0x31, 0x01, 0x30, 0x01, 0x00};
    check(judge_repeated(question, sizeof question, 0, 0xFF) == ZIMORGAL_ROWS_ACCEPTED, "a solution");
    check(judge_repeated(question, sizeof question, 0xFF, 0xFF) == broken(0, ZIMORGAL_OVERLAP, 0),
          "clause 0, a positive one");
    check(judge_repeated(question, sizeof question, 0xFF, 0) == broken(1, 0, 0), "clause 1, a disequation");
    check(judge_repeated(question, sizeof question, 0x55, 0xAA) == broken(2, ZIMORGAL_SHORTFALL, 0),
          "clause 2, a positive one after it");
    rows[2 * ZIMORGAL_ROW_BYTES - 1] = 0;
    check(zimorgal_judge(question, sizeof question, rows, ZIMORGAL_ROWS_BYTES) == broken(2, ZIMORGAL_SHORTFALL, 0),
          "the last leaves of a row, behind others");
    memset(rows, 0, ZIMORGAL_ROW_BYTES);
    memset(rows + ZIMORGAL_ROW_BYTES, 0xFF, ZIMORGAL_ROW_BYTES - 1);
    check(zimorgal_judge(question, sizeof question, rows, ZIMORGAL_ROWS_BYTES) == broken(2, ZIMORGAL_SHORTFALL, 1016),
          "the last leaves of a row alone");
}

/* Each sort of positive clause, and how it fails at a leaf, by the values there: v0 is bit 0, v1 bit 1, v2 bit 2. */
static const struct {
    const char *what;
    uint8_t command;
    size_t terms;
    unsigned ways[8];
} sorts[] = {{"v0 join v1 is v2",
              0x10,
              3,
              {ZIMORGAL_HOLDS, ZIMORGAL_SURPLUS, ZIMORGAL_SURPLUS, ZIMORGAL_OVERLAP, ZIMORGAL_SHORTFALL, ZIMORGAL_HOLDS,
               ZIMORGAL_HOLDS, ZIMORGAL_OVERLAP}},
             {"v0 is v1", 0x12, 2, {ZIMORGAL_HOLDS, ZIMORGAL_SURPLUS, ZIMORGAL_SHORTFALL, ZIMORGAL_HOLDS}},
             {"v0 is full", 0x30, 1, {ZIMORGAL_SHORTFALL, ZIMORGAL_HOLDS}},
             {"v0 with v1", 0x32, 2, {ZIMORGAL_HOLDS, ZIMORGAL_HOLDS, ZIMORGAL_HOLDS, ZIMORGAL_OVERLAP}}};

static void put_leaf(size_t variable, size_t leaf, unsigned full) {
    uint8_t *const byte = rows + variable * ZIMORGAL_ROW_BYTES + leaf / 8;
    *byte = (uint8_t)((*byte & ~(1u << leaf % 8)) | full << leaf % 8);
}

/* Judges the clause, as number 1 behind "v0 is v0", where it holds at each leaf but this one. */
static uint64_t judge_at(size_t sort, unsigned values, size_t leaf) {
    uint8_t question[12] = {0x01, 0x00, 0x03, 0x00, 0x12, 0x00, 0x00, sorts[sort].command};
    for (size_t i = 0; i < sorts[sort].terms; ++i) question[8 + i] = (uint8_t)i;
    memset(rows, 0, sizeof rows);
    memset(rows, sorts[sort].command == 0x30 ? 0xFF : 0, ZIMORGAL_ROW_BYTES);
    for (size_t i = 0; i < 3; ++i) put_leaf(i, leaf, values >> i & 1);
    return zimorgal_judge(question, 9 + sorts[sort].terms, rows, ZIMORGAL_ROWS_BYTES);
}

static void each_way(void) {
    static const size_t leaves[] = {0, 1, 7, 8, 31, 32, 63, 64, 511, 512, 992, 1022, 1023};
    for (size_t sort = 0; sort < sizeof sorts / sizeof *sorts; ++sort)
        for (unsigned values = 0; values < 1u << sorts[sort].terms; ++values)
            for (size_t i = 0; i < sizeof leaves / sizeof *leaves; ++i) {
                const unsigned way = sorts[sort].ways[values];
                const uint64_t due = way == ZIMORGAL_HOLDS ? ZIMORGAL_ROWS_ACCEPTED : broken(1, way, leaves[i]);
                check(judge_at(sort, values, leaves[i]) == due, sorts[sort].what);
            }
}

/* Of several leaves the leftmost counts, and how the clause fails there. A constant has a leaf for 32 of the rows. */
static void leftmost_leaf(void) {
    static const uint8_t join[] = {0x01, 0x00, 0x03, 0x00, 0x10, 0x00, 0x01, 0x02, 0x00};
    memset(rows, 0, sizeof rows);
    put_leaf(2, 301, 1);
    check(zimorgal_judge(join, sizeof join, rows, ZIMORGAL_ROWS_BYTES) == broken(0, ZIMORGAL_SHORTFALL, 301), "one");
    put_leaf(1, 299, 1);
    check(zimorgal_judge(join, sizeof join, rows, ZIMORGAL_ROWS_BYTES) == broken(0, ZIMORGAL_SURPLUS, 299), "of two");
    put_leaf(0, 300, 1);
    put_leaf(1, 300, 1);
    check(zimorgal_judge(join, sizeof join, rows, ZIMORGAL_ROWS_BYTES) == broken(0, ZIMORGAL_SURPLUS, 299), "of three");
    put_leaf(2, 299, 1);
    check(zimorgal_judge(join, sizeof join, rows, ZIMORGAL_ROWS_BYTES) == broken(0, ZIMORGAL_OVERLAP, 300), "the next");

    static const uint8_t constant[] = {0x01, 0x00, 0x01, 0x00, 0x03, 0x00, 0x00, 0x00, 0x80, 0x12, 0x00, 0x20, 0x00};
    memset(rows, 0, sizeof rows);
    check(zimorgal_judge(constant, sizeof constant, rows, ZIMORGAL_ROWS_BYTES) == broken(0, ZIMORGAL_SHORTFALL, 992),
          "the last leaf of a constant");
}

/* What each disequation negates holds at every leaf: there is no leaf to name. */
static void disequations(void) {
    static const uint8_t questions[][9] = {{0x01, 0x00, 0x03, 0x00, 0x11, 0x00, 0x01, 0x02, 0x00},
                                           {0x01, 0x00, 0x03, 0x00, 0x13, 0x00, 0x01, 0x00},
                                           {0x01, 0x00, 0x03, 0x00, 0x31, 0x00, 0x00}};
    memset(rows, 0, sizeof rows);
    for (size_t i = 0; i < 3; ++i)
        check(zimorgal_judge(questions[i], 9 - i, rows, ZIMORGAL_ROWS_BYTES) == broken(0, 0, 0), "a disequation");
}

/* v0 not empty; then own v2 joined to v1 is v0, own v2 not empty; v0 is not full. Clauses of the second system stand
   between those of the first. */
static void judged_entailment(void) {
    static const uint8_t question[] = {0x01, 0x01, 0x02, 0x01, 0x03, 0xFF, 0xFF, 0xFF, 0xFF, 0x31, 0x00,
                                       0x20, 0x02, 0x01, 0x00, 0x39, 0x02, 0x13, 0x00, 0x20, 0x00};
    check(judge_repeated(question, sizeof question, 0x0F, 0xF0) == ZIMORGAL_ROWS_ACCEPTED,
          "a positive clause is unmet");
    check(judge_repeated(question, sizeof question, 0x0F, 0x0F) == ZIMORGAL_ROWS_ACCEPTED, "a disequation is unmet");
    check(judge_repeated(question, sizeof question, 0x0F, 0x0E) == ZIMORGAL_ROWS_EXTEND, "rows that extend");
    check(judge_repeated(question, sizeof question, 0, 0) == broken(0, 0, 0), "clause 0 before the second system");
    check(judge_repeated(question, sizeof question, 0xFF, 0) == broken(1, 0, 0), "clause 1 behind the second system");
    const uint64_t asked = zimorgal_ask(question, sizeof question, answer, sizeof answer, work, sizeof work);
    check(zimorgal_shows(asked, ZIMORGAL_ENTAILMENT), "one that does not extend is shown");
    check(zimorgal_judge(question, sizeof question, answer, ZIMORGAL_ROWS_BYTES) == ZIMORGAL_ROWS_ACCEPTED,
          "what is shown is accepted");
}

/* Each refusal of a question first, then 18, then 19. */
static void judging_refused(void) {
    static const uint8_t cut[] = {0x01, 0x00, 0x01, 0x00, 0x31}, more[] = {0x01, 0x00, 0x01, 0x00, 0x00, 0x00};
    memset(rows, 0xFF, sizeof rows);
    check(zimorgal_judge(cut, sizeof cut, rows, 3) == (ZIMORGAL_CUT_SHORT << 8 | 4 << 16), "the question before 18");
    check(zimorgal_judge(more, sizeof more, rows, ZIMORGAL_ROWS_BYTES) == (ZIMORGAL_AFTER_THE_END << 8 | 5 << 16),
          "the question before 19");
    for (size_t length = ZIMORGAL_ROWS_BYTES - 1; length <= sizeof rows; length += 2)
        check(zimorgal_judge(example, sizeof example, rows, length) == ZIMORGAL_NOT_12_ROWS << 8, "18 before 19");
    check(zimorgal_judge(example, sizeof example, rows, ZIMORGAL_ROWS_BYTES) == ZIMORGAL_ROW_NOT_ZERO << 8,
          "19 before a broken clause");
    memset(rows, 0, sizeof rows);
    for (size_t row = 1; row < 12; ++row) {
        rows[(row + 1) * ZIMORGAL_ROW_BYTES - 1] = 0x80;
        check(zimorgal_judge(example, sizeof example, rows, ZIMORGAL_ROWS_BYTES) == ZIMORGAL_ROW_NOT_ZERO << 8,
              "the last bit of a row of no free variable");
        rows[(row + 1) * ZIMORGAL_ROW_BYTES - 1] = 0;
    }
    check(zimorgal_judge(example, sizeof example, rows, ZIMORGAL_ROWS_BYTES) == broken(0, ZIMORGAL_SHORTFALL, 512),
          "all zero");
}

static void joins_and_heights(void) {
    const uint64_t undefined = (uint64_t)1 << 32;
    check(zimorgal_join(0x0000FFFF, 0xFFFF0000) == 0xFFFFFFFF, "the halves join to full");
    check(zimorgal_join(0x40302010, 0x04030201) == 0x44332211, "a join is a sum");
    check(zimorgal_join(0, 0) == 0, "empty with empty");
    check(zimorgal_join(0xFFFFFFFF, 0xFFFFFFFF) == undefined, "full with full");
    for (int leaf = 0; leaf < 32; ++leaf) {
        const uint32_t one = (uint32_t)1 << leaf;
        check(zimorgal_join(one, ~one) == 0xFFFFFFFF, "a leaf joins all others");
        check(zimorgal_join(one, one) == undefined, "a leaf does not join itself");
    }

    const uint32_t by_height[] = {0xFFFFFFFF, 0x0000FFFF, 0x00FF00FF, 0x0F0F0F0F, 0x33333333, 0x55555555};
    for (uint32_t height = 0; height < 6; ++height) check(zimorgal_height(by_height[height]) == height, "every height");
    check(zimorgal_height(1) == 5, "one leaf has height 5");
}

/* A text without the byte 0 at its end. */
static uint64_t read_text(const char *words) { return zimorgal_constant((const uint8_t *)words, strlen(words)); }

static void tree_texts(void) {
    const uint64_t not_tree_text = (uint64_t)ZIMORGAL_NOT_TREE_TEXT << 32;
    const uint64_t not_folded = (uint64_t)ZIMORGAL_NOT_FOLDED << 32, too_tall = (uint64_t)ZIMORGAL_TOO_TALL << 32;
    check(read_text("o") == 0 && read_text("*") == 0xFFFFFFFF && read_text("(*o)") == 0x0000FFFF, "constants");
    check(read_text("(((((o*)o)o)o)o)") == 2, "leaf 1 is bit 1");
    check(read_text("(o*") == not_tree_text && read_text("(o*)o") == not_tree_text, "no tree text");
    check(read_text("(oo)") == not_folded, "a pair that could be folded");
    check(read_text("((((((o*)o)o)o)o)o)") == too_tall, "height 6");
    check(read_text("(oo)x") == not_tree_text, "no tree text, before a pair that could be folded");
    check(read_text("((((((o*)o)o)o)o)o") == not_tree_text, "no tree text, before height 6");
    check(read_text("((((((o*)o)o)o)o)(oo))") == not_folded, "a pair that could be folded, before height 6");

    /* Pairs in pairs, as the left halves: of height 31 with 94 bytes, of height 32 with 97. */
    char deep[3 * 32 + 2] = "";
    for (int height = 31; height <= 32; ++height) {
        memset(deep, '(', (size_t)height);
        strcpy(deep + height, "o");
        for (int i = 0; i < height; ++i) strcat(deep, "*)");
        check(read_text(deep) == (height == 31 ? too_tall : not_tree_text), deep);
    }
}

static void version(void) {
    check(ZIMORGAL_VERSION >> 16 == ZIMORGAL_VERSION_MAJOR &&
              (ZIMORGAL_VERSION >> 8 & 0xFF) == ZIMORGAL_VERSION_MINOR &&
              (ZIMORGAL_VERSION & 0xFF) == ZIMORGAL_VERSION_PATCH,
          "a byte each, patch lowest");
    check(zimorgal_version() == ZIMORGAL_VERSION, "header and library are of one version");
}

/* Every field by its accessor, each value unlike the others. */
static void fields(void) {
    const uint64_t result = 0x001E030AA39D0802;
    check(zimorgal_verdict(result) == ZIMORGAL_NO, "verdict");
    check(zimorgal_refusal(result) == ZIMORGAL_BAD_TERM, "refusal");
    check(zimorgal_place(result) == 0xA39D, "place");
    check(zimorgal_height_given(result) == 10, "height given");
    check(zimorgal_reason(result) == ZIMORGAL_DISEQUATION_UNMET, "reason");
    check(zimorgal_disequation(result) == 30, "disequation");

    const uint64_t judged = 0x03FE025EA39D0802;
    check(zimorgal_judgement(judged) == ZIMORGAL_CLAUSE_BROKEN, "judgement");
    check(zimorgal_refusal(judged) == ZIMORGAL_BAD_TERM, "refusal of judging");
    check(zimorgal_place(judged) == 0xA39D, "place of judging");
    check(zimorgal_broken_clause(judged) == 94, "broken clause");
    check(zimorgal_broken_way(judged) == ZIMORGAL_SURPLUS, "way");
    check(zimorgal_broken_leaf(judged) == 1022, "leaf");
    check(zimorgal_broken_clause(0xFFFFFF00FFFFFFFF) == 0, "no byte beside the clause");
    check(zimorgal_broken_way(0xFFFF00FFFFFFFFFF) == 0, "no byte beside the way");
    check(zimorgal_broken_leaf(0x0000FFFFFFFFFFFF) == 0, "no byte beside the leaf");
    check(zimorgal_broken_leaf(0xFFFF000000000000) == 0xFFFF, "both bytes of the leaf");

    check(zimorgal_row_offset(0x0000008000000580) == 0x580, "offset of a row");
    check(zimorgal_row_length(0x0000008000000580) == 0x80, "length of a row");
    check(zimorgal_text_length(0x0000000000000BFE) == 3070, "length of a text");
    check(zimorgal_text_refusal(0x0000000000000BFE) == ZIMORGAL_NOT_REFUSED, "a text that was written");
    check(zimorgal_text_length((uint64_t)13 << 32) == 0, "length of a text that was refused");
    check(zimorgal_text_refusal((uint64_t)13 << 32) == ZIMORGAL_TEXT_TOO_SHORT, "a text that was refused");
    check(zimorgal_constant_leaves(0x00000000FFFF0001) == 0xFFFF0001, "leaves of a constant");
    check(zimorgal_constant_refusal(0x00000000FFFF0001) == ZIMORGAL_NOT_REFUSED, "a constant that was read");
    check(zimorgal_constant_leaves((uint64_t)17 << 32) == 0, "leaves of a text that was refused");
    check(zimorgal_constant_refusal((uint64_t)17 << 32) == ZIMORGAL_TOO_TALL, "a text that is too tall");
    check(zimorgal_join_defined(0xFFFFFFFF) && zimorgal_join_leaves(0xFFFFFFFF) == 0xFFFFFFFF, "a join");
    check(!zimorgal_join_defined((uint64_t)1 << 32) && zimorgal_join_leaves((uint64_t)1 << 32) == 0, "no join");
}

/* Every row of the table in docs/FORMAT.md, "What asking gives", and a refusal of either kind. */
static void shown_or_not(void) {
    const uint64_t reason_1 = 0x0000010000000001, reason_2 = 0x0000020000000002, reason_3 = 0x0000030000000002;
    check(zimorgal_shows(ZIMORGAL_YES, ZIMORGAL_SATISFIABILITY), "satisfiable is shown");
    check(!zimorgal_shows(ZIMORGAL_NO, ZIMORGAL_SATISFIABILITY), "not satisfiable shows nothing");
    check(!zimorgal_shows(ZIMORGAL_YES, ZIMORGAL_ENTAILMENT), "entailed shows nothing");
    check(!zimorgal_shows(reason_1, ZIMORGAL_ENTAILMENT), "no solution of the first shows nothing");
    check(zimorgal_shows(reason_2, ZIMORGAL_ENTAILMENT), "reason 2 is shown");
    check(zimorgal_shows(reason_3, ZIMORGAL_ENTAILMENT), "reason 3 is shown");
    check(!zimorgal_shows(ZIMORGAL_NO_HEAD << 8, ZIMORGAL_SATISFIABILITY), "a refusal shows nothing");
    check(!zimorgal_shows(ZIMORGAL_NO_HEAD << 8, ZIMORGAL_ENTAILMENT), "a refusal of the other kind neither");
}

/* Each number has words of its own, and a number without a meaning is unknown. */
static void in_words(const char *(*describe)(int), int most, const char *unknown) {
    for (int i = 0; i <= most; ++i) {
        check(strcmp(describe(i), unknown) != 0, unknown);
        for (int j = 0; j < i; ++j) check(strcmp(describe(i), describe(j)) != 0, describe(i));
    }
    check(strcmp(describe(most + 1), unknown) == 0 && strcmp(describe(-1), unknown) == 0, describe(most + 1));
}

static void nothing_lent(void) {
    check(zimorgal_ask(NULL, 0, NULL, 0, NULL, 0) == ZIMORGAL_NO_HEAD << 8, "NULL question");
    check(zimorgal_ask(example, sizeof example, NULL, 0, NULL, 0) == ZIMORGAL_ANSWER_TOO_SHORT << 8,
          "NULL answer buffer");
    check(zimorgal_ask(example, sizeof example, answer, sizeof answer, NULL, 0) == ZIMORGAL_WORK_TOO_SHORT << 8,
          "NULL work area");
    check(zimorgal_row(NULL, 0, 0) == 0, "NULL answer buffer for a row");
    check(zimorgal_text(NULL, 0, NULL, 0) == (uint64_t)ZIMORGAL_NOT_A_ROW << 32, "NULL row");
    check(zimorgal_text(answer, ZIMORGAL_ROW_BYTES, NULL, 0) == (uint64_t)ZIMORGAL_TEXT_TOO_SHORT << 32, "NULL text");
    check(zimorgal_constant(NULL, 0) == (uint64_t)ZIMORGAL_NOT_TREE_TEXT << 32, "NULL tree text");
    check(zimorgal_judge(NULL, 0, NULL, 0) == ZIMORGAL_NO_HEAD << 8, "NULL question to be judged for");
    check(zimorgal_judge(example, sizeof example, NULL, 0) == ZIMORGAL_NOT_12_ROWS << 8, "NULL rows");
}

int main(void) {
    calls();
    reasons();
    judged_satisfiability();
    each_way();
    leftmost_leaf();
    disequations();
    judged_entailment();
    judging_refused();
    joins_and_heights();
    tree_texts();
    version();
    fields();
    shown_or_not();
    in_words(zimorgal_describe_verdict, ZIMORGAL_NO, "unknown verdict");
    in_words(zimorgal_describe_refusal, ZIMORGAL_ROW_NOT_ZERO, "unknown refusal");
    in_words(zimorgal_describe_reason, ZIMORGAL_DISEQUATION_UNMET, "unknown reason");
    in_words(zimorgal_describe_judgement, ZIMORGAL_ROWS_EXTEND, "unknown judgement");
    in_words(zimorgal_describe_way, ZIMORGAL_SHORTFALL, "unknown way");
    nothing_lent();
    printf("%d passed, %d failed\n", passed, failed);
    return failed != 0;
}
