/* Two threads of a lighting desk hold parts of a cue list. This program asks in C what an analyser would ask before it
   lets a third thread in, and judges what another prover found.

       gcc -std=c99 -Iinclude examples/third_thread.c crates/zimorgal/out/libzimorgal.a -o third_thread && ./third_thread

   It writes examples/third_thread.out. */
#include <stdio.h>
#include <string.h>

#include "zimorgal.h"

/* The free variables of the questions here. */
enum { LIGHTS, SOUND, BOTH, RECORDER };
static const char *const names[] = {"lights", "sound", "both", "recorder"};

/* Constants are numbered from 20 on, in hexadecimal. */
enum { WHOLE = 0x20 };

/* One command a line. */
/* clang-format off */

/* May a third thread read as well? */
static const uint8_t third_thread[] = {
    0x01, ZIMORGAL_SATISFIABILITY, 4, 0, /* four free variables */
    0x10, LIGHTS, SOUND, BOTH,           /* lights join sound is both */
    0x32, BOTH, RECORDER,                /* both and recorder may be held together */
    0x31, LIGHTS,                        /* lights may read: it is not empty */
    0x31, SOUND,                         /* sound may read */
    0x31, RECORDER,                      /* recorder may read */
    0x00,
};

/* Is there always a part left that would make theirs whole? The second system has one variable of its own. */
enum { REST = BOTH + 1 };
static const uint8_t part_left[] = {
    0x01, ZIMORGAL_ENTAILMENT, 3, 1,     /* three free variables, one own */
    0x03, 0xFF, 0xFF, 0xFF, 0xFF,        /* WHOLE */
    0x10, LIGHTS, SOUND, BOTH,           /* lights join sound is both */
    0x20, BOTH, REST, WHOLE,             /* then: both join rest is the whole */
    0x39, REST,                          /* and rest may read */
    0x00,
};
/* clang-format on */

/* A question with a mistake: its clause names a second variable, and there is one. */
static const uint8_t mistaken[] = {0x01, ZIMORGAL_SATISFIABILITY, 1, 0, 0x12, 0, 1, 0x00};

/* The buffers that are lent. */
static uint8_t answer[ZIMORGAL_ANSWER_BYTES];
static uint8_t work[ZIMORGAL_WORK_BYTES];

/* Writes the shares that the answer buffer shows, one for each free variable. */
static void write_solution(unsigned variables) {
    for (unsigned variable = 0; variable < variables; ++variable) {
        const uint64_t row = zimorgal_row(answer, sizeof answer, variable);
        uint8_t text[ZIMORGAL_TEXT_BYTES];
        const uint64_t written =
            zimorgal_text(answer + zimorgal_row_offset(row), zimorgal_row_length(row), text, sizeof text);
        if (zimorgal_text_refusal(written) != ZIMORGAL_NOT_REFUSED) return;
        printf("    %-10s%.*s\n", names[variable], (int)zimorgal_text_length(written), (const char *)text);
    }
}

/* Asks, and writes the verdict and what is shown with it. */
static void report(const char *asked, const uint8_t *question, size_t length) {
    const uint64_t result = zimorgal_ask(question, length, answer, sizeof answer, work, sizeof work);
    printf("%s\n  %s", asked, zimorgal_describe_verdict(zimorgal_verdict(result)));
    if (zimorgal_verdict(result) == ZIMORGAL_REFUSED) {
        printf(" at byte %u: %s\n", zimorgal_place(result), zimorgal_describe_refusal(zimorgal_refusal(result)));
        return;
    }
    if (zimorgal_reason(result) != ZIMORGAL_NO_REASON)
        printf(": %s", zimorgal_describe_reason(zimorgal_reason(result)));
    if (zimorgal_reason(result) == ZIMORGAL_DISEQUATION_UNMET) printf(", number %u", zimorgal_disequation(result));
    printf("\n");
    /* A question that is not refused has a head: its kind is byte 1, its number of free variables byte 2. */
    if (!zimorgal_shows(result, question[1])) return;
    printf("  for instance, no taller than %u:\n", zimorgal_height_given(result));
    write_solution(question[2]);
}

/* Puts a constant in the row of a variable: each of its 32 leaves is 4 bytes there. */
static void put_row(uint8_t *rows, size_t variable, uint32_t leaves) {
    for (size_t i = 0; i < ZIMORGAL_ROW_BYTES; ++i)
        rows[variable * ZIMORGAL_ROW_BYTES + i] = leaves >> i / 4 & 1 ? 0xFF : 0x00;
}

/* Judges what another prover found, the tree texts of the first variables, and writes what comes of it. Texts of height
   at most 5 are read. */
static void report_judged(const char *judged, const uint8_t *question, size_t length, const char *const *found,
                          size_t variables) {
    static uint8_t rows[ZIMORGAL_ROWS_BYTES];
    memset(rows, 0, sizeof rows);
    printf("%s\n", judged);
    for (size_t variable = 0; variable < variables; ++variable) {
        const uint64_t read = zimorgal_constant((const uint8_t *)found[variable], strlen(found[variable]));
        if (zimorgal_constant_refusal(read) != ZIMORGAL_NOT_REFUSED) {
            printf("  %s is refused: %s\n", found[variable],
                   zimorgal_describe_refusal(zimorgal_constant_refusal(read)));
            return;
        }
        put_row(rows, variable, zimorgal_constant_leaves(read));
        printf("    %-10s%s\n", names[variable], found[variable]);
    }
    const uint64_t result = zimorgal_judge(question, length, rows, sizeof rows);
    printf("  %s", zimorgal_describe_judgement(zimorgal_judgement(result)));
    if (zimorgal_judgement(result) == ZIMORGAL_CLAUSE_BROKEN) printf(", number %u", zimorgal_broken_clause(result));
    /* A positive clause fails at a leaf; a disequation has none. */
    if (zimorgal_broken_way(result) != ZIMORGAL_HOLDS)
        printf("; %s, at leaf %zu", zimorgal_describe_way(zimorgal_broken_way(result)), zimorgal_broken_leaf(result));
    if (zimorgal_judgement(result) == ZIMORGAL_NOT_JUDGED)
        printf(" at byte %u: %s", zimorgal_place(result), zimorgal_describe_refusal(zimorgal_refusal(result)));
    printf("\n");
}

/* What another prover found, for the first question, for the second and for the one with a mistake. */
static const char *const three_parts[] = {"((*o)o)", "((o*)o)", "(*o)", "(o*)"};
static const char *const none_for_the_recorder[] = {"(*o)", "(o*)", "*", "o"};
static const char *const part_of_the_sound[] = {"((*o)o)", "((o*)o)", "(*o)", "((o*)o)"};
static const char *const nothing_left[] = {"(*o)", "(o*)", "*"};
static const char *const half_left[] = {"(*o)", "o", "(*o)"};
static const char *const not_folded[] = {"(*o)", "(o(**))", "*"};
static const char *const whole[] = {"*"};

/* The texts of an array, and how many they are. */
#define ALL_OF(texts) texts, sizeof(texts) / sizeof *(texts)

/* Reads two shares as a tester types them, and writes whether they join. */
static void report_join(const char *left, const char *right) {
    const char *const typed[] = {left, right};
    uint32_t shares[2];
    printf("Do %s and %s join?\n  ", left, right);
    for (int i = 0; i < 2; ++i) {
        const uint64_t read = zimorgal_constant((const uint8_t *)typed[i], strlen(typed[i]));
        if (zimorgal_constant_refusal(read) != ZIMORGAL_NOT_REFUSED) {
            printf("%s is refused: %s\n", typed[i], zimorgal_describe_refusal(zimorgal_constant_refusal(read)));
            return;
        }
        shares[i] = zimorgal_constant_leaves(read);
    }
    const uint64_t joined = zimorgal_join(shares[0], shares[1]);
    if (zimorgal_join_defined(joined))
        printf("yes, to a share of height %u\n", zimorgal_height(zimorgal_join_leaves(joined)));
    else
        printf("no\n");
}

int main(void) {
    if (zimorgal_version() != ZIMORGAL_VERSION) {
        fprintf(stderr, "the header and the library are of two versions\n");
        return 1;
    }
    report("Two threads may read the cue list. May a third read it as well?", third_thread, sizeof third_thread);
    report("Is there always a part left that would make theirs whole?", part_left, sizeof part_left);
    report("And a question with a mistake?", mistaken, sizeof mistaken);
    report_judged("Another prover lets the third thread read. Is it right?", third_thread, sizeof third_thread,
                  ALL_OF(three_parts));
    report_judged("And these parts?", third_thread, sizeof third_thread, ALL_OF(none_for_the_recorder));
    report_judged("And these?", third_thread, sizeof third_thread, ALL_OF(part_of_the_sound));
    report_judged("Another prover says that no part need be left. Is it right?", part_left, sizeof part_left,
                  ALL_OF(nothing_left));
    report_judged("And these parts?", part_left, sizeof part_left, ALL_OF(half_left));
    report_judged("And a part that is not folded?", part_left, sizeof part_left, ALL_OF(not_folded));
    report_judged("And for the question with a mistake?", mistaken, sizeof mistaken, ALL_OF(whole));
    report_join("(*o)", "(o*)");
    report_join("(*o)", "((o*)o)");
    report_join("(*o)", "(o(**))");
    return 0;
}
