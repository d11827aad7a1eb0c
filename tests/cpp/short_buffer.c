/* Lends buffers; compiled with -DSHORT, -DSHORT_TEXT, -DSHORT_ROWS or -DSHORT_QUESTION one of them is shorter than the
   call is told, and a compiler that knows the access attribute says so. */
#include "zimorgal.h"

#ifdef SHORT
#define ANSWER_BYTES 100
#else
#define ANSWER_BYTES ZIMORGAL_ANSWER_BYTES
#endif

#ifdef SHORT_TEXT
#define TEXT_BYTES 3
#else
#define TEXT_BYTES 4
#endif

#ifdef SHORT_ROWS
#define ROWS_BYTES 1535
#else
#define ROWS_BYTES ZIMORGAL_ROWS_BYTES
#endif

/* Of the question to be judged for. */
#ifdef SHORT_QUESTION
#define QUESTION_BYTES 4
#else
#define QUESTION_BYTES 5
#endif

int main(void) {
    static const uint8_t question[] = {0x01, 0x00, 0x00, 0x00, 0x00};
    uint8_t answer[ANSWER_BYTES], work[ZIMORGAL_WORK_BYTES];
    const uint64_t result = zimorgal_ask(question, sizeof question, answer, ZIMORGAL_ANSWER_BYTES, work, sizeof work);
    static const uint8_t text[TEXT_BYTES] = {'(', '*', 'o'};
    static const uint8_t rows[ROWS_BYTES] = {0};
    static const uint8_t asked[QUESTION_BYTES] = {0x01};
    const uint64_t judged = zimorgal_judge(asked, 5, rows, ZIMORGAL_ROWS_BYTES);
    return zimorgal_verdict(result) != ZIMORGAL_YES || zimorgal_constant(text, 4) == 0 ||
           zimorgal_judgement(judged) != ZIMORGAL_ROWS_ACCEPTED;
}
