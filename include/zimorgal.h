/* Zimorgal: exact answers to questions about tree shares. The C interface of the library, C99; for C++ see zimorgal.hpp.

   docs/SPEC.md of the sources is the whole specification, and docs/PROVED.md says what is proved of these calls.
   Nothing checks the declarations here against the Rattle source; they are tested. The inline functions at the end are
   C and only tested. examples/third_thread.c is a whole program.

   A share is a binary tree with empty and full leaves; it says which part of a thing a thread holds. A question asks
   whether a system of share clauses is satisfiable, or whether one system entails another. It is a string of bytes,
   here in hexadecimal:

       01 kind n m      the head, first and once. kind 0: satisfiability, 1: entailment; n free variables, m own
                        variables of the second system; n + m at most 12, m is 0 for kind 0
       03 and 4 bytes   the next constant, 32 leaves: leaf i is bit i mod 8, lowest first, of byte i div 8.
                        At most 32 constants, all before the first clause
       10 a b c         a join b is c, in the first system        20 a b c   the same in the second system
       11 a b c         its negation                              21 a b c
       12 a b           a is b                                    22 a b
       13 a b           its negation                              23 a b
       30 a             a is full: a may write                    38 a
       31 a             a is not empty: a may read                39 a
       32 a b           the join of a and b is defined: they      3A a b
                        may be held together
       00               the end

   A term a, b, c is one byte: 00 to 0B a variable, the free ones first, then the own ones; 20 to 3F constant 0 to 31.
   Each system has at most 64 positive clauses and 31 disequations; 11, 13, 31 and 21, 23, 39 are the disequations. A
   clause of the first system names no own variable; with kind 0 there is no second system.

   What holds of every call:
   - Every argument is allowed: any bytes, any lengths. A pointer may be NULL where its length is 0. Otherwise it must
     point to that many bytes.
   - The parts lent to one call must lie apart, no byte in two of them, and nothing else may touch them during the
     call.
   - Nothing is kept between calls and nothing is allocated. Any number of threads may call at once, each with buffers
     of its own. A thread that calls has a stack of ZIMORGAL_STACK_BYTES or more.
   - A refusal leaves every lent byte unchanged. */
#ifndef ZIMORGAL_H
#define ZIMORGAL_H

#include <stddef.h>
#include <stdint.h>

/* The version of this header. It stands here alone: CMake and pkg-config read it from these three lines.
   zimorgal_version() gives that of the library that is linked. */
#define ZIMORGAL_VERSION_MAJOR 0
#define ZIMORGAL_VERSION_MINOR 2
#define ZIMORGAL_VERSION_PATCH 0

#define ZIMORGAL_VERSION (ZIMORGAL_VERSION_MAJOR * 0x10000u + ZIMORGAL_VERSION_MINOR * 0x100u + ZIMORGAL_VERSION_PATCH)

#define ZIMORGAL_QUESTION_BYTES 925     /* no accepted question is longer */
#define ZIMORGAL_ANSWER_BYTES 1536      /* an answer buffer has at least as many: 12 rows */
#define ZIMORGAL_WORK_BYTES 4096        /* a work area has at least as many */
#define ZIMORGAL_ROW_BYTES 128          /* a shown share, unfolded to height 10: 1,024 leaves */
#define ZIMORGAL_ROWS_BYTES 1536        /* rows to be judged have exactly as many: 12 rows */
#define ZIMORGAL_TEXT_BYTES 3070        /* no tree text of a row is longer */
#define ZIMORGAL_CONSTANT_TEXT_BYTES 94 /* no tree text of a constant is longer */

/* Enough stack for a thread that calls. Judging touches under 16 KB, any other call under 8 KB; the rest is for the
   thread, for a signal's frame and for buffers of the caller. tests/cpp/stack.cpp measures it, and runs threads with
   exactly this much. */
#define ZIMORGAL_STACK_BYTES 32768

/* What the compiler is told of a part that is lent: its pointer and its length, as numbers of arguments. */
#if defined(__has_attribute)
#if __has_attribute(access)
#define ZIMORGAL_READS(part, length) __attribute__((access(read_only, part, length)))
#define ZIMORGAL_WRITES(part, length) __attribute__((access(write_only, part, length)))
#endif
#endif
#if !defined(ZIMORGAL_READS)
#define ZIMORGAL_READS(part, length)
#define ZIMORGAL_WRITES(part, length)
#endif

#if !defined(__cplusplus)
#define ZIMORGAL_INLINE static inline
#elif __cplusplus >= 201402L
#define ZIMORGAL_INLINE constexpr
#else
#define ZIMORGAL_INLINE inline
#endif

/* A number that fits a size_t, also one of 32 bits, which some compilers do not see. */
#ifdef __cplusplus
#define ZIMORGAL_SIZE(number) static_cast<size_t>(number)
#else
#define ZIMORGAL_SIZE(number) ((size_t)(number))
#endif

#ifdef __cplusplus
extern "C" {
#endif

enum zimorgal_kind { ZIMORGAL_SATISFIABILITY = 0, ZIMORGAL_ENTAILMENT = 1 };

enum zimorgal_verdict { ZIMORGAL_REFUSED = 0, ZIMORGAL_YES = 1, ZIMORGAL_NO = 2 };

/* Why a question, a buffer, a tree text or rows are turned away. */
enum zimorgal_refusal {
    ZIMORGAL_NOT_REFUSED = 0,
    /* whoever writes the question */
    ZIMORGAL_NO_HEAD = 1,            /* the first byte is missing or is not 01 */
    ZIMORGAL_CUT_SHORT = 2,          /* no byte where a command is due, or its operands are cut short */
    ZIMORGAL_UNKNOWN_COMMAND = 3,    /* an unknown command byte */
    ZIMORGAL_OUT_OF_ORDER = 4,       /* a second head, or a constant after a clause */
    ZIMORGAL_BAD_HEAD = 5,           /* kind above 1, n + m above 12, or m above 0 with kind 0 */
    ZIMORGAL_TOO_MANY_CONSTANTS = 6, /* a 33rd constant */
    ZIMORGAL_TOO_MANY_CLAUSES = 7,   /* a 65th positive clause or 32nd disequation in one system */
    ZIMORGAL_BAD_TERM = 8,           /* a term that names nothing, or an own variable in the first system */
    ZIMORGAL_NO_SECOND_SYSTEM = 9,   /* a clause of the second system with kind 0 */
    ZIMORGAL_AFTER_THE_END = 10,     /* bytes after the end */
    /* whoever lends the buffers */
    ZIMORGAL_ANSWER_TOO_SHORT = 11, /* an answer buffer under 1,536 bytes */
    ZIMORGAL_WORK_TOO_SHORT = 12,   /* a work area under 4,096 bytes */
    ZIMORGAL_TEXT_TOO_SHORT = 13,   /* a tree text does not fit its buffer */
    ZIMORGAL_NOT_A_ROW = 14,        /* a row that is not 128 bytes */
    /* whoever writes the tree text of a constant */
    ZIMORGAL_NOT_TREE_TEXT = 15, /* a text over 94 bytes, or no tree text */
    ZIMORGAL_NOT_FOLDED = 16,    /* a pair that could be folded */
    ZIMORGAL_TOO_TALL = 17,      /* a tree taller than 5 */
    /* whoever writes the rows to be judged */
    ZIMORGAL_NOT_12_ROWS = 18, /* rows that are not exactly 1,536 bytes */
    ZIMORGAL_ROW_NOT_ZERO = 19 /* a bit set in a row of no free variable */
};

/* Why an entailment is answered yes or no. A satisfiability has reason 0, yes or no, and so has a refusal. */
enum zimorgal_reason {
    ZIMORGAL_NO_REASON = 0,        /* of an entailment any yes but reason 1: the first has a solution, all extend */
    ZIMORGAL_FIRST_UNSOLVABLE = 1, /* yes, because the first system has no solution */
    ZIMORGAL_POSITIVES_UNMET = 2,  /* no: some solution of the first cannot even meet the second's positive clauses */
    ZIMORGAL_DISEQUATION_UNMET = 3 /* no: each can meet them; some cannot have the numbered disequation beside them */
};

/* What comes of judging rows. The last two reject them. */
enum zimorgal_judgement {
    ZIMORGAL_NOT_JUDGED = 0,    /* the question or the rows are refused */
    ZIMORGAL_ROWS_ACCEPTED = 1, /* they solve the first system and, for an entailment, do not extend */
    ZIMORGAL_CLAUSE_BROKEN = 2, /* a clause of the first system does not hold */
    ZIMORGAL_ROWS_EXTEND = 3    /* an entailment: they solve the first system, but extend to the second */
};

/* How the test of a positive clause comes out at one leaf. There it reads as a join of two parts that give a sum:

       a join b is c    the parts a and b, the sum c
       a is b           the parts a and empty, the sum b; it fails by surplus or by shortfall
       a is full        the parts a and empty, the sum full; it fails by shortfall alone
       a and b may be   the parts a and b, whatever they give; it fails by overlap alone
       held together */
enum zimorgal_way {
    ZIMORGAL_HOLDS = 0,    /* the test holds */
    ZIMORGAL_OVERLAP = 1,  /* both parts are full */
    ZIMORGAL_SURPLUS = 2,  /* just one part is full, and the sum is empty */
    ZIMORGAL_SHORTFALL = 3 /* both parts are empty, and the sum is full */
};

/* -------- The calls of the library -------- */

/* Answers a question. The result, lowest byte first:

       bits  0 to  7   verdict
       bits  8 to 15   refusal number, 0 if not refused
       bits 16 to 31   place of the fault: the offset of the command at fault; for bytes after the end that of the first
                       of them, for a missing command the length of the question, for a buffer 0
       bits 32 to 39   the height given with a shown solution: h + c(d) for a satisfiability, h + c(d+1) for an
                       entailment, where h is the height of the tallest constant that some clause names, 0 if none is
                       named, d counts the disequations of the first system and c(n) is the least k with n <= 2^k. The
                       solution is no taller; it may be lower. 0 if none is shown
       bits 40 to 47   reason
       bits 48 to 55   disequation number, for reason 3: which disequation of the second system, in order, from 0.
                       Positive clauses are not counted, as they are in the clause number of zimorgal_judge
       bits 56 to 63   0

   A solution is shown for a satisfiability that is yes, and for an entailment that is no: one of the first system that
   does not extend. Of several solutions one is fixed (docs/FORMAT.md, "Which solution is shown"), so that the same
   question always shows the same. It fills the first 1,536 bytes of the answer buffer: 12 rows of 128, row v for free
   variable v, unfolded to height 10, bits as in a constant; the other rows are zero. Otherwise the answer buffer is
   unchanged.
   After a yes or a no the first 4,096 bytes of the work area are zero. Bytes past those are never touched. */
ZIMORGAL_READS(1, 2)
ZIMORGAL_WRITES(3, 4)
ZIMORGAL_WRITES(5, 6)
uint64_t zimorgal_ask(const uint8_t *question, size_t question_length, uint8_t *answer, size_t answer_length,
                      uint8_t *work, size_t work_length);

/* Judges rows as a solution of a question, whoever wrote them: 12 rows of 128 bytes, as zimorgal_ask shows them, row v
   for free variable v. The result, lowest byte first:

       bits  0 to  7   judgement
       bits  8 to 15   refusal number, 0 if not refused: 1 to 10 of the question, then 18 and 19 of the rows
       bits 16 to 31   place of the fault in the question, as zimorgal_ask gives it; for the rows 0
       bits 32 to 39   clause number, for a broken clause: the lowest clause of the first system that does not hold. The
                       clauses of the first system, positive ones and disequations, are counted together, as they stand
                       in the question, from 0; those of the second system between them are not counted
       bits 40 to 47   way, for a broken positive clause: how its test comes out at the leaf of bits 48 to 63
       bits 48 to 63   leaf, for a broken positive clause: the leftmost leaf of the rows at which its test does not
                       hold, 0 to 1,023. Leaf i of a row is bit i mod 8 of byte i div 8; a constant has its leaf
                       i div 32 there

   Fields without a meaning are 0. So a broken disequation has neither way nor leaf: it fails because what it negates
   holds at every leaf. The way says whether there is a leaf, since leaf 0 is one too.
   Rows are accepted for a satisfiability exactly if their shares solve the system; for an entailment exactly if they
   solve the first system and the own variables of the second cannot be given shares, of any height, so that it holds
   too. So what is accepted shows the verdict yes of a satisfiability, and the verdict no of an entailment. The rows
   that zimorgal_ask shows are accepted: the first 1,536 bytes of its answer buffer. Nothing is written. */
ZIMORGAL_READS(1, 2)
ZIMORGAL_READS(3, 4)
uint64_t zimorgal_judge(const uint8_t *question, size_t question_length, const uint8_t *rows, size_t rows_length);

/* Where the row of a variable lies in an answer buffer: offset in the low 32 bits, length (128) in the high 32.
   0, the empty part, if the variable is above 11 or the buffer under 1,536 bytes. */
ZIMORGAL_READS(1, 2)
uint64_t zimorgal_row(const uint8_t *answer, size_t answer_length, size_t variable);

/* Writes the tree text of a row: o empty, * full, ( left right ) a pair; folded, without spaces, without a byte 0 at
   its end. Length in the low 32 bits, refusal number (14, then 13) in bits 32 to 39. A refusal gives length 0; bytes
   past the length are unchanged. */
ZIMORGAL_READS(1, 2)
ZIMORGAL_WRITES(3, 4)
uint64_t zimorgal_text(const uint8_t *row, size_t row_length, uint8_t *text, size_t text_length);

/* Reads a whole text as the tree text of a constant, as zimorgal_text writes it: folded, without spaces, without a byte
   0 at its end. The constant in the low 32 bits, leaf i at bit i, refusal number in bits 32 to 39: 15 before 16 before
   17, wherever in the text the faults are. A refusal gives constant 0. Nothing is written. */
ZIMORGAL_READS(1, 2)
uint64_t zimorgal_constant(const uint8_t *text, size_t length);

/* The join of two constants, as numbers with leaf i at bit i: their sum if no bit is set in both. Otherwise it is
   undefined, and the result is exactly 2^32. It works on the numbers as wholes, without a loop over leaves. */
uint64_t zimorgal_join(uint32_t a, uint32_t b);

/* The height of a constant, 0 to 5. It too works on the number as a whole. */
uint32_t zimorgal_height(uint32_t a);

/* The version of the library: major, minor and patch, a byte each, patch lowest. */
uint32_t zimorgal_version(void);

/* -------- What the numbers have in them -------- */

/* The fields of what zimorgal_ask gives. */
ZIMORGAL_INLINE int zimorgal_verdict(uint64_t result) { return result & 0xFF; }      /* enum zimorgal_verdict */
ZIMORGAL_INLINE int zimorgal_refusal(uint64_t result) { return result >> 8 & 0xFF; } /* enum zimorgal_refusal */
ZIMORGAL_INLINE unsigned zimorgal_place(uint64_t result) { return result >> 16 & 0xFFFF; }
ZIMORGAL_INLINE unsigned zimorgal_height_given(uint64_t result) { return result >> 32 & 0xFF; }
ZIMORGAL_INLINE int zimorgal_reason(uint64_t result) { return result >> 40 & 0xFF; } /* enum zimorgal_reason */
ZIMORGAL_INLINE unsigned zimorgal_disequation(uint64_t result) { return result >> 48 & 0xFF; }

/* Whether a solution is shown. The result does not say it alone: the kind is byte 1 of the question. A refused question
   shows nothing and may have no such byte, so look at the verdict first. */
ZIMORGAL_INLINE int zimorgal_shows(uint64_t result, int kind) {
    return zimorgal_verdict(result) == (kind == ZIMORGAL_ENTAILMENT ? ZIMORGAL_NO : ZIMORGAL_YES);
}

/* The fields of what zimorgal_judge gives. Refusal and place stand where zimorgal_ask has them: zimorgal_refusal and
   zimorgal_place read them. */
ZIMORGAL_INLINE int zimorgal_judgement(uint64_t judged) { return judged & 0xFF; } /* enum zimorgal_judgement */
ZIMORGAL_INLINE unsigned zimorgal_broken_clause(uint64_t judged) { return judged >> 32 & 0xFF; }
ZIMORGAL_INLINE int zimorgal_broken_way(uint64_t judged) { return judged >> 40 & 0xFF; } /* enum zimorgal_way */
ZIMORGAL_INLINE size_t zimorgal_broken_leaf(uint64_t judged) { return ZIMORGAL_SIZE(judged >> 48); }

/* The fields of what zimorgal_row gives. */
ZIMORGAL_INLINE size_t zimorgal_row_offset(uint64_t part) { return part & 0xFFFFFFFF; }
ZIMORGAL_INLINE size_t zimorgal_row_length(uint64_t part) { return ZIMORGAL_SIZE(part >> 32); }

/* The fields of what zimorgal_text gives. */
ZIMORGAL_INLINE size_t zimorgal_text_length(uint64_t written) { return written & 0xFFFFFFFF; }
ZIMORGAL_INLINE int zimorgal_text_refusal(uint64_t written) { return written >> 32 & 0xFF; } /* enum zimorgal_refusal */

/* The fields of what zimorgal_constant gives. */
ZIMORGAL_INLINE uint32_t zimorgal_constant_leaves(uint64_t read) { return read & 0xFFFFFFFF; } /* 0 if refused */
ZIMORGAL_INLINE int zimorgal_constant_refusal(uint64_t read) { return read >> 32 & 0xFF; } /* enum zimorgal_refusal */

/* The fields of what zimorgal_join gives. */
ZIMORGAL_INLINE int zimorgal_join_defined(uint64_t joined) { return joined >> 32 == 0; }
ZIMORGAL_INLINE uint32_t zimorgal_join_leaves(uint64_t joined) { return joined & 0xFFFFFFFF; } /* 0 if undefined */

/* -------- In words -------- */

ZIMORGAL_INLINE const char *zimorgal_describe_verdict(int verdict) {
    switch (verdict) {
        case ZIMORGAL_REFUSED: return "refused";
        case ZIMORGAL_YES: return "yes";
        case ZIMORGAL_NO: return "no";
        default: return "unknown verdict";
    }
}

ZIMORGAL_INLINE const char *zimorgal_describe_refusal(int refusal) {
    switch (refusal) {
        case ZIMORGAL_NOT_REFUSED: return "not refused";
        case ZIMORGAL_NO_HEAD: return "the first byte is missing or is not 01";
        case ZIMORGAL_CUT_SHORT: return "no byte where a command is due, or its operands are cut short";
        case ZIMORGAL_UNKNOWN_COMMAND: return "an unknown command byte";
        case ZIMORGAL_OUT_OF_ORDER: return "a second head, or a constant after a clause";
        case ZIMORGAL_BAD_HEAD: return "kind above 1, more than 12 variables, or own variables with kind 0";
        case ZIMORGAL_TOO_MANY_CONSTANTS: return "a 33rd constant";
        case ZIMORGAL_TOO_MANY_CLAUSES: return "a 65th positive clause or a 32nd disequation in one system";
        case ZIMORGAL_BAD_TERM: return "a term that names nothing, or an own variable in the first system";
        case ZIMORGAL_NO_SECOND_SYSTEM: return "a clause of the second system with kind 0";
        case ZIMORGAL_AFTER_THE_END: return "bytes after the end";
        case ZIMORGAL_ANSWER_TOO_SHORT: return "the answer buffer has under 1,536 bytes";
        case ZIMORGAL_WORK_TOO_SHORT: return "the work area has under 4,096 bytes";
        case ZIMORGAL_TEXT_TOO_SHORT: return "the tree text does not fit its buffer";
        case ZIMORGAL_NOT_A_ROW: return "the row has not 128 bytes";
        case ZIMORGAL_NOT_TREE_TEXT: return "a text over 94 bytes, or no tree text";
        case ZIMORGAL_NOT_FOLDED: return "a pair that could be folded";
        case ZIMORGAL_TOO_TALL: return "a tree taller than 5";
        case ZIMORGAL_NOT_12_ROWS: return "the rows have not exactly 1,536 bytes";
        case ZIMORGAL_ROW_NOT_ZERO: return "a bit set in a row of no free variable";
        default: return "unknown refusal";
    }
}

ZIMORGAL_INLINE const char *zimorgal_describe_reason(int reason) {
    switch (reason) {
        case ZIMORGAL_NO_REASON: return "none";
        case ZIMORGAL_FIRST_UNSOLVABLE: return "the first system has no solution";
        case ZIMORGAL_POSITIVES_UNMET:
            return "some solution of the first system cannot meet the second's positive clauses";
        case ZIMORGAL_DISEQUATION_UNMET:
            return "some solution of the first system cannot have one of the second's disequations";
        default: return "unknown reason";
    }
}

ZIMORGAL_INLINE const char *zimorgal_describe_judgement(int judgement) {
    switch (judgement) {
        case ZIMORGAL_NOT_JUDGED: return "refused";
        case ZIMORGAL_ROWS_ACCEPTED: return "accepted";
        case ZIMORGAL_CLAUSE_BROKEN: return "rejected: a clause of the first system is broken";
        case ZIMORGAL_ROWS_EXTEND: return "rejected: the rows extend to the second system";
        default: return "unknown judgement";
    }
}

ZIMORGAL_INLINE const char *zimorgal_describe_way(int way) {
    switch (way) {
        case ZIMORGAL_HOLDS: return "holds";
        case ZIMORGAL_OVERLAP: return "overlap: both parts are full";
        case ZIMORGAL_SURPLUS: return "surplus: just one part is full and the sum is empty";
        case ZIMORGAL_SHORTFALL: return "shortfall: both parts are empty and the sum is full";
        default: return "unknown way";
    }
}

#ifdef __cplusplus
}
#endif

/* -------- Under MemorySanitizer -------- */

/* The library is not compiled with it, so that it takes bytes that the library has written for bytes that nobody has.
   There, and only there, the two calls that write go through functions that tell it which bytes they are. */
#if defined(__has_feature)
#if __has_feature(memory_sanitizer)
#include <sanitizer/msan_interface.h>

static inline uint64_t zimorgal_ask_told(const uint8_t *question, size_t question_length, uint8_t *answer,
                                         size_t answer_length, uint8_t *work, size_t work_length) {
    const uint64_t result = zimorgal_ask(question, question_length, answer, answer_length, work, work_length);
    if (zimorgal_verdict(result) == ZIMORGAL_REFUSED) return result;
    __msan_unpoison(work, ZIMORGAL_WORK_BYTES);
    if (zimorgal_shows(result, question[1])) __msan_unpoison(answer, ZIMORGAL_ANSWER_BYTES);
    return result;
}

static inline uint64_t zimorgal_text_told(const uint8_t *row, size_t row_length, uint8_t *text, size_t text_length) {
    const uint64_t written = zimorgal_text(row, row_length, text, text_length);
    __msan_unpoison(text, zimorgal_text_length(written));
    return written;
}

#define zimorgal_ask zimorgal_ask_told
#define zimorgal_text zimorgal_text_told
#endif
#endif

#endif
