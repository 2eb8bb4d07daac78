/* The verified checker of bit-blasting steps, for C.
 *
 * Link libbitblast.a of a release (tools/release), or crates/bitblast_c/out/libbitblast_c.a, the same file, which `rt lib` writes in
 * crates/bitblast_c. docs/FORMAT.md has the format of a job, and every code.
 *
 * Formats: the numbers of terms in a job have two bytes, or four where its first four bytes are 02 00 67 00, a record of kind
 * BB_KIND_FOURBYTES without a body; BB_IS_LONG tells them apart. Such a long job may keep more terms, each costs more work memory, and its
 * answers are longer: the numbers below whose names begin with BB_LONG are those of a long job. Every function takes jobs of either format.
 *
 * Pointers are not NULL, also where their length is 0, and the lent memories do not overlap. The library has no memory of its
 * own: calls on different memories may run at the same time.
 *
 * Stack: BB_STACK_BYTES are enough for any job and any text. Most of it is used by a division of width 64 (some 164 KiB), for which
 * a default thread of some C libraries has no room; a text whose terms are nested 200 deep takes some 83 KiB. From outside the
 * archive wants memcpy and memset, and nothing else.
 *
 * Time: every call ends, but nothing interrupts it. A job may repeat its longest step, a division of width 64, in eight bytes for
 * each answer that has room; such a step took up to twelve milliseconds (docs/PERFORMANCE.md). So the time is bounded by the
 * answers lent. For jobs of strangers lend few answers, and make the call where it can be ended: in a process of its own.
 *
 * Seed: the last four bytes of `work` at the call decide where the library looks for terms, and nothing else; no result depends on
 * them. Put random bytes there before each call, since they are zero after it:
 *
 *     if (work_len >= BB_SEED_BYTES) getrandom(work + work_len - BB_SEED_BYTES, BB_SEED_BYTES, 0);
 *
 * Where they are the same for all jobs, zero say, a job can be made whose terms are all looked for in one place: one with 8,000 such
 * terms took 0.1 seconds in place of 2 milliseconds, and the time grows with the square of their number.
 */
#ifndef BITBLAST_H
#define BITBLAST_H

#include <stddef.h>
#include <stdint.h>

#ifdef __cplusplus
extern "C" {
#endif

/* The number of the interface that is declared here. It grows with each change of a function or struct below: a program that is
 * compiled with this header must be linked with a library whose bb_version() gives the same number. */
#define BB_VERSION 8

/* The longest job, in bytes. */
#define BB_MAX_JOB 16777216

/* The stack that is enough for a call, in bytes. */
#define BB_STACK_BYTES 262144

/* Whether a job is a long one: its term numbers have four bytes. */
#define BB_IS_LONG(job, job_len) \
    ((job_len) >= 4 && (job)[0] == 2 && (job)[1] == 0 && (job)[2] == BB_KIND_FOURBYTES && (job)[3] == 0)

/* The rack's limits: the greatest width, and the most terms, `true` and `false` counted. */
#define BB_MAX_WIDTH 64
#define BB_MAX_TERMS 65535
#define BB_LONG_MAX_TERMS 1000000

/* The bytes of work memory that a kept term costs; no job keeps more than BB_MAX_TERMS or BB_LONG_MAX_TERMS terms, two of them free. */
#define BB_TERM_BYTES 8
#define BB_LONG_TERM_BYTES 12

/* The bytes of the seed, which are the last of the work memory. */
#define BB_SEED_BYTES 4

/* The work memory beyond which the lookups of bb_text become no faster. */
#define BB_LOOKUP_BYTES 1048576

/* The bytes of a value buffer that a kept term needs, `true` and `false` too. */
#define BB_VALUE_BYTES 8

/* The bytes of an answer: five numbers of two bytes, low byte first: 8, 200, rule, code, depth. In a long job the first is 10, and the depth
 * has four bytes. */
#define BB_ANSWER_BYTES 10
#define BB_LONG_ANSWER_BYTES 12

/* The kinds of records. */
enum BbKind {
    BB_KIND_BOOLVAR = 10,
    BB_KIND_BVVAR = 11,
    BB_KIND_CONSTANT = 12,
    BB_KIND_NOT = 20,
    BB_KIND_AND = 21,
    BB_KIND_OR = 22,
    BB_KIND_XOR = 23,
    BB_KIND_EQUALS = 24,
    BB_KIND_ITE = 25,
    BB_KIND_BVBITOF = 30,
    BB_KIND_BVBBTERM = 31,
    BB_KIND_BVNOT = 40,
    BB_KIND_BVNEG = 41,
    BB_KIND_BVAND = 42,
    BB_KIND_BVOR = 43,
    BB_KIND_BVXOR = 44,
    BB_KIND_BVADD = 45,
    BB_KIND_BVMUL = 46,
    BB_KIND_BVXNOR = 47,
    BB_KIND_BVCOMP = 48,
    BB_KIND_BVULT = 49,
    BB_KIND_BVSLT = 50,
    BB_KIND_BVSHL = 51,
    BB_KIND_BVLSHR = 52,
    BB_KIND_BVASHR = 53,
    BB_KIND_BVUDIV = 54,
    BB_KIND_BVUREM = 55,
    BB_KIND_BVCONCAT = 56,
    BB_KIND_BVEXTRACT = 57,
    BB_KIND_SIGNEXTEND = 58,
    BB_KIND_ZEROEXTEND = 60,
    BB_KIND_ROTATELEFT = 61,
    BB_KIND_ROTATERIGHT = 62,
    BB_KIND_REPEAT = 63,
    BB_KIND_STEP = 100,
    BB_KIND_BACK = 101,
    BB_KIND_FOURBYTES = 103,
    BB_KIND_CHAIN = 104
};

/* The rules of steps, 1 to 30, and of chains, 31 to 33. */
enum BbRule {
    BB_RULE_VALUE = 1,
    BB_RULE_VAR = 2,
    BB_RULE_AND = 3,
    BB_RULE_OR = 4,
    BB_RULE_XOR = 5,
    BB_RULE_XNOR = 6,
    BB_RULE_NOT = 7,
    BB_RULE_ULT = 8,
    BB_RULE_SLT = 9,
    BB_RULE_ADD = 10,
    BB_RULE_MULT = 11,
    BB_RULE_NEG = 12,
    BB_RULE_EQUALITY = 13,
    BB_RULE_COMP = 14,
    BB_RULE_EXTRACT = 15,
    BB_RULE_CONCAT = 16,
    BB_RULE_SIGN_EXTEND = 17,
    BB_RULE_SHL = 18,
    BB_RULE_LSHR = 19,
    BB_RULE_ASHR = 20,
    BB_RULE_UDIV = 21,
    BB_RULE_UREM = 22,
    BB_RULE_BITWISE_SLICING = 23,
    BB_RULE_UDIV_STANDARD = 24,
    BB_RULE_UREM_STANDARD = 25,
    BB_RULE_ASHR_STANDARD = 26,
    BB_RULE_ZERO_EXTEND = 27,
    BB_RULE_ROTATE_LEFT = 28,
    BB_RULE_ROTATE_RIGHT = 29,
    BB_RULE_REPEAT = 30,
    BB_RULE_SYMM = 31,
    BB_RULE_TRANS = 32,
    BB_RULE_CONG = 33
};

/* The codes that stop a job, and 0 where it ran to its end. */
enum BbStop {
    BB_STOP_END = 0,                  /* the job ran to its end */
    BB_STOP_TOO_LONG = 2,             /* the job is longer than 16,777,216 bytes */
    BB_STOP_CUT = 3,                  /* the record is cut: just one byte is left, or its length is below 2 or beyond the job's end */
    BB_STOP_UNKNOWN_KIND = 4,         /* the record's kind is unknown */
    BB_STOP_WRONG_LENGTH = 5,         /* the record's length is not its kind's */
    BB_STOP_NOT_KEPT = 6,             /* an argument or literal is not the number of a kept term */
    BB_STOP_NOT_SORTED = 7,           /* a sort, width, index or value does not fit */
    BB_STOP_NO_ROOM = 8,              /* no room for a new term: the work memory or the term numbers are spent */
    BB_STOP_NO_RULE = 9,              /* the record's kind has no such rule */
    BB_STOP_WRONG_BACK = 18,          /* a back to below 2 or above the number of terms */
    BB_STOP_NO_ANSWER_ROOM = 19       /* fewer bytes are left than the step's answer has, 10 or 12 */
};

/* The codes of answers: 0 and 1 are accepted, all others refused. */
enum BbAnswer {
    BB_ANSWER_HELD = 0,               /* held */
    BB_ANSWER_FORM_ONLY = 1,          /* form only: the circuit is the rule's, which is not the standard's operation */
    BB_ANSWER_NOT_ONE_LITERAL = 10,   /* the clause has not exactly one literal */
    BB_ANSWER_WRONG_FORM = 11,        /* the literal is not of the rule's form */
    BB_ANSWER_NOT_BIT_VECTOR = 12,    /* the left side, or what it compares, is not a bit-vector */
    BB_ANSWER_NOT_CONSTANT = 13,      /* the left side is not a constant */
    BB_ANSWER_BIT_NOT_LITERAL = 14,   /* a bit of the right side is neither true nor false */
    BB_ANSWER_OTHER_VALUE = 15,       /* the right side is another value */
    BB_ANSWER_TERMS_DIFFER = 16,      /* the right side is not the expected term */
    BB_ANSWER_INDEX_NOT_NEXT = 17,    /* a slice does not begin just below the one before */
    BB_ANSWER_PREMISE_BROKEN = 24     /* a premise is not an earlier step that is held and whose literal is kept since */
};

/* What a job came to. */
typedef struct BbOutcome {
    uint32_t stop;    /* BB_STOP_END where the job ran to its end, else the code that stopped it */
    uint32_t records; /* records done, the stopping one not counted */
    uint32_t answers; /* answers written */
    uint32_t terms;   /* terms kept at the end, `true` and `false` among them */
    uint32_t repeats; /* term records done whose term was there already; no back lowers it */
} BbOutcome;

/* What a sweep came to. */
typedef struct BbSwept {
    uint32_t code;        /* 0 where the sweep was made, else 20 or 21; both counts are 0 then */
    uint32_t assignments; /* how many assignments the variables have */
    uint32_t differing;   /* on how many of them the sides differ */
    BbOutcome outcome;    /* what the job came to */
} BbSwept;

/* What counting a term's values came to. */
typedef struct BbCounted {
    uint32_t code;     /* 0 where the counts were written, else 20, 21 or 22 */
    BbOutcome outcome; /* what the job came to */
} BbCounted;

/* What deriving a term's bits came to. */
typedef struct BbKnown {
    uint32_t code;     /* 0 where the bits were written, else 20, 21 or 23 */
    BbOutcome outcome; /* what the job came to */
} BbKnown;

/* What a text came to. */
typedef struct BbConverted {
    uint32_t code;   /* 0 where the job was written, 25 where a line is refused */
    uint64_t line;   /* the place of the first line that is refused, from 1; 0 where none is */
    uint64_t length; /* the bytes of the job; 0 where a line is refused */
} BbConverted;

/* What the jobs of a service came to. Each number saturates. */
typedef struct BbTally {
    uint64_t jobs;
    uint64_t held;
    uint64_t form_only;
    uint64_t refused;
} BbTally;

/* The number of the library's interface. */
uint32_t bb_version(void);

/* Checks a job. Both lent memories may be of any length and content; afterwards all of `work` is zero, the answers stand at
 * the start of `answers`, and the bytes past the last answer are as they were. */
BbOutcome bb_job(const uint8_t *job, size_t job_len,
                 uint8_t *work, size_t work_len,
                 uint8_t *answers, size_t answers_len);

/* Checks a job as bb_job does, under limits: a bit-vector wider than `width_limit` is stop code 7, a new term where `term_limit` terms are kept, `true`
 * and `false` counted, is 8. A limit above the rack's, BB_MAX_WIDTH, and BB_MAX_TERMS or in a long job BB_LONG_MAX_TERMS, is the rack's. At width
 * limit 0 there is no bit-vector; at term limits 0 and 1 `true` and `false` are there all the same. A job that stops with neither code comes to the same under any larger limits. */
BbOutcome bb_job_within(const uint8_t *job, size_t job_len,
                        uint8_t *work, size_t work_len,
                        uint8_t *answers, size_t answers_len,
                        uint32_t width_limit, uint32_t term_limit);

/* Runs a job as bb_job does, and evaluates both sides of the Equals of that number in its final store on every assignment of the variables
 * that stand in it: up to 65,536 assignments, each with one evaluation of each term that stands there. All of `values` is zero after an
 * accepted sweep, and as it was after a refused one. The code is 20 where the job stops early, the number is not that of an Equals, or its
 * variables have more than 16 bits; else 21 where `values` has fewer than BB_VALUE_BYTES for each kept term, in a long job too. */
BbSwept bb_sweep(const uint8_t *job, size_t job_len,
                 uint8_t *work, size_t work_len,
                 uint8_t *answers, size_t answers_len,
                 uint8_t *values, size_t values_len,
                 uint32_t number);

/* Runs a job as bb_job does, and counts how many assignments of the variables that stand in the term of that number of its final store lead to
 * each of its values. The counts stand at the start of `counts`, the lowest value's first, `false` before `true`; the numbers past the last
 * value are as they were, and all of them where the code is not 0. `counts_len` is in numbers. `values` is left as bb_sweep leaves it. The
 * code is 20 where the job stops early, the number is not that of a kept Bool or bit-vector of width up to 8, or its variables have more than
 * 16 bits; else 21 as in bb_sweep; else 22 where `counts` is shorter than the number of values, which is 2, or 256 at width 8. */
BbCounted bb_count(const uint8_t *job, size_t job_len,
                   uint8_t *work, size_t work_len,
                   uint8_t *answers, size_t answers_len,
                   uint8_t *values, size_t values_len,
                   uint32_t number,
                   uint32_t *counts, size_t counts_len);

/* Runs a job as bb_job does, and derives the bits of the term of that number of its final store where only part of its inputs is known. A byte is
 * 0, 1, or 2 for a bit that is not known: `inputs` has one for each bit of the variables that stand in the term, the variable with the lowest
 * number first and bit 0 first in each; the term's own stand at the start of `outputs`, bit 0 first. A 0 or 1 there is the true bit under every
 * assignment that fits what is known. The bytes past the term's bits are as they were, and all of them where the code is not 0. `values` is left
 * as bb_sweep leaves it. The code is 20 where the job stops early or the number is not that of a kept term; else 21 as in bb_sweep; else 23 where
 * the term holds more than variables, constants, `true`, `false`, gates over Bools, BvBitOf and BvBbTerm, where the bytes are not one per bit with
 * values 0 to 2, or where `outputs` is shorter than the term's width, 1 for a Bool. */
BbKnown bb_known(const uint8_t *job, size_t job_len,
                 uint8_t *work, size_t work_len,
                 uint8_t *answers, size_t answers_len,
                 uint8_t *values, size_t values_len,
                 uint32_t number,
                 const uint8_t *inputs, size_t inputs_len,
                 uint8_t *outputs, size_t outputs_len);

/* Reads a text of declarations and Alethe steps, and writes a job with a step for each step line; docs/FORMAT.md has the form of a line. The job
 * stands at the start of `job`, and the bytes past it are as they were; where a line is refused, all of `job` is zero. A job is at most five times
 * as long as its text, and its term numbers have two bytes. `work` may be of any length and content: it makes lookups faster, never changes the result, and is all zero afterwards. With
 * none a term is looked for among all records written, so that the time grows with the square of the text; BB_LOOKUP_BYTES are enough for any. Names
 * are looked for among the declarations, whatever is lent. */
BbConverted bb_text(const uint8_t *text, size_t text_len,
                    uint8_t *work, size_t work_len,
                    uint8_t *job, size_t job_len);

/* Adds one job and its first `count` answers to a tally; where `answers` is shorter, those that it has whole. The first two bytes of `answers` say
 * how long each of them is: BB_LONG_ANSWER_BYTES where they are 10 and 0, as a long job writes them, else BB_ANSWER_BYTES. */
void bb_tally(BbTally *tally, const uint8_t *answers, size_t answers_len, uint32_t count);

#ifdef __cplusplus
}
#endif

#endif
