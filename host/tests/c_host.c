/* Calls the library from C: layout, the specimen at every length of lent memory and in both formats, a stopped job, a sweep, counts, bits, a tally. */
#include "bitblast.h"
#include <stdio.h>
#include <string.h>

#define FENCE 32
#define POST 0xA5
#define OLD 0x5C

static int failures;

static void expect(int fact, const char *what) {
    if (!fact) {
        printf("failed: %s\n", what);
        failures++;
    }
}

static int all(const uint8_t *bytes, size_t from, size_t to, uint8_t value) {
    for (size_t k = from; k < to; k++) {
        if (bytes[k] != value) {
            return 0;
        }
    }
    return 1;
}

static const uint8_t specimen[] = {
    0x06, 0, 0x0B, 0, 1, 0, 0, 0, 0x06, 0, 0x0B, 0, 1, 0, 1, 0, 0x06, 0, 0x1E, 0, 0, 0, 2, 0,
    0x06, 0, 0x1E, 0, 0, 0, 3, 0, 0x04, 0, 0x14, 0, 5, 0, 0x06, 0, 0x15, 0, 4, 0, 6, 0,
    0x06, 0, 0x32, 0, 2, 0, 3, 0, 0x06, 0, 0x18, 0, 8, 0, 7, 0, 0x06, 0, 0x64, 0, 9, 0, 9, 0};

static const uint8_t answer[BB_ANSWER_BYTES] = {8, 0, 200, 0, 9, 0, 0, 0, 2, 0};

/* The same with term numbers of four bytes. */
static const uint8_t long_specimen[] = {
    0x02, 0, 0x67, 0, 0x06, 0, 0x0B, 0, 1, 0, 0, 0, 0x06, 0, 0x0B, 0, 1, 0, 1, 0, 0x08, 0, 0x1E, 0, 0, 0, 2, 0, 0, 0,
    0x08, 0, 0x1E, 0, 0, 0, 3, 0, 0, 0, 0x06, 0, 0x14, 0, 5, 0, 0, 0, 0x0A, 0, 0x15, 0, 4, 0, 0, 0, 6, 0, 0, 0,
    0x0A, 0, 0x32, 0, 2, 0, 0, 0, 3, 0, 0, 0, 0x0A, 0, 0x18, 0, 8, 0, 0, 0, 7, 0, 0, 0, 0x08, 0, 0x64, 0, 9, 0, 9, 0, 0, 0};

static const uint8_t long_answer[BB_LONG_ANSWER_BYTES] = {10, 0, 200, 0, 9, 0, 0, 0, 2, 0, 0, 0};

/* The specimen in a format, with every length of lent memory around what it needs. */
static void every_length(const uint8_t *job, size_t job_len, const uint8_t *expected) {
    int is_long = BB_IS_LONG(job, job_len);
    size_t term_bytes = is_long ? BB_LONG_TERM_BYTES : BB_TERM_BYTES, answer_bytes = is_long ? BB_LONG_ANSWER_BYTES : BB_ANSWER_BYTES;
    for (size_t k = 0; k < 121 * 31; k++) {
        size_t work_len = k / 31, room = k % 31;
        uint8_t work[FENCE + 120 + FENCE], answers[FENCE + 30 + FENCE];
        memset(work, POST, sizeof work);
        memset(answers, POST, sizeof answers);
        memset(work + FENCE, OLD, work_len);
        memset(answers + FENCE, OLD, room);
        BbOutcome o = bb_job(job, job_len, work + FENCE, work_len, answers + FENCE, room);
        uint32_t stop = work_len < 8 * term_bytes ? BB_STOP_NO_ROOM : room < answer_bytes ? BB_STOP_NO_ANSWER_ROOM : BB_STOP_END;
        expect(o.stop == stop, "stop code");
        expect(o.repeats == 0, "no repeats");
        expect(o.answers == (stop == 0), "number of answers");
        expect(o.terms == 2 + (stop == BB_STOP_NO_ROOM ? work_len / term_bytes : 8), "terms");
        expect(o.records == o.terms - 2 + o.answers + is_long, "records");
        expect(all(work, FENCE, FENCE + work_len, 0), "work memory is zero");
        expect(all(work, 0, FENCE, POST) && all(work, FENCE + work_len, sizeof work, POST), "fences of the work memory");
        size_t written = answer_bytes * o.answers;
        expect(memcmp(answers + FENCE, expected, written) == 0, "the answer");
        expect(all(answers, FENCE + written, FENCE + room, OLD), "untouched answers");
        expect(all(answers, 0, FENCE, POST) && all(answers, FENCE + room, sizeof answers, POST), "fences of the answers");
    }
}

/* Which jobs are long, and what kind 103 is elsewhere. */
static void first_record(void) {
    static const uint8_t alone[] = {2, 0, BB_KIND_FOURBYTES, 0}, body[] = {4, 0, BB_KIND_FOURBYTES, 0, 0, 0},
                         twice[] = {2, 0, BB_KIND_FOURBYTES, 0, 2, 0, BB_KIND_FOURBYTES, 0};
    uint8_t work[24], answers[24];
    BbOutcome o = bb_job(alone, sizeof alone, work, sizeof work, answers, sizeof answers);
    expect(o.stop == BB_STOP_END && o.records == 1 && o.terms == 2, "the first record alone");
    o = bb_job(body, sizeof body, work, sizeof work, answers, sizeof answers);
    expect(o.stop == BB_STOP_WRONG_LENGTH && o.records == 0, "a first record with a body");
    o = bb_job(twice, sizeof twice, work, sizeof work, answers, sizeof answers);
    expect(o.stop == BB_STOP_UNKNOWN_KIND && o.records == 1, "the first record twice");
    expect(BB_IS_LONG(alone, sizeof alone) && BB_IS_LONG(twice, sizeof twice), "long jobs");
    expect(!BB_IS_LONG(alone, 3) && !BB_IS_LONG(body, sizeof body) && !BB_IS_LONG(specimen, sizeof specimen), "other jobs");
}

/* Limits, a sweep, counts and bits of the long specimen: as of the other, with the same value buffer. */
static void long_questions(void) {
    uint8_t work[8 * BB_LONG_TERM_BYTES], answers[BB_LONG_ANSWER_BYTES], values[80], inputs[] = {1, 2}, output = 9;
    uint32_t numbers[2];
    for (uint32_t terms = 9; terms <= 10; terms++) {
        BbOutcome o = bb_job_within(long_specimen, sizeof long_specimen, work, sizeof work, answers, sizeof answers, 1, terms);
        expect(o.stop == (terms < 10 ? BB_STOP_NO_ROOM : BB_STOP_END) && o.terms == terms, "a long job under limits");
    }
    BbSwept s = bb_sweep(long_specimen, sizeof long_specimen, work, sizeof work, answers, sizeof answers, values, sizeof values, 9);
    expect(s.code == 0 && s.assignments == 4 && s.differing == 0 && s.outcome.records == 10, "a sweep of a long job");
    s = bb_sweep(long_specimen, sizeof long_specimen, work, sizeof work, answers, sizeof answers, values, 79, 9);
    expect(s.code == 21, "a short value buffer of a long job");
    BbCounted c = bb_count(long_specimen, sizeof long_specimen, work, sizeof work, answers, sizeof answers, values, sizeof values, 7, numbers, 2);
    expect(c.code == 0 && numbers[0] == 3 && numbers[1] == 1, "counts of a long job");
    BbKnown b = bb_known(long_specimen, sizeof long_specimen, work, sizeof work, answers, sizeof answers, values, sizeof values, 7, inputs, 2,
                         &output, 1);
    expect(b.code == 0 && output == 2, "bits of a long job");
    expect(memcmp(answers, long_answer, sizeof long_answer) == 0, "the answer of a long job with questions");
}

static void stopped(void) {
    static const uint8_t cut[] = {0x06, 0, 0x0B};
    uint8_t work[8], answers[10];
    BbOutcome o = bb_job(cut, sizeof cut, work, sizeof work, answers, sizeof answers);
    expect(o.stop == BB_STOP_CUT && o.records == 0 && o.answers == 0 && o.terms == 2 && o.repeats == 0, "a cut record");
    o = bb_job(cut, 0, work, 0, answers, 0);
    expect(o.stop == BB_STOP_END && o.records == 0 && o.answers == 0 && o.terms == 2 && o.repeats == 0, "an empty job");
}

/* A variable three times, a back that drops it, the variable twice, and a back that stops the job: three repeats, of which the first back
 * takes none away. All five numbers are read, with fences around the struct. */
static void repeats(void) {
    static const uint8_t job[] = {
        0x06, 0, 0x0B, 0, 1, 0, 0, 0, 0x06, 0, 0x0B, 0, 1, 0, 0, 0, 0x06, 0, 0x0B, 0, 1, 0, 0, 0,
        0x04, 0, 0x65, 0, 2, 0, 0x06, 0, 0x0B, 0, 1, 0, 0, 0, 0x06, 0, 0x0B, 0, 1, 0, 0, 0, 0x04, 0, 0x65, 0, 9, 0};
    uint8_t work[64], answers[10];
    struct {
        uint32_t before;
        BbOutcome outcome;
        uint32_t behind[4];
    } o;
    memset(&o, POST, sizeof o);
    o.outcome = bb_job(job, sizeof job, work, sizeof work, answers, sizeof answers);
    expect(o.outcome.stop == BB_STOP_WRONG_BACK && o.outcome.records == 6 && o.outcome.answers == 0 && o.outcome.terms == 3 && o.outcome.repeats == 3, "repeats");
    expect(all((const uint8_t *)&o.before, 0, sizeof o.before, POST) && all((const uint8_t *)o.behind, 0, sizeof o.behind, POST), "fences of the outcome");
}

/* The specimen has ten terms of width 1: every limit around these, and limits above the rack's. */
static void limits(void) {
    static const uint32_t widths[] = {0, 1, 2, BB_MAX_WIDTH, UINT32_MAX}, numbers[] = {0, 1, 2, 3, 9, 10, 11, BB_MAX_TERMS, UINT32_MAX};
    for (size_t k = 0; k < 5 * 9; k++) {
        uint32_t width = widths[k / 9], terms = numbers[k % 9], kept = terms < 2 ? 2 : terms;
        uint8_t work[FENCE + 64 + FENCE], answers[FENCE + 10 + FENCE];
        memset(work, POST, sizeof work);
        memset(answers, POST, sizeof answers);
        memset(work + FENCE, OLD, 64);
        memset(answers + FENCE, OLD, 10);
        BbOutcome o = bb_job_within(specimen, sizeof specimen, work + FENCE, 64, answers + FENCE, 10, width, terms);
        uint32_t stop = width == 0 ? BB_STOP_NOT_SORTED : terms < 10 ? BB_STOP_NO_ROOM : BB_STOP_END;
        expect(o.stop == stop, "stop code under limits");
        expect(o.terms == (stop == BB_STOP_NOT_SORTED ? 2 : kept < 10 ? kept : 10) && o.repeats == 0, "terms under limits");
        expect(o.answers == (stop == 0) && o.records == (stop == 0 ? 9 : o.terms - 2), "records and answers under limits");
        expect(all(work, FENCE, FENCE + 64, 0), "work memory is zero under limits");
        expect(all(work, 0, FENCE, POST) && all(work, FENCE + 64, sizeof work, POST), "fences of the work memory under limits");
        size_t written = BB_ANSWER_BYTES * o.answers;
        expect(memcmp(answers + FENCE, answer, written) == 0 && all(answers, FENCE + written, FENCE + 10, OLD), "the answers under limits");
        expect(all(answers, 0, FENCE, POST) && all(answers, FENCE + 10, sizeof answers, POST), "fences of the answers under limits");
    }
}

/* The specimen's ten terms need 80 bytes of values; its one Equals is term 9. A job that stops early is refused first. */
static void sweep(void) {
    static const uint32_t numbers[] = {0, 1, 2, 8, 9, 10, 65545, UINT32_MAX};
    for (size_t size = 0; size <= 100; size++) {
        for (size_t k = 0; k < 2 * sizeof numbers / sizeof numbers[0]; k++) {
            uint32_t number = numbers[k / 2];
            size_t room = k % 2 ? 10 : 9;
            uint8_t work[FENCE + 64 + FENCE], answers[FENCE + 10 + FENCE], values[FENCE + 100 + FENCE];
            memset(work, POST, sizeof work);
            memset(answers, POST, sizeof answers);
            memset(values, POST, sizeof values);
            memset(work + FENCE, OLD, 64);
            memset(answers + FENCE, OLD, room);
            memset(values + FENCE, OLD, size);
            struct {
                uint32_t before;
                BbSwept swept;
                uint32_t behind[4];
            } s;
            memset(&s, POST, sizeof s);
            s.swept = bb_sweep(specimen, sizeof specimen, work + FENCE, 64, answers + FENCE, room, values + FENCE, size, number);
            uint32_t code = number != 9 || room == 9 ? 20 : size < 10 * BB_VALUE_BYTES ? 21 : 0;
            expect(s.swept.code == code, "code of a sweep");
            expect(s.swept.assignments == (code == 0 ? 4 : 0) && s.swept.differing == 0, "counts of a sweep");
            BbOutcome o = s.swept.outcome;
            expect(o.stop == (room == 9 ? 19 : 0) && o.records == 8 + o.answers && o.answers == room - 9 && o.terms == 10 && o.repeats == 0, "outcome of a swept job");
            expect(all((const uint8_t *)&s.before, 0, sizeof s.before, POST) && all((const uint8_t *)s.behind, 0, sizeof s.behind, POST), "fences of a swept");
            expect(all(work, FENCE, FENCE + 64, 0), "work memory of a sweep is zero");
            expect(all(work, 0, FENCE, POST) && all(work, FENCE + 64, sizeof work, POST), "fences of a sweep's work memory");
            size_t written = BB_ANSWER_BYTES * o.answers;
            expect(memcmp(answers + FENCE, answer, written) == 0, "the answer of a swept job");
            expect(all(answers, FENCE + written, FENCE + room, OLD), "untouched answers of a sweep");
            expect(all(answers, 0, FENCE, POST) && all(answers, FENCE + room, sizeof answers, POST), "fences of a sweep's answers");
            expect(all(values, FENCE, FENCE + size, code == 0 ? 0 : OLD), "the value buffer");
            expect(all(values, 0, FENCE, POST) && all(values, FENCE + size, sizeof values, POST), "fences of the value buffer");
        }
    }
}

/* A Bool variable beside true: two assignments, and the sides differ on one. */
static void sweep_that_differs(void) {
    static const uint8_t job[] = {0x04, 0, 0x0A, 0, 0, 0, 0x06, 0, 0x18, 0, 2, 0, 0, 0};
    uint8_t work[16], answers[1], values[32];
    BbSwept s = bb_sweep(job, sizeof job, work, sizeof work, answers, 0, values, sizeof values, 3);
    expect(s.code == 0 && s.assignments == 2 && s.differing == 1 && s.outcome.terms == 4, "a sweep that differs");
}

/* The specimen's And: three of the four assignments make it false. The numbers past the two counts are as they were. */
static void counts(void) {
    static const size_t sizes[] = {0, 79, 80, 100}, runs[] = {0, 1, 2, 5};
    static const uint32_t numbers[] = {7, 10, UINT32_MAX};
    for (size_t k = 0; k < 4 * 4 * 3; k++) {
        size_t size = sizes[k % 4], run = runs[k / 4 % 4];
        uint32_t number = numbers[k / 16];
        uint8_t work[64], answers[10], values[FENCE + 100 + FENCE];
        uint32_t numbers_lent[FENCE + 5 + FENCE];
        memset(values, POST, sizeof values);
        memset(values + FENCE, OLD, size);
        memset(numbers_lent, POST, sizeof numbers_lent);
        struct {
            uint32_t before;
            BbCounted counted;
            uint32_t behind[4];
        } c;
        memset(&c, POST, sizeof c);
        c.counted = bb_count(specimen, sizeof specimen, work, sizeof work, answers, sizeof answers, values + FENCE, size, number,
                             numbers_lent + FENCE, run);
        uint32_t code = number != 7 ? 20 : size < 80 ? 21 : run < 2 ? 22 : 0;
        expect(c.counted.code == code, "code of a count");
        BbOutcome o = c.counted.outcome;
        expect(o.stop == 0 && o.records == 9 && o.answers == 1 && o.terms == 10 && o.repeats == 0, "outcome of a counted job");
        expect(all((const uint8_t *)&c.before, 0, sizeof c.before, POST) && all((const uint8_t *)c.behind, 0, sizeof c.behind, POST), "fences of a counted");
        expect(all(work, 0, sizeof work, 0), "work memory of a count is zero");
        expect(memcmp(answers, answer, sizeof answer) == 0, "the answer of a counted job");
        expect(all(values, FENCE, FENCE + size, code == 0 ? 0 : OLD), "the value buffer of a count");
        expect(all(values, 0, FENCE, POST) && all(values, FENCE + size, sizeof values, POST), "fences of a count's value buffer");
        size_t written = code == 0 ? 2 : 0;
        expect(written == 0 || (numbers_lent[FENCE] == 3 && numbers_lent[FENCE + 1] == 1), "counts");
        const uint8_t *bytes = (const uint8_t *)numbers_lent;
        expect(all(bytes, 0, 4 * FENCE, POST) && all(bytes, 4 * (FENCE + written), sizeof numbers_lent, POST), "numbers beside the counts");
    }
}

/* The specimen's And of x and not y, where only part of both is known: the tests 20, 21 and 23 in their order, and every pair of inputs. */
static void bits(void) {
    static const size_t sizes[] = {79, 80}, rooms[] = {0, 1, 4}, lengths[] = {1, 2, 3};
    static const uint32_t numbers[] = {7, 8, 10};
    for (size_t k = 0; k < 16 * 2 * 3 * 3 * 3; k++) {
        uint8_t inputs[] = {k % 4, k / 4 % 4, 0};
        size_t size = sizes[k / 16 % 2], room = rooms[k / 32 % 3], length = lengths[k / 96 % 3];
        uint32_t number = numbers[k / 288];
        uint8_t work[64], answers[10], values[FENCE + 80 + FENCE], outputs[FENCE + 4 + FENCE];
        memset(values, POST, sizeof values);
        memset(values + FENCE, OLD, size);
        memset(outputs, POST, sizeof outputs);
        struct {
            uint32_t before;
            BbKnown known;
            uint32_t behind[4];
        } s;
        memset(&s, POST, sizeof s);
        s.known = bb_known(specimen, sizeof specimen, work, sizeof work, answers, sizeof answers, values + FENCE, size, number, inputs, length,
                           outputs + FENCE, room);
        int fits = number == 7 && length == 2 && inputs[0] < 3 && inputs[1] < 3 && room > 0;
        uint32_t code = number == 10 ? 20 : size < 80 ? 21 : fits ? 0 : 23;
        expect(s.known.code == code, "code of bits");
        BbOutcome o = s.known.outcome;
        expect(o.stop == 0 && o.records == 9 && o.answers == 1 && o.terms == 10 && o.repeats == 0, "outcome of a job with bits");
        expect(all((const uint8_t *)&s.before, 0, sizeof s.before, POST) && all((const uint8_t *)s.behind, 0, sizeof s.behind, POST), "fences of a known");
        expect(all(work, 0, sizeof work, 0), "work memory of bits is zero");
        expect(memcmp(answers, answer, sizeof answer) == 0, "the answer of a job with bits");
        expect(all(values, FENCE, FENCE + size, code == 0 ? 0 : OLD), "the value buffer of bits");
        expect(all(values, 0, FENCE, POST) && all(values, FENCE + size, sizeof values, POST), "fences of the value buffer of bits");
        size_t written = code == 0 ? 1 : 0;
        uint8_t bit = inputs[0] == 0 || inputs[1] == 1 ? 0 : inputs[0] == 1 && inputs[1] == 0 ? 1 : 2;
        expect(written == 0 || outputs[FENCE] == bit, "bits");
        expect(all(outputs, 0, FENCE, POST) && all(outputs, FENCE + written, sizeof outputs, POST), "bytes beside the bits");
    }
}

/* A variable and two steps on one term, in every room around the 26 bytes that the job takes, and with a line that is refused. */
static void text(void) {
    static const char good[] = "(declare-const a Bool)\n(step s (cl (not a)) :rule not)\n(step s (cl (not a)) :rule var)";
    static const char bad[] = "(declare-const a Bool)\n(step s (cl (not b)) :rule not)\n";
    static const uint8_t expected[] = {4, 0, 10, 0, 0, 0, 4, 0, 20, 0, 2, 0, 6, 0, 100, 0, 7, 0, 3, 0, 6, 0, 100, 0, 2, 0, 3, 0};
    for (size_t k = 0; k < 2 * 3 * 40; k++) {
        size_t room = k % 40, size = k / 40 % 3 * 8;
        const char *given = k < 120 ? good : bad;
        uint8_t work[FENCE + 16 + FENCE], job[FENCE + 40 + FENCE];
        memset(work, POST, sizeof work);
        memset(work + FENCE, OLD, size);
        memset(job, POST, sizeof job);
        memset(job + FENCE, OLD, room);
        struct {
            uint64_t before;
            BbConverted converted;
            uint64_t behind[4];
        } c;
        memset(&c, POST, sizeof c);
        c.converted = bb_text((const uint8_t *)given, strlen(given), work + FENCE, size, job + FENCE, room);
        uint64_t line = given == good ? (room < 6 ? 1 : room < 20 ? 2 : room < 28 ? 3 : 0) : (room < 6 ? 1 : 2);
        size_t written = line == 0 ? sizeof expected : 0;
        expect(c.converted.code == (line == 0 ? 0 : 25) && c.converted.line == line && c.converted.length == written, "a text");
        expect(all((const uint8_t *)&c.before, 0, sizeof c.before, POST) && all((const uint8_t *)c.behind, 0, sizeof c.behind, POST), "fences of a converted");
        expect(all(work, FENCE, FENCE + size, 0), "work memory of a text is zero");
        expect(memcmp(job + FENCE, expected, written) == 0, "the job of a text");
        expect(all(job, FENCE + written, FENCE + room, line == 0 ? OLD : 0), "the memory past the job of a text");
        expect(all(work, 0, FENCE, POST) && all(work, FENCE + size, sizeof work, POST), "fences of a text's work memory");
        expect(all(job, 0, FENCE, POST) && all(job, FENCE + room, sizeof job, POST), "fences of a text's job");
    }
}

static void tally(void) {
    struct {
        uint64_t before;
        BbTally tally;
        uint64_t behind;
    } t = {7, {0, 0, UINT64_MAX, 0}, 7};
    uint8_t answers[3 * BB_ANSWER_BYTES];
    for (int k = 0; k < 3; k++) {
        memcpy(answers + k * BB_ANSWER_BYTES, answer, BB_ANSWER_BYTES);
    }
    answers[16] = BB_ANSWER_FORM_ONLY;
    answers[26] = BB_ANSWER_TERMS_DIFFER;
    bb_tally(&t.tally, answers, sizeof answers, 3);
    bb_tally(&t.tally, answers, sizeof answers, 1);
    expect(t.tally.jobs == 2 && t.tally.held == 2 && t.tally.form_only == UINT64_MAX && t.tally.refused == 1, "the tally");
    expect(t.before == 7 && t.behind == 7, "fences of the tally");
}

/* The first answer says how long all of them are. */
static void long_tally(void) {
    BbTally t = {0, 0, 0, 0};
    uint8_t answers[3 * BB_LONG_ANSWER_BYTES];
    for (int k = 0; k < 3; k++) {
        memcpy(answers + k * BB_LONG_ANSWER_BYTES, long_answer, BB_LONG_ANSWER_BYTES);
    }
    answers[18] = BB_ANSWER_FORM_ONLY;
    answers[30] = BB_ANSWER_TERMS_DIFFER;
    bb_tally(&t, answers, sizeof answers, 3);
    bb_tally(&t, answers, sizeof answers - 1, 3);
    expect(t.jobs == 2 && t.held == 2 && t.form_only == 2 && t.refused == 1, "the tally of long answers");
}

int main(void) {
    expect(bb_version() == BB_VERSION, "the interface's number");
    expect(sizeof(BbOutcome) == 20 && offsetof(BbOutcome, records) == 4 && offsetof(BbOutcome, answers) == 8 &&
               offsetof(BbOutcome, terms) == 12 && offsetof(BbOutcome, repeats) == 16,
           "layout of BbOutcome");
    expect(sizeof(BbTally) == 32 && offsetof(BbTally, held) == 8 && offsetof(BbTally, form_only) == 16 &&
               offsetof(BbTally, refused) == 24,
           "layout of BbTally");
    expect(sizeof(BbSwept) == 32 && offsetof(BbSwept, assignments) == 4 && offsetof(BbSwept, differing) == 8 &&
               offsetof(BbSwept, outcome) == 12,
           "layout of BbSwept");
    expect(sizeof(BbConverted) == 24 && offsetof(BbConverted, line) == 8 && offsetof(BbConverted, length) == 16, "layout of BbConverted");
    expect(sizeof(BbCounted) == 24 && offsetof(BbCounted, outcome) == 4, "layout of BbCounted");
    expect(sizeof(BbKnown) == 24 && offsetof(BbKnown, outcome) == 4, "layout of BbKnown");
    every_length(specimen, sizeof specimen, answer);
    every_length(long_specimen, sizeof long_specimen, long_answer);
    first_record();
    long_questions();
    stopped();
    repeats();
    limits();
    sweep();
    sweep_that_differs();
    counts();
    bits();
    text();
    tally();
    long_tally();
    if (failures == 0) {
        printf("ok\n");
    }
    return failures != 0;
}
