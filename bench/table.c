// Times the crate `table`: entering distinct records, and looking them up, at several sizes of the store, in both formats of a job.
#include <stdint.h>
#include <stdio.h>
#include <stdlib.h>
#include <string.h>
#include <time.h>

void bench_wipe(uint8_t *work, size_t work_len);
uint32_t bench_add(const uint8_t *job, size_t job_len, uint8_t *work, size_t work_len, size_t n, size_t limit, size_t at);
uint32_t bench_find(const uint8_t *job, size_t job_len, const uint8_t *work, size_t work_len, size_t n, uint32_t kind, uint32_t a, uint32_t b);

// A term costs 8 bytes where its number has two: a row of 7, and its share of the heads of the buckets behind the rows. Where it has four, 12.
enum { MOST = 65000, ROOMY = 131072 * 8, CLOSE = 65533 * 8, FULL = MOST * 8, ROUNDS = 200000 };
enum { LONG_MOST = 999998, LONG_COST = 12, LONGEST = 2 * LONG_COST * LONG_MOST };

// A job of one format: the bytes of a term's number, where the records begin, and how long each is.
typedef struct {
    size_t number, start, record, limit;
    uint8_t *job;
} Format;

static double now(void) {
    struct timespec t;
    clock_gettime(CLOCK_MONOTONIC, &t);
    return t.tv_sec * 1e9 + t.tv_nsec;
}

// Record i: a gate of kind 21, 22 or 23 over two earlier terms, no two alike.
static uint32_t kind_of(size_t i) { return 21 + i % 3; }
static uint32_t left_of(size_t i) { return i / 3 % 250; }
static uint32_t right_of(size_t i) { return i / 750; }

static uint8_t *put(uint8_t *at, uint32_t number, size_t bytes) {
    for (size_t k = 0; k < bytes; k++)
        *at++ = number >> 8 * k & 255;
    return at;
}

// The first so many records, behind the first one of a job whose numbers have four bytes.
static Format written(size_t number, size_t count, size_t limit) {
    Format f = {number, number == 4 ? 4 : 0, 4 + 2 * number, limit, NULL};
    uint8_t *at = f.job = malloc(f.start + count * f.record);
    if (number == 4)
        at = put(put(at, 2, 2), 103, 2);
    for (size_t i = 0; i < count; i++) {
        at = put(put(at, f.record - 2, 2), kind_of(i), 2);
        at = put(put(at, left_of(i), number), right_of(i), number);
    }
    return f;
}

static int measure(Format f, size_t n, size_t memory, uint8_t *work) {
    size_t len = f.start + f.record * n, wrong = 0, rounds = memory == FULL ? ROUNDS / 100 : ROUNDS;
    memset(work, 0xAB, memory);
    bench_wipe(work, memory);
    double start = now();
    for (size_t i = 0; i < n; i++)
        wrong += bench_add(f.job, len, work, memory, i, f.limit, f.start + f.record * i) != i + 2;
    double added = now() - start;
    start = now();
    for (size_t k = 0; k < rounds; k++) {
        size_t i = k * 40503 % n;
        wrong += bench_find(f.job, len, work, memory, n, kind_of(i), left_of(i), right_of(i)) != i + 2;
    }
    double found = now() - start;
    start = now();
    for (size_t k = 0; k < rounds; k++)
        wrong += bench_find(f.job, len, work, memory, n, 24, k % 65535, k % 251) != 4294967295u;
    double missed = now() - start;
    printf("%5zu %8zu %12zu %12.2f %12.1f %12.1f %12.1f\n", f.number, n, memory, added / 1e6, added / n, found / rounds, missed / rounds);
    return wrong != 0;
}

int main(void) {
    uint8_t *work = malloc(LONGEST);
    Format two = written(2, MOST, 65535), four = written(4, LONG_MOST, 1000000);
    size_t sizes[] = {1000, 10000, MOST}, long_sizes[] = {1000, MOST, LONG_MOST};
    int wrong = 0;
    printf("bytes    terms  work memory  entering ms  ns a record     ns a hit    ns a miss\n");
    for (int k = 0; k < 3; k++)
        wrong |= measure(two, sizes[k], ROOMY, work);
    wrong |= measure(two, MOST, CLOSE, work);
    wrong |= measure(two, MOST, FULL, work);
    for (int k = 0; k < 3; k++)
        wrong |= measure(four, long_sizes[k], 2 * LONG_COST * long_sizes[k], work);
    wrong |= measure(four, LONG_MOST, LONG_COST * LONG_MOST, work);
    if (wrong)
        printf("WRONG: a lookup did not answer as it should\n");
    return wrong;
}
