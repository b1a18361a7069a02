// Times asks against mpfr_sum on the same terms, in one run, and prints a table.
//
// Each time is the least of some measurements, taken in turn, of processor time; each measurement repeats the same sum. Both sums
// are rounded to nearest. The batch is opened and the sheet marked once for a measurement; nothing is cleared between repeats.
#include "terms.h"

#include <stdio.h>
#include <stdlib.h>
#include <string.h>
#include <time.h>

// A record as crates/limb_batch lays it out.
struct limb_record {
    uint32_t kind;
    int64_t exponent;
    uint64_t precision;
    size_t place;
};

// Makes one ask on a batch, and the same so many times more; returns the depth of the answer, or a negative number for a refusal.
int64_t bench_asks(const struct limb_record *terms, size_t count, const uint32_t *pool, size_t pool_length, uint32_t width, uint32_t mode,
                   uint32_t repeats, uint32_t *limbs, size_t limbs_length);

enum { NEAREST = 0, MEASUREMENTS = 9, SPREAD = 100000000, CLOSE = 64, DEEPER = 100 };

// A measurement takes at least so many nanoseconds, where one sum takes less.
static const double shortest = 4e6;

static struct term terms[MOST_TERMS];
static mpfr_ptr numbers[MOST_TERMS];
static struct limb_record records[MOST_TERMS];
static uint32_t pool[MOST_TERMS * MOST_LIMBS];
static size_t pool_length;
static uint32_t limbs[MOST_LIMBS];

struct row {
    size_t count;
    long bits, width;
    int spread, cancelling;
};

// Terms in random order. Where they cancel, they are opposite pairs, but for two that lie below all others.
static void make_terms(struct row row, uint64_t *state)
{
    long range = row.spread ? SPREAD : CLOSE;
    size_t pairs = row.cancelling ? row.count / 2 - 1 : 0;
    for (size_t i = 0; i < row.count; i++) {
        if (i < 2 * pairs && i % 2 == 1) {
            copy_term(&terms[i], &terms[i - 1]);
            negate_term(&terms[i]);
            continue;
        }
        long exponent = random_between(state, 0, range - 1) - range / 2;
        if (row.cancelling && i >= 2 * pairs)
            exponent = -range / 2 - row.bits - DEEPER;
        set_random(&terms[i], state, random_between(state, 0, 1), exponent, row.bits);
    }
    for (size_t i = 0; i < row.count; i++)
        numbers[i] = terms[i].number;
    for (size_t i = row.count - 1; i > 0; i--) {
        size_t j = random_between(state, 0, i);
        mpfr_ptr other = numbers[i];
        numbers[i] = numbers[j];
        numbers[j] = other;
    }
}

static void make_records(size_t count)
{
    pool_length = 0;
    for (size_t i = 0; i < count; i++) {
        records[i] = (struct limb_record){kind_of(numbers[i]), mpfr_get_exp(numbers[i]), mpfr_get_prec(numbers[i]), pool_length};
        pool_length += limbs_of(numbers[i], pool + pool_length);
    }
}

static double now(void)
{
    struct timespec time;
    clock_gettime(CLOCK_PROCESS_CPUTIME_ID, &time);
    return time.tv_sec * 1e9 + time.tv_nsec;
}

// What so many asks take, and the depth of each.
static double time_ours(struct row row, uint32_t asks, int64_t *depth)
{
    double start = now();
    *depth = bench_asks(records, row.count, pool, pool_length, row.width, NEAREST, asks - 1, limbs, MOST_LIMBS);
    double taken = now() - start;
    if (*depth < 0) {
        fprintf(stderr, "bench: refused, %ld\n", (long)-*depth);
        exit(1);
    }
    return taken;
}

static double time_mpfr(struct row row, uint32_t repeats, mpfr_t answer)
{
    double start = now();
    for (uint32_t i = 0; i < repeats; i++)
        mpfr_sum(answer, numbers, row.count, MPFR_RNDN);
    return now() - start;
}

static uint32_t repeats_for(double one)
{
    return one >= shortest ? 1 : (uint32_t)(shortest / (one > 1 ? one : 1)) + 1;
}

static void check_limbs(mpfr_srcptr answer)
{
    uint32_t right[MOST_LIMBS];
    size_t count = limbs_of(answer, right);
    if (memcmp(right, limbs, count * sizeof *right) != 0) {
        fprintf(stderr, "bench: the answers differ\n");
        exit(1);
    }
}

static void print_row(struct row row, double ours, double mpfr, int64_t depth)
{
    printf("| %zu | %ld | %ld | %s | %s | %.0f | %.0f | %.2f | %ld |\n", row.count, row.bits, row.width, row.spread ? "spread" : "close",
           row.cancelling ? "yes" : "no", ours, mpfr, ours / mpfr, (long)depth);
    fflush(stdout);
}

// Returns our time as a part of MPFR's.
static double run_row(struct row row, uint64_t *state)
{
    mpfr_t answer;
    mpfr_init2(answer, row.width);
    make_terms(row, state);
    make_records(row.count);
    int64_t depth;
    uint32_t our_repeats = repeats_for(time_ours(row, 1, &depth));
    uint32_t mpfr_repeats = repeats_for(time_mpfr(row, 1, answer));
    check_limbs(answer);
    double ours = 1e300, mpfr = 1e300;
    for (int i = 0; i < MEASUREMENTS; i++) {
        double a = time_ours(row, our_repeats, &depth) / our_repeats;
        double b = time_mpfr(row, mpfr_repeats, answer) / mpfr_repeats;
        ours = a < ours ? a : ours;
        mpfr = b < mpfr ? b : mpfr;
    }
    print_row(row, ours, mpfr, depth);
    mpfr_clear(answer);
    return ours / mpfr;
}

int main(void)
{
    static const size_t counts[] = {10, 100, 1024};
    static const long precisions[] = {53, 1024, 4096}, widths[] = {53, 1024};
    uint64_t state = 1;
    int rows = 0, slower = 0;
    printf("MPFR %s.\n\n", mpfr_get_version());
    printf("| terms | bits of each | bits of the answer | exponents | cancelling | ours, ns | MPFR, ns | ours / MPFR | depth |\n");
    printf("|---|---|---|---|---|---|---|---|---|\n");
    for (int c = 0; c < 3; c++)
        for (int p = 0; p < 3; p++)
            for (int w = 0; w < 2; w++)
                for (int kind = 0; kind < 4; kind++) {
                    struct row row = {counts[c], precisions[p], widths[w], kind / 2, kind % 2};
                    slower += run_row(row, &state) > 1;
                    rows++;
                }
    printf("\n%d of %d rows slower than MPFR.\n", slower, rows);
}
