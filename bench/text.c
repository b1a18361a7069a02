// Times the C call on whole texts against the same texts read by hand and summed by mpfr_sum, in one run, and prints a table.
//
// Each time is the median of some measurements, taken in turn, of processor time; each measurement repeats the call. The answers are
// compared too, but for the depth, which MPFR does not have.
#define _GNU_SOURCE
#include "by_hand.h"
#include "tally.h"
#include "terms.h"

#include <inttypes.h>
#include <stdarg.h>
#include <stdbool.h>
#include <stdio.h>
#include <stdlib.h>
#include <string.h>
#include <time.h>

enum { MEASUREMENTS = 15, TRAIL = TALLY_LONGEST_TRAIL };

// A measurement takes at least so many nanoseconds, where one call takes less.
static const double shortest = 2e6;

static uint64_t state = 1;

// ---- Texts.

static char text[TALLY_LONGEST_TEXT + 2000];
static size_t length;

__attribute__((format(printf, 1, 2))) static void add(const char *format, ...)
{
    va_list values;
    va_start(values, format);
    length += (size_t)vsnprintf(text + length, sizeof text - length, format, values);
    va_end(values);
}

struct row {
    const char *name;
    long terms, bits, spread, asks;
    // between the words `ask` and the letter of the mode
    const char *grid;
    // whether places are marked again and again until the text is full
    bool fills;
};

static void add_term(long bits, long spread)
{
    long limbs = (bits + 31) / 32;
    add("(term %c %ld %ld (", random_between(&state, 0, 1) ? '-' : '+', random_between(&state, -spread, spread), bits);
    for (long i = 0; i < limbs; i++) {
        uint32_t limb = (uint32_t)next_random(&state);
        if (i == 0)
            limb &= (uint32_t)(0xffffffffu << (32 * limbs - bits));
        if (i == limbs - 1)
            limb |= 0x80000000;
        add("%s%08" PRIx32, i == 0 ? "" : " ", limb);
    }
    add("))\n");
}

static long marked;

// No more than the trail holds in a row.
static void add_mark(long place)
{
    if (marked > 0 && marked % TRAIL == 0)
        add("(set)\n(reopen)\n");
    add("(mark %ld %c)\n", place, random_between(&state, 0, 3) == 0 ? 't' : 'i');
    marked++;
}

static void make_text(const struct row *row)
{
    static const size_t left_for_asks = 1500;
    length = 0;
    marked = 0;
    for (long i = 0; i < row->terms; i++)
        add_term(row->bits, row->spread);
    for (long i = 0; i < row->terms; i++)
        add_mark(i);
    while (row->fills && length < TALLY_LONGEST_TEXT - left_for_asks)
        add_mark(random_between(&state, 0, row->terms - 1));
    add("(set)\n");
    for (long i = 0; i < row->asks; i++)
        add("(ask %s %c)\n", row->grid, "NDUZA"[i % 5]);
    if (length > TALLY_LONGEST_TEXT) {
        fprintf(stderr, "text: the row \"%s\" takes %zu bytes\n", row->name, length);
        exit(1);
    }
}

// ---- Calls.

static uint8_t ours[TALLY_LEAST_ROOM], theirs[TALLY_LEAST_ROOM];
static int64_t our_count, their_count;

static void call_ours(void)
{
    our_count = tally_text((const uint8_t *)text, length, ours, sizeof ours);
}

static void call_theirs(void)
{
    their_count = text_by_hand((const uint8_t *)text, length, theirs, sizeof theirs, WITHOUT_DEPTHS);
}

static double now(void)
{
    struct timespec time;
    clock_gettime(CLOCK_PROCESS_CPUTIME_ID, &time);
    return (double)time.tv_sec * 1e9 + (double)time.tv_nsec;
}

// What one of so many calls takes.
static double time_of(void (*call)(void), long repeats)
{
    double start = now();
    for (long i = 0; i < repeats; i++)
        call();
    return (now() - start) / (double)repeats;
}

static long repeats_for(void (*call)(void))
{
    double one = time_of(call, 1);
    return one >= shortest ? 1 : (long)(shortest / (one > 1 ? one : 1)) + 1;
}

// Where the last field of a line begins: the depth.
static size_t before_depth(const uint8_t *line, size_t count)
{
    while (count > 0 && line[count - 1] != ' ')
        count--;
    return count;
}

// Answers are the same, line by line, but for the depths.
static bool are_alike(void)
{
    const uint8_t *a = ours, *b = theirs, *a_end = ours + our_count, *b_end = theirs + their_count;
    while (a < a_end && b < b_end) {
        size_t a_line = (size_t)((const uint8_t *)memchr(a, '\n', (size_t)(a_end - a)) - a);
        size_t b_line = (size_t)((const uint8_t *)memchr(b, '\n', (size_t)(b_end - b)) - b);
        size_t count = before_depth(a, a_line);
        if (count != before_depth(b, b_line) || memcmp(a, b, count) != 0)
            return false;
        a += a_line + 1;
        b += b_line + 1;
    }
    return a == a_end && b == b_end;
}

static void check_answers(const struct row *row)
{
    if (our_count < 0 || their_count < 0 || !are_alike()) {
        fprintf(stderr, "text: the answers to \"%s\" differ\n", row->name);
        exit(1);
    }
    if (memmem(ours, (size_t)our_count, "(no ", 4) != NULL) {
        fprintf(stderr, "text: the row \"%s\" is refused\n", row->name);
        exit(1);
    }
}

// ---- Rows.

static int by_size(const void *a, const void *b)
{
    double x = *(const double *)a, y = *(const double *)b;
    return (x > y) - (x < y);
}

static double median(double *times)
{
    qsort(times, MEASUREMENTS, sizeof *times, by_size);
    return times[MEASUREMENTS / 2];
}

static double run_row(const struct row *row)
{
    double our_times[MEASUREMENTS], their_times[MEASUREMENTS];
    make_text(row);
    long our_repeats = repeats_for(call_ours), their_repeats = repeats_for(call_theirs);
    check_answers(row);
    for (int i = 0; i < MEASUREMENTS; i++) {
        our_times[i] = time_of(call_ours, our_repeats);
        their_times[i] = time_of(call_theirs, their_repeats);
    }
    double our_time = median(our_times), their_time = median(their_times);
    printf("| %s | %zu | %ld | %ld | %ld | %ld | %.1f | %.1f | %.2f |\n", row->name, length, row->terms, row->bits, marked, row->asks,
           our_time / 1000, their_time / 1000, our_time / their_time);
    fflush(stdout);
    return our_time / their_time;
}

int main(void)
{
    static const struct row rows[] = {
        {"full", 1024, 32, 40, 32, "53 free", true},
        {"full, spread", 1000, 32, 100000000, 32, "53 free", true},
        {"full, binary64", 700, 53, 300, 32, "binary64", true},
        {"full, wide answers", 700, 53, 300, 32, "1024 free", true},
        {"terms and one ask", 1024, 32, 40, 1, "53 free", false},
        {"wide terms", 38, 4096, 1000, 32, "53 free", false},
        {"wide terms and answers", 38, 4096, 1000, 32, "1024 free", false},
        {"mostly marks", 10, 53, 40, 32, "53 free", true},
        {"marks and one ask", 1, 1, 0, 1, "1 free", true},
        {"few lines", 4, 53, 40, 3, "binary64", false},
    };
    int count = sizeof rows / sizeof *rows, slower = 0;
    printf("MPFR %s.\n\n", mpfr_get_version());
    printf("| text | bytes | terms | bits of each | marks | asks | ours, µs | by hand and MPFR, µs | ours / MPFR |\n");
    printf("|---|---|---|---|---|---|---|---|---|\n");
    for (int i = 0; i < count; i++)
        slower += run_row(&rows[i]) > 1;
    printf("\n%d of %d rows slower than by hand.\n", slower, count);
}
