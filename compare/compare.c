// Compares the program `vectors` with mpfr_sum of the MPFR library, on cases in four families:
//
//   singular     every multiset of up to six values out of nan, +inf, -inf, +0, -0, 1, -1
//   halfway      i*2^46 + j*2^45 + k*2^44 + f*2^-2, with the last place of the sum at 2^0 or at 2^44; and random sums at
//                and next to halfway points
//   random       random sums, close together, spread out or cancelling
//   corrected    random sums to which the opposite of their rounded sum is added again and again
//
// each sum in all five modes.
//
//   compare PROGRAM FILE    writes all cases to FILE, runs PROGRAM on it and compares, line by line; status 0 only without a difference
//   compare --store DIR     writes some of the cases to DIR/stdin, and what MPFR makes of them to DIR/stdout
//
// The cases are the same in each run.
#include "terms.h"

#include <stdio.h>
#include <stdlib.h>
#include <string.h>

enum { MODES = 5, SHOWN = 20, CUT = 2000, FARTHEST = 1000000000 };

// In the order of the mode numbers.
static const mpfr_rnd_t modes[MODES] = {MPFR_RNDN, MPFR_RNDD, MPFR_RNDU, MPFR_RNDZ, MPFR_RNDA};

enum family { SINGULAR, HALFWAY, RANDOM, CORRECTED, FAMILIES };

static const char *const family_names[FAMILIES] = {"singular", "halfway", "random", "corrected"};

// A sum: the terms that it adds, and the precision that it is rounded to.
struct sum {
    struct term terms[MOST_TERMS];
    size_t count;
    long width;
};

static struct sum sum;

// Where cases and what MPFR makes of them are written, or what the lines of the program are compared with.
static FILE *cases, *expected, *answers;
static long compared[FAMILIES], differences[FAMILIES];

static void fail(const char *why)
{
    fprintf(stderr, "compare: %s\n", why);
    exit(2);
}

// What is printed into grows as needed.
struct text {
    char *bytes;
    size_t length;
};

static FILE *open_text(struct text *text)
{
    FILE *stream = open_memstream(&text->bytes, &text->length);
    if (stream == NULL)
        fail("no memory");
    return stream;
}

static void print_limbs(FILE *out, mpfr_srcptr number)
{
    uint32_t limbs[MOST_LIMBS];
    size_t count = limbs_of(number, limbs);
    for (size_t i = 0; i < count; i++)
        fprintf(out, " %08x", (unsigned)limbs[i]);
}

static void print_case(FILE *out, int mode)
{
    fprintf(out, "%d %ld", mode, sum.width);
    for (size_t i = 0; i < sum.count; i++) {
        mpfr_srcptr number = sum.terms[i].number;
        fprintf(out, " %d", (int)kind_of(number));
        if (is_regular(number)) {
            fprintf(out, " %ld %ld", (long)mpfr_get_exp(number), (long)mpfr_get_prec(number));
            print_limbs(out, number);
        }
    }
    fputc('\n', out);
}

static void print_answer(FILE *out, mpfr_srcptr answer, int direction)
{
    fprintf(out, "%d", (int)kind_of(answer));
    if (is_regular(answer)) {
        fprintf(out, " %ld %ld %d", (long)mpfr_get_exp(answer), (long)mpfr_get_prec(answer), direction);
        print_limbs(out, answer);
    } else {
        fprintf(out, " 0 0 %d", direction);
    }
    fputc('\n', out);
}

// The rounded sum by MPFR; returns on which side of the exact sum it lies: -1, 0 or 1.
static int mpfr_answer(mpfr_t answer, int mode)
{
    mpfr_ptr numbers[MOST_TERMS];
    for (size_t i = 0; i < sum.count; i++)
        numbers[i] = sum.terms[i].number;
    int ternary = mpfr_sum(answer, numbers, sum.count, modes[mode]);
    return (ternary > 0) - (ternary < 0);
}

// A line without its end, and no more than CUT bytes of it.
static void show_line(const char *name, const char *line)
{
    size_t length = strcspn(line, "\n");
    printf("  %s %.*s\n", name, (int)(length < CUT ? length : CUT), line);
}

static void show_difference(int mode, const char *right, const char *found)
{
    struct text line;
    FILE *out = open_text(&line);
    print_case(out, mode);
    fclose(out);
    printf("DIFFERENT\n");
    show_line("case", line.bytes);
    show_line("mpfr", right);
    show_line("ours", found);
    free(line.bytes);
}

// Reads the program's next line, and compares it.
static void compare_answer(enum family family, int mode, const char *right)
{
    static char *found;
    static size_t room;
    if (getline(&found, &room, answers) < 0)
        fail("the program wrote too few lines");
    compared[family]++;
    if (strcmp(found, right) == 0)
        return;
    differences[family]++;
    if (differences[family] <= SHOWN)
        show_difference(mode, right, found);
}

// One case, as far as this pass is concerned with it.
static void emit(enum family family, int mode)
{
    if (cases != NULL)
        print_case(cases, mode);
    if (expected == NULL && answers == NULL)
        return;
    mpfr_t answer;
    mpfr_init2(answer, sum.width);
    int direction = mpfr_answer(answer, mode);
    struct text right;
    FILE *out = open_text(&right);
    print_answer(out, answer, direction);
    fclose(out);
    if (expected != NULL)
        fputs(right.bytes, expected);
    if (answers != NULL)
        compare_answer(family, mode, right.bytes);
    free(right.bytes);
    mpfr_clear(answer);
}

static void emit_all_modes(enum family family)
{
    for (int mode = 0; mode < MODES; mode++)
        emit(family, mode);
}

// Singular values.

enum { VALUES = 7 };

static void set_value(struct term *term, int value)
{
    if (value <= NEGATIVE_ZERO)
        set_special(term, (enum kind)value);
    else
        set_scaled(term, value == POSITIVE ? 1 : -1, 1, 0);
}

// All multisets that go on from the values so far by values no lower than `lowest`.
static void singular_from(int lowest, size_t most)
{
    emit_all_modes(SINGULAR);
    if (sum.count == most)
        return;
    for (int value = lowest; value < VALUES; value++) {
        set_value(&sum.terms[sum.count++], value);
        singular_from(value, most);
        sum.count--;
    }
}

static void singular(size_t most)
{
    sum.count = 0;
    sum.width = 2;
    singular_from(0, most);
}

// Sums next to and at halfway points. All weights are moved up by `shift`, so that they lie otherwise in the columns.

static void halfway_at(int i, int j, int k, int f, long shift)
{
    // in quarters
    long whole = (i * 4L + j * 2 + k) * (1L << 46) + f;
    set_scaled(&sum.terms[0], i, 1, 46 + shift);
    set_scaled(&sum.terms[1], j, 1, 45 + shift);
    set_scaled(&sum.terms[2], k, 1, 44 + shift);
    set_scaled(&sum.terms[3], (f > 0) - (f < 0), labs(f), -2 + shift);
    sum.count = 4;
    if (whole == 0) {
        sum.width = 1;
        emit_all_modes(HALFWAY);
        return;
    }
    long exponent = 62 - __builtin_clzl(labs(whole));
    for (long last = 0; last <= 44; last += 44) {
        sum.width = exponent - last;
        if (sum.width >= 1)
            emit_all_modes(HALFWAY);
    }
}

static void halfway(long shift, int step)
{
    for (int i = -1; i <= 1; i++)
        for (int j = -1; j <= 1; j++)
            for (int k = -1; k <= 1; k++)
                for (int f = -3; f <= 3; f += step)
                    halfway_at(i, j, k, f, shift);
}

// A number of exactly the width, half of its last place in some pieces, and then perhaps a little more or less far below.
static void random_tie(uint64_t *state, long most_width, long most_gap)
{
    sum.width = random_between(state, 1, most_width);
    long exponent = random_between(state, -1000, 1000);
    set_random(&sum.terms[0], state, random_between(state, 0, 1), exponent, sum.width);
    long weight = exponent - sum.width - 1;
    int sign = random_between(state, 0, 1) ? 1 : -1;
    sum.count = 1;
    while (random_between(state, 0, 2) > 0)
        set_scaled(&sum.terms[sum.count++], sign, 1, --weight);
    set_scaled(&sum.terms[sum.count++], sign, 1, weight);
    long little = random_between(state, -1, 1);
    if (little != 0)
        set_random(&sum.terms[sum.count++], state, little < 0, weight - random_between(state, 0, most_gap), random_between(state, 1, 100));
}

static void random_ties(uint64_t seed, long rounds, long most_width, long most_gap)
{
    uint64_t state = seed;
    for (long i = 0; i < rounds; i++) {
        random_tie(&state, most_width, most_gap);
        emit_all_modes(HALFWAY);
    }
}

// Random sums.

// What random sums are like: how many terms and bits at most, and how far their exponents lie apart.
struct shape {
    long most_terms, most_bits, most_width, spread;
};

static void random_term(uint64_t *state, struct term *term, const struct shape *shape, long center)
{
    long exponent = center + random_between(state, -shape->spread, shape->spread);
    set_random(term, state, random_between(state, 0, 1), exponent, random_between(state, 1, shape->most_bits));
}

// The opposite of an earlier term, or a term far below it, so that what is left of a sum lies deep.
static void cancelling_term(uint64_t *state, struct term *term, const struct shape *shape, const struct term *earlier)
{
    long deeper = mpfr_get_exp(earlier->number) - random_between(state, 0, 2 * shape->most_bits);
    if (deeper < -FARTHEST || random_between(state, 0, 2) > 0) {
        copy_term(term, earlier);
        negate_term(term);
    } else {
        set_random(term, state, random_between(state, 0, 1), deeper, random_between(state, 1, shape->most_bits));
    }
}

static void random_sum(uint64_t *state, const struct shape *shape, long most_center)
{
    long center = random_between(state, -most_center, most_center);
    int cancels = random_between(state, 0, 1);
    sum.count = 0;
    long count = random_between(state, 1, shape->most_terms);
    while ((long)sum.count < count) {
        struct term *term = &sum.terms[sum.count];
        if (cancels && sum.count > 0 && random_between(state, 0, 1))
            cancelling_term(state, term, shape, &sum.terms[random_between(state, 0, (long)sum.count - 1)]);
        else
            random_term(state, term, shape, center);
        sum.count++;
    }
    sum.width = random_between(state, 1, shape->most_width);
}

static void random_sums(uint64_t seed, long rounds, struct shape shape)
{
    uint64_t state = seed;
    for (long i = 0; i < rounds; i++) {
        random_sum(&state, &shape, FARTHEST - shape.spread);
        emit_all_modes(RANDOM);
    }
}

// A rounded sum, and what it leaves: the opposite of the answer is one more term each time.
static void corrected_sums(uint64_t seed, long rounds, struct shape shape, int times)
{
    uint64_t state = seed;
    for (long i = 0; i < rounds; i++) {
        random_sum(&state, &shape, FARTHEST / 2 - shape.spread);
        int mode = i % MODES;
        for (int time = 0; time < times; time++) {
            emit(CORRECTED, mode);
            mpfr_t answer;
            mpfr_init2(answer, sum.width);
            mpfr_answer(answer, mode);
            set_number(&sum.terms[sum.count], answer);
            negate_term(&sum.terms[sum.count++]);
            mpfr_clear(answer);
        }
    }
}

static void all_cases(void)
{
    singular(6);
    halfway(0, 1);
    halfway(20, 1);
    halfway(31, 1);
    random_ties(21, 200, 100, 200);
    random_ties(22, 100, 4096, 10000);
    random_sums(1, 400, (struct shape){40, 300, 300, 40});
    random_sums(2, 300, (struct shape){40, 300, 300, 1000});
    random_sums(3, 200, (struct shape){40, 300, 4096, 100000000});
    random_sums(4, 300, (struct shape){6, 40, 80, 60});
    random_sums(5, 60, (struct shape){12, 4096, 4096, 5000});
    random_sums(6, 30, (struct shape){1024, 200, 200, 300});
    random_sums(7, 10, (struct shape){1024, 64, 400, 100000000});
    corrected_sums(8, 300, (struct shape){20, 200, 100, 300}, 6);
    corrected_sums(9, 100, (struct shape){10, 60, 60, 100000000}, 6);
    corrected_sums(10, 20, (struct shape){10, 4096, 1000, 5000}, 6);
}

static void stored_cases(void)
{
    singular(6);
    halfway(0, 1);
    random_ties(23, 20, 80, 200);
    random_sums(11, 40, (struct shape){8, 100, 100, 30});
    random_sums(12, 20, (struct shape){8, 100, 100, 1000});
    random_sums(13, 10, (struct shape){6, 100, 100, 100000000});
    random_sums(14, 2, (struct shape){3, 4096, 4096, 3000});
    corrected_sums(15, 40, (struct shape){6, 60, 30, 100}, 4);
}

static FILE *open_file(const char *path)
{
    FILE *file = fopen(path, "w");
    if (file == NULL)
        fail("a file cannot be written");
    return file;
}

static FILE *open_in(const char *folder, const char *name)
{
    struct text path;
    FILE *out = open_text(&path);
    fprintf(out, "%s/%s", folder, name);
    fclose(out);
    FILE *file = open_file(path.bytes);
    free(path.bytes);
    return file;
}

static void store(const char *folder)
{
    cases = open_in(folder, "stdin");
    expected = open_in(folder, "stdout");
    stored_cases();
    if (fclose(cases) != 0 || fclose(expected) != 0)
        fail("a file cannot be written");
}

// The program with all cases as its standard input.
static FILE *run_on_cases(const char *program, const char *input)
{
    struct text command;
    FILE *out = open_text(&command);
    fprintf(out, "exec '%s' <'%s'", program, input);
    fclose(out);
    FILE *stream = popen(command.bytes, "r");
    if (stream == NULL)
        fail("the program cannot be run");
    free(command.bytes);
    return stream;
}

static long report(void)
{
    long cases_in_all = 0, different = 0;
    for (int family = 0; family < FAMILIES; family++) {
        printf("%-10s %6ld cases, %ld different\n", family_names[family], compared[family], differences[family]);
        cases_in_all += compared[family];
        different += differences[family];
    }
    printf("%-10s %6ld cases, %ld different\n", "all", cases_in_all, different);
    return different;
}

static int compare(const char *program, const char *input)
{
    cases = open_file(input);
    all_cases();
    if (fclose(cases) != 0)
        fail("a file cannot be written");
    cases = NULL;
    answers = run_on_cases(program, input);
    all_cases();
    int more = fgetc(answers) != EOF;
    int status = pclose(answers);
    if (more)
        fail("the program wrote too many lines");
    if (status != 0)
        fail("the program did not end well");
    return report() == 0 ? 0 : 1;
}

int main(int count, char **words)
{
    mpfr_set_emin(mpfr_get_emin_min());
    mpfr_set_emax(mpfr_get_emax_max());
    if (count == 3 && strcmp(words[1], "--store") == 0) {
        store(words[2]);
        return 0;
    }
    if (count == 3)
        return compare(words[1], words[2]);
    fail("usage: compare PROGRAM FILE, or compare --store DIR");
}
