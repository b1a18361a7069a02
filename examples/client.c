// Makes one table entry through the C call, and prints it as a person reads it.
//
// The terms are four floating-point numbers, exactly as they are: 0.1, 0.2, 0.3 and 2 to the power of -120. The entry adds the first two and the
// last, and takes 0.3 away by a turned mark. The setter asks downward and the reader upward, and both see between which two doubles the exact
// sum lies; a third ask gives the nearest. Then it shows the three ways in which a text is not answered.
//
//     cc -std=c11 -I include -o client examples/client.c libtally.a
#include "tally.h"

#include <inttypes.h>
#include <math.h>
#include <stdarg.h>
#include <stdbool.h>
#include <stdio.h>
#include <stdlib.h>
#include <string.h>

// ---- Writing a text.

struct text {
    char bytes[TALLY_LONGEST_TEXT + 1];
    size_t length;
};

static void add(struct text *text, const char *format, ...)
{
    va_list values;
    va_start(values, format);
    size_t room = sizeof text->bytes - text->length;
    int length = vsnprintf(text->bytes + text->length, room, format, values);
    va_end(values);
    if (length < 0 || (size_t)length >= room) {
        fprintf(stderr, "client: the text is too long\n");
        exit(1);
    }
    text->length += (size_t)length;
}

// A term that is a double: a significand of 53 bits from 1/2 up to 1, in two limbs, the lower one first.
static void add_double(struct text *text, double value)
{
    char sign = signbit(value) ? '-' : '+';
    int exponent;
    if (isnan(value)) {
        add(text, "(nan)\n");
    } else if (isinf(value)) {
        add(text, "(inf %c)\n", sign);
    } else if (value == 0) {
        add(text, "(zero %c)\n", sign);
    } else {
        uint64_t significand = (uint64_t)ldexp(frexp(fabs(value), &exponent), 53) << 11;
        add(text, "(term %c %d 53 (%08" PRIx32 " %08" PRIx32 "))\n", sign, exponent, (uint32_t)significand, (uint32_t)(significand >> 32));
    }
}

// ---- Reading an answer.

enum kind { SUM, ZERO, INFINITE, NOT_A_NUMBER, REFUSAL };

struct line {
    enum kind kind;
    bool negative;
    // of a sum
    long exponent, precision;
    uint32_t limbs[TALLY_MOST_LIMBS];
    size_t limb_count;
    // of a sum and of a zero: on which side of the exact sum it lies, and how many columns settled that
    long direction, depth;
    // of a refusal
    long number, line, byte;
};

// What is left to read. The library writes only what the language allows, so anything else ends the program.
struct reader {
    const char *at;
};

static _Noreturn void fail_at(const struct reader *reader)
{
    fprintf(stderr, "client: cannot read the answer at: %.20s\n", reader->at);
    exit(1);
}

static bool take(struct reader *reader, const char *word)
{
    size_t length = strlen(word);
    if (strncmp(reader->at, word, length) != 0)
        return false;
    reader->at += length;
    return true;
}

static void expect(struct reader *reader, const char *word)
{
    if (!take(reader, word))
        fail_at(reader);
}

static bool read_sign(struct reader *reader)
{
    if (take(reader, " -"))
        return true;
    expect(reader, " +");
    return false;
}

static long read_number(struct reader *reader)
{
    char *end;
    expect(reader, " ");
    long number = strtol(reader->at, &end, 10);
    if (end == reader->at)
        fail_at(reader);
    reader->at = end;
    return number;
}

static void read_limbs(struct reader *reader, struct line *line)
{
    char *end;
    expect(reader, " (");
    line->limb_count = 0;
    do {
        unsigned long limb = strtoul(reader->at, &end, 16);
        if (end != reader->at + 8 || line->limb_count == TALLY_MOST_LIMBS)
            fail_at(reader);
        line->limbs[line->limb_count++] = (uint32_t)limb;
        reader->at = end;
    } while (take(reader, " "));
    expect(reader, ")");
}

static void read_side(struct reader *reader, struct line *line)
{
    line->direction = read_number(reader);
    line->depth = read_number(reader);
}

static struct line read_line(struct reader *reader)
{
    struct line line = {.kind = NOT_A_NUMBER};
    if (take(reader, "(sum")) {
        line.kind = SUM;
        line.negative = read_sign(reader);
        line.exponent = read_number(reader);
        line.precision = read_number(reader);
        read_limbs(reader, &line);
        read_side(reader, &line);
    } else if (take(reader, "(zero")) {
        line.kind = ZERO;
        line.negative = read_sign(reader);
        read_side(reader, &line);
    } else if (take(reader, "(inf")) {
        line.kind = INFINITE;
        line.negative = read_sign(reader);
    } else if (take(reader, "(no ")) {
        reader->at--;
        line.kind = REFUSAL;
        line.number = read_number(reader);
        line.line = read_number(reader);
        line.byte = read_number(reader);
    } else {
        expect(reader, "(nan");
    }
    expect(reader, ")\n");
    return line;
}

// ---- Printing it.

// The value of a sum on the grid binary64, which a double holds exactly, short of numbers that are too large for one.
static double value_of(const struct line *line)
{
    double value = 0;
    for (size_t i = 0; i < line->limb_count; i++)
        value = ldexp(value + line->limbs[i], -32);
    value = ldexp(value, (int)line->exponent);
    return line->negative ? -value : value;
}

static void print_side(const struct line *line)
{
    static const char *const sides[] = {"below the exact sum", "the exact sum", "above the exact sum"};
    printf(", %s, settled by %ld column%s\n", sides[line->direction + 1], line->depth, line->depth == 1 ? "" : "s");
}

static const char *reason_of(long number)
{
    static const struct {
        long number;
        const char *reason;
    } reasons[] = {
        {1, "more than 1,024 terms"},
        {3, "the precision is not 1 to 4,096"},
        {4, "the exponent is too far out"},
        {5, "not as many limbs as the precision takes"},
        {6, "the top bit is not 1"},
        {7, "a bit below the precision is not 0"},
        {8, "the width is not 1 to 4,096"},
        {9, "the floor is too far out"},
        {10, "no grid has this name"},
        {11, "the place is above 1,023"},
        {12, "no mark has this letter"},
        {13, "256 markings can be undone already"},
        {14, "there is nothing to take back"},
        {15, "no mode has this letter"},
        {17, "a place that counts has no term"},
        {18, "a byte that no line may hold"},
        {19, "a broken form"},
        {20, "a form out of turn"},
        {21, "a 33rd ask"},
    };
    for (size_t i = 0; i < sizeof reasons / sizeof *reasons; i++)
        if (reasons[i].number == number)
            return reasons[i].reason;
    return "unknown";
}

static void print_line(const struct line *line)
{
    switch (line->kind) {
    case SUM:
        printf("%a", value_of(line));
        print_side(line);
        break;
    case ZERO:
        printf("%c0", line->negative ? '-' : '+');
        print_side(line);
        break;
    case INFINITE: printf("%cinfinity\n", line->negative ? '-' : '+'); break;
    case NOT_A_NUMBER: printf("not a number\n"); break;
    case REFUSAL:
        printf("refused: %s (%ld), line %ld, byte %ld\n", reason_of(line->number), line->number, line->line, line->byte);
        break;
    }
}

// ---- Asking.

// Answers a text and prints each line of the answer behind its name, the last name also for lines past it; or why there is no answer.
static void answer(const char *text, size_t length, size_t room, const char *const *names)
{
    // the byte past the room ends the answer as a string
    static uint8_t bytes[TALLY_LEAST_ROOM + 1];
    int64_t written = tally_text((const uint8_t *)text, length, bytes, room);
    if (written == TALLY_TEXT_TOO_LONG) {
        printf("%s: no answer, the text is too long\n", names[0]);
        return;
    }
    if (written == TALLY_ANSWER_TOO_SHORT) {
        printf("%s: no answer, there is too little room for it\n", names[0]);
        return;
    }
    bytes[written] = 0;
    struct reader reader = {(const char *)bytes};
    while (*reader.at != 0) {
        struct line line = read_line(&reader);
        printf("%s: ", *names);
        print_line(&line);
        if (names[1] != NULL)
            names++;
    }
}

static void make_entry(void)
{
    static struct text text;
    static const char *const names[] = {"setter, downward", "reader, upward", "nearest", "refused", NULL};
    add_double(&text, 0.1);
    add_double(&text, 0.2);
    add_double(&text, 0.3);
    add_double(&text, 0x1p-120);
    add(&text, "(mark 0 i)\n(mark 1 i)\n(mark 2 t)\n(mark 3 i)\n(set)\n");
    add(&text, "(ask binary64 D)\n(ask binary64 U)\n(ask binary64 N)\n");
    fputs(text.bytes, stdout);
    answer(text.bytes, text.length, TALLY_LEAST_ROOM, names);
}

static void show_refusals(void)
{
    static const char too_long[TALLY_LONGEST_TEXT + 1];
    static const char late_mark[] = "(nan)\n(mark 0 i)\n(set)\n(ask 24 -149 Z)\n(mark 1 i)\n";
    static const char broken[] = "(zero +)\n(mark 0  i)\n";
    answer(late_mark, strlen(late_mark), TALLY_LEAST_ROOM, (const char *const[]){"late mark", NULL});
    answer(broken, strlen(broken), TALLY_LEAST_ROOM, (const char *const[]){"two spaces", NULL});
    answer(too_long, sizeof too_long, TALLY_LEAST_ROOM, (const char *const[]){"49,153 bytes", NULL});
    answer(late_mark, strlen(late_mark), TALLY_LEAST_ROOM - 1, (const char *const[]){"room for 49,151", NULL});
}

int main(void)
{
    make_entry();
    show_refusals();
}
