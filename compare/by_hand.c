#include "by_hand.h"

#include "terms.h"

#include <stdarg.h>
#include <stdbool.h>
#include <stdio.h>
#include <string.h>

enum {
    LONGEST_TEXT = 49152,
    LEAST_ROOM = 49152,
    PLACES = 1024,
    LONGEST_TRAIL = 256,
    MOST_ASKS = 32,
    MOST_DIGITS = 10,
    FARTHEST = 1000000000,
    // a word for each term, whose line has six bytes at least, and for each limb, which takes nine
    POOL = LONGEST_TEXT / 6,
    // how many terms, cut at how many columns, a depth may take
    MOST_CUTS = 200000
};

enum { DONE = 0, ODD_BYTE = 18, BROKEN = 19, OUT_OF_TURN = 20, TOO_MANY_ASKS = 21, TEXT_TOO_LONG = 22, ANSWER_TOO_SHORT = 23, TOO_DEEP = -1 };

// ---- The forms of a line.

enum form_name { NAN_FORM, INF_FORM, ZERO_FORM, TERM_FORM, MARK_FORM, BACK_FORM, SET_FORM, REOPEN_FORM, ASK_FORM, ASK_NAMED_FORM };

struct word {
    const uint8_t *bytes;
    size_t length;
};

struct form {
    enum form_name name;
    bool negative, has_floor;
    int64_t exponent, floor;
    // the precision, the width or the place
    uint64_t number;
    // limbs in hexadecimal, each of eight digits and one byte before the next
    struct word limbs;
    // the letter of the mark or of the mode
    struct word letter;
    struct word grid;
};

// A line that is read from `at` on; where reading fails, `at` is the first byte at which no form can go on.
struct line {
    const uint8_t *at, *end;
};

static bool is_digit(uint8_t byte)
{
    return byte >= '0' && byte <= '9';
}

static bool is_letter(uint8_t byte)
{
    return (byte >= 'a' && byte <= 'z') || (byte >= 'A' && byte <= 'Z');
}

static bool is_hex(uint8_t byte)
{
    return is_digit(byte) || (byte >= 'a' && byte <= 'f');
}

static bool is_line_byte(uint8_t byte)
{
    return is_digit(byte) || is_letter(byte) || (byte != 0 && strchr("() +-", byte) != NULL);
}

static bool next_is(const struct line *line, uint8_t byte)
{
    return line->at < line->end && *line->at == byte;
}

static bool take(struct line *line, uint8_t byte)
{
    if (!next_is(line, byte))
        return false;
    line->at++;
    return true;
}

static bool take_all(struct line *line, const char *bytes)
{
    for (; *bytes != 0; bytes++)
        if (!take(line, (uint8_t)*bytes))
            return false;
    return true;
}

static bool take_sign(struct line *line, bool *negative)
{
    *negative = next_is(line, '-');
    return *negative ? take(line, '-') : take(line, '+');
}

// A decimal without a leading zero; an eleventh digit is left, and so breaks what comes next.
static bool take_natural(struct line *line, uint64_t *number)
{
    *number = 0;
    if (take(line, '0'))
        return true;
    int digits = 0;
    while (digits < MOST_DIGITS && line->at < line->end && is_digit(*line->at)) {
        *number = *number * 10 + (*line->at++ - '0');
        digits++;
    }
    return digits > 0;
}

static bool take_integer(struct line *line, int64_t *number)
{
    bool negative = take(line, '-');
    if (negative && next_is(line, '0'))
        return false;
    uint64_t magnitude;
    if (!take_natural(line, &magnitude))
        return false;
    *number = negative ? -(int64_t)magnitude : (int64_t)magnitude;
    return true;
}

static bool take_run(struct line *line, struct word *run)
{
    run->bytes = line->at;
    while (line->at < line->end && (is_digit(*line->at) || is_letter(*line->at)))
        line->at++;
    run->length = (size_t)(line->at - run->bytes);
    return run->length > 0;
}

static bool take_limbs(struct line *line, struct word *limbs)
{
    if (!take(line, '('))
        return false;
    limbs->bytes = line->at;
    do {
        for (int digit = 0; digit < 8; digit++) {
            if (line->at == line->end || !is_hex(*line->at))
                return false;
            line->at++;
        }
    } while (take(line, ' '));
    limbs->length = (size_t)(line->at - limbs->bytes);
    return take(line, ')');
}

static bool is_natural(struct word word, uint64_t *number)
{
    struct line line = {word.bytes, word.bytes + word.length};
    return take_natural(&line, number) && line.at == line.end;
}

static bool is_word(struct word word, const char *bytes)
{
    return word.length == strlen(bytes) && memcmp(word.bytes, bytes, word.length) == 0;
}

static bool is_floor(struct word word, struct form *form)
{
    struct line line = {word.bytes, word.bytes + word.length};
    form->has_floor = !is_word(word, "free");
    return !form->has_floor || (take_integer(&line, &form->floor) && line.at == line.end);
}

// (ask W F R) or (ask NAME R): the first word may be both, and what follows it tells.
static bool take_ask(struct line *line, struct form *form)
{
    struct word second;
    form->name = ASK_FORM;
    if (!take_run(line, &form->grid) || !take(line, ' '))
        return false;
    bool has_width = is_natural(form->grid, &form->number);
    if (has_width && next_is(line, '-')) {
        form->has_floor = true;
        return take_integer(line, &form->floor) && take(line, ' ') && take_run(line, &form->letter) && take(line, ')');
    }
    if (!take_run(line, &second))
        return false;
    if (has_width && next_is(line, ' ') && is_floor(second, form))
        return take(line, ' ') && take_run(line, &form->letter) && take(line, ')');
    form->name = ASK_NAMED_FORM;
    form->letter = second;
    return take(line, ')');
}

static bool take_term(struct line *line, struct form *form)
{
    form->name = TERM_FORM;
    return take_all(line, "term ") && take_sign(line, &form->negative) && take(line, ' ') && take_integer(line, &form->exponent) &&
           take(line, ' ') && take_natural(line, &form->number) && take(line, ' ') && take_limbs(line, &form->limbs) && take(line, ')');
}

static bool take_mark(struct line *line, struct form *form)
{
    form->name = MARK_FORM;
    return take_all(line, "mark ") && take_natural(line, &form->number) && take(line, ' ') && take_run(line, &form->letter) &&
           take(line, ')');
}

static bool take_signed(struct line *line, struct form *form, enum form_name name, const char *start)
{
    form->name = name;
    return take_all(line, start) && take_sign(line, &form->negative) && take(line, ')');
}

static bool take_plain(struct line *line, struct form *form, enum form_name name, const char *rest)
{
    form->name = name;
    return take_all(line, rest);
}

// The second byte tells the form.
static bool take_form(struct line *line, struct form *form)
{
    if (!take(line, '(') || line->at == line->end)
        return false;
    switch (*line->at) {
    case 'n': return take_plain(line, form, NAN_FORM, "nan)");
    case 'i': return take_signed(line, form, INF_FORM, "inf ");
    case 'z': return take_signed(line, form, ZERO_FORM, "zero ");
    case 't': return take_term(line, form);
    case 'm': return take_mark(line, form);
    case 'b': return take_plain(line, form, BACK_FORM, "back)");
    case 's': return take_plain(line, form, SET_FORM, "set)");
    case 'r': return take_plain(line, form, REOPEN_FORM, "reopen)");
    case 'a': return take_all(line, "ask ") && take_ask(line, form);
    default: return false;
    }
}

// ---- The terms.

// An MPFR number that points into the pool: none of them is moved or cleared.
static __mpfr_struct terms[MOST_TERMS];
static size_t count;
static mp_limb_t pool[POOL];
static size_t pool_used;

static uint32_t limb_at(struct word limbs, size_t place)
{
    uint32_t limb = 0;
    for (const uint8_t *byte = limbs.bytes + 9 * place; byte < limbs.bytes + 9 * place + 8; byte++)
        limb = limb << 4 | (uint32_t)(is_digit(*byte) ? *byte - '0' : *byte - 'a' + 10);
    return limb;
}

static int check_term(const struct form *form)
{
    size_t limbs = (form->limbs.length + 1) / 9;
    if (form->number < 1 || form->number > MOST_BITS)
        return 3;
    if (form->exponent < -FARTHEST || form->exponent > FARTHEST)
        return 4;
    if (limbs != (form->number + 31) / 32)
        return 5;
    if (limb_at(form->limbs, limbs - 1) >> 31 == 0)
        return 6;
    uint64_t below = 32 * limbs - form->number;
    return (limb_at(form->limbs, 0) & (((uint64_t)1 << below) - 1)) != 0 ? 7 : DONE;
}

static void set_term(mpfr_ptr number, const struct form *form)
{
    size_t limbs = (form->number + 31) / 32, words = (limbs + 1) / 2;
    mp_limb_t *significand = pool + pool_used;
    pool_used += words;
    memset(significand, 0, words * sizeof *significand);
    // an odd count leaves the lower half of the lowest word 0
    for (size_t i = 0; i < limbs; i++) {
        size_t half = i + limbs % 2;
        significand[half / 2] |= (mp_limb_t)limb_at(form->limbs, i) << (32 * (half % 2));
    }
    mpfr_custom_init_set(number, form->negative ? -MPFR_REGULAR_KIND : MPFR_REGULAR_KIND, form->exponent, (mpfr_prec_t)form->number,
                         significand);
}

static void set_singular(mpfr_ptr number, int kind)
{
    mpfr_custom_init_set(number, kind, 0, MPFR_PREC_MIN, pool + pool_used++);
}

static int add_term(const struct form *form)
{
    if (count == MOST_TERMS)
        return 1;
    int refusal = form->name == TERM_FORM ? check_term(form) : DONE;
    if (refusal != DONE)
        return refusal;
    mpfr_ptr number = &terms[count++];
    switch (form->name) {
    case NAN_FORM: set_singular(number, MPFR_NAN_KIND); break;
    case INF_FORM: set_singular(number, form->negative ? -MPFR_INF_KIND : MPFR_INF_KIND); break;
    case ZERO_FORM: set_singular(number, form->negative ? -MPFR_ZERO_KIND : MPFR_ZERO_KIND); break;
    default: set_term(number, form); break;
    }
    return DONE;
}

// ---- The sheet.

enum mark { OUT, IN, TURNED };

struct step {
    uint16_t place;
    uint8_t mark;
};

static uint8_t marks[PLACES];
static struct step trail[LONGEST_TRAIL];
static size_t trail_length;
static bool is_set, has_call;
static int asks;

// The place of a word of one letter among the letters, or -1.
static int letter_number(struct word word, const char *letters)
{
    const char *found = word.length == 1 ? strchr(letters, word.bytes[0]) : NULL;
    return found == NULL ? -1 : (int)(found - letters);
}

static int mark_place(const struct form *form)
{
    int mark = letter_number(form->letter, "oit");
    if (form->number >= PLACES)
        return 11;
    if (mark < 0)
        return 12;
    if (trail_length == LONGEST_TRAIL)
        return 13;
    trail[trail_length++] = (struct step){(uint16_t)form->number, marks[form->number]};
    marks[form->number] = (uint8_t)mark;
    return DONE;
}

static int undo(void)
{
    if (trail_length == 0)
        return 14;
    struct step step = trail[--trail_length];
    marks[step.place] = step.mark;
    return DONE;
}

// ---- Asks.

// In the order of the letters N D U Z A.
static const mpfr_rnd_t modes[] = {MPFR_RNDN, MPFR_RNDD, MPFR_RNDU, MPFR_RNDZ, MPFR_RNDA};

struct grid {
    long width, floor;
    bool has_floor;
};

static const struct {
    const char *name;
    struct grid grid;
} formats[] = {
    {"binary16", {11, -24, true}},    {"bfloat16", {8, -133, true}},      {"binary32", {24, -149, true}},      {"binary64", {53, -1074, true}},
    {"extended80", {64, -16445, true}}, {"binary128", {113, -16494, true}}, {"binary256", {237, -262378, true}},
};

static int find_grid(const struct form *form, struct grid *grid)
{
    if (form->name == ASK_NAMED_FORM) {
        for (size_t i = 0; i < sizeof formats / sizeof *formats; i++)
            if (is_word(form->grid, formats[i].name)) {
                *grid = formats[i].grid;
                return DONE;
            }
        return 10;
    }
    if (form->number < 1 || form->number > MOST_BITS)
        return 8;
    if (form->has_floor && (form->floor < -FARTHEST || form->floor > FARTHEST))
        return 9;
    *grid = (struct grid){(long)form->number, form->has_floor ? (long)form->floor : 0, form->has_floor};
    return DONE;
}

// The numbers that count, a turned one with the other sign, and room for one more.
static __mpfr_struct heads[MOST_TERMS];
static mpfr_ptr counted[MOST_TERMS + 1];
static size_t counted_count;

static void count_terms(void)
{
    counted_count = 0;
    for (size_t i = 0; i < count; i++) {
        if (marks[i] == IN)
            counted[counted_count++] = &terms[i];
        if (marks[i] == TURNED) {
            heads[i] = terms[i];
            mpfr_neg(&heads[i], &heads[i], MPFR_RNDN);
            counted[counted_count++] = &heads[i];
        }
    }
}

static bool marks_past_terms(void)
{
    for (size_t i = count; i < PLACES; i++)
        if (marks[i] != OUT)
            return true;
    return false;
}

static long precision_at(const struct grid *grid, long exponent)
{
    return grid->has_floor && exponent - grid->floor < grid->width ? exponent - grid->floor : grid->width;
}

// A sum below the least grid number 2^floor: that number or 0. `low` is the sum cut to one bit, and `cut` what was cut.
static int round_below_floor(mpfr_t answer, mpfr_srcptr low, int cut, const struct grid *grid, mpfr_rnd_t mode)
{
    int sign = mpfr_signbit(low) ? -1 : 1;
    bool away = mode == MPFR_RNDA || (mode == MPFR_RNDU && sign > 0) || (mode == MPFR_RNDD && sign < 0) ||
                (mode == MPFR_RNDN && mpfr_get_exp(low) == grid->floor && cut != 0);
    mpfr_set_prec(answer, 1);
    if (away)
        mpfr_set_si_2exp(answer, sign, grid->floor, MPFR_RNDN);
    else
        mpfr_set_zero(answer, sign);
    return away ? sign : -sign;
}

// Rounds a sum whose answer lies at the floor or next to where it begins to tell: first its exponent, and then as many bits as it has there.
static int sum_near_floor(mpfr_t answer, mpfr_ptr *numbers, size_t length, const struct grid *grid, mpfr_rnd_t mode)
{
    mpfr_t low;
    mpfr_init2(low, 1);
    int cut = mpfr_sum(low, numbers, length, MPFR_RNDZ);
    long precision = precision_at(grid, mpfr_get_exp(low));
    int direction;
    if (precision < 1) {
        direction = round_below_floor(answer, low, cut, grid, mode);
    } else {
        mpfr_set_prec(answer, precision);
        direction = mpfr_sum(answer, numbers, length, mode);
    }
    mpfr_clear(low);
    if (mpfr_regular_p(answer))
        mpfr_prec_round(answer, precision_at(grid, mpfr_get_exp(answer)), MPFR_RNDN);
    return direction;
}

// The sum rounded to the grid, at the precision that it has there; returns on which side of the sum it lies.
static int rounded_sum(mpfr_t answer, mpfr_ptr *numbers, size_t length, const struct grid *grid, mpfr_rnd_t mode)
{
    mpfr_set_prec(answer, grid->width);
    int direction = mpfr_sum(answer, numbers, length, mode);
    if (grid->has_floor && mpfr_regular_p(answer) && mpfr_get_exp(answer) - grid->floor <= grid->width)
        direction = sum_near_floor(answer, numbers, length, grid, mode);
    return (direction > 0) - (direction < 0);
}

// ---- Depths.

// Below every column.
static const long NO_COLUMN = -FARTHEST;

static long floor_32(long weight)
{
    return weight >= 0 ? weight / 32 : -((31 - weight) / 32);
}

static long low_weight(mpfr_srcptr number)
{
    return mpfr_get_exp(number) - mpfr_get_prec(number);
}

// The highest column below `above` that some counted term occupies, or NO_COLUMN.
static long next_column(long above)
{
    long found = NO_COLUMN;
    for (size_t i = 0; i < counted_count; i++) {
        if (!mpfr_regular_p(counted[i]))
            continue;
        long top = floor_32(mpfr_get_exp(counted[i]) - 1);
        long highest = top < above ? top : above - 1;
        if (highest >= floor_32(low_weight(counted[i])) && highest > found)
            found = highest;
    }
    return found;
}

// The counted terms, each cut to a multiple of 2^(32 column), and how many reach below that.
static size_t cut_terms(long column, struct term *cut, mpfr_ptr *numbers, long *reaching)
{
    size_t length = 0;
    *reaching = 0;
    for (size_t i = 0; i < counted_count; i++) {
        if (!mpfr_regular_p(counted[i]))
            continue;
        *reaching += low_weight(counted[i]) < 32 * column;
        long bits = mpfr_get_exp(counted[i]) - 32 * column, precision = mpfr_get_prec(counted[i]);
        if (bits < 1)
            continue;
        mpfr_custom_init_set(cut[length].number, MPFR_ZERO_KIND, 0, bits < precision ? bits : precision, cut[length].significand);
        mpfr_set(cut[length].number, counted[i], MPFR_RNDZ);
        numbers[length] = cut[length].number;
        length++;
    }
    return length;
}

static bool are_alike(mpfr_srcptr a, int a_direction, mpfr_srcptr b, int b_direction)
{
    return mpfr_equal_p(a, b) && !mpfr_signbit(a) == !mpfr_signbit(b) && a_direction == b_direction;
}

// Whether the two ends of the partial sum down to a column round alike; `next` is the next occupied column.
static bool ends_alike(long column, long next, const struct grid *grid, mpfr_rnd_t mode)
{
    static struct term cut[MOST_TERMS];
    static mpfr_ptr numbers[MOST_TERMS + 1];
    long reaching;
    size_t length = cut_terms(column, cut, numbers, &reaching);
    mpfr_t bound, below, above;
    mpfr_init2(bound, 11);
    mpfr_inits2(1, below, above, (mpfr_ptr)0);
    mpfr_set_si_2exp(bound, -reaching, 32 * (next + 1), MPFR_RNDN);
    numbers[length] = bound;
    int below_direction = rounded_sum(below, numbers, length + 1, grid, mode);
    mpfr_neg(bound, bound, MPFR_RNDN);
    int above_direction = rounded_sum(above, numbers, length + 1, grid, mode);
    bool alike = are_alike(below, below_direction, above, above_direction);
    mpfr_clears(bound, below, above, (mpfr_ptr)0);
    return alike;
}

static long depth_of(const struct grid *grid, mpfr_rnd_t mode)
{
    long depth = 0, column = next_column(FARTHEST);
    while (column != NO_COLUMN) {
        long next = next_column(column);
        depth++;
        if (next == NO_COLUMN || ends_alike(column, next, grid, mode))
            return depth;
        if (depth * (long)counted_count > MOST_CUTS)
            return TOO_DEEP;
        column = next;
    }
    return 0;
}

// ---- The answer.

struct writer {
    uint8_t *bytes;
    size_t used, room;
};

__attribute__((format(printf, 2, 3))) static void put(struct writer *out, const char *format, ...)
{
    char line[64];
    va_list values;
    va_start(values, format);
    int length = vsnprintf(line, sizeof line, format, values);
    va_end(values);
    memcpy(out->bytes + out->used, line, (size_t)length);
    out->used += (size_t)length;
}

static void put_limb(struct writer *out, uint32_t limb)
{
    static const char digits[] = "0123456789abcdef";
    for (int shift = 28; shift >= 0; shift -= 4)
        out->bytes[out->used++] = (uint8_t)digits[limb >> shift & 15];
}

static void put_answer(struct writer *out, mpfr_srcptr answer, int direction, long depth)
{
    uint32_t limbs[MOST_LIMBS + 1];
    char sign = mpfr_signbit(answer) ? '-' : '+';
    if (mpfr_nan_p(answer)) {
        put(out, "(nan)\n");
    } else if (mpfr_inf_p(answer)) {
        put(out, "(inf %c)\n", sign);
    } else if (mpfr_zero_p(answer)) {
        put(out, "(zero %c %d %ld)\n", sign, direction, depth);
    } else {
        size_t length = limbs_of(answer, limbs);
        put(out, "(sum %c %ld %ld (", sign, (long)mpfr_get_exp(answer), (long)mpfr_get_prec(answer));
        for (size_t i = 0; i < length; i++) {
            put_limb(out, limbs[i]);
            out->bytes[out->used++] = i + 1 < length ? ' ' : ')';
        }
        put(out, " %d %ld)\n", direction, depth);
    }
}

static int ask(const struct form *form, enum depths depths, struct writer *out)
{
    struct grid grid;
    if (asks == MOST_ASKS)
        return TOO_MANY_ASKS;
    int refusal = find_grid(form, &grid);
    if (refusal != DONE)
        return refusal;
    int mode = letter_number(form->letter, "NDUZA");
    if (mode < 0)
        return 15;
    if (marks_past_terms())
        return 17;
    asks++;
    count_terms();
    mpfr_t answer;
    mpfr_init2(answer, grid.width);
    int direction = rounded_sum(answer, counted, counted_count, &grid, modes[mode]);
    long depth = depths == WITH_DEPTHS && mpfr_number_p(answer) ? depth_of(&grid, modes[mode]) : 0;
    put_answer(out, answer, direction, depth);
    mpfr_clear(answer);
    return depth == TOO_DEEP ? TOO_DEEP : DONE;
}

// ---- The text.

static bool is_out_of_turn(enum form_name name)
{
    switch (name) {
    case NAN_FORM:
    case INF_FORM:
    case ZERO_FORM:
    case TERM_FORM: return has_call;
    case MARK_FORM:
    case BACK_FORM:
    case SET_FORM: return is_set;
    default: return !is_set;
    }
}

static int set_or_reopen(bool set)
{
    is_set = set;
    trail_length = 0;
    return DONE;
}

static int make_call(const struct form *form, enum depths depths, struct writer *out)
{
    has_call = true;
    switch (form->name) {
    case MARK_FORM: return mark_place(form);
    case BACK_FORM: return undo();
    case SET_FORM: return set_or_reopen(true);
    case REOPEN_FORM: return set_or_reopen(false);
    default: return ask(form, depths, out);
    }
}

static int do_form(const struct form *form, enum depths depths, struct writer *out)
{
    if (is_out_of_turn(form->name))
        return OUT_OF_TURN;
    return form->name <= TERM_FORM ? add_term(form) : make_call(form, depths, out);
}

// Reads and does one line; `byte` is the one that a refusal blames. `ended` tells whether a byte 10 follows it.
static int do_line(struct line line, bool ended, enum depths depths, struct writer *out, size_t *byte)
{
    const uint8_t *start = line.at;
    struct form form;
    bool whole = take_form(&line, &form) && line.at == line.end && ended;
    *byte = whole ? 1 : (size_t)(line.at - start) + 1;
    if (whole)
        return do_form(&form, depths, out);
    return line.at < line.end && !is_line_byte(*line.at) ? ODD_BYTE : BROKEN;
}

static void begin(void)
{
    // sums of terms with the farthest exponents, and the ends of their columns, must fit
    mpfr_set_emin(mpfr_get_emin_min());
    mpfr_set_emax(mpfr_get_emax_max());
    memset(marks, OUT, sizeof marks);
    count = pool_used = trail_length = 0;
    is_set = has_call = false;
    asks = 0;
}

static int64_t do_lines(const uint8_t *text, size_t text_len, enum depths depths, struct writer *out)
{
    const uint8_t *end = text + text_len;
    for (long number = 1; text < end; number++) {
        const uint8_t *newline = memchr(text, '\n', (size_t)(end - text));
        struct line line = {text, newline == NULL ? end : newline};
        size_t byte;
        int refusal = do_line(line, newline != NULL, depths, out, &byte);
        if (refusal == TOO_DEEP)
            return TOO_DEEP;
        if (refusal != DONE) {
            put(out, "(no %d %ld %zu)\n", refusal, number, byte);
            break;
        }
        text = newline + 1;
    }
    return (int64_t)out->used;
}

int64_t text_by_hand(const uint8_t *text, size_t text_len, uint8_t *answer, size_t answer_len, enum depths depths)
{
    if (text_len > LONGEST_TEXT)
        return -TEXT_TOO_LONG;
    if (answer_len < LEAST_ROOM)
        return -ANSWER_TOO_SHORT;
    begin();
    struct writer out = {answer, 0, answer_len};
    return do_lines(text, text_len, depths, &out);
}
