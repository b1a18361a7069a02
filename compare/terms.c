#include "terms.h"

#include <string.h>

#if GMP_NUMB_BITS != 64 || GMP_NAIL_BITS != 0
#error "written for limbs of 64 bits"
#endif

uint64_t next_random(uint64_t *state)
{
    uint64_t z = *state += 0x9e3779b97f4a7c15u;
    z = (z ^ (z >> 30)) * 0xbf58476d1ce4e5b9u;
    z = (z ^ (z >> 27)) * 0x94d049bb133111ebu;
    return z ^ (z >> 31);
}

long random_between(uint64_t *state, long low, long high)
{
    return low + (long)(next_random(state) % (uint64_t)(high - low + 1));
}

void set_special(struct term *term, enum kind kind)
{
    static const int kinds[] = {MPFR_NAN_KIND, MPFR_INF_KIND, -MPFR_INF_KIND, MPFR_ZERO_KIND, -MPFR_ZERO_KIND};
    term->significand[0] = 0;
    mpfr_custom_init_set(term->number, kinds[kind], 0, MPFR_PREC_MIN, term->significand);
}

static void set_regular(struct term *term, int negative, long exponent, long precision)
{
    mpfr_custom_init_set(term->number, negative ? -MPFR_REGULAR_KIND : MPFR_REGULAR_KIND, exponent, precision, term->significand);
}

void set_scaled(struct term *term, int sign, uint64_t count, long weight)
{
    if (sign == 0 || count == 0) {
        set_special(term, POSITIVE_ZERO);
        return;
    }
    int top = __builtin_clzl(count), low = __builtin_ctzl(count);
    term->significand[0] = count << top;
    set_regular(term, sign < 0, weight + 64 - top, 64 - top - low);
}

void set_random(struct term *term, uint64_t *state, int negative, long exponent, long precision)
{
    long limbs = (precision + 63) / 64;
    for (long i = 0; i < limbs; i++)
        term->significand[i] = next_random(state);
    term->significand[limbs - 1] |= (mp_limb_t)1 << 63;
    term->significand[0] &= ~(mp_limb_t)0 << (64 * limbs - precision);
    set_regular(term, negative, exponent, precision);
}

enum kind kind_of(mpfr_srcptr number)
{
    int negative = mpfr_signbit(number) != 0;
    if (mpfr_nan_p(number))
        return NOT_A_NUMBER;
    if (mpfr_inf_p(number))
        return POSITIVE_INFINITY + negative;
    return (mpfr_zero_p(number) ? POSITIVE_ZERO : POSITIVE) + negative;
}

int is_regular(mpfr_srcptr number)
{
    return mpfr_regular_p(number);
}

void set_number(struct term *term, mpfr_srcptr number)
{
    if (!is_regular(number)) {
        set_special(term, kind_of(number));
        return;
    }
    mpfr_prec_t precision = mpfr_get_prec(number);
    memcpy(term->significand, mpfr_custom_get_significand(number), mpfr_custom_get_size(precision));
    set_regular(term, mpfr_signbit(number), mpfr_get_exp(number), precision);
}

void copy_term(struct term *to, const struct term *from)
{
    set_number(to, from->number);
}

void negate_term(struct term *term)
{
    mpfr_neg(term->number, term->number, MPFR_RNDN);
}

size_t limbs_of(mpfr_srcptr number, uint32_t *limbs)
{
    mpfr_prec_t precision = mpfr_get_prec(number);
    const mp_limb_t *significand = mpfr_custom_get_significand(number);
    size_t count = (precision + 31) / 32;
    // An odd count leaves the lower half of the lowest limb out, whose bits lie below the precision.
    size_t skipped = count % 2;
    for (size_t i = 0; i < count; i++)
        limbs[i] = (uint32_t)(significand[(i + skipped) / 2] >> (32 * ((i + skipped) % 2)));
    return count;
}
