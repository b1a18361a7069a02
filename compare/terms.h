// Terms that are at once MPFR numbers and limbs of 32 bits, and a random number generator that gives the same numbers everywhere.
#ifndef TERMS_H
#define TERMS_H

#include <stddef.h>
#include <stdint.h>
#include <mpfr.h>

enum { MOST_TERMS = 1024, MOST_BITS = 4096, MOST_LIMBS = MOST_BITS / 32 };

enum kind { NOT_A_NUMBER, POSITIVE_INFINITY, NEGATIVE_INFINITY, POSITIVE_ZERO, NEGATIVE_ZERO, POSITIVE, NEGATIVE };

// The number's significand lies in `significand`; a term must not be moved, and is copied by copy_term alone.
struct term {
    mpfr_t number;
    mp_limb_t significand[MOST_BITS / GMP_NUMB_BITS];
};

// The next number of a sequence that its seed fixes.
uint64_t next_random(uint64_t *state);

// A number from low to high.
long random_between(uint64_t *state, long low, long high);

// Any kind but the two regular ones.
void set_special(struct term *term, enum kind kind);

// sign * count * 2^weight, with as few bits as it takes; +0 for a count of 0.
void set_scaled(struct term *term, int sign, uint64_t count, long weight);

// A random significand of so many bits.
void set_random(struct term *term, uint64_t *state, int negative, long exponent, long precision);

void copy_term(struct term *to, const struct term *from);

void negate_term(struct term *term);

// A term that has the value of a number whose precision is at most MOST_BITS.
void set_number(struct term *term, mpfr_srcptr number);

enum kind kind_of(mpfr_srcptr number);

int is_regular(mpfr_srcptr number);

// The limbs that the precision of a regular number takes, the least significant first; returns how many.
size_t limbs_of(mpfr_srcptr number, uint32_t *limbs);

#endif
