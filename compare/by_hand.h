// A text read by hand, and summed by mpfr_sum: what a careful program does that has MPFR and not this library.
#ifndef BY_HAND_H
#define BY_HAND_H

#include <stddef.h>
#include <stdint.h>

// Whether the answers tell the depth. MPFR knows none: it takes two sums for each column, and is for comparison. Without it 0 is written.
enum depths { WITHOUT_DEPTHS, WITH_DEPTHS };

// As tally_text. With depths, a sum of very many columns is left out: then -1 is returned.
int64_t text_by_hand(const uint8_t *text, size_t text_len, uint8_t *answer, size_t answer_len, enum depths depths);

#endif
