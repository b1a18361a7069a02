// Rounded sums of terms, from a text and back into one.
//
// A text is lines, each one form in round brackets and ended by byte 10: first terms, then marks that say which of them count, then asks.
// Every ask writes a line: the exact sum of the terms that count, rounded once, on which side of the sum it lies, and how many columns
// settled it. docs/text-format.md of the sources has the whole of the language, and tally(5) a short account of it.
//
//     (term + 3 3 (a0000000))        5, as a significand from 1/2 up to 1 times 2 to the exponent
//     (term + -9 1 (80000000))       2 to the power of -10
//     (mark 0 i)                     term 0 counts
//     (mark 1 i)
//     (set)
//     (ask 3 free N)                 the sum in three digits, to nearest
//
// is answered by
//
//     (sum + 3 3 (a0000000) -1 2)    5, which lies below the sum; two columns settled it
#ifndef TALLY_H
#define TALLY_H

#include <stddef.h>
#include <stdint.h>

// How many bytes a text may have, and how many the room for its answer must have.
#define TALLY_LONGEST_TEXT 49152
#define TALLY_LEAST_ROOM 49152

// What the call returns where it takes nothing.
#define TALLY_TEXT_TOO_LONG (-22)
#define TALLY_ANSWER_TOO_SHORT (-23)

// What one text may hold. Places are numbered from 0; place i speaks of term i.
#define TALLY_MOST_TERMS 1024
#define TALLY_MOST_PLACES 1024
#define TALLY_MOST_ASKS 32

// How many markings can be taken back; one more is refused.
#define TALLY_LONGEST_TRAIL 256

// The precision of a term and the width of a grid are from 1 to so many bits; a limb has 32 of them.
#define TALLY_MOST_BITS 4096
#define TALLY_MOST_LIMBS 128

// Exponents of terms, and floors, lie within this distance of 0.
#define TALLY_FARTHEST_EXPONENT 1000000000

// No line of an answer has more bytes, its end included.
#define TALLY_LONGEST_ANSWER_LINE 1199

#ifdef __cplusplus
extern "C" {
#endif

// Answers a text, and returns how many bytes of `answer` it wrote; the others stay as they were. No byte 0 ends the answer.
//
// Any bytes at all may be handed in. At the first line that is no form, or whose form is refused, work ends with a line (no N L B): the
// number of the refusal, and the line and the byte, counted from 1. What was answered before stands above it.
//
// Returns TALLY_TEXT_TOO_LONG where the text has more than TALLY_LONGEST_TEXT bytes, and otherwise TALLY_ANSWER_TOO_SHORT where the answer
// has fewer than TALLY_LEAST_ROOM; then nothing of the answer is touched.
//
// Neither pointer may be null, even for a length of 0, and text and answer must not overlap. Nothing is allocated, and nothing is kept
// from one call to the next: threads may call at the same time, each with an answer of its own. A call works on
// the stack of its thread, which should have 320 KiB to spare.
int64_t tally_text(const uint8_t *text, size_t text_len, uint8_t *answer, size_t answer_len);

#ifdef __cplusplus
}
#endif

#endif
