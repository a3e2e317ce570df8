/* C entry points of the bit-set engine. A set is its length and the 64-bit words that the caller lends.
   A slice is a pointer and a number of words, or of pairs; the slices of a call that writes must not overlap.
   `number` is 0 for an accepted call and otherwise the number of the first question that was answered no (docs/SPECIFICATION.md says which). */
#ifndef FBS_H
#define FBS_H

#include <stdbool.h>
#include <stddef.h>
#include <stdint.h>

#ifdef __cplusplus
extern "C" {
#endif

typedef struct { size_t length; } FbsSet;
typedef struct { uint64_t number; FbsSet set; } FbsEdited;
typedef struct { uint64_t number; FbsSet set; bool was; } FbsReplaced;
typedef struct { uint64_t number; bool yes; } FbsTold;
typedef struct { uint64_t number; size_t count; } FbsCounted;
typedef struct { uint64_t number; uint64_t order; } FbsCompared;   /* 0 equal, 1 below, 2 above */
typedef struct { uint64_t number; bool found; size_t at; } FbsFound;
typedef struct { uint64_t number; size_t position; uint64_t rest; } FbsLastBit;
typedef struct { size_t first_block; size_t end_block; uint64_t first_mask; uint64_t last_mask; } FbsMasks;
typedef struct { size_t offset; size_t count; } FbsSlice;          /* a part of the lent slice */
typedef struct { bool second; size_t offset; size_t count; } FbsLonger; /* a part of the second slice or of the first */
typedef struct { size_t low; size_t high; } FbsPart;               /* the record of a part of a walk */
typedef struct { uint64_t number; bool found; size_t at; FbsPart part; } FbsStepped;
typedef struct { uint64_t number; bool found; size_t at; FbsPart one; FbsPart two; } FbsSteppedPair;
typedef struct { uint64_t number; size_t count; FbsPart part; } FbsNextMany;
typedef struct { uint64_t number; size_t count; FbsPart one; FbsPart two; } FbsNextManyPair;
typedef struct { uint64_t number; FbsSet a; FbsSet b; size_t count; } FbsRan;
typedef struct { uint64_t old_offset; uint64_t new_offset; } FbsPair; /* a position of the old set and its place in the new one */

/* one word */
size_t fbs_word_count_ones(uint64_t word);
size_t fbs_word_leading_zeros(uint64_t word);
size_t fbs_word_trailing_zeros(uint64_t word);
FbsLastBit fbs_last_positive_bit_and_unset(uint64_t word);
uint64_t fbs_low_mask(size_t r);

/* ranges */
uint64_t fbs_ask_range(size_t start, size_t end, size_t length);
uint64_t fbs_range_mask(size_t start, size_t end, size_t word);
FbsMasks fbs_masks(size_t start, size_t end);

/* fresh sets */
FbsEdited fbs_with_capacity(size_t bits, uint64_t *words, size_t size);
FbsEdited fbs_with_capacity_and_blocks(size_t bits, const uint64_t *blocks, size_t count, uint64_t *words, size_t size);

/* views */
FbsCounted fbs_len(FbsSet set, const uint64_t *words, size_t size);
FbsTold fbs_is_empty(FbsSet set, const uint64_t *words, size_t size);
FbsSlice fbs_as_slice(FbsSet set, const uint64_t *words, size_t size);
uint64_t fbs_as_slice_number(FbsSet set, const uint64_t *words, size_t size);

/* edits */
FbsEdited fbs_insert(FbsSet set, uint64_t *words, size_t size, size_t bit);
FbsEdited fbs_remove(FbsSet set, uint64_t *words, size_t size, size_t bit);
FbsReplaced fbs_put(FbsSet set, uint64_t *words, size_t size, size_t bit);
FbsEdited fbs_toggle(FbsSet set, uint64_t *words, size_t size, size_t bit);
FbsEdited fbs_set(FbsSet set, uint64_t *words, size_t size, size_t bit, bool enabled);
FbsEdited fbs_copy_bit(FbsSet set, uint64_t *words, size_t size, size_t from, size_t to);
FbsEdited fbs_insert_range(FbsSet set, uint64_t *words, size_t size, size_t start, size_t end);
FbsEdited fbs_remove_range(FbsSet set, uint64_t *words, size_t size, size_t start, size_t end);
FbsEdited fbs_toggle_range(FbsSet set, uint64_t *words, size_t size, size_t start, size_t end);
FbsEdited fbs_set_range(FbsSet set, uint64_t *words, size_t size, size_t start, size_t end, bool enabled);
FbsEdited fbs_clear(FbsSet set, uint64_t *words, size_t size);
FbsEdited fbs_grow(FbsSet set, uint64_t *words, size_t size, size_t bits);
FbsEdited fbs_grow_and_insert(FbsSet set, uint64_t *words, size_t size, size_t bit);
FbsEdited fbs_insert_all(FbsSet set, uint64_t *words, size_t size, const uint64_t *positions, size_t positions_size);

/* tests and counts */
FbsTold fbs_contains(FbsSet set, const uint64_t *words, size_t size, size_t bit);
FbsTold fbs_contains_all_in_range(FbsSet set, const uint64_t *words, size_t size, size_t start, size_t end);
FbsTold fbs_contains_any_in_range(FbsSet set, const uint64_t *words, size_t size, size_t start, size_t end);
FbsTold fbs_is_full(FbsSet set, const uint64_t *words, size_t size);
FbsTold fbs_is_clear(FbsSet set, const uint64_t *words, size_t size);
FbsCounted fbs_count_ones(FbsSet set, const uint64_t *words, size_t size, size_t start, size_t end);
FbsCounted fbs_count_zeroes(FbsSet set, const uint64_t *words, size_t size, size_t start, size_t end);
FbsFound fbs_minimum(FbsSet set, const uint64_t *words, size_t size);
FbsFound fbs_maximum(FbsSet set, const uint64_t *words, size_t size);

/* two sets: the first is a over words, the second b over other */
FbsEdited fbs_union_with(FbsSet a, uint64_t *words, size_t size, FbsSet b, const uint64_t *other, size_t other_size);
FbsEdited fbs_intersect_with(FbsSet a, uint64_t *words, size_t size, FbsSet b, const uint64_t *other, size_t other_size);
FbsEdited fbs_difference_with(FbsSet a, uint64_t *words, size_t size, FbsSet b, const uint64_t *other, size_t other_size);
FbsEdited fbs_symmetric_difference_with(FbsSet a, uint64_t *words, size_t size, FbsSet b, const uint64_t *other, size_t other_size);
FbsEdited fbs_bitand(FbsSet a, const uint64_t *words, size_t size, FbsSet b, const uint64_t *other, size_t other_size, uint64_t *out, size_t out_size);
FbsEdited fbs_bitor(FbsSet a, const uint64_t *words, size_t size, FbsSet b, const uint64_t *other, size_t other_size, uint64_t *out, size_t out_size);
FbsEdited fbs_bitxor(FbsSet a, const uint64_t *words, size_t size, FbsSet b, const uint64_t *other, size_t other_size, uint64_t *out, size_t out_size);
FbsCounted fbs_union_count(FbsSet a, const uint64_t *words, size_t size, FbsSet b, const uint64_t *other, size_t other_size);
FbsCounted fbs_intersection_count(FbsSet a, const uint64_t *words, size_t size, FbsSet b, const uint64_t *other, size_t other_size);
FbsCounted fbs_difference_count(FbsSet a, const uint64_t *words, size_t size, FbsSet b, const uint64_t *other, size_t other_size);
FbsCounted fbs_symmetric_difference_count(FbsSet a, const uint64_t *words, size_t size, FbsSet b, const uint64_t *other, size_t other_size);
FbsTold fbs_is_disjoint(FbsSet a, const uint64_t *words, size_t size, FbsSet b, const uint64_t *other, size_t other_size);
FbsTold fbs_is_subset(FbsSet a, const uint64_t *words, size_t size, FbsSet b, const uint64_t *other, size_t other_size);
FbsTold fbs_is_superset(FbsSet a, const uint64_t *words, size_t size, FbsSet b, const uint64_t *other, size_t other_size);
FbsTold fbs_eq(FbsSet a, const uint64_t *words, size_t size, FbsSet b, const uint64_t *other, size_t other_size);
FbsCompared fbs_cmp(FbsSet a, const uint64_t *words, size_t size, FbsSet b, const uint64_t *other, size_t other_size);
FbsLonger fbs_longer(FbsSet a, const uint64_t *words, size_t size, FbsSet b, const uint64_t *other, size_t other_size);
uint64_t fbs_longer_number(FbsSet a, const uint64_t *words, size_t size, FbsSet b, const uint64_t *other, size_t other_size);

/* a set moved to another layout: the set of bits bits in out has exactly the new offset of each member. Questions 1 to 3, 6 and 7, then of all pairs: 10, two share an old offset; 11, two share a new
   offset; 4, a new offset is not below bits; then 12, a member has no pair. Refused: length 0, and every word as it was. */
FbsEdited fbs_renumber(FbsSet set, const uint64_t *words, size_t size, const FbsPair *pairs, size_t pairs_size, size_t bits, uint64_t *out, size_t out_size);
/* the same with every pair swapped */
FbsEdited fbs_renumber_back(FbsSet set, const uint64_t *words, size_t size, const FbsPair *pairs, size_t pairs_size, size_t bits, uint64_t *out, size_t out_size);
/* the first into out, then the second of that into again with the old length: does the old set stand again? number is that of the call that refused */
FbsTold fbs_renumber_and_back(FbsSet set, const uint64_t *words, size_t size, const FbsPair *pairs, size_t pairs_size, size_t bits, uint64_t *out, size_t out_size, uint64_t *again, size_t again_size);

/* walks: a part's record goes in and comes back */
FbsPart fbs_first_part(FbsSet set);
FbsStepped fbs_ones_next(FbsSet set, const uint64_t *words, size_t size, FbsPart part);
FbsStepped fbs_ones_next_back(FbsSet set, const uint64_t *words, size_t size, FbsPart part);
FbsStepped fbs_zeroes_next(FbsSet set, const uint64_t *words, size_t size, FbsPart part);
FbsStepped fbs_intersection_next(FbsSet a, const uint64_t *words, size_t size, FbsSet b, const uint64_t *other, size_t other_size, FbsPart part);
FbsStepped fbs_intersection_next_back(FbsSet a, const uint64_t *words, size_t size, FbsSet b, const uint64_t *other, size_t other_size, FbsPart part);
FbsStepped fbs_difference_next(FbsSet a, const uint64_t *words, size_t size, FbsSet b, const uint64_t *other, size_t other_size, FbsPart part);
FbsStepped fbs_difference_next_back(FbsSet a, const uint64_t *words, size_t size, FbsSet b, const uint64_t *other, size_t other_size, FbsPart part);
FbsSteppedPair fbs_union_next(FbsSet a, const uint64_t *words, size_t size, FbsSet b, const uint64_t *other, size_t other_size, FbsPart one, FbsPart two);
FbsSteppedPair fbs_union_next_back(FbsSet a, const uint64_t *words, size_t size, FbsSet b, const uint64_t *other, size_t other_size, FbsPart one, FbsPart two);
FbsSteppedPair fbs_symmetric_difference_next(FbsSet a, const uint64_t *words, size_t size, FbsSet b, const uint64_t *other, size_t other_size, FbsPart one, FbsPart two);
FbsSteppedPair fbs_symmetric_difference_next_back(FbsSet a, const uint64_t *words, size_t size, FbsSet b, const uint64_t *other, size_t other_size, FbsPart one, FbsPart two);
/* as many front steps as out has words, or as the walk has left: count positions at the start of out, its later words as they were */
FbsNextMany fbs_ones_next_many(FbsSet set, const uint64_t *words, size_t size, FbsPart part, uint64_t *out, size_t out_size);
FbsNextMany fbs_zeroes_next_many(FbsSet set, const uint64_t *words, size_t size, FbsPart part, uint64_t *out, size_t out_size);
FbsNextMany fbs_intersection_next_many(FbsSet a, const uint64_t *words, size_t size, FbsSet b, const uint64_t *other, size_t other_size, FbsPart part, uint64_t *out, size_t out_size);
FbsNextMany fbs_difference_next_many(FbsSet a, const uint64_t *words, size_t size, FbsSet b, const uint64_t *other, size_t other_size, FbsPart part, uint64_t *out, size_t out_size);
FbsNextManyPair fbs_union_next_many(FbsSet a, const uint64_t *words, size_t size, FbsSet b, const uint64_t *other, size_t other_size, FbsPart one, FbsPart two, uint64_t *out, size_t out_size);
FbsNextManyPair fbs_symmetric_difference_next_many(FbsSet a, const uint64_t *words, size_t size, FbsSet b, const uint64_t *other, size_t other_size, FbsPart one, FbsPart two, uint64_t *out, size_t out_size);
/* a step of the walker that keeps the set's words: back is the end */
FbsStepped fbs_walker_step(FbsSet set, const uint64_t *words, size_t size, FbsPart part, bool back);

/* a whole history: two fresh sets, calls of five numbers each, positions that the calls of insert_all (17) name by start and end, a walk (0 ones, 1 intersection, 2 difference, 3 union, 4 symmetric difference; any
   other is refused with 99), steps (0 front, else back), an answer for each step in out (the position, or 2^64 - 1 for none), and the walk's count */
FbsRan fbs_run_history(size_t a_bits, uint64_t *words, size_t size, size_t b_bits, uint64_t *other, size_t other_size,
                       const uint64_t *calls, size_t calls_size, const uint64_t *positions, size_t positions_size, uint64_t walk, const uint64_t *steps, size_t steps_size,
                       uint64_t *out, size_t out_size);

#ifdef __cplusplus
}
#endif

#endif
