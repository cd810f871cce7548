/* The branches of planning, each with its words. A run counts how often it meets each, and a long one must meet all. */
#ifndef MET_H
#define MET_H

#include <stdint.h>

#define BRANCHES(BRANCH)                                                \
    BRANCH(ROW_1, "row 1")                                              \
    BRANCH(ROW_2, "row 2")                                              \
    BRANCH(ROW_3, "row 3")                                              \
    BRANCH(ROW_4, "row 4")                                              \
    BRANCH(ROW_24, "row 24")                                            \
    BRANCH(ROW_5, "row 5")                                              \
    BRANCH(ROW_6, "row 6")                                              \
    BRANCH(EARLIER_THAN_24, "an earlier row than 24")                   \
    BRANCH(BEFORE_5, "24 before 5")                                     \
    BRANCH(BEFORE_6, "24 before 6")                                     \
    BRANCH(ZERO_24, "24 at a zero extent")                              \
    BRANCH(LINE_POWER, "line no power of two")                          \
    BRANCH(LINE_LOW, "line below 32")                                   \
    BRANCH(LINE_HIGH, "line above 256")                                 \
    BRANCH(CACHE_LOW, "cache below 4,096")                              \
    BRANCH(CACHE_HIGH, "cache above 1,048,576")                         \
    BRANCH(WAY_MULTIPLE, "way no multiple of the line")                 \
    BRANCH(WAY_LOW, "way below the line")                               \
    BRANCH(WAY_HIGH, "way above the cache")                             \
    BRANCH(LIVE_LOW, "live below 1")                                    \
    BRANCH(LIVE_HIGH, "live above 16")                                  \
    BRANCH(SERVED, "served")                                            \
    BRANCH(ZERO_EXTENT, "a zero extent")                                \
    BRANCH(ZERO_PASSES_5, "a zero extent beside a total beyond 64 bits") \
    BRANCH(ZERO_PASSES_6, "a zero extent beside a stride of 63 bits")   \
    BRANCH(RANK_0, "rank 0")                                            \
    BRANCH(AS_GIVEN, "as given")                                        \
    BRANCH(IN_ORDER, "in loop order")                                   \
    BRANCH(FULL_WIDTH, "weights of the first width")                    \
    BRANCH(LESS_WIDTH, "weights of a lesser width")                     \
    BRANCH(CAPPED, "weights with a cap")                                \
    BRANCH(TIE_BY_EXTENT, "equal weights, by the extent")               \
    BRANCH(TIE_BY_AXIS, "equal weights and extents, by the axis")       \
    BRANCH(FUSED, "fused")                                              \
    BRANCH(FUSED_STILL, "fused with strides of 0")                      \
    BRANCH(JOIN_LONG, "not fused: an extent beyond isize")              \
    BRANCH(JOIN_FAR, "not fused: a product beyond isize")               \
    BRANCH(JOIN_CELLS, "not fused: extents beyond 64 bits")             \
    BRANCH(DROPPED, "an axis of 1 dropped")                             \
    BRANCH(ONE_STAYS, "one axis of 1 stays")                            \
    BRANCH(WIDE_STRIDE, "a byte stride of two words")                   \
    BRANCH(REGION_FITS, "region fits")                                  \
    BRANCH(REGION_JUST, "region just fits")                             \
    BRANCH(REGION_WIDE, "a region beyond 64 bits")                      \
    BRANCH(ALL_GROW, "all grow")                                        \
    BRANCH(FIRST_KEPT, "first axis kept")                               \
    BRANCH(TAIL_EMPTY, "tail empty")                                    \
    BRANCH(TAIL_FITS, "tail fits")                                      \
    BRANCH(TAIL_JUST, "tail just fits")                                 \
    BRANCH(TAIL_TO_1, "tail to 1")                                      \
    BRANCH(LEAST_IS_CACHE, "least byte stride is the cache")            \
    BRANCH(NO_COST, "an axis without a cost")                           \
    BRANCH(COST_1, "a cost of 1")                                       \
    BRANCH(COST_MOST, "a cost of 2^63 - 1")                             \
    BRANCH(HALVED, "halved")                                            \
    BRANCH(HALVED_TWICE, "halved from just twice the cache")            \
    BRANCH(ONE_OFF, "1 taken off")                                      \
    BRANCH(JUMP, "1 taken off, in a jump")                              \
    BRANCH(SCORE_TIE, "equal scores")                                   \
    BRANCH(CUT, "cut")                                                  \
    BRANCH(NOTHING_CUT, "nothing shortened")                            \
    BRANCH(AXIS_0_CUT, "axis 0 is cut")                                 \
    BRANCH(SIZE_0_PASSES, "an operand of size 0 passes")                \
    BRANCH(WIDTH_UNEVEN, "width no multiple of the line")               \
    BRANCH(STRIDE_UNEVEN, "a stride no multiple of the line")           \
    BRANCH(STRIDE_SHORT, "a stride below the span")                     \
    BRANCH(DECLINED, "declined")                                        \
    BRANCH(DECLINED_WIDE, "declined, with a byte stride of two words")  \
    BRANCH(A_FOLD, "not fitted: a fold")                                \
    BRANCH(NONE_CHOSEN, "not fitted: none chosen")                      \
    BRANCH(NOT_TWO, "not fitted: not two operands")                     \
    BRANCH(COUNT_SIZE_0, "size 0 does not count")                       \
    BRANCH(COUNT_NONE_BELOW, "no byte stride below the line")           \
    BRANCH(COUNT_AXIS_0, "axis 0 is below the line")                    \
    BRANCH(COUNTS_SOME, "an operand counts, with axes")                 \
    BRANCH(COUNTS_NONE, "an operand counts, with none")                 \
    BRANCH(LOAD_BELOW, "load below the live lines")                     \
    BRANCH(LOAD_JUST, "load just the live lines")                       \
    BRANCH(SKIP_STILL, "skipped: a chosen stride is 0")                 \
    BRANCH(SKIP_OUTSIDE, "skipped: an axis enters no product")          \
    BRANCH(SKIP_1, "skipped: a block is 1")                             \
    BRANCH(SET_1, "set 1 and go on")                                    \
    BRANCH(SET_GREATEST, "set the greatest and end")                    \
    BRANCH(LOAD_STAYS, "load stays above the live lines")               \
    BRANCH(FITTED, "fitted")                                            \
    BRANCH(FITTED_WIDE, "fitted, with a byte stride of two words")

#define BRANCH_NAME(name, words) name,
enum branch { BRANCHES(BRANCH_NAME) BRANCH_COUNT };
#undef BRANCH_NAME

extern uint64_t met_counts[BRANCH_COUNT];

static inline void met(enum branch branch) { met_counts[branch]++; }

#endif
