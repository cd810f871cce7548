/*
 * Planning with a machine record, from the words of documents 01 and 02: a second reference beside the one in Python, for long runs. It shares
 * nothing with the port or the Rust. A rule's sentence is quoted at its head; where it says 64, 32,768, 4,096 or 6, the record's number stands here.
 *
 * Byte strides, spans, regions and scores are exact in 128 bits. A layout that no row refuses has a reach below 2^63 and sizes below 2^64, so a
 * byte stride along an axis of two cells or more, and a whole span, are below 2^127. A region is bounded at its function.
 */
#ifndef PLANNER_H
#define PLANNER_H

#include <stddef.h>
#include <stdint.h>

#include "met.h"

enum { MOST_RANK = 64, MOST_OPERANDS = 8, SMALL = 1024 };
enum { POINTWISE = 0, POINTWISE_INTO = 1 }; /* any other purpose is a fold */

__extension__ typedef unsigned __int128 wide_t;
__extension__ typedef __int128 whole_t;

typedef struct layout_t {
    const uint64_t *extents;
    size_t rank;
    const uint64_t *sizes;
    size_t operands;
    const int64_t *strides; /* operand by operand, one for each axis */
    size_t stride_count;
    uint64_t purpose, chosen;
} layout_t;

typedef struct record_t {
    uint64_t line, cache, way, live;
} record_t;

/* The axes of a plan. */
typedef struct axes_t {
    size_t rank, operands;
    uint64_t extents[MOST_RANK], blocks[MOST_RANK], sizes[MOST_OPERANDS];
    int64_t strides[MOST_OPERANDS][MOST_RANK];
    wide_t bytes[MOST_OPERANDS][MOST_RANK];
} axes_t;

static inline uint64_t size_of(int64_t stride) { return stride < 0 ? -(uint64_t)stride : (uint64_t)stride; }

/* planner.c: 0 and the plan's axes with their blocks, or the row that refuses. */
int plan(const layout_t *layout, const record_t *record, axes_t *axes);
/* The axes alone, of a layout that no row refuses. */
void plan_axes(const layout_t *layout, axes_t *axes);

/* refusals.c: the row that refuses, or 0; whether the layout has at most 1,024 cells. */
int refusal(const layout_t *layout, const record_t *record);
int is_small(const layout_t *layout);

/* order.c: the axes in loop order, and an operand's ranks. */
void ranks_of(const int64_t *strides, size_t rank, unsigned *ranks);
void loop_order(const layout_t *layout, size_t *order);

/* fusing.c: the layout's axes in an order, fused, without those of extent 1. */
void fuse(const layout_t *layout, const size_t *order, axes_t *axes);

/* cutting.c: the region of the axes from `first` on, with these blocks; the cutting rule, which sets the blocks. */
wide_t region(const axes_t *axes, const uint64_t *blocks, size_t first, uint64_t line);
void cut(axes_t *axes, const record_t *record);

/* fitting.c: whether tiles are declined; the L1 fit, which shortens blocks. */
int declined(const axes_t *axes, uint64_t line);
void fit(axes_t *axes, size_t chosen, const record_t *record);

#endif
