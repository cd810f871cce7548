/* The whole of planning: document 01, "The plan". */
#include "planner.h"

#include <string.h>

uint64_t met_counts[BRANCH_COUNT];

/* "Total at most 1,024: fuse the axes as given [...] Otherwise order, fuse, then cut." */
void plan_axes(const layout_t *layout, axes_t *axes)
{
    size_t order[MOST_RANK];
    if (is_small(layout)) {
        met(layout->rank == 0 ? RANK_0 : AS_GIVEN);
        for (size_t i = 0; i < layout->rank; i++)
            order[i] = i;
    } else {
        met(IN_ORDER);
        loop_order(layout, order);
    }
    fuse(layout, order, axes);
}

/* Whether an operand has "size above 0, a nonzero first stride and strictly growing stride sizes". */
static int grows(const axes_t *axes, size_t k)
{
    if (axes->sizes[k] == 0 || axes->strides[k][0] == 0)
        return 0;
    for (size_t i = 1; i < axes->rank; i++)
        if (size_of(axes->strides[k][i - 1]) >= size_of(axes->strides[k][i]))
            return 0;
    return 1;
}

/*
 * "No cut if rank is 0, the region is at most 32,768, or every operand has size above 0, a nonzero first stride and strictly growing stride sizes."
 * Above 1,024 cells there is an axis.
 */
static int is_cut(const axes_t *axes, const record_t *record)
{
    const wide_t whole = region(axes, axes->blocks, 0, record->line);
    if (whole <= record->cache) {
        met(whole == record->cache ? REGION_JUST : REGION_FITS);
        return 0;
    }
    size_t k = 0;
    while (k < axes->operands && grows(axes, k))
        k++;
    if (k == axes->operands) {
        met(ALL_GROW);
        return 0;
    }
    if (whole > UINT64_MAX)
        met(REGION_WIDE);
    return 1;
}

static int has_wide_stride(const axes_t *axes)
{
    for (size_t k = 0; k < axes->operands; k++)
        for (size_t i = 0; i < axes->rank; i++)
            if (axes->bytes[k][i] > UINT64_MAX)
                return 1;
    return 0;
}

static void fit_and_count(axes_t *axes, size_t chosen, const record_t *record, int wide)
{
    uint64_t before[MOST_RANK];
    memcpy(before, axes->blocks, axes->rank * sizeof *before);
    fit(axes, chosen, record);
    if (memcmp(before, axes->blocks, axes->rank * sizeof *before) != 0)
        met(wide ? FITTED_WIDE : FITTED);
}

/*
 * The blocks of a layout above 1,024 cells.
 *
 * "P with a chosen operand and exactly two operands: if the cutting rule was run (even if it shortened nothing) and tiles were not declined, fit."
 */
static void put_blocks(const layout_t *layout, const record_t *record, axes_t *axes)
{
    const int wide = has_wide_stride(axes);
    if (wide)
        met(WIDE_STRIDE);
    if (!is_cut(axes, record))
        return;
    cut(axes, record);
    if (declined(axes, record->line)) {
        memcpy(axes->blocks, axes->extents, axes->rank * sizeof *axes->blocks);
        if (wide)
            met(DECLINED_WIDE);
    } else if (layout->purpose == POINTWISE)
        met(NONE_CHOSEN);
    else if (layout->purpose != POINTWISE_INTO)
        met(A_FOLD);
    else if (layout->operands != 2)
        met(NOT_TWO);
    else
        fit_and_count(axes, layout->chosen, record, wide);
}

int plan(const layout_t *layout, const record_t *record, axes_t *axes)
{
    const int row = refusal(layout, record);
    if (row != 0)
        return row;
    met(SERVED);
    plan_axes(layout, axes);
    if (!is_small(layout))
        put_blocks(layout, record, axes);
    return 0;
}
