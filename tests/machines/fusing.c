/* Fused axes: document 01, "Fused axes". */
#include "planner.h"

#include <string.h>

/*
 * Whether one operand lets an axis join the one before it, which has this extent.
 *
 * "both strides are 0, or stride i equals (present extent of i - 1) x stride of i - 1 with that extent and product within isize"
 */
static int joins(uint64_t extent, int64_t before, int64_t stride)
{
    if (before == 0 && stride == 0)
        return 1;
    const whole_t product = (whole_t)extent * before;
    if (product < INT64_MIN || product > INT64_MAX) {
        if ((int64_t)((uint64_t)before * extent) == stride)
            met(JOIN_FAR);
        return 0;
    }
    if (product != stride)
        return 0;
    if (extent > INT64_MAX) {
        met(JOIN_LONG);
        return 0;
    }
    return 1;
}

static int all_join(const axes_t *axes, size_t i)
{
    for (size_t k = 0; k < axes->operands; k++)
        if (!joins(axes->extents[i - 1], axes->strides[k][i - 1], axes->strides[k][i]))
            return 0;
    return 1;
}

/* "From the last axis down to axis 1"; "The extents multiply and i becomes 1; a product above 2^64 - 1 leaves both." */
static void join_axes(axes_t *axes)
{
    for (size_t i = axes->rank; i-- > 1;) {
        if (!all_join(axes, i))
            continue;
        const wide_t product = (wide_t)axes->extents[i - 1] * axes->extents[i];
        if (product > UINT64_MAX) {
            met(JOIN_CELLS);
            continue;
        }
        if (axes->extents[i] != 1)
            met(axes->strides[0][i] == 0 ? FUSED_STILL : FUSED);
        axes->extents[i - 1] = (uint64_t)product;
        axes->extents[i] = 1;
    }
}

static void move_axis(axes_t *axes, size_t to, size_t from)
{
    axes->extents[to] = axes->extents[from];
    for (size_t k = 0; k < axes->operands; k++)
        axes->strides[k][to] = axes->strides[k][from];
}

/* "Then axes of extent 1 go. If none is left and rank was not 0, one axis of extent 1 stays with the first axis's strides." */
static void drop_axes(axes_t *axes)
{
    const size_t rank = axes->rank;
    size_t kept = 0;
    for (size_t i = 0; i < rank; i++)
        if (axes->extents[i] != 1)
            move_axis(axes, kept++, i);
    if (kept < rank)
        met(DROPPED);
    if (kept == 0 && rank != 0) {
        met(ONE_STAYS);
        kept = 1; /* none was moved: axis 0 is the first axis still, of extent 1 */
    }
    axes->rank = kept;
}

/* "A byte stride is stride size x element size, never negative." */
static void put_bytes(axes_t *axes)
{
    for (size_t k = 0; k < axes->operands; k++)
        for (size_t i = 0; i < axes->rank; i++)
            axes->bytes[k][i] = (wide_t)size_of(axes->strides[k][i]) * axes->sizes[k];
}

void fuse(const layout_t *layout, const size_t *order, axes_t *axes)
{
    axes->rank = layout->rank;
    axes->operands = layout->operands;
    for (size_t k = 0; k < layout->operands; k++)
        axes->sizes[k] = layout->sizes[k];
    for (size_t i = 0; i < layout->rank; i++) {
        axes->extents[i] = layout->extents[order[i]];
        for (size_t k = 0; k < layout->operands; k++)
            axes->strides[k][i] = layout->strides[k * layout->rank + order[i]];
    }
    join_axes(axes);
    drop_axes(axes);
    put_bytes(axes);
    memcpy(axes->blocks, axes->extents, axes->rank * sizeof *axes->blocks);
}
