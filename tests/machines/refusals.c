/* The rows that refuse: "the least number wins", and in 02 "24: [...] after 4, and due at a zero extent too". */
#include "planner.h"

static int has_zero(const layout_t *layout)
{
    for (size_t i = 0; i < layout->rank; i++)
        if (layout->extents[i] == 0)
            return 1;
    return 0;
}

/* Whether the product of the extents but zeros passes a limit of 64 bits. */
static int cells_pass(const layout_t *layout, uint64_t limit)
{
    wide_t total = 1;
    for (size_t i = 0; i < layout->rank; i++) {
        if (layout->extents[i] != 0)
            total *= layout->extents[i];
        if (total > limit)
            return 1;
    }
    return 0;
}

int is_small(const layout_t *layout) { return has_zero(layout) || !cells_pass(layout, SMALL); }

/* "Reach is the sum of (extent - 1) x stride size"; whether an operand's is above 2^63 - 1, where no extent is 0 */
static int reach_passes(const layout_t *layout, const int64_t *strides)
{
    wide_t reach = 0;
    for (size_t i = 0; i < layout->rank; i++) {
        reach += (wide_t)(layout->extents[i] - 1) * size_of(strides[i]);
        if (reach > INT64_MAX)
            return 1;
    }
    return 0;
}

static int row_5(const layout_t *layout) { return !has_zero(layout) && cells_pass(layout, UINT64_MAX); }

static int row_6(const layout_t *layout)
{
    if (has_zero(layout))
        return 0;
    for (size_t k = 0; k < layout->operands; k++)
        if (reach_passes(layout, layout->strides + k * layout->rank))
            return 1;
    return 0;
}

/*
 * "line (a power of two, 32 to 256 bytes), cache bytes (4,096 to 1,048,576), way bytes (a multiple of the line, from the line up to the cache) and
 * live lines (1 to 16)"
 */
static int row_24(const record_t *record)
{
    const uint64_t line = record->line, cache = record->cache, way = record->way, live = record->live;
    const struct {
        int is;
        enum branch branch;
    } faults[] = {
        {line == 0 || (line & (line - 1)) != 0, LINE_POWER},
        {line < 32, LINE_LOW},
        {line > 256, LINE_HIGH},
        {cache < 4096, CACHE_LOW},
        {cache > 1048576, CACHE_HIGH},
        {line != 0 && way % line != 0, WAY_MULTIPLE},
        {way < line, WAY_LOW},
        {way > cache, WAY_HIGH},
        {live < 1, LIVE_LOW},
        {live > 16, LIVE_HIGH},
    };
    size_t count = 0, last = 0;
    for (size_t i = 0; i < sizeof faults / sizeof *faults; i++)
        if (faults[i].is)
            count++, last = i;
    if (count == 1)
        met(faults[last].branch);
    return count != 0;
}

/* Rows 1 to 4: what the counts alone tell. */
static int row_of_counts(const layout_t *layout)
{
    if (layout->rank > MOST_RANK)
        return 1;
    if (layout->operands == 0 || layout->operands > MOST_OPERANDS)
        return 2;
    if (layout->stride_count != layout->rank * layout->operands)
        return 3;
    if (layout->purpose != POINTWISE && layout->chosen >= layout->operands)
        return 4;
    return 0;
}

static void met_24(const layout_t *layout)
{
    met(ROW_24);
    if (row_5(layout))
        met(BEFORE_5);
    else if (row_6(layout))
        met(BEFORE_6);
    if (has_zero(layout))
        met(ZERO_24);
}

static void met_zero(const layout_t *layout)
{
    met(ZERO_EXTENT);
    if (cells_pass(layout, UINT64_MAX))
        met(ZERO_PASSES_5);
    for (size_t j = 0; j < layout->stride_count; j++)
        if (size_of(layout->strides[j]) >> 62 != 0) {
            met(ZERO_PASSES_6);
            return;
        }
}

int refusal(const layout_t *layout, const record_t *record)
{
    const int row = row_of_counts(layout), outside = row_24(record);
    if (row != 0) {
        met(row == 1 ? ROW_1 : row == 2 ? ROW_2 : row == 3 ? ROW_3 : ROW_4);
        if (outside)
            met(EARLIER_THAN_24);
        return row;
    }
    if (outside) {
        met_24(layout);
        return 24;
    }
    if (row_5(layout)) {
        met(ROW_5);
        return 5;
    }
    if (row_6(layout)) {
        met(ROW_6);
        return 6;
    }
    if (has_zero(layout))
        met_zero(layout);
    return 0;
}
