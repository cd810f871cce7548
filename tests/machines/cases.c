/* A case by its seed and number: a layout made for an allowed record, which is then kept, made to fit the layout to the byte, or spoilt. */
#include "draw.h"

#include <string.h>

layout_t layout_of(const case_t *drawn)
{
    const layout_t layout = {drawn->extents, drawn->rank,         drawn->sizes,   drawn->operands,
                             drawn->strides, drawn->stride_count, drawn->purpose, drawn->chosen};
    return layout;
}

/* The record with a cache that the layout's region just fits, just does not, or is twice as large as. What this meets is not counted. */
static void to_the_byte(case_t *drawn)
{
    uint64_t held[BRANCH_COUNT];
    axes_t axes;
    const layout_t layout = layout_of(drawn);
    memcpy(held, met_counts, sizeof held);
    if (refusal(&layout, &drawn->record) == 0 && !is_small(&layout)) {
        plan_axes(&layout, &axes);
        const wide_t whole = region(&axes, axes.blocks, 0, drawn->record.line);
        const uint64_t size = whole > UINT64_MAX ? 0 : (uint64_t)whole;
        const uint64_t cache = ONE_OF(size, size - 1, size / 2, size / 2 + 1, size / 4, size / 8);
        if (cache >= 4096 && cache <= 1048576 && cache >= drawn->record.way)
            drawn->record.cache = cache;
    }
    memcpy(met_counts, held, sizeof held);
}

void draw_case(case_t *drawn, uint64_t seed, uint64_t number)
{
    begin_draw(seed, number);
    drawn->record = allowed_record();
    draw_layout(drawn, &drawn->record);
    if (chance(4))
        drawn->record = refused_record(drawn->record);
    else if (chance(16))
        to_the_byte(drawn);
}
