/*
 * Copies a capture out of a padded array into a dense one, block by block: it
 * plans the copy, walks the plan, prints each block with the index that its
 * first cell has in the capture, and compares the two arrays at the end.
 */
#include <inttypes.h>
#include <stdio.h>

#include "gougelily.h"

/* 4 samples, 3 channels, 2 segments. */
enum { SAMPLES = 4, CHANNELS = 3, SEGMENTS = 2 };

/* In the padded array a channel takes 8 places. */
enum { PITCH = 8 };

static const uint64_t extents[3] = {SAMPLES, CHANNELS, SEGMENTS};
static const uint64_t sizes[2] = {sizeof(int), sizeof(int)};
static const int64_t strides[6] = {
    1, SAMPLES, SAMPLES *CHANNELS, /* operand 0: the dense array */
    1, PITCH,   PITCH *CHANNELS,   /* operand 1: the padded one */
};

static int dense[SAMPLES * CHANNELS * SEGMENTS];
static int padded[PITCH * CHANNELS * SEGMENTS];

static int refused(const char *what, int64_t answer)
{
    fprintf(stderr, "%s: refused with %" PRId64 ", %s\n", what, -answer, gougelily_refusal_text(answer));
    return 1;
}

static int cells_differ(void)
{
    for (int g = 0; g < SEGMENTS; g++)
        for (int c = 0; c < CHANNELS; c++)
            for (int s = 0; s < SAMPLES; s++)
                if (dense[(g * CHANNELS + c) * SAMPLES + s] != padded[(g * CHANNELS + c) * PITCH + s])
                    return 1;
    return 0;
}

int main(void)
{
    const gougelily_layout_t layout = {extents, 3, sizes, 2, strides, 6, GOUGELILY_POINTWISE_INTO, 0};
    const gougelily_machine_t machine = GOUGELILY_FIXED_MACHINE;
    const int64_t starts[2] = {0, 0};
    gougelily_plan_t plan;
    gougelily_walk_t walk;
    gougelily_block_t block;
    int64_t answer;

    for (int i = 0; i < PITCH * CHANNELS * SEGMENTS; i++)
        padded[i] = 100 + i;

    answer = gougelily_plan_layout(&layout, &machine, &plan);
    if (answer < 0)
        return refused("plan", answer);
    for (size_t i = 0; i < plan.rank; i++)
        printf("axis %zu: extent %" PRIu64 ", block %" PRIu64 ", strides %" PRId64 " and %" PRId64 "\n", i,
               plan.extents[i], plan.blocks[i], plan.strides[i], plan.strides[GOUGELILY_MAX_RANK + i]);

    answer = gougelily_begin_walk(&plan, starts, 2, &walk);
    if (answer < 0)
        return refused("begin", answer);
    while ((answer = gougelily_step_walk(&plan, &walk, &block)) == 1) {
        gougelily_index_t first;
        for (uint64_t k = 0; k < block.length; k++) {
            const int64_t cell = (int64_t)k;
            dense[block.offsets[0] + cell * block.strides[0]] = padded[block.offsets[1] + cell * block.strides[1]];
        }
        answer = gougelily_original_index_of(&layout, block.counters, plan.rank, &first);
        if (answer < 0)
            return refused("original index", answer);
        printf("%" PRIu64 " cells from %" PRId64 " to %" PRId64 ": sample %" PRIu64 ", channel %" PRIu64
               ", segment %" PRIu64 "\n",
               block.length, block.offsets[1], block.offsets[0], first.places[0], first.places[1], first.places[2]);
    }
    if (answer < 0)
        return refused("step", answer);

    if (cells_differ()) {
        fprintf(stderr, "the arrays differ\n");
        return 1;
    }
    printf("copied\n");
    return 0;
}
